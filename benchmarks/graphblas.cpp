// Products, searches, components and triangles by SuiteSparse:GraphBLAS.
extern "C" {
#include <GraphBLAS.h>
}

#include "semirings.hpp"

static void must(GrB_Info info) {
    if (info < 0) fail(1, "GraphBLAS: fault " + std::to_string(info));
}

template <class To, class From> static To* copied(const std::vector<From>& from) {
    To* to = static_cast<To*>(malloc(std::max<size_t>(1, from.size()) * sizeof(To)));
    std::copy(from.begin(), from.end(), to);
    return to;
}

// A matrix by columns, which takes the lists that are made for it without a copy of its own. Where the columns are many
// times as many as those that have entries, only these are named.
template <class Value> GrB_Matrix matrix_of(const Columns& m, GrB_Type type) {
    GrB_Matrix made;
    must(GrB_Matrix_new(&made, type, m.rows, m.cols));
    GrB_Index* rows = copied<GrB_Index>(m.row);
    void* values = copied<Value>(m.value);
    size_t count = std::max<size_t>(1, m.row.size()), size = count * sizeof(Value);
    if (m.cols > 16 * m.column.size() + 65536) {
        GrB_Index *starts = copied<GrB_Index>(m.start), *columns = copied<GrB_Index>(m.column);
        must(GxB_Matrix_pack_HyperCSC(made, &starts, &columns, &rows, &values, m.start.size() * 8, std::max<size_t>(1, m.column.size()) * 8,
                                      count * 8, size, false, m.column.size(), false, nullptr));
    } else {
        GrB_Index* starts = copied<GrB_Index>(m.starts_of_all<GrB_Index>());
        must(GxB_Matrix_pack_CSC(made, &starts, &rows, &values, (m.cols + 1ul) * 8, count * 8, size, false, false, nullptr));
    }
    return made;
}

static GrB_Semiring semiring_of(const Words& words) {
    if (words.semiring == "plus-times") return GrB_PLUS_TIMES_SEMIRING_UINT64;
    if (words.semiring == "min-plus") return GrB_MIN_PLUS_SEMIRING_UINT64;
    if (words.semiring == "or-and") return GrB_LOR_LAND_SEMIRING_BOOL;
    if (words.semiring == "max-min") return GrB_MAX_MIN_SEMIRING_UINT64;
    words.unknown();
}

static GrB_Type type_of(const Words& words) { return words.semiring == "or-and" ? GrB_BOOL : GrB_UINT64; }

static GrB_Matrix of_semiring(const Words& words, const Columns& m) {
    return words.semiring == "or-and" ? matrix_of<bool>(m, GrB_BOOL) : matrix_of<u64>(m, GrB_UINT64);
}

static void write_columns_of(GrB_Matrix m, bool pattern, int threads) {
    GrB_Index nrows, ncols, *starts, *columns, *rows, stored, sizes[4];
    void* values;
    bool iso;
    must(GrB_Matrix_nrows(&nrows, m));
    must(GrB_Matrix_ncols(&ncols, m));
    must(GxB_Matrix_unpack_HyperCSC(m, &starts, &columns, &rows, &values, sizes, sizes + 1, sizes + 2, sizes + 3, &iso, &stored, nullptr, nullptr));
    const u64* value = static_cast<u64*>(values);
    std::vector<u64> same;
    if (iso && !pattern) same.assign(starts[stored], value[0]), value = same.data();
    write_header(nrows, ncols, starts[stored], pattern);
    write_columns(stored, [&](size_t k) { return columns[k]; }, starts, rows, value, pattern, threads);
}

static void product(const Words& words, Clock& clock) {
    GrB_Matrix a, b, made;
    {
        auto [left, right] = read_operands(words);
        a = of_semiring(words, left), b = of_semiring(words, right);
    }
    clock.part("read");
    GrB_Index rows, cols;
    must(GrB_Matrix_nrows(&rows, a));
    must(GrB_Matrix_ncols(&cols, b));
    must(GrB_Matrix_new(&made, type_of(words), rows, cols));
    must(GxB_Matrix_Option_set(made, GxB_FORMAT, GxB_BY_COL));
    must(GrB_mxm(made, nullptr, nullptr, semiring_of(words), a, b, nullptr));
    must(GrB_Matrix_wait(made, GrB_MATERIALIZE));
    clock.part("compute");
    write_columns_of(made, words.semiring == "or-and", words.threads);
    clock.part("write");
}

// The frontier by the edges that leave it, under the mask of what isn't reached yet.
static GrB_Vector levels(GrB_Matrix edges, GrB_Index n, GrB_Index source) {
    GrB_Vector level, frontier;
    must(GrB_Vector_new(&level, GrB_UINT64, n));
    must(GrB_Vector_new(&frontier, GrB_BOOL, n));
    must(GrB_Vector_setElement_BOOL(frontier, true, source));
    GrB_Index reached = 1;
    for (u64 round = 0; reached > 0; round++) {
        must(GrB_Vector_assign_UINT64(level, frontier, nullptr, round, GrB_ALL, n, GrB_DESC_S));
        must(GrB_mxv(frontier, level, nullptr, GxB_ANY_PAIR_BOOL, edges, frontier, GrB_DESC_RSC));
        must(GrB_Vector_nvals(&reached, frontier));
    }
    return level;
}

// Bellman and Ford, by the edges that leave what fell in the round before.
static GrB_Vector distances(GrB_Matrix edges, GrB_Index n, GrB_Index source) {
    GrB_Vector distance, frontier, lower;
    must(GrB_Vector_new(&distance, GrB_UINT64, n));
    must(GrB_Vector_new(&frontier, GrB_UINT64, n));
    must(GrB_Vector_new(&lower, GrB_BOOL, n));
    must(GrB_Vector_setElement_UINT64(distance, 0, source));
    must(GrB_Vector_setElement_UINT64(frontier, 0, source));
    for (GrB_Index fell = 1; fell > 0;) {
        must(GrB_mxv(frontier, nullptr, nullptr, GrB_MIN_PLUS_SEMIRING_UINT64, edges, frontier, GrB_DESC_R));
        // What is as far as before, or farther, isn't followed.
        must(GrB_Vector_eWiseMult_BinaryOp(lower, nullptr, nullptr, GrB_GE_UINT64, frontier, distance, GrB_DESC_R));
        must(GrB_Vector_assign(frontier, lower, nullptr, frontier, GrB_ALL, n, GrB_DESC_RC));
        must(GrB_Vector_eWiseAdd_BinaryOp(distance, nullptr, nullptr, GrB_MIN_UINT64, distance, frontier, nullptr));
        must(GrB_Vector_nvals(&fell, frontier));
    }
    return distance;
}

// The frontier's vertices travel along the edges, and the least arrives.
static GrB_Vector parents(GrB_Matrix edges, GrB_Index n, GrB_Index source) {
    GrB_Vector parent, frontier;
    must(GrB_Vector_new(&parent, GrB_UINT64, n));
    must(GrB_Vector_new(&frontier, GrB_UINT64, n));
    must(GrB_Vector_setElement_UINT64(parent, source + 1, source));
    must(GrB_Vector_setElement_UINT64(frontier, source + 1, source));
    for (GrB_Index reached = 1; reached > 0;) {
        must(GrB_mxv(frontier, parent, nullptr, GrB_MIN_SECOND_SEMIRING_UINT64, edges, frontier, GrB_DESC_RSC));
        must(GrB_Vector_assign(parent, frontier, nullptr, frontier, GrB_ALL, n, GrB_DESC_S));
        must(GrB_Vector_apply_IndexOp_INT64(frontier, nullptr, nullptr, GrB_ROWINDEX_INT64, frontier, 1, nullptr));
        must(GrB_Vector_nvals(&reached, frontier));
    }
    must(GrB_Vector_removeElement(parent, source));
    return parent;
}

// The numbers of a vector by vertex, written.
static void write_vector(GrB_Vector found, GrB_Index n) {
    std::vector<u64> number(n, TOP), values(n);
    std::vector<GrB_Index> at(n);
    GrB_Index count = n;
    must(GrB_Vector_extractTuples_UINT64(at.data(), values.data(), &count, found));
    for (GrB_Index k = 0; k < count; k++) number[at[k]] = values[k];
    write_vertices(n, [&](size_t v) { return number[v]; }, TOP);
}

// Labels travel along the edges until none falls.
static void components(const Words& words, Clock& clock) {
    Columns both = read_undirected(words);
    GrB_Index n = both.cols;
    GrB_Matrix edges = matrix_of<u64>(both, GrB_UINT64);
    clock.part("read");
    GrB_Vector label, before;
    must(GrB_Vector_new(&label, GrB_UINT64, n));
    std::vector<GrB_Index> at(both.column.begin(), both.column.end());
    std::vector<u64> own(at.size());
    for (size_t k = 0; k < at.size(); k++) own[k] = at[k] + 1;
    must(GrB_Vector_build_UINT64(label, at.data(), own.data(), at.size(), GrB_MIN_UINT64));
    for (bool same = false; !same;) {
        must(GrB_Vector_dup(&before, label));
        must(GrB_mxv(label, nullptr, GrB_MIN_UINT64, GrB_MIN_SECOND_SEMIRING_UINT64, edges, label, nullptr));
        GrB_Vector equal;
        GrB_Index count, equals = 0;
        must(GrB_Vector_new(&equal, GrB_BOOL, n));
        must(GrB_Vector_eWiseMult_BinaryOp(equal, nullptr, nullptr, GrB_EQ_UINT64, label, before, nullptr));
        must(GrB_Vector_nvals(&count, equal));
        must(GrB_Vector_reduce_UINT64(&equals, nullptr, GrB_PLUS_MONOID_UINT64, equal, nullptr));
        same = equals == count;
        GrB_Vector_free(&before), GrB_Vector_free(&equal);
    }
    clock.part("compute");
    write_vector(label, n);
    clock.part("write");
}

// The method `Sandia_LUT` of LAGraph: the products of the lower triangle by the upper one, under the lower one, of vertices
// ordered by their number of neighbours.
static void triangles(const Words& words, Clock& clock) {
    Columns both = read_undirected(words);
    GrB_Index n = both.cols;
    auto start = both.starts_of_all<size_t>();
    GrB_Matrix edges = matrix_of<u64>(both, GrB_UINT64), sorted, lower, upper, found;
    clock.part("read");
    std::vector<GrB_Index> order(n);
    for (GrB_Index v = 0; v < n; v++) order[v] = v;
    std::stable_sort(order.begin(), order.end(), [&](GrB_Index u, GrB_Index v) { return start[u + 1] - start[u] < start[v + 1] - start[v]; });
    must(GrB_Matrix_new(&sorted, GrB_UINT64, n, n));
    must(GrB_Matrix_extract(sorted, nullptr, nullptr, edges, order.data(), n, order.data(), n, nullptr));
    for (GrB_Matrix* it : {&lower, &upper, &found}) must(GrB_Matrix_new(it, GrB_UINT64, n, n));
    must(GrB_Matrix_select_INT64(lower, nullptr, nullptr, GrB_TRIL, sorted, -1, nullptr));
    must(GrB_Matrix_select_INT64(upper, nullptr, nullptr, GrB_TRIU, sorted, 1, nullptr));
    must(GrB_mxm(found, lower, nullptr, GxB_PLUS_PAIR_UINT64, lower, upper, GrB_DESC_ST1));
    u64 count = 0;
    must(GrB_Matrix_reduce_UINT64(&count, nullptr, GrB_PLUS_MONOID_UINT64, found, nullptr));
    clock.part("compute");
    write_count(count);
    clock.part("write");
}

static void search(const Words& words, Clock& clock) {
    Columns leaving = read_edges(words);
    GrB_Index n = leaving.cols;
    GrB_Matrix edges = matrix_of<u64>(leaving, GrB_UINT64);
    clock.part("read");
    auto how = words.command == "bfs" ? levels : words.command == "relax" ? distances : parents;
    GrB_Vector found = how(edges, n, words.source - 1);
    must(GrB_Vector_wait(found, GrB_MATERIALIZE));
    clock.part("compute");
    write_vector(found, n);
    clock.part("write");
}

int main(int argc, char** argv) {
    Words words(argc, argv);
    Clock clock;
    must(GrB_init(GrB_NONBLOCKING));
    must(GxB_Global_Option_set(GxB_GLOBAL_NTHREADS, words.threads));
    must(GxB_Global_Option_set(GxB_FORMAT, GxB_BY_COL));
    if (words.command == "multiply") product(words, clock);
    else if (words.command == "components") components(words, clock);
    else if (words.command == "triangles") triangles(words, clock);
    else search(words, clock);
    clock.tell();
    _exit(0);
}
