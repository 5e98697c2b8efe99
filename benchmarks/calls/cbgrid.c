// The calls of cbgrid's C library on kept matrices.
#include <cbgrid.h>

#include "common.h"

static void must(int code) {
    if (code) fail(cbgrid_message(code));
}

typedef struct cbgrid_matrix M;

// The lists of a matrix, as a caller has them: CSC, or DCSC where the sides are huge.
typedef struct {
    struct cbgrid_columns lists;
    u64* start;
    u32 *column, *row;
    u64* value;
} Lists;

static Lists lists_of(Places a, bool ones) {
    Lists l = {.row = room(a.len, 4), .value = room(a.len, 8)};
    for (size_t k = 0; k < a.len; k++) l.row[k] = row_of(a.place[k]), l.value[k] = ones ? 1 : value_of(a.place[k]);
    if (a.ncols > 16 * a.len + 65536) {
        size_t stored = 0;
        l.start = room(a.len + 1, 8), l.column = room(a.len, 4);
        for (size_t k = 0; k < a.len; k++)
            if (!k || col_of(a.place[k]) != col_of(a.place[k - 1]))
                l.column[stored] = col_of(a.place[k]), l.start[stored++] = k;
        l.start[stored] = a.len;
        l.lists = cbgrid_dcsc64(a.nrows, a.ncols, l.column, stored, l.start, l.row, l.value, a.len);
    } else {
        l.start = starts_of(a);
        l.lists = cbgrid_csc64(a.nrows, a.ncols, l.start, l.row, l.value, a.len);
    }
    return l;
}

static void free_lists(Lists l) { free(l.start), free(l.column), free(l.row), free(l.value); }

static M* kept(u32 semiring, Places a) {
    Lists l = lists_of(a, semiring == CBGRID_OR_AND);
    M* made;
    must(cbgrid_matrix_of_columns(semiring, &l.lists, NULL, &made));
    free_lists(l);
    return made;
}

static void put_columns(Check* c, const struct cbgrid_columns* l) {
    for (size_t k = 0; k < l->columns_len; k++)
        for (u64 at = l->starts64[k]; at < l->starts64[k + 1]; at++) put(c, l->rows[at], l->columns[k], l->values[at]);
}

static void put_matrix(Check* c, const M* a) {
    struct cbgrid_columns l;
    must(cbgrid_matrix_columns(a, &l));
    put_columns(c, &l);
    cbgrid_free_columns(&l);
}

// One row, as a vector.
static void put_turned(Check* c, const M* a) {
    struct cbgrid_columns l;
    must(cbgrid_matrix_columns(a, &l));
    for (size_t k = 0; k < l.columns_len; k++)
        for (u64 at = l.starts64[k]; at < l.starts64[k + 1]; at++) put(c, l.columns[k], l.rows[at], l.values[at]);
    cbgrid_free_columns(&l);
}

static M* out;
// A call that makes a kept matrix.
#define MADE(CALL, MATRIX, VARIANT, BODY) \
    ROW(CALL, MATRIX, VARIANT, 1, , must(BODY), put_matrix(c, out), cbgrid_matrix_free(out))
#define MADE_TURNED(CALL, MATRIX, BODY) ROW(CALL, MATRIX, "", 1, , must(BODY), put_turned(c, out), cbgrid_matrix_free(out))

static void product(const char* call, const char* name, u32 semiring, Places places) {
    if (!wanted(call, name)) return;
    M* a = kept(semiring, places);
    MADE(call, name, "", cbgrid_matrix_multiply(a, a, NULL, &out));
    cbgrid_matrix_free(a);
}

static void products(World* w) {
    product("product plus-times", "er", CBGRID_PLUS_TIMES, w->er);
    product("product plus-times", "rmat", CBGRID_PLUS_TIMES, w->rmat);
    product("product plus-times", "grid", CBGRID_PLUS_TIMES, w->grid);
    product("product plus-times", "band", CBGRID_PLUS_TIMES, w->band);
    product("product plus-times", "hyper", CBGRID_PLUS_TIMES, w->hyper);
    product("product min-plus", "rmat", CBGRID_MIN_PLUS, w->rmat);
    product("product or-and", "rmat", CBGRID_OR_AND, w->rmat);
    product("product plus-pair", "rmat", CBGRID_PLUS_PAIR, w->rmat);

    if (wanted("product masked plus-pair (L*L under L)", "rmat_sym")) {
        Places low = lower_of(w->rmat_sym);
        M* l = kept(CBGRID_PLUS_PAIR, low);
        struct cbgrid_how under = {.mask = l};
        MADE("product masked plus-pair (L*L under L)", "rmat_sym", "", cbgrid_matrix_multiply(l, l, &under, &out));
        cbgrid_matrix_free(l), free(low.place);
    }
    if (wanted("product outside (A*A without A)", "rmat er")) {
        const char* names[] = {"rmat", "er"};
        Places places[] = {w->rmat, w->er};
        for (int k = 0; k < 2; k++) {
            M* a = kept(CBGRID_PLUS_TIMES, places[k]);
            struct cbgrid_how outside = {.mask = a, .complement = 1};
            MADE("product outside (A*A without A)", names[k], "", cbgrid_matrix_multiply(a, a, &outside, &out));
            cbgrid_matrix_free(a);
        }
    }
}

static void other_products(World* w) {
    const char* names[] = {"er", "rmat", "rmat_big"};
    Places places[] = {w->er, w->rmat, w->rmat_big};
    for (int k = 0; k < 3; k++) {
        M* a = kept(CBGRID_PLUS_TIMES, places[k]);
        if (k < 2)
            MADE("product A*A' (turned)", names[k], "",
                 cbgrid_matrix_multiply(a, a, &(struct cbgrid_how){.transpose_b = 1}, &out));
        if (k < 2)
            MADE("product A'*A (turned)", names[k], "",
                 cbgrid_matrix_multiply(a, a, &(struct cbgrid_how){.transpose_a = 1}, &out));
        Places all = column_vector(places[k].nrows, 1, 20), few = column_vector(places[k].nrows, small ? 10 : 100, 21);
        M *dense = kept(CBGRID_PLUS_TIMES, all), *sparse = kept(CBGRID_PLUS_TIMES, few);
        if (k != 1) {
            MADE("A * dense vector", names[k], "", cbgrid_matrix_multiply(a, dense, NULL, &out));
            MADE("A * sparse vector (1%)", names[k], "", cbgrid_matrix_multiply(a, sparse, NULL, &out));
        }
        cbgrid_matrix_free(dense), cbgrid_matrix_free(sparse), cbgrid_matrix_free(a), free(all.place), free(few.place);
    }
    M *a = kept(CBGRID_PLUS_TIMES, w->grid), *b = kept(CBGRID_PLUS_TIMES, w->er_small);
    MADE("power 3", "grid", "", cbgrid_matrix_power(a, 3, &out));
    MADE("power 3", "er_small", "", cbgrid_matrix_power(b, 3, &out));
    cbgrid_matrix_free(a), cbgrid_matrix_free(b);
    M *left = kept(CBGRID_PLUS_TIMES, w->left), *right = kept(CBGRID_PLUS_TIMES, w->right);
    MADE("kron", "two of er 300", "", cbgrid_matrix_kron(left, right, &out));
    cbgrid_matrix_free(left), cbgrid_matrix_free(right);
}

static void shapes(const char* name, Places places) {
    u64 n = places.nrows;
    bool huge = n > 1000000;
    Places other = turned(places);
    M *a = kept(CBGRID_PLUS_TIMES, places), *t = kept(CBGRID_PLUS_TIMES, other), *low = kept(CBGRID_MIN_PLUS, places);
    MADE("transpose", name, "", cbgrid_matrix_transpose(a, &out));
    MADE("add A+A'", name, "", cbgrid_matrix_add(a, t, &out));
    MADE("times A.*A'", name, "", cbgrid_matrix_times(a, t, &out));
    MADE("row sums", name, "", cbgrid_matrix_row_sums(a, &out));
    MADE_TURNED("column sums", name, cbgrid_matrix_column_sums(a, &out));
    u64 total;
    ROW("sum of all", name, "", 1, , must(cbgrid_matrix_reduce_all(a, &total)), put(c, 0, 0, total), );
    MADE("select tril", name, "", cbgrid_matrix_select(a, CBGRID_LOWER, 0, &out));
    MADE("apply +1", name, "", cbgrid_matrix_apply(a, CBGRID_SUM, 1, &out));
    MADE("apply row index", name, "over min-plus", cbgrid_matrix_apply(low, CBGRID_ROW, 0, &out));
    MADE("row degrees", name, "", cbgrid_matrix_row_degrees(a, &out));
    MADE("column degrees", name, "", cbgrid_matrix_column_degrees(a, &out));
    MADE("diagonal", name, "", cbgrid_matrix_diagonal(a, &out));

    size_t count = cbgrid_matrix_entries(a);
    struct cbgrid_triple* triples = room(count, sizeof *triples);
    ROW("export to triples", name, "", 1, , must(cbgrid_matrix_triples(a, triples)),
        for (size_t k = 0; k < count; k++) put(c, triples[k].row, triples[k].column, triples[k].value), );
    free(triples);
    Lists l = lists_of(places, false);
    MADE("build from columns", name, "checks and copies", cbgrid_matrix_of_columns(CBGRID_PLUS_TIMES, &l.lists, NULL, &out));
    MADE("build from columns, unchecked", name, "checks all the same",
         cbgrid_matrix_of_columns(CBGRID_PLUS_TIMES, &l.lists, NULL, &out));
    free_lists(l);
    struct cbgrid_columns lists;
    ROW("export to columns", name, "copies", 1, , must(cbgrid_matrix_columns(a, &lists)), put_columns(c, &lists),
        cbgrid_free_columns(&lists));

    if (!huge) {
        u32 *rows = drawn(n, n / 2, true, 30), *cols = drawn(n, n / 2, true, 31);
        MADE("extract half, ascending", name, "", cbgrid_matrix_extract(a, rows, n / 2, cols, n / 2, NULL, &out));
        free(rows), free(cols);
        rows = drawn(n, n / 2, false, 30), cols = drawn(n, n / 2, false, 31);
        MADE("extract half, shuffled", name, "", cbgrid_matrix_extract(a, rows, n / 2, cols, n / 2, NULL, &out));
        MADE("extract 100 columns", name, "CBGRID_ALL rows", cbgrid_matrix_extract(a, NULL, CBGRID_ALL, cols, 100, NULL, &out));
        free(rows), free(cols);
        MADE("part (half of each side)", name, "", cbgrid_matrix_part(a, n / 4, n / 4 * 3, n / 4, n / 4 * 3, &out));
        M* block;
        must(cbgrid_matrix_part(a, n / 2, n / 4 * 3, n / 2, n / 4 * 3, &block));
        MADE("assign a block, new matrix", name, "", cbgrid_matrix_assign(a, n / 8, n / 8, block, &out));
        MADE("assign a block, in place", name, "new matrix", cbgrid_matrix_assign(a, n / 8, n / 8, block, &out));
        cbgrid_matrix_free(block);
        Places both = union_of(places, other), under = lower_of(both);
        M* mask = kept(CBGRID_PLUS_TIMES, under);
        MADE("update A<M> += A', new matrix", name, "", cbgrid_matrix_update(a, t, mask, CBGRID_ACCUMULATE, &out));
        MADE("update A<M> += A', in place", name, "new matrix", cbgrid_matrix_update(a, t, mask, CBGRID_ACCUMULATE, &out));
        cbgrid_matrix_free(mask), free(both.place), free(under.place);
    }
    cbgrid_matrix_free(a), cbgrid_matrix_free(t), cbgrid_matrix_free(low), free(other.place);
}

static void builds(World* w) {
    const char* names[] = {"er 1e6", "rmat 1e6"};
    for (int k = 0; k < 2; k++) {
        struct cbgrid_triple* triples = room(w->triple_count, sizeof *triples);
        for (u64 i = 0; i < w->triple_count; i++)
            triples[i] = (struct cbgrid_triple){row_of(w->triples[k][i]), col_of(w->triples[k][i]), 1 + i % 100};
        u64 n = w->triple_side[k];
        MADE("build from triples", names[k], "",
             cbgrid_matrix_of_triples(CBGRID_PLUS_TIMES, n, n, triples, w->triple_count, NULL, &out));
        free(triples);
    }
}

// ---- graphs

static M* found[SEARCHES];

static void put_found(Check* c, const Graph* g, bool parents) {
    for (int s = 0; s < SEARCHES; s++) {
        Check one = {0};
        if (!parents) put_matrix(&one, found[s]);
        else {
            struct cbgrid_columns l;
            must(cbgrid_matrix_columns(found[s], &l));
            for (size_t k = 0; k < l.rows_len; k++) put_parent(&one, g, s, l.rows[k], l.values[k]);
            cbgrid_free_columns(&l);
        }
        join(c, one, s);
    }
}

#define SEARCH(CALL, BODY, PARENTS)                                                                             \
    ROW(CALL, g.name, "", SEARCHES, , for (int s = 0; s < SEARCHES; s++) must(BODY), put_found(c, &g, PARENTS), \
        for (int s = 0; s < SEARCHES; s++) cbgrid_matrix_free(found[s]))

static void labels(Check* c, Places edges) {
    u64* label = room(edges.nrows, 8);
    for (u64 v = 0; v < edges.nrows; v++) label[v] = v;
    struct cbgrid_columns l;
    must(cbgrid_matrix_columns(out, &l));
    for (size_t k = 0; k < l.rows_len; k++) label[l.rows[k]] = l.values[k];
    cbgrid_free_columns(&l);
    put_labels(c, edges, label);
    free(label);
}

static void whole_graph(const char* name, Places edges, bool both) {
    M* a = kept(CBGRID_OR_AND, edges);
    ROW("components", name, "", 1, , must(cbgrid_matrix_components(a, &out)), labels(c, edges), cbgrid_matrix_free(out));
    u64 count;
    if (both) ROW("triangles", name, "", 1, , must(cbgrid_matrix_triangles(a, &count)), put(c, 0, 0, count), );
    cbgrid_matrix_free(a);
}

static void graphs(const char* name, Places edges, bool both) {
    whole_graph(name, edges, both);
    if (!wanted("bfs levels", name) && !wanted("bfs parents", name) && !wanted("shortest paths", name)) return;
    Graph g = graph_of(name, edges);
    M *a = kept(CBGRID_OR_AND, edges), *d = kept(CBGRID_MIN_PLUS, edges);
    must(cbgrid_matrix_keep_transpose(a)), must(cbgrid_matrix_keep_transpose(d));
    SEARCH("bfs levels", cbgrid_matrix_levels(a, g.source[s], &found[s]), false);
    SEARCH("bfs parents", cbgrid_matrix_parents(a, g.source[s], &found[s]), true);
    SEARCH("shortest paths", cbgrid_matrix_distances(d, g.source[s], &found[s]), false);
    cbgrid_matrix_free(a), cbgrid_matrix_free(d);
}

int main(int argc, char** argv) {
    read_words(argc, argv);
    printf("version\tcbgrid %s\n", cbgrid_version());
    cbgrid_threads(threads);
    World w = make_world();
    products(&w);
    other_products(&w);
    shapes("er", w.er), shapes("rmat_big", w.rmat_big), shapes("band", w.band), shapes("hyper", w.hyper);
    builds(&w);
    Places er_directed = er_graph();
    graphs("rmat_graph", rmat_graph(), true);
    graphs("grid_graph", grid_graph_big(), true);
    graphs("er_graph", er_directed, false);
    whole_graph("er_graph_both", both_ways(er_directed), true);
    return 0;
}
