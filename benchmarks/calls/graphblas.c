// The same by SuiteSparse:GraphBLAS, and searches, components and triangles as LAGraph does them, written anew.
// --format row|col is the format of all matrices; graph calls, which LAGraph has by row, are left out with col.
// --mode nonblocking lets GraphBLAS put work off within a row; all of it is done when the clock stops.
#include <GraphBLAS.h>

#include "common.h"

static void ok(GrB_Info info, int line) {
    if (info >= 0) return;
    fprintf(stderr, "graphblas.c:%d: fault %d\n", line, (int)info);
    exit(1);
}
#define OK(CALL) ok(CALL, __LINE__)

static bool by_col;

// ---- matrices and vectors of places

static GrB_Index* rows_of(Places a) {
    GrB_Index* list = room(a.len, 8);
    for (size_t k = 0; k < a.len; k++) list[k] = row_of(a.place[k]);
    return list;
}

static GrB_Index* cols_of(Places a) {
    GrB_Index* list = room(a.len, 8);
    for (size_t k = 0; k < a.len; k++) list[k] = col_of(a.place[k]);
    return list;
}

static u64* values_of(Places a) {
    u64* list = room(a.len, 8);
    for (size_t k = 0; k < a.len; k++) list[k] = value_of(a.place[k]);
    return list;
}

static GrB_Matrix kept(Places a) {
    GrB_Matrix made;
    GrB_Index *row = rows_of(a), *col = cols_of(a);
    u64* value = values_of(a);
    OK(GrB_Matrix_new(&made, GrB_UINT64, a.nrows, a.ncols));
    OK(GrB_Matrix_build_UINT64(made, row, col, value, a.len, GrB_PLUS_UINT64));
    OK(GrB_Matrix_wait(made, GrB_MATERIALIZE));
    free(row), free(col), free(value);
    return made;
}

// Without values of its own: all are `true`, kept once (iso).
static GrB_Matrix pattern(Places a) {
    GrB_Matrix made;
    GrB_Scalar yes;
    GrB_Index *row = rows_of(a), *col = cols_of(a);
    OK(GrB_Scalar_new(&yes, GrB_BOOL));
    OK(GrB_Scalar_setElement_BOOL(yes, true));
    OK(GrB_Matrix_new(&made, GrB_BOOL, a.nrows, a.ncols));
    OK(GxB_Matrix_build_Scalar(made, row, col, yes, a.len));
    OK(GrB_Matrix_wait(made, GrB_MATERIALIZE));
    GrB_Scalar_free(&yes), free(row), free(col);
    return made;
}

static GrB_Vector vector(Places a) {
    GrB_Vector made;
    GrB_Index* row = rows_of(a);
    u64* value = values_of(a);
    OK(GrB_Vector_new(&made, GrB_UINT64, a.nrows));
    OK(GrB_Vector_build_UINT64(made, row, value, a.len, GrB_PLUS_UINT64));
    OK(GrB_Vector_wait(made, GrB_MATERIALIZE));
    free(row), free(value);
    return made;
}

static void put_matrix(Check* c, GrB_Matrix a) {
    GrB_Index count;
    OK(GrB_Matrix_nvals(&count, a));
    GrB_Index *row = room(count, 8), *col = room(count, 8);
    u64* value = room(count, 8);
    OK(GrB_Matrix_extractTuples_UINT64(row, col, value, &count, a));
    for (GrB_Index k = 0; k < count; k++) put(c, row[k], col[k], value[k]);
    free(row), free(col), free(value);
}

static void put_vector(Check* c, GrB_Vector v) {
    GrB_Index count;
    OK(GrB_Vector_nvals(&count, v));
    GrB_Index* row = room(count, 8);
    u64* value = room(count, 8);
    OK(GrB_Vector_extractTuples_UINT64(row, value, &count, v));
    for (GrB_Index k = 0; k < count; k++) put(c, row[k], 0, value[k]);
    free(row), free(value);
}

static GrB_Matrix C;
static GrB_Vector W;

// A call that makes a matrix, or a vector.
#define MADE(CALL, NAME, VARIANT, TYPE, NROWS, NCOLS, BODY)                             \
    ROW(CALL, NAME, VARIANT, 1, , OK(GrB_Matrix_new(&C, TYPE, NROWS, NCOLS)); OK(BODY); \
        OK(GrB_Matrix_wait(C, GrB_MATERIALIZE)), put_matrix(c, C), GrB_Matrix_free(&C))
#define MADE_VECTOR(CALL, NAME, VARIANT, SIZE, BODY)                                  \
    ROW(CALL, NAME, VARIANT, 1, , OK(GrB_Vector_new(&W, GrB_UINT64, SIZE)); OK(BODY); \
        OK(GrB_Vector_wait(W, GrB_MATERIALIZE)), put_vector(c, W), GrB_Vector_free(&W))
// One that makes a copy of A and changes it, or that changes one made before.
#define CHANGED_COPY(CALL, NAME, VARIANT, A, BODY)                     \
    ROW(CALL, NAME, VARIANT, 1, , OK(GrB_Matrix_dup(&C, A)); OK(BODY); \
        OK(GrB_Matrix_wait(C, GrB_MATERIALIZE)), put_matrix(c, C), GrB_Matrix_free(&C))
#define CHANGED(CALL, NAME, VARIANT, A, BODY)                                                                 \
    ROW(CALL, NAME, VARIANT, 1, OK(GrB_Matrix_dup(&C, A)); OK(GrB_Matrix_wait(C, GrB_MATERIALIZE)), OK(BODY); \
        OK(GrB_Matrix_wait(C, GrB_MATERIALIZE)), put_matrix(c, C), GrB_Matrix_free(&C))

// ---- products

static void product(const char* call, const char* name, const char* variant, GrB_Semiring semiring, GrB_Type type,
                    Places places) {
    if (!wanted(call, name)) return;
    u64 n = places.nrows;
    GrB_Matrix a = type == GrB_BOOL ? pattern(places) : kept(places);
    MADE(call, name, variant, type, n, n, GrB_mxm(C, NULL, NULL, semiring, a, a, NULL));
    GrB_Matrix_free(&a);
}

static void products(World* w) {
    product("product plus-times", "er", "", GrB_PLUS_TIMES_SEMIRING_UINT64, GrB_UINT64, w->er);
    product("product plus-times", "rmat", "", GrB_PLUS_TIMES_SEMIRING_UINT64, GrB_UINT64, w->rmat);
    product("product plus-times", "grid", "", GrB_PLUS_TIMES_SEMIRING_UINT64, GrB_UINT64, w->grid);
    product("product plus-times", "band", "", GrB_PLUS_TIMES_SEMIRING_UINT64, GrB_UINT64, w->band);
    product("product plus-times", "hyper", "", GrB_PLUS_TIMES_SEMIRING_UINT64, GrB_UINT64, w->hyper);
    product("product min-plus", "rmat", "", GrB_MIN_PLUS_SEMIRING_UINT64, GrB_UINT64, w->rmat);
    product("product or-and", "rmat", "LOR_LAND", GrB_LOR_LAND_SEMIRING_BOOL, GrB_BOOL, w->rmat);
    product("product or-and", "rmat", "ANY_PAIR", GxB_ANY_PAIR_BOOL, GrB_BOOL, w->rmat);
    product("product plus-pair", "rmat", "", GxB_PLUS_PAIR_UINT64, GrB_UINT64, w->rmat);

    if (wanted("product masked plus-pair (L*L under L)", "rmat_sym")) {
        Places low = lower_of(w->rmat_sym), up = turned(low);
        u64 n = low.nrows;
        GrB_Matrix l = pattern(low), u = pattern(up);
        MADE("product masked plus-pair (L*L under L)", "rmat_sym", "L*L", GrB_UINT64, n, n,
             GrB_mxm(C, l, NULL, GxB_PLUS_PAIR_UINT64, l, l, GrB_DESC_S));
        MADE("product masked plus-pair (L*L under L)", "rmat_sym", "L*U' with U kept", GrB_UINT64, n, n,
             GrB_mxm(C, l, NULL, GxB_PLUS_PAIR_UINT64, l, u, GrB_DESC_ST1));
        GrB_Matrix_free(&l), GrB_Matrix_free(&u), free(low.place), free(up.place);
    }
    const char* names[] = {"rmat", "er"};
    Places places[] = {w->rmat, w->er};
    for (int k = 0; k < 2; k++) {
        u64 n = places[k].nrows;
        GrB_Matrix a = kept(places[k]);
        MADE("product outside (A*A without A)", names[k], "", GrB_UINT64, n, n,
             GrB_mxm(C, a, NULL, GrB_PLUS_TIMES_SEMIRING_UINT64, a, a, GrB_DESC_SC));
        GrB_Matrix_free(&a);
    }
}

static GrB_Info cube(GrB_Matrix a, u64 n) {
    GrB_Matrix square;
    OK(GrB_Matrix_new(&square, GrB_UINT64, n, n));
    OK(GrB_mxm(square, NULL, NULL, GrB_PLUS_TIMES_SEMIRING_UINT64, a, a, NULL));
    OK(GrB_mxm(C, NULL, NULL, GrB_PLUS_TIMES_SEMIRING_UINT64, square, a, NULL));
    return GrB_Matrix_free(&square);
}

static void other_products(World* w) {
    const char* names[] = {"er", "rmat", "rmat_big"};
    Places places[] = {w->er, w->rmat, w->rmat_big};
    for (int k = 0; k < 3; k++) {
        u64 n = places[k].nrows;
        GrB_Matrix a = kept(places[k]);
        if (k < 2) {
            MADE("product A*A' (turned)", names[k], "", GrB_UINT64, n, n,
                 GrB_mxm(C, NULL, NULL, GrB_PLUS_TIMES_SEMIRING_UINT64, a, a, GrB_DESC_T1));
            MADE("product A'*A (turned)", names[k], "", GrB_UINT64, n, n,
                 GrB_mxm(C, NULL, NULL, GrB_PLUS_TIMES_SEMIRING_UINT64, a, a, GrB_DESC_T0));
        }
        Places all = column_vector(n, 1, 20), few = column_vector(n, small ? 10 : 100, 21);
        GrB_Vector dense = vector(all), sparse = vector(few);
        if (k != 1) {
            MADE_VECTOR("A * dense vector", names[k], "", n,
                        GrB_mxv(W, NULL, NULL, GrB_PLUS_TIMES_SEMIRING_UINT64, a, dense, NULL));
            MADE_VECTOR("A * sparse vector (1%)", names[k], "", n,
                        GrB_mxv(W, NULL, NULL, GrB_PLUS_TIMES_SEMIRING_UINT64, a, sparse, NULL));
        }
        GrB_Vector_free(&dense), GrB_Vector_free(&sparse), GrB_Matrix_free(&a), free(all.place), free(few.place);
    }
    u64 n = w->grid.nrows, m = w->er_small.nrows;
    GrB_Matrix a = kept(w->grid), b = kept(w->er_small);
    MADE("power 3", "grid", "two products", GrB_UINT64, n, n, cube(a, n));
    MADE("power 3", "er_small", "two products", GrB_UINT64, m, m, cube(b, m));
    GrB_Matrix_free(&a), GrB_Matrix_free(&b);
    GrB_Matrix left = kept(w->left), right = kept(w->right);
    u64 side = w->left.nrows * w->right.nrows;
    MADE("kron", "two of er 300", "", GrB_UINT64, side, side,
         GrB_Matrix_kronecker_BinaryOp(C, NULL, NULL, GrB_TIMES_UINT64, left, right, NULL));
    GrB_Matrix_free(&left), GrB_Matrix_free(&right);
}

// ---- everything else on one matrix

// As LAGraph finds degrees: products with a full vector of one value.
static GrB_Info degrees(GrB_Matrix a, GrB_Index n, bool of_rows) {
    GrB_Vector ones;
    OK(GrB_Vector_new(&ones, GrB_UINT64, n));
    OK(GrB_Vector_assign_UINT64(ones, NULL, NULL, 1, GrB_ALL, n, NULL));
    if (of_rows) OK(GrB_mxv(W, NULL, NULL, GxB_PLUS_PAIR_UINT64, a, ones, NULL));
    else OK(GrB_vxm(W, NULL, NULL, GxB_PLUS_PAIR_UINT64, ones, a, NULL));
    return GrB_Vector_free(&ones);
}

static void* copied(const void* from, size_t bytes) {
    void* to = room(bytes, 1);
    memcpy(to, from, bytes);
    return to;
}

static void put_lists(Check* c, const GrB_Index* start, const GrB_Index* column, u64 stored, const GrB_Index* row,
                      const u64* value) {
    for (u64 k = 0; k < stored; k++)
        for (u64 at = start[k]; at < start[k + 1]; at++) put(c, row[at], column ? column[k] : k, value[at]);
}

// Building from compressed columns, and giving them out. Lists of all columns, or of those with entries where the sides are
// huge.
static void columns(const char* name, Places places, GrB_Matrix a, bool huge) {
    u64 n = places.nrows, len = places.len, stored = 0;
    GrB_Index *row = rows_of(places), *start, *column = NULL;
    u64* value = values_of(places);
    if (huge) {
        start = room(len + 1, 8), column = room(len, 8);
        for (size_t k = 0; k < len; k++)
            if (!k || col_of(places.place[k]) != col_of(places.place[k - 1]))
                column[stored] = col_of(places.place[k]), start[stored++] = k;
        start[stored] = len;
    } else start = starts_of(places), stored = n;
    GrB_Index *s, *k, *r, sizes[4], columns_len;
    void* v;
    bool iso;
    GrB_Descriptor secure;
    OK(GrB_Descriptor_new(&secure));
    OK(GxB_Desc_set(secure, GxB_IMPORT, GxB_SECURE_IMPORT));
    if (!huge)
        ROW("build from columns", name, "GrB_Matrix_import, which copies", 1, ,
            OK(GrB_Matrix_import_UINT64(&C, GrB_UINT64, n, n, start, row, value, n + 1, len, len, GrB_CSC_FORMAT));
            OK(GrB_Matrix_wait(C, GrB_MATERIALIZE)), put_matrix(c, C), GrB_Matrix_free(&C));
    for (int checked = 0; checked < 2; checked++) {
        GrB_Descriptor how = checked ? secure : NULL;
        if (!huge) {
#define PACK                                                                                  \
    OK(GrB_Matrix_new(&C, GrB_UINT64, n, n));                                                 \
    s = copied(start, (n + 1) * 8);                                                           \
    r = copied(row, len * 8);                                                                 \
    v = copied(value, len * 8);                                                               \
    OK(GxB_Matrix_pack_CSC(C, &s, &r, &v, (n + 1) * 8, len * 8, len * 8, false, false, how)); \
    OK(GrB_Matrix_wait(C, GrB_MATERIALIZE))
            if (checked)
                ROW("build from columns", name, "copies, GxB_Matrix_pack_CSC with GxB_SECURE_IMPORT", 1, , PACK,
                    put_matrix(c, C), GrB_Matrix_free(&C));
            else
                ROW("build from columns, unchecked", name, "copies, GxB_Matrix_pack_CSC", 1, , PACK, put_matrix(c, C),
                    GrB_Matrix_free(&C));
        } else {
#define PACK_HYPER                                                                                                       \
    OK(GrB_Matrix_new(&C, GrB_UINT64, n, n));                                                                            \
    s = copied(start, (stored + 1) * 8);                                                                                 \
    k = copied(column, stored * 8);                                                                                      \
    r = copied(row, len * 8);                                                                                            \
    v = copied(value, len * 8);                                                                                          \
    OK(GxB_Matrix_pack_HyperCSC(C, &s, &k, &r, &v, (stored + 1) * 8, stored * 8, len * 8, len * 8, false, stored, false, \
                                how));                                                                                   \
    OK(GrB_Matrix_wait(C, GrB_MATERIALIZE))
            if (checked)
                ROW("build from columns", name, "copies, GxB_Matrix_pack_HyperCSC with GxB_SECURE_IMPORT", 1, , PACK_HYPER,
                    put_matrix(c, C), GrB_Matrix_free(&C));
            else
                ROW("build from columns, unchecked", name, "copies, GxB_Matrix_pack_HyperCSC", 1, , PACK_HYPER,
                    put_matrix(c, C), GrB_Matrix_free(&C));
        }
    }
    // Out of a matrix by row it would be a transpose.
    if (by_col && !huge) {
        GrB_Index lens[3];
        s = room(n + 1, 8), r = room(len, 8), v = room(len, 8);
        ROW("export to columns", name, "GrB_Matrix_export to lists made before", 1, lens[0] = n + 1;
            lens[1] = lens[2] = len, OK(GrB_Matrix_export_UINT64(s, r, v, lens, lens + 1, lens + 2, GrB_CSC_FORMAT, a)),
            put_lists(c, s, NULL, n, r, v), );
        free(s), free(r), free(v);
        ROW("export to columns", name, "GrB_Matrix_dup, GxB_Matrix_unpack_CSC", 1, , OK(GrB_Matrix_dup(&C, a));
            OK(GxB_Matrix_unpack_CSC(C, &s, &r, &v, sizes, sizes + 1, sizes + 2, &iso, NULL, NULL)),
            put_lists(c, s, NULL, n, r, v), free(s);
            free(r); free(v); GrB_Matrix_free(&C));
    }
    if (by_col && huge)
        ROW("export to columns", name, "GrB_Matrix_dup, GxB_Matrix_unpack_HyperCSC", 1, , OK(GrB_Matrix_dup(&C, a));
            OK(GxB_Matrix_unpack_HyperCSC(C, &s, &k, &r, &v, sizes, sizes + 1, sizes + 2, sizes + 3, &iso, &columns_len, NULL,
                                          NULL)),
            put_lists(c, s, k, columns_len, r, v), free(s);
            free(k); free(r); free(v); GrB_Matrix_free(&C));
    GrB_Descriptor_free(&secure);
    free(row), free(value), free(start), free(column);
}

static void shapes(const char* name, Places places) {
    u64 n = places.nrows;
    bool huge = n > 1000000;
    Places other = turned(places);
    GrB_Matrix a = kept(places), t = kept(other);
    MADE("transpose", name, "", GrB_UINT64, n, n, GrB_transpose(C, NULL, NULL, a, NULL));
    MADE("add A+A'", name, "", GrB_UINT64, n, n, GrB_Matrix_eWiseAdd_BinaryOp(C, NULL, NULL, GrB_PLUS_UINT64, a, t, NULL));
    MADE("times A.*A'", name, "", GrB_UINT64, n, n, GrB_Matrix_eWiseMult_BinaryOp(C, NULL, NULL, GrB_TIMES_UINT64, a, t, NULL));
    MADE_VECTOR("row sums", name, "", n, GrB_Matrix_reduce_Monoid(W, NULL, NULL, GrB_PLUS_MONOID_UINT64, a, NULL));
    MADE_VECTOR("column sums", name, "", n, GrB_Matrix_reduce_Monoid(W, NULL, NULL, GrB_PLUS_MONOID_UINT64, a, GrB_DESC_T0));
    u64 total;
    ROW("sum of all", name, "", 1, , OK(GrB_Matrix_reduce_UINT64(&total, NULL, GrB_PLUS_MONOID_UINT64, a, NULL)),
        put(c, 0, 0, total), );
    MADE("select tril", name, "", GrB_UINT64, n, n, GrB_Matrix_select_INT64(C, NULL, NULL, GrB_TRIL, a, 0, NULL));
    MADE("apply +1", name, "", GrB_UINT64, n, n,
         GrB_Matrix_apply_BinaryOp2nd_UINT64(C, NULL, NULL, GrB_PLUS_UINT64, a, 1, NULL));
    MADE("apply row index", name, "", GrB_INT64, n, n,
         GrB_Matrix_apply_IndexOp_INT64(C, NULL, NULL, GrB_ROWINDEX_INT64, a, 0, NULL));
    MADE_VECTOR("row degrees", name, "", n, degrees(a, n, true));
    MADE_VECTOR("column degrees", name, "", n, degrees(a, n, false));
    MADE_VECTOR("diagonal", name, "", n, GxB_Vector_diag(W, a, 0, NULL));

    GrB_Index *row = room(places.len, 8), *col = room(places.len, 8), count;
    u64* value = room(places.len, 8);
    ROW("export to triples", name, "", 1, count = places.len, OK(GrB_Matrix_extractTuples_UINT64(row, col, value, &count, a)),
        for (GrB_Index k = 0; k < count; k++) put(c, row[k], col[k], value[k]), );
    free(row), free(col), free(value);
    columns(name, places, a, huge);

    if (!huge) {
        GrB_Index *I = room(n, 8), *J = room(n, 8);
        for (int ascending = 1; ascending >= 0; ascending--) {
            u32 *rows = drawn(n, n / 2, ascending, 30), *cols = drawn(n, n / 2, ascending, 31);
            for (u64 k = 0; k < n / 2; k++) I[k] = rows[k], J[k] = cols[k];
            free(rows), free(cols);
            if (ascending)
                MADE("extract half, ascending", name, "", GrB_UINT64, n / 2, n / 2,
                     GrB_Matrix_extract(C, NULL, NULL, a, I, n / 2, J, n / 2, NULL));
            else
                MADE("extract half, shuffled", name, "", GrB_UINT64, n / 2, n / 2,
                     GrB_Matrix_extract(C, NULL, NULL, a, I, n / 2, J, n / 2, NULL));
        }
        MADE("extract 100 columns", name, "GrB_ALL rows", GrB_UINT64, n, 100,
             GrB_Matrix_extract(C, NULL, NULL, a, GrB_ALL, n, J, 100, NULL));
        GrB_Index range[] = {n / 4, n / 4 * 3 - 1}, from[] = {n / 2, n / 4 * 3 - 1},
                  to[] = {n / 8, n / 8 + n / 4 * 3 - n / 2 - 1};
        u64 half = n / 4 * 3 - n / 4, quarter = n / 4 * 3 - n / 2;
        MADE("part (half of each side)", name, "", GrB_UINT64, half, half,
             GrB_Matrix_extract(C, NULL, NULL, a, range, GxB_RANGE, range, GxB_RANGE, NULL));
        GrB_Matrix block;
        OK(GrB_Matrix_new(&block, GrB_UINT64, quarter, quarter));
        OK(GrB_Matrix_extract(block, NULL, NULL, a, from, GxB_RANGE, from, GxB_RANGE, NULL));
        OK(GrB_Matrix_wait(block, GrB_MATERIALIZE));
        CHANGED_COPY("assign a block, new matrix", name, "dup and assign", a,
                     GrB_Matrix_assign(C, NULL, NULL, block, to, GxB_RANGE, to, GxB_RANGE, NULL));
        CHANGED("assign a block, in place", name, "", a,
                GrB_Matrix_assign(C, NULL, NULL, block, to, GxB_RANGE, to, GxB_RANGE, NULL));
        GrB_Matrix_free(&block);
        Places both = union_of(places, other), under = lower_of(both);
        GrB_Matrix mask = kept(under);
        CHANGED_COPY("update A<M> += A', new matrix", name, "dup and assign", a,
                     GrB_Matrix_assign(C, mask, GrB_PLUS_UINT64, t, GrB_ALL, n, GrB_ALL, n, GrB_DESC_S));
        CHANGED_COPY("update A<M> += A', new matrix", name, "dup and apply", a,
                     GrB_Matrix_apply(C, mask, GrB_PLUS_UINT64, GrB_IDENTITY_UINT64, t, GrB_DESC_S));
        CHANGED("update A<M> += A', in place", name, "assign", a,
                GrB_Matrix_assign(C, mask, GrB_PLUS_UINT64, t, GrB_ALL, n, GrB_ALL, n, GrB_DESC_S));
        CHANGED("update A<M> += A', in place", name, "apply", a,
                GrB_Matrix_apply(C, mask, GrB_PLUS_UINT64, GrB_IDENTITY_UINT64, t, GrB_DESC_S));
        GrB_Matrix_free(&mask), free(both.place), free(under.place), free(I), free(J);
    }
    GrB_Matrix_free(&a), GrB_Matrix_free(&t), free(other.place);
}

static void builds(World* w) {
    const char* names[] = {"er 1e6", "rmat 1e6"};
    for (int k = 0; k < 2; k++) {
        u64 count = w->triple_count, n = w->triple_side[k], *value = room(count, 8);
        GrB_Index *row = room(count, 8), *col = room(count, 8);
        for (u64 i = 0; i < count; i++)
            row[i] = row_of(w->triples[k][i]), col[i] = col_of(w->triples[k][i]), value[i] = 1 + i % 100;
        MADE("build from triples", names[k], "", GrB_UINT64, n, n,
             GrB_Matrix_build_UINT64(C, row, col, value, count, GrB_PLUS_UINT64));
        free(row), free(col), free(value);
    }
}

// ---- searches: LAGraph's breadth-first search, by pushing and pulling

typedef struct {
    GrB_Matrix a, t;  // t is the transpose, or a itself where a is symmetric
    GrB_Vector degree;
    GrB_Index n, entries;
} Cached;

static void set_sparsity(GrB_Vector v, int sparsity) { OK(GxB_Vector_Option_set(v, GxB_SPARSITY_CONTROL, sparsity)); }

static GrB_Vector breadth_first(const Cached* g, GrB_Index source, bool parents) {
    GrB_Index n = g->n;
    GrB_Vector q, w, made;  // `made` is the parents or the levels: what has an entry there is visited
    OK(GrB_Vector_new(&made, GrB_INT32, n));
    set_sparsity(made, GxB_BITMAP + GxB_FULL);
    OK(GrB_Vector_setElement_INT32(made, parents ? source : 0, source));
    OK(GrB_Vector_new(&q, parents ? GrB_INT32 : GrB_BOOL, n));
    if (parents) OK(GrB_Vector_setElement_INT32(q, source, source));
    else OK(GrB_Vector_setElement_BOOL(q, true, source));
    OK(GrB_Vector_new(&w, GrB_INT64, n));
    GrB_Semiring semiring = parents ? GxB_ANY_SECONDI_INT32 : GxB_ANY_PAIR_BOOL;
    const double alpha = 8, beta1 = 8, beta2 = 512;
    bool push = true, choose = true, pulled = false;
    GrB_Index now_many = 1, before = 0;
    int64_t unexplored = g->entries;
    for (GrB_Index visited = 1, level = 1; visited < n; visited += now_many, level++) {
        if (choose) {
            if (push) {
                bool growing = now_many > before, turn = false;
                if (unexplored < (int64_t)n) choose = false;
                else if (pulled) turn = growing && now_many > n / beta1;
                else {
                    int64_t in_frontier = 0;
                    OK(GrB_Vector_assign(w, q, NULL, g->degree, GrB_ALL, n, GrB_DESC_RS));
                    OK(GrB_Vector_reduce_INT64(&in_frontier, NULL, GrB_PLUS_MONOID_INT64, w, NULL));
                    unexplored -= in_frontier;
                    turn = growing && in_frontier > unexplored / alpha;
                }
                if (turn) push = false;
            } else if (now_many < before && now_many <= n / beta2) push = true;
            pulled = pulled || !push;
        }
        set_sparsity(q, push ? GxB_SPARSE : GxB_BITMAP);
        if (push) OK(GrB_vxm(q, made, NULL, semiring, q, g->a, GrB_DESC_RSC));
        else OK(GrB_mxv(q, made, NULL, semiring, g->t, q, GrB_DESC_RSC));
        before = now_many;
        OK(GrB_Vector_nvals(&now_many, q));
        if (!now_many) break;
        if (parents) OK(GrB_Vector_assign(made, q, NULL, q, GrB_ALL, n, GrB_DESC_S));
        else OK(GrB_Vector_assign_INT32(made, q, NULL, level, GrB_ALL, n, GrB_DESC_S));
    }
    OK(GrB_Vector_wait(made, GrB_MATERIALIZE));
    GrB_Vector_free(&q), GrB_Vector_free(&w);
    return made;
}

// Delta-stepping. Edges above delta are apart; where there are none, the matrix is taken as it is.
static GrB_Vector shortest(GrB_Matrix a, GrB_Index n, GrB_Index source, u64 delta) {
    bool heavy = delta < 100;
    GrB_Matrix light = a, rest = NULL;
    if (heavy) {
        OK(GrB_Matrix_new(&light, GrB_UINT64, n, n));
        OK(GrB_Matrix_new(&rest, GrB_UINT64, n, n));
        OK(GrB_Matrix_select_UINT64(light, NULL, NULL, GrB_VALUELE_UINT64, a, delta, NULL));
        OK(GrB_Matrix_select_UINT64(rest, NULL, NULL, GrB_VALUEGT_UINT64, a, delta, NULL));
    }
    GrB_Vector t, bucket, asked, less, done, reach, none;
    OK(GrB_Vector_new(&t, GrB_UINT64, n)), OK(GrB_Vector_new(&bucket, GrB_UINT64, n)),
        OK(GrB_Vector_new(&asked, GrB_UINT64, n));
    OK(GrB_Vector_new(&less, GrB_BOOL, n)), OK(GrB_Vector_new(&done, GrB_BOOL, n)), OK(GrB_Vector_new(&reach, GrB_BOOL, n));
    OK(GrB_Vector_new(&none, GrB_BOOL, n));
    set_sparsity(t, GxB_BITMAP), set_sparsity(bucket, GxB_SPARSE), set_sparsity(asked, GxB_SPARSE),
        set_sparsity(less, GxB_SPARSE);
    set_sparsity(done, GxB_SPARSE), set_sparsity(reach, GxB_BITMAP);
    OK(GrB_Vector_assign_UINT64(t, NULL, NULL, UINT64_MAX, GrB_ALL, n, NULL));
    OK(GrB_Vector_setElement_UINT64(t, 0, source));
    OK(GrB_Vector_setElement_BOOL(reach, true, source));
    for (u64 step = 0;; step++) {
        u64 upper = (step + 1) * delta;
        GrB_Index count;
        OK(GrB_Vector_clear(bucket));
        OK(GrB_Vector_assign(bucket, reach, NULL, t, GrB_ALL, n, GrB_DESC_S));
        OK(GrB_Vector_select_UINT64(bucket, NULL, NULL, GrB_VALUELT_UINT64, bucket, upper, NULL));
        OK(GrB_Vector_nvals(&count, bucket));
        while (count) {
            OK(GrB_vxm(asked, NULL, NULL, GrB_MIN_PLUS_SEMIRING_UINT64, bucket, light, NULL));
            OK(GrB_Vector_assign_BOOL(done, bucket, NULL, true, GrB_ALL, n, GrB_DESC_S));
            OK(GrB_Vector_nvals(&count, asked));
            if (!count) break;
            OK(GrB_Vector_eWiseMult_BinaryOp(less, NULL, NULL, GrB_LT_UINT64, asked, t, NULL));
            OK(GrB_Vector_select_BOOL(less, NULL, NULL, GrB_VALUENE_BOOL, less, false, NULL));
            OK(GrB_Vector_nvals(&count, less));
            if (!count) break;
            OK(GrB_Vector_assign_BOOL(reach, less, NULL, true, GrB_ALL, n, GrB_DESC_S));
            OK(GrB_Vector_clear(bucket));
            OK(GrB_Vector_select_UINT64(bucket, less, NULL, GrB_VALUELT_UINT64, asked, upper, GrB_DESC_S));
            OK(GrB_Vector_assign(t, less, NULL, asked, GrB_ALL, n, GrB_DESC_S));
            OK(GrB_Vector_nvals(&count, bucket));
        }
        if (heavy) {
            OK(GrB_Vector_clear(bucket));
            OK(GrB_Vector_assign(bucket, done, NULL, t, GrB_ALL, n, GrB_DESC_S));
            OK(GrB_vxm(asked, NULL, NULL, GrB_MIN_PLUS_SEMIRING_UINT64, bucket, rest, NULL));
            OK(GrB_Vector_eWiseMult_BinaryOp(less, NULL, NULL, GrB_LT_UINT64, asked, t, NULL));
            OK(GrB_Vector_select_BOOL(less, NULL, NULL, GrB_VALUENE_BOOL, less, false, NULL));
            OK(GrB_Vector_assign(t, less, NULL, asked, GrB_ALL, n, GrB_DESC_S));
            OK(GrB_Vector_assign_BOOL(reach, less, NULL, true, GrB_ALL, n, GrB_DESC_S));
        }
        OK(GrB_Vector_assign(reach, done, NULL, none, GrB_ALL, n, GrB_DESC_S));
        OK(GrB_Vector_nvals(&count, reach));
        if (!count) break;
        OK(GrB_Vector_clear(done));
    }
    OK(GrB_Vector_wait(t, GrB_MATERIALIZE));
    GrB_Vector_free(&bucket), GrB_Vector_free(&asked), GrB_Vector_free(&less), GrB_Vector_free(&done), GrB_Vector_free(&reach),
        GrB_Vector_free(&none);
    if (heavy) GrB_Matrix_free(&light), GrB_Matrix_free(&rest);
    return t;
}

// ---- connected components: FastSV

typedef struct {
    GrB_Index n;
    GrB_Vector parent, least, grand, grand_new, same;
    GrB_Matrix hook;              // an entry in row parent(j) and column j, for each j
    GrB_Index *starts, *parents;  // its lists while it is empty
    void* yes;
} Forest;

static void read_parents(Forest* f) {
    GrB_Index n = f->n;
    OK(GrB_Vector_extractTuples_UINT64(NULL, f->parents, &n, f->parent));
}

static void hook_and_shorten(Forest* f, GrB_Matrix a) {
    for (;;) {
        GrB_Index n = f->n, sizes[3];
        bool iso, done;
        OK(GrB_mxv(f->least, NULL, GrB_MIN_INT32, GrB_MIN_SECOND_SEMIRING_INT32, a, f->grand, NULL));
        OK(GxB_Matrix_pack_CSC(f->hook, &f->starts, &f->parents, &f->yes, (n + 1) * 8, n * 8, 1, true, false, NULL));
        OK(GrB_mxv(f->parent, NULL, GrB_MIN_INT32, GrB_MIN_SECOND_SEMIRING_INT32, f->hook, f->least, NULL));
        OK(GxB_Matrix_unpack_CSC(f->hook, &f->starts, &f->parents, &f->yes, sizes, sizes + 1, sizes + 2, &iso, NULL, NULL));
        OK(GrB_Vector_eWiseAdd_BinaryOp(f->parent, NULL, GrB_MIN_INT32, GrB_MIN_INT32, f->least, f->grand, NULL));
        read_parents(f);
        OK(GrB_Vector_extract(f->grand_new, NULL, NULL, f->parent, f->parents, n, NULL));
        OK(GrB_Vector_eWiseMult_BinaryOp(f->same, NULL, NULL, GrB_EQ_INT32, f->grand_new, f->grand, NULL));
        OK(GrB_Vector_reduce_BOOL(&done, NULL, GrB_LAND_MONOID_BOOL, f->same, NULL));
        if (done) return;
        GrB_Vector swap = f->grand;
        f->grand = f->grand_new, f->grand_new = swap;
    }
}

static GrB_Matrix packed_rows(GrB_Index n, GrB_Index* start, GrB_Index* col) {
    GrB_Matrix made;
    bool* yes = room(1, 1);
    *yes = true;
    OK(GrB_Matrix_new(&made, GrB_BOOL, n, n));
    GrB_Index len = start[n] ? start[n] : 1;
    OK(GxB_Matrix_pack_CSR(made, &start, &col, (void**)&yes, (n + 1) * 8, len * 8, 1, true, true, NULL));
    return made;
}

// First the components of four edges of each vertex, then those of what isn't in the largest of these, which becomes one
// vertex.
static void sample(Forest* f, GrB_Matrix a) {
    GrB_Index n = f->n, *start, *col, sizes[3];
    void* value;
    bool iso;
    OK(GxB_Matrix_unpack_CSR(a, &start, &col, &value, sizes, sizes + 1, sizes + 2, &iso, NULL, NULL));
    GrB_Index *few_start = room(n + 1, 8), *few = room(4 * n, 8);
    few_start[0] = 0;
    for (GrB_Index v = 0; v < n; v++)
        few_start[v + 1] = few_start[v] + (start[v + 1] - start[v] < 4 ? start[v + 1] - start[v] : 4);
#pragma omp parallel for num_threads(threads) schedule(static)
    for (GrB_Index v = 0; v < n; v++)
        for (GrB_Index k = 0; k < few_start[v + 1] - few_start[v]; k++) few[few_start[v] + k] = col[start[v] + k];
    GrB_Matrix part = packed_rows(n, few_start, few);
    hook_and_shorten(f, part);
    GrB_Matrix_free(&part);

    // The label that most of 864 vertices have.
    enum { SAMPLES = 864, SLOTS = 4096 };
    GrB_Index slot_key[SLOTS], key = 0;
    int slot_count[SLOTS] = {0}, most = 0;
    for (int k = 0; k < SAMPLES; k++) {
        GrB_Index label = f->parents[mix(k) % n], at = label % SLOTS;
        while (slot_count[at] && slot_key[at] != label) at = (at + 1) % SLOTS;
        slot_key[at] = label;
        if (++slot_count[at] > most) most = slot_count[at], key = label;
    }
    // Rows outside of it, with its vertices as one, and its row, of those that are next to it.
    GrB_Index *rest_start = room(n + 1, 8), *near = room(n, 8), near_count = 0;
#pragma omp parallel for num_threads(threads) schedule(dynamic, 4096)
    for (GrB_Index v = 0; v < n; v++) {
        GrB_Index count = 0, joined = 0;
        for (GrB_Index k = start[v]; f->parents[v] != key && k < start[v + 1]; k++) {
            if (f->parents[col[k]] == key) joined = 1;
            else count++;
        }
        rest_start[v + 1] = count + joined;
        near[v] = joined;
    }
    rest_start[0] = 0;
    for (GrB_Index v = 0; v < n; v++) near_count += near[v];
    for (GrB_Index v = 0; v < n; v++) rest_start[v + 1] = rest_start[v] + (v == key ? near_count : rest_start[v + 1]);
    GrB_Index* rest = room(rest_start[n], 8);
#pragma omp parallel for num_threads(threads) schedule(dynamic, 4096)
    for (GrB_Index v = 0; v < n; v++) {
        GrB_Index at = rest_start[v];
        if (f->parents[v] != key) {
            for (GrB_Index k = start[v]; k < start[v + 1]; k++)
                if (f->parents[col[k]] != key) rest[at++] = col[k];
            if (near[v]) rest[at++] = key;
        } else if (v == key)
            for (GrB_Index u = 0; u < n; u++)
                if (near[u]) rest[at++] = u;
    }
    OK(GxB_Matrix_pack_CSR(a, &start, &col, &value, sizes[0], sizes[1], sizes[2], iso, false, NULL));
    part = packed_rows(n, rest_start, rest);
    hook_and_shorten(f, part);
    GrB_Matrix_free(&part), free(near);
}

static GrB_Vector components(GrB_Matrix a, GrB_Index n, bool sampled) {
    Forest f = {.n = n, .starts = room(n + 1, 8), .parents = room(n, 8), .yes = room(1, 1)};
    *(bool*)f.yes = true;
    for (GrB_Index v = 0; v <= n; v++) f.starts[v] = v;
    OK(GrB_Matrix_new(&f.hook, GrB_BOOL, n, n));
    OK(GrB_Vector_new(&f.parent, GrB_INT32, n));
    OK(GrB_Vector_new(&f.grand_new, GrB_INT32, n));
    OK(GrB_Vector_new(&f.same, GrB_BOOL, n));
    // The least of each vertex and its neighbours.
    OK(GrB_Vector_assign_INT32(f.parent, NULL, NULL, 0, GrB_ALL, n, NULL));
    OK(GrB_Vector_apply_IndexOp_INT32(f.parent, NULL, NULL, GrB_ROWINDEX_INT32, f.parent, 0, NULL));
    OK(GrB_mxv(f.parent, NULL, GrB_MIN_INT32, GxB_MIN_SECONDI_INT32, a, f.parent, NULL));
    OK(GrB_Vector_dup(&f.grand, f.parent));
    OK(GrB_Vector_dup(&f.least, f.parent));
    read_parents(&f);
    if (sampled) sample(&f, a);
    else hook_and_shorten(&f, a);
    OK(GrB_Vector_wait(f.parent, GrB_MATERIALIZE));
    GrB_Vector_free(&f.least), GrB_Vector_free(&f.grand), GrB_Vector_free(&f.grand_new), GrB_Vector_free(&f.same),
        GrB_Matrix_free(&f.hook);
    free(f.starts), free(f.parents), free(f.yes);
    return f.parent;
}

static void put_components(Check* c, Places edges, GrB_Vector made) {
    u64 n = edges.nrows, *label = room(n, 8);
    GrB_Index count = n;
    OK(GrB_Vector_extractTuples_UINT64(NULL, label, &count, made));
    if (count != n) fail("a label is missing");
    put_labels(c, edges, label);
    free(label);
}

// ---- triangles: Sandia_LUT, perhaps with the vertices in the order of their degrees, which LAGraph has kept

static u64 triangles(GrB_Matrix a, GrB_Index n, const u64* degree, bool presort) {
    GrB_Matrix sorted = a, lower, upper, made;
    if (presort) {
        GrB_Index *order = room(n, 8), *at = calloc(n + 1, 8);
        for (GrB_Index v = 0; v < n; v++) at[degree[v] + 1]++;
        for (GrB_Index d = 0; d < n; d++) at[d + 1] += at[d];
        for (GrB_Index v = 0; v < n; v++) order[at[degree[v]]++] = v;
        OK(GrB_Matrix_new(&sorted, GrB_BOOL, n, n));
        OK(GrB_Matrix_extract(sorted, NULL, NULL, a, order, n, order, n, NULL));
        free(order), free(at);
    }
    OK(GrB_Matrix_new(&lower, GrB_BOOL, n, n)), OK(GrB_Matrix_new(&upper, GrB_BOOL, n, n)),
        OK(GrB_Matrix_new(&made, GrB_UINT64, n, n));
    OK(GrB_Matrix_select_INT64(lower, NULL, NULL, GrB_TRIL, sorted, -1, NULL));
    OK(GrB_Matrix_select_INT64(upper, NULL, NULL, GrB_TRIU, sorted, 1, NULL));
    OK(GrB_mxm(made, lower, NULL, GxB_PLUS_PAIR_UINT64, lower, upper, GrB_DESC_ST1));
    u64 count = 0;
    OK(GrB_Matrix_reduce_UINT64(&count, NULL, GrB_PLUS_MONOID_UINT64, made, NULL));
    if (presort) GrB_Matrix_free(&sorted);
    GrB_Matrix_free(&lower), GrB_Matrix_free(&upper), GrB_Matrix_free(&made);
    return count;
}

// ---- graphs

// What is kept in `edges` is symmetric, or becomes so in the time.
static void whole_graph(const char* name, Places edges, bool both) {
    GrB_Index n = edges.nrows;
    GrB_Matrix a = pattern(edges);
    for (int sampled = 0; sampled < 2; sampled++) {
        const char* variant = both      ? sampled ? "FastSV, sampled" : "FastSV"
                              : sampled ? "A|A', FastSV, sampled"
                                        : "A|A', FastSV";
        if (both)
            ROW("components", name, variant, 1, , W = components(a, n, sampled), put_components(c, edges, W),
                GrB_Vector_free(&W));
        else
            ROW("components", name, variant, 1, , OK(GrB_Matrix_new(&C, GrB_BOOL, n, n));
                OK(GrB_Matrix_eWiseAdd_BinaryOp(C, NULL, NULL, GxB_PAIR_BOOL, a, a, GrB_DESC_T1));
                W = components(C, n, sampled), put_components(c, edges, W), GrB_Vector_free(&W); GrB_Matrix_free(&C));
    }
    if (both) {
        u64 *start = starts_of(edges), count, *degree = room(n, 8);
        for (GrB_Index v = 0; v < n; v++) degree[v] = start[v + 1] - start[v];
        ROW("triangles", name, "Sandia_LUT", 1, , count = triangles(a, n, degree, false), put(c, 0, 0, count), );
        ROW("triangles", name, "Sandia_LUT, sorted by degree", 1, , count = triangles(a, n, degree, true),
            put(c, 0, 0, count), );
        free(start), free(degree);
    }
    GrB_Matrix_free(&a);
}

static GrB_Vector found[SEARCHES];

static void put_found(Check* c, const Graph* g, bool parents) {
    for (int s = 0; s < SEARCHES; s++) {
        GrB_Index count;
        OK(GrB_Vector_nvals(&count, found[s]));
        GrB_Index* row = room(count, 8);
        u64* value = room(count, 8);
        OK(GrB_Vector_extractTuples_UINT64(row, value, &count, found[s]));
        Check one = {0};
        for (GrB_Index k = 0; k < count; k++)
            if (parents) put_parent(&one, g, s, row[k], value[k]);
            else if (value[k] != UINT64_MAX) put(&one, row[k], 0, value[k]);
        join(c, one, s);
        free(row), free(value);
    }
}

#define SEARCH(CALL, VARIANT, BODY, PARENTS)                                                                              \
    ROW(CALL, g.name, VARIANT, SEARCHES, , for (int s = 0; s < SEARCHES; s++) found[s] = BODY, put_found(c, &g, PARENTS), \
        for (int s = 0; s < SEARCHES; s++) GrB_Vector_free(&found[s]))

static void graphs(const char* name, Places edges, bool both, const u64* deltas) {
    whole_graph(name, edges, both);
    u64 n = edges.nrows;
    Cached k = {pattern(edges), NULL, NULL, n, edges.len};
    MADE("kept by LAGraph: transpose", name, "", GrB_BOOL, n, n, GrB_transpose(C, NULL, NULL, k.a, NULL));
    MADE_VECTOR("kept by LAGraph: degrees", name, "", n, degrees(k.a, n, true));
    if (!wanted("bfs levels", name) && !wanted("bfs parents", name) && !wanted("shortest paths", name)) return;
    Graph g = graph_of(name, edges);
    Places other = turned(edges);
    k.t = both ? k.a : pattern(other);
    OK(GrB_Vector_new(&W, GrB_UINT64, n));
    OK(degrees(k.a, n, true));
    OK(GrB_Vector_new(&k.degree, GrB_INT64, n));
    OK(GrB_Vector_apply(k.degree, NULL, NULL, GrB_IDENTITY_INT64, W, NULL));
    OK(GrB_Vector_wait(k.degree, GrB_MATERIALIZE));
    GrB_Vector_free(&W);
    SEARCH("bfs levels", "push and pull", breadth_first(&k, g.source[s], false), false);
    SEARCH("bfs parents", "push and pull", breadth_first(&k, g.source[s], true), true);
    GrB_Matrix lengths = kept(edges);
    for (; *deltas; deltas++) {
        char variant[64];
        snprintf(variant, sizeof variant, "delta %llu", (unsigned long long)*deltas);
        SEARCH("shortest paths", variant, shortest(lengths, n, g.source[s], *deltas), false);
    }
    GrB_Matrix_free(&lengths), GrB_Vector_free(&k.degree), free(other.place);
    if (!both) GrB_Matrix_free(&k.t);
    GrB_Matrix_free(&k.a);
}

int main(int argc, char** argv) {
    read_words(argc, argv);
    by_col = !strcmp(format, "col");
    OK(GrB_init(!strcmp(mode, "blocking") ? GrB_BLOCKING : GrB_NONBLOCKING));
    OK(GxB_Global_Option_set(GxB_GLOBAL_NTHREADS, threads));
    OK(GxB_Global_Option_set(GxB_FORMAT, by_col ? GxB_BY_COL : GxB_BY_ROW));
    printf("version\tSuiteSparse:GraphBLAS %d.%d.%d\n", GxB_IMPLEMENTATION_MAJOR, GxB_IMPLEMENTATION_MINOR,
           GxB_IMPLEMENTATION_SUB);
    World w = make_world();
    products(&w);
    other_products(&w);
    shapes("er", w.er), shapes("rmat_big", w.rmat_big), shapes("band", w.band), shapes("hyper", w.hyper);
    builds(&w);
    if (!by_col) {
        const u64 near[] = {30, 100, 1000, 0}, far[] = {100, 300, 1000, 0};
        Places er_directed = er_graph();
        graphs("rmat_graph", rmat_graph(), true, near);
        graphs("grid_graph", grid_graph_big(), true, far);
        graphs("er_graph", er_directed, false, near);
        whole_graph("er_graph_both", both_ways(er_directed), true);
    }
    fflush(stdout);
    GrB_finalize();
    return 0;
}
