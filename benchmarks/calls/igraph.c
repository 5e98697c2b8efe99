// Searches, components and triangles by igraph, on one thread. A graph with both directions is tried as arcs and as
// undirected edges; run.py takes the faster of the two.
#include <igraph.h>

#include "common.h"

static void must(igraph_error_t code) {
    if (code) fail(igraph_strerror(code));
}

static igraph_t graph_from(Places a, bool directed, igraph_vector_t* lengths) {
    igraph_vector_int_t edges;
    size_t kept = 0;
    must(igraph_vector_int_init(&edges, 2 * a.len));
    must(igraph_vector_init(lengths, a.len));
    for (size_t k = 0; k < a.len; k++) {
        u32 from = row_of(a.place[k]), to = col_of(a.place[k]);
        if (!directed && from > to) continue;
        VECTOR(edges)[2 * kept] = from, VECTOR(edges)[2 * kept + 1] = to, VECTOR(*lengths)[kept++] = value_of(a.place[k]);
    }
    must(igraph_vector_int_resize(&edges, 2 * kept));
    must(igraph_vector_resize(lengths, kept));
    igraph_t made;
    must(igraph_create(&made, &edges, a.nrows, directed));
    igraph_vector_int_destroy(&edges);
    return made;
}

static igraph_matrix_t far[SEARCHES];
static igraph_vector_int_t list[SEARCHES];

static void put_far(Check* c, u64 n) {
    for (int s = 0; s < SEARCHES; s++) {
        Check one = {0};
        for (u64 v = 0; v < n; v++)
            if (MATRIX(far[s], 0, v) < 1e18) put(&one, v, 0, (u64)MATRIX(far[s], 0, v));
        join(c, one, s);
    }
}

static void put_list(Check* c, const Graph* g, bool parents) {
    for (int s = 0; s < SEARCHES; s++) {
        Check one = {0};
        for (u64 v = 0; v < g->n; v++) {
            igraph_integer_t it = VECTOR(list[s])[v];
            if (it < 0) continue;
            if (parents) put_parent(&one, g, s, v, it);
            else put(&one, v, 0, it);
        }
        join(c, one, s);
    }
}

#define SEARCH(CALL, VARIANT, BODY, CHECK) \
    ROW(CALL, g.name, VARIANT, SEARCHES, , for (int s = 0; s < SEARCHES; s++) must(BODY), CHECK, )
#define NAMED(WHAT) (directed ? "arcs, " WHAT : "edges, " WHAT)

static void searches(const char* name, Places edges, bool directed) {
    if (!wanted("bfs levels", name) && !wanted("bfs parents", name) && !wanted("shortest paths", name)) return;
    Graph g = graph_of(name, edges);
    igraph_vector_t lengths;
    igraph_t a = graph_from(edges, directed, &lengths);
    igraph_neimode_t mode = directed ? IGRAPH_OUT : IGRAPH_ALL;
    for (int s = 0; s < SEARCHES; s++) must(igraph_matrix_init(&far[s], 0, 0)), must(igraph_vector_int_init(&list[s], 0));
    SEARCH("bfs levels", NAMED("igraph_distances"),
           igraph_distances(&a, &far[s], igraph_vss_1(g.source[s]), igraph_vss_all(), mode), put_far(c, g.n));
    SEARCH("bfs levels", NAMED("igraph_bfs"),
           igraph_bfs(&a, g.source[s], NULL, mode, false, NULL, NULL, NULL, NULL, NULL, NULL, &list[s], NULL, NULL),
           put_list(c, &g, false));
    SEARCH("bfs parents", NAMED("igraph_bfs"),
           igraph_bfs(&a, g.source[s], NULL, mode, false, NULL, NULL, NULL, &list[s], NULL, NULL, NULL, NULL, NULL),
           put_list(c, &g, true));
    SEARCH("bfs parents", NAMED("igraph_bfs_simple"), igraph_bfs_simple(&a, g.source[s], mode, NULL, NULL, &list[s]),
           put_list(c, &g, true));
    SEARCH("shortest paths", NAMED("igraph_distances_dijkstra"),
           igraph_distances_dijkstra(&a, &far[s], igraph_vss_1(g.source[s]), igraph_vss_all(), &lengths, mode),
           put_far(c, g.n));
    for (int s = 0; s < SEARCHES; s++) igraph_matrix_destroy(&far[s]), igraph_vector_int_destroy(&list[s]);
    igraph_vector_destroy(&lengths), igraph_destroy(&a);
}

static void whole_graph(const char* name, Places edges, bool directed) {
    if (!wanted("components", name) && !wanted("triangles", name)) return;
    igraph_vector_t lengths, each;
    igraph_t a = graph_from(edges, directed, &lengths);
    igraph_vector_int_t member;
    must(igraph_vector_int_init(&member, 0));
    must(igraph_vector_init(&each, 0));
    u64* label = room(edges.nrows, 8);
    ROW("components", name, NAMED("igraph_connected_components"), 1, ,
        must(igraph_connected_components(&a, &member, NULL, NULL, IGRAPH_WEAK)),
        for (u64 v = 0; v < edges.nrows; v++) label[v] = VECTOR(member)[v];
        put_labels(c, edges, label), );
    double sum;
    if (!directed)
        ROW("triangles", name, "edges, igraph_adjacent_triangles", 1, ,
            must(igraph_adjacent_triangles(&a, &each, igraph_vss_all()));
            sum = igraph_vector_sum(&each), put(c, 0, 0, (u64)sum / 3), );
    free(label), igraph_vector_int_destroy(&member), igraph_vector_destroy(&each), igraph_vector_destroy(&lengths),
        igraph_destroy(&a);
}

int main(int argc, char** argv) {
    read_words(argc, argv);
    if (threads > 1) return 0;
    printf("version\tigraph %s\n", IGRAPH_VERSION);
    const char* names[] = {"rmat_graph", "grid_graph", "er_graph", "er_graph_both"};
    Places er_directed = er_graph(), places[] = {rmat_graph(), grid_graph_big(), er_directed, both_ways(er_directed)};
    for (int k = 0; k < 4; k++)
        for (int directed = k == 2; directed < (k == 3 ? 1 : 2); directed++) {
            if (k < 3) searches(names[k], places[k], directed);
            whole_graph(names[k], places[k], directed);
        }
    return 0;
}
