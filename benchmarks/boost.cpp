// Levels and distances by the Boost Graph Library. One thread: its searches have no other.
#include <boost/graph/breadth_first_search.hpp>
#include <boost/graph/compressed_sparse_row_graph.hpp>
#include <boost/graph/dijkstra_shortest_paths.hpp>

#include "semirings.hpp"

struct Road {
    u64 weight;
};
using Graph = boost::compressed_sparse_row_graph<boost::directedS, boost::no_property, Road, boost::no_property, u32, size_t>;

static Graph graph_of(const Columns& edges) {
    std::vector<std::pair<u32, u32>> ends;
    std::vector<Road> roads;
    ends.reserve(edges.row.size()), roads.reserve(edges.row.size());
    for (size_t k = 0; k < edges.column.size(); k++)
        for (size_t i = edges.start[k]; i < edges.start[k + 1]; i++) {
            ends.push_back({edges.column[k], edges.row[i]});
            roads.push_back({edges.value[i]});
        }
    return Graph(boost::edges_are_sorted, ends.begin(), ends.end(), roads.begin(), edges.cols);
}

int main(int argc, char** argv) {
    Words words(argc, argv);
    Clock clock;
    if (words.command == "multiply") words.unknown();
    Graph graph = graph_of(read_edges(words));
    clock.part("read");
    u32 source = words.source - 1;
    std::vector<u64> number(num_vertices(graph), TOP);
    auto numbers = boost::make_iterator_property_map(number.begin(), get(boost::vertex_index, graph));
    if (words.command == "bfs") {
        number[source] = 0;
        auto recorded = boost::record_distances(numbers, boost::on_tree_edge());
        boost::breadth_first_search(graph, source, boost::visitor(boost::make_bfs_visitor(recorded)));
    } else {
        boost::dijkstra_shortest_paths(graph, source, boost::distance_map(numbers).weight_map(get(&Road::weight, graph)).distance_inf(TOP));
    }
    clock.part("compute");
    write_vertices(number.size(), [&](size_t v) { return number[v]; }, TOP);
    clock.part("write");
    clock.tell();
    _exit(0);
}
