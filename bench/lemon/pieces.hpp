// The pieces of a drawing as graphs, and the least closed walk over each: Dijkstra from each odd junction, a
// least perfect matching, and a tour over the lines and the paths of the pairs.

#pragma once

#include <lemon/dijkstra.h>
#include <lemon/full_graph.h>
#include <lemon/matching.h>
#include <lemon/smart_graph.h>

#include <ctime>
#include <numeric>

#include "drawing.hpp"

using Graph = lemon::SmartGraph;
using Table = lemon::FullGraph;

struct Times {
    long odd = 0;
    long dijkstra = 0;
    long matching = 0;
};

inline long cpu() { return std::clock() * (1'000'000 / CLOCKS_PER_SEC); }

// Edges of one piece: first its lines in their order, then the copies that are passed again.
struct Piece {
    Graph graph;
    Graph::EdgeMap<long> cost{graph};
    Graph::EdgeMap<int> number{graph};
    long retraced = 0;

    Graph::Edge add(Graph::Node from, Graph::Node to, long steps, int line) {
        Graph::Edge edge = graph.addEdge(from, to);
        cost[edge] = steps;
        number[edge] = line;
        return edge;
    }

    void pass_again(Graph::Edge edge) {
        retraced += cost[edge];
        add(graph.u(edge), graph.v(edge), cost[edge], number[edge]);
    }
};

// Junctions by number, and of each the junction that represents its piece.
struct Junctions {
    std::unordered_map<uint64_t, int> numbers;
    std::vector<int> parents;

    int number(uint64_t key) {
        auto [found, is_new] = numbers.try_emplace(key, static_cast<int>(parents.size()));
        if (is_new) parents.push_back(found->second);
        return found->second;
    }

    int root(int at) {
        while (parents[at] != at) at = parents[at] = parents[parents[at]];
        return at;
    }
};

struct Ends {
    int from, to;
};

inline std::vector<Ends> ends_of(const std::vector<Line>& lines, Junctions& junctions) {
    std::vector<Ends> all;
    for (const Line& line : lines) {
        int from = junctions.number(key_of(line.block, line.points.front()));
        int to = junctions.number(key_of(line.block, line.points.back()));
        all.push_back({from, to});
        junctions.parents[junctions.root(from)] = junctions.root(to);
    }
    return all;
}

// The lines of each piece, pieces in the order of their first lines.
inline std::vector<std::vector<int>> lines_by_piece(const std::vector<Ends>& ends, Junctions& junctions) {
    std::vector<int> places(junctions.parents.size(), -1);
    std::vector<std::vector<int>> pieces;
    for (size_t i = 0; i < ends.size(); ++i) {
        int& place = places[junctions.root(ends[i].from)];
        if (place < 0) {
            place = static_cast<int>(pieces.size());
            pieces.emplace_back();
        }
        pieces[place].push_back(static_cast<int>(i));
    }
    return pieces;
}

// Adds the lines to an empty piece; `nodes` has a node for each junction that some piece has already.
inline void lay(Piece& piece, const std::vector<int>& members, const std::vector<Ends>& ends,
                const std::vector<long>& costs, std::vector<Graph::Node>& nodes) {
    auto node_of = [&](int junction) {
        if (nodes[junction] == lemon::INVALID) nodes[junction] = piece.graph.addNode();
        return nodes[junction];
    };
    int number = 0;
    for (int line : members) {
        Graph::Node from = node_of(ends[line].from);
        piece.add(from, node_of(ends[line].to), costs[line], ++number);
    }
}

inline std::vector<Graph::Node> odd_nodes(const Graph& graph) {
    std::vector<char> is_odd(graph.maxNodeId() + 1, 0);
    for (Graph::EdgeIt edge(graph); edge != lemon::INVALID; ++edge) {
        is_odd[graph.id(graph.u(edge))] ^= 1;
        is_odd[graph.id(graph.v(edge))] ^= 1;
    }
    std::vector<Graph::Node> odd;
    for (size_t i = 0; i < is_odd.size(); ++i)
        if (is_odd[i]) odd.push_back(graph.nodeFromId(static_cast<int>(i)));
    return odd;
}

// Least costs from each odd junction to all odd ones, and the last arcs of the least paths to all junctions.
struct Rows {
    std::vector<std::vector<long>> costs;
    std::vector<std::vector<Graph::Arc>> arcs;
};

inline Rows rows_of(const Piece& piece, const std::vector<Graph::Node>& odd) {
    Rows rows;
    lemon::Dijkstra<Graph, Graph::EdgeMap<long>> search(piece.graph, piece.cost);
    for (Graph::Node from : odd) {
        search.run(from);
        auto& costs = rows.costs.emplace_back();
        for (Graph::Node to : odd) costs.push_back(search.dist(to));
        auto& arcs = rows.arcs.emplace_back();
        for (int i = 0; i <= piece.graph.maxNodeId(); ++i) arcs.push_back(search.predArc(piece.graph.nodeFromId(i)));
    }
    return rows;
}

// The mate of each odd junction, by index.
inline std::vector<int> mates_of(const Rows& rows) {
    int count = static_cast<int>(rows.costs.size());
    Table table(count);
    Table::EdgeMap<long> weight(table);
    for (int i = 0; i < count; ++i)
        for (int j = i + 1; j < count; ++j) weight[table.edge(table(i), table(j))] = -rows.costs[i][j];
    lemon::MaxWeightedPerfectMatching<Table, Table::EdgeMap<long>> matching(table, weight);
    if (!matching.run()) std::abort();
    std::vector<int> mates;
    for (int i = 0; i < count; ++i) mates.push_back(table.index(matching.mate(table(i))));
    return mates;
}

inline void pass_paths_again(Piece& piece, const std::vector<Graph::Node>& odd, const Rows& rows,
                             const std::vector<int>& mates) {
    for (size_t i = 0; i < odd.size(); ++i) {
        if (mates[i] < static_cast<int>(i)) continue;
        for (Graph::Node at = odd[mates[i]]; at != odd[i];) {
            Graph::Arc arc = rows.arcs[i][piece.graph.id(at)];
            at = piece.graph.source(arc);
            piece.pass_again(arc);
        }
    }
}

inline void even_out(Piece& piece, Times& times) {
    std::vector<Graph::Node> odd = odd_nodes(piece.graph);
    if (odd.empty()) return;
    times.odd += static_cast<long>(odd.size());
    long begin = cpu();
    Rows rows = rows_of(piece, odd);
    long between = cpu();
    std::vector<int> mates = mates_of(rows);
    times.dijkstra += between - begin;
    times.matching += cpu() - between;
    pass_paths_again(piece, odd, rows, mates);
}

// A closed walk over all edges of a piece without odd junctions, last arc first.
inline std::vector<Graph::Arc> tour(const Graph& graph) {
    Graph::NodeMap<Graph::OutArcIt> next(graph);
    for (Graph::NodeIt node(graph); node != lemon::INVALID; ++node) next[node] = Graph::OutArcIt(graph, node);
    Graph::EdgeMap<bool> is_passed(graph, false);
    std::vector<Graph::Arc> way, walk;
    for (Graph::Node at = graph.nodeFromId(0);;) {
        Graph::OutArcIt& arc = next[at];
        while (arc != lemon::INVALID && is_passed[arc]) ++arc;
        if (arc != lemon::INVALID) {
            is_passed[arc] = true;
            way.push_back(arc);
            at = graph.target(arc);
        } else if (!way.empty()) {
            at = graph.source(way.back());
            walk.push_back(way.back());
            way.pop_back();
        } else {
            return walk;
        }
    }
}
