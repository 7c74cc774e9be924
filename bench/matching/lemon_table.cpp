// Matches the vertices of a table TIMES times over LEMON, and prints the cost of the pairs: `lemon_table TABLE TIMES`.
// The table is a file of numbers of four bytes, as match_table reads it; with 0 times it is read alone.

#include <lemon/full_graph.h>
#include <lemon/matching.h>

#include <cstdint>
#include <cstdlib>
#include <fstream>
#include <iostream>

using Table = lemon::FullGraph;
using Weights = Table::EdgeMap<int>;

int next_number(std::istream& file) {
    unsigned char bytes[4] = {};
    file.read(reinterpret_cast<char*>(bytes), 4);
    return bytes[0] | bytes[1] << 8 | bytes[2] << 16 | bytes[3] << 24;
}

int main(int count, char** words) {
    if (count != 3) return 2;
    std::ifstream file(words[1], std::ios::binary);
    int places = next_number(file);
    Table table(places);
    Weights weights(table);
    for (int a = 0; a < places; ++a)
        for (int b = 0; b < a; ++b) weights[table.edge(table(a), table(b))] = -next_number(file);
    long total = 0;
    for (int times = std::atoi(words[2]); times > 0; --times) {
        lemon::MaxWeightedPerfectMatching<Table, Weights> matching(table, weights);
        if (!matching.run()) std::abort();
        total = -matching.matchingWeight();
    }
    std::cout << total << "\n";
}
