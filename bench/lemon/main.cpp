// A Chinese postman over LEMON: `lemon DRAWING WALKS` reads a redwork drawing without starts and ends, writes least
// closed walks over its pieces, and prints what they retrace, in steps, and their penetrations.
// On standard error: odd junctions, and the cpu microseconds of Dijkstra and of the matching.

#include <fstream>
#include <iostream>

#include "pieces.hpp"

struct Totals {
    long retraced = 0;
    long penetrations = 0;
};

void put(std::string& text, long number) {
    char digits[24];
    text.append(digits, std::to_chars(digits, digits + sizeof digits, number).ptr);
}

// The passes of a walk by the number of their line in the piece, negative against the line's direction.
// Returns the steps of the walk.
long put_walk(std::string& text, const Piece& piece, const std::vector<Graph::Arc>& walk) {
    long steps = 0;
    text += "piece ";
    put(text, piece.retraced);
    text += "\nwalk";
    for (auto arc = walk.rbegin(); arc != walk.rend(); ++arc) {
        text += ' ';
        int number = piece.number[*arc];
        put(text, piece.graph.direction(*arc) ? number : -number);
        steps += piece.cost[*arc];
    }
    text += '\n';
    return steps;
}

std::vector<Line> lines_of(Drawing& drawing) {
    return drawing.version == 1 ? std::move(drawing.lines) : cut(std::move(drawing.lines));
}

std::string walks_of(Drawing& drawing, Totals& totals, Times& times) {
    std::vector<Line> lines = lines_of(drawing);
    std::vector<long> costs;
    for (const Line& line : lines) costs.push_back(cost_of(line, drawing.step));
    Junctions junctions;
    std::vector<Ends> ends = ends_of(lines, junctions);
    std::vector<Graph::Node> nodes(junctions.parents.size(), lemon::INVALID);
    std::string text;
    for (const auto& members : lines_by_piece(ends, junctions)) {
        Piece piece;
        lay(piece, members, ends, costs, nodes);
        even_out(piece, times);
        totals.retraced += piece.retraced;
        totals.penetrations += put_walk(text, piece, tour(piece.graph)) + 1;
    }
    return text;
}

std::string contents(const char* name) {
    std::ifstream file(name, std::ios::binary | std::ios::ate);
    std::string text(static_cast<size_t>(file.tellg()), '\0');
    file.seekg(0);
    file.read(text.data(), static_cast<std::streamsize>(text.size()));
    return text;
}

int main(int count, char** words) {
    if (count != 3) return 2;
    Drawing drawing = read_drawing(contents(words[1]));
    Totals totals;
    Times times;
    std::string walks = walks_of(drawing, totals, times);
    std::ofstream(words[2], std::ios::binary) << walks;
    std::cout << totals.retraced << " " << totals.penetrations << "\n";
    std::cerr << times.odd << " " << times.dijkstra << " " << times.matching << "\n";
}
