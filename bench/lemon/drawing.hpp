// Reads a redwork drawing without starts and ends, and cuts its lines where they meet.

#pragma once

#include <algorithm>
#include <charconv>
#include <cstdint>
#include <cstdlib>
#include <string>
#include <string_view>
#include <unordered_map>
#include <utility>
#include <vector>

struct Point {
    int x, y;
};

struct Line {
    int block;
    std::vector<Point> points;
};

struct Drawing {
    int version = 1;
    long step = 25;
    std::vector<Line> lines;
};

// One number for a point of a block: a coordinate has 16 bits.
inline uint64_t key_of(int block, Point at) {
    return uint64_t(block) << 32 | uint64_t(uint16_t(at.x)) << 16 | uint16_t(at.y);
}

// The numbers of a line of the text, after its first word.
class Numbers {
    const char* at;
    const char* end;

public:
    explicit Numbers(std::string_view text) : at(text.data()), end(at + text.size()) {}

    bool next(int& number) {
        while (at != end && *at == ' ') ++at;
        auto [after, fault] = std::from_chars(at, end, number);
        at = after;
        return fault == std::errc{};
    }
};

inline void take_row(Drawing& drawing, int& block, std::string_view row) {
    size_t blank = std::min(row.find(' '), row.size());
    std::string_view word = row.substr(0, blank);
    Numbers numbers(row.substr(blank));
    int first = 0;
    if (word == "redwork") numbers.next(drawing.version);
    if (word == "step" && numbers.next(first)) drawing.step = first;
    if (word == "color") ++block;
    if (word != "line") return;
    Line line{block, {}};
    for (Point at; numbers.next(at.x) && numbers.next(at.y);) line.points.push_back(at);
    drawing.lines.push_back(std::move(line));
}

inline Drawing read_drawing(std::string_view text) {
    Drawing drawing;
    int block = -1;
    while (!text.empty()) {
        size_t end = std::min(text.find('\n'), text.size());
        take_row(drawing, block, text.substr(0, end));
        text.remove_prefix(std::min(end + 1, text.size()));
    }
    return drawing;
}

using Counts = std::unordered_map<uint64_t, int>;

inline Counts counted(const std::vector<Line>& lines) {
    size_t points = 0;
    for (const Line& line : lines) points += line.points.size();
    Counts counts;
    counts.reserve(points);
    for (const Line& line : lines)
        for (Point at : line.points) ++counts[key_of(line.block, at)];
    return counts;
}

// The sections of the lines, which meet at each point that their block lists more than once.
inline std::vector<Line> cut(std::vector<Line> lines) {
    Counts counts = counted(lines);
    std::vector<Line> sections;
    for (const Line& line : lines) {
        sections.push_back({line.block, {line.points.front()}});
        for (size_t i = 1; i < line.points.size(); ++i) {
            Point at = line.points[i];
            sections.back().points.push_back(at);
            bool is_last = i + 1 == line.points.size();
            if (!is_last && counts[key_of(line.block, at)] > 1) sections.push_back({line.block, {at}});
        }
    }
    return sections;
}

inline long cost_of(const Line& line, long step) {
    long cost = 0;
    for (size_t i = 1; i < line.points.size(); ++i) {
        long x = std::labs(line.points[i].x - line.points[i - 1].x);
        long y = std::labs(line.points[i].y - line.points[i - 1].y);
        cost += (std::max(x, y) + step - 1) / step;
    }
    return cost;
}
