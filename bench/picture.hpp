// The picture: cost against fullness.
#ifndef PICTURE_HPP
#define PICTURE_HPP

#include <array>
#include <string>
#include <vector>

#include "engines.hpp"

struct Point {
    u32 rounds;
    std::array<double, engines> ns;
};

struct Panel {
    std::string title;
    std::vector<Point> points;
};

// Writes the panels, two in a row, as an SVG. Answers whether it could.
bool write_picture(const std::string& path, const std::vector<Panel>& panels);

#endif
