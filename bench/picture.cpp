#include "picture.hpp"

#include <algorithm>
#include <cmath>
#include <cstdio>
#include <memory>

namespace {

constexpr double panel_width = 420, panel_height = 250, left = 76, right = 62, top = 34, bottom = 44, head = 64;
constexpr double most_rounds = 31;

struct Look {
    const char *name, *colour, *dash;
};
constexpr std::array<Look, engines> looks{{
    {"library", "#0072b2", "none"},
    {"plain C++", "#d55e00", "7 3"},
    {"second implementation", "#007a5a", "2 3"},
}};

struct Scale {
    double low, high;  // powers of ten, in ns
    double x0, y0;     // of the panel
    double x(double rounds) const { return x0 + left + (panel_width - left - right) * rounds / most_rounds; }
    double y(double ns) const {
        const double part = (std::log10(ns) - std::log10(low)) / (std::log10(high) - std::log10(low));
        return y0 + panel_height - bottom - (panel_height - top - bottom) * part;
    }
};

std::string time_text(double ns) {
    std::array<char, 32> text{};
    if (ns < 999.5) std::snprintf(text.data(), text.size(), "%.0f ns", ns);
    else std::snprintf(text.data(), text.size(), ns < 9950 ? "%.1f µs" : "%.0f µs", ns / 1000);
    return text.data();
}

void draw_text(std::FILE* file, double x, double y, const char* more, const std::string& text) {
    std::fprintf(file, "<text x=\"%.1f\" y=\"%.1f\" %s>%s</text>\n", x, y, more, text.c_str());
}

void draw_axes(std::FILE* file, const Scale& s, const std::string& title) {
    const double from = s.x(0), to = s.x(most_rounds), floor = s.y(s.low), ceiling = s.y(s.high);
    draw_text(file, from, ceiling - 12, "class=\"title\"", title);
    for (double decade = s.low; decade < s.high * 1.5; decade *= 10) {
        const bool below = decade < 1000;
        std::array<char, 32> tick{};
        std::snprintf(tick.data(), tick.size(), "%g %s", below ? decade : decade / 1000, below ? "ns" : "µs");
        draw_text(file, from - 7, s.y(decade) + 4, "text-anchor=\"end\"", tick.data());
        for (const double step : {1.0, 2.0, 5.0}) {
            const double y = s.y(decade * step);
            if (decade * step > s.high * 1.01) break;
            std::fprintf(file, "<path d=\"M%.1f %.1fH%.1f\" stroke=\"%s\"/>\n", from, y, to, step == 1.0 ? "#bbb" : "#e8e8e8");
        }
    }
    std::fprintf(file, "<path d=\"M%.1f %.1fV%.1fH%.1f\" fill=\"none\" stroke=\"#333\"/>\n", from, ceiling, floor, to);
    for (const u32 rounds : {0u, 8u, 16u, 31u}) {
        std::fprintf(file, "<path d=\"M%.1f %.1fv5\" stroke=\"#333\"/>\n", s.x(rounds), floor);
        draw_text(file, s.x(rounds), floor + 17, "text-anchor=\"middle\"", std::to_string(rounds));
    }
    draw_text(file, (from + to) / 2, floor + 34, "text-anchor=\"middle\"", "full rounds in the state");
    std::fprintf(file, "<text transform=\"translate(%.1f %.1f) rotate(-90)\" text-anchor=\"middle\">time of a call</text>\n",
                 s.x0 + 16, (floor + ceiling) / 2);
}

void draw_lines(std::FILE* file, const Scale& s, const std::vector<Point>& points) {
    for (const Engine e : all_engines) {
        std::fprintf(file, "<polyline fill=\"none\" stroke=\"%s\" stroke-width=\"2\" stroke-dasharray=\"%s\" points=\"",
                     looks[e].colour, looks[e].dash);
        for (const Point& p : points) std::fprintf(file, "%.1f,%.1f ", s.x(p.rounds), s.y(p.ns[e]));
        std::fputs("\"/>\n", file);
        for (const Point& p : points)
            std::fprintf(file, "<circle cx=\"%.1f\" cy=\"%.1f\" r=\"3\" fill=\"%s\"/>\n", s.x(p.rounds), s.y(p.ns[e]), looks[e].colour);
    }
    // The last point's cost beside it; costs that are close are moved apart.
    const Point& last = points.back();
    std::array<Engine, engines> by_cost = all_engines;
    std::sort(by_cost.begin(), by_cost.end(), [&](Engine a, Engine b) { return last.ns[a] < last.ns[b]; });
    double y = s.y(s.low) + 20;
    for (const Engine e : by_cost) {
        y = std::min(s.y(last.ns[e]) + 4, y - 13);
        const std::string colour = std::string("fill=\"") + looks[e].colour + "\"";
        draw_text(file, s.x(last.rounds) + 8, y, colour.c_str(), time_text(last.ns[e]));
    }
}

}  // namespace

bool write_picture(const std::string& path, const std::vector<Panel>& panels) {
    const std::unique_ptr<std::FILE, int (*)(std::FILE*)> out(std::fopen(path.c_str(), "w"), std::fclose);
    if (!out) return false;
    std::FILE* file = out.get();
    double least = 1e9, most = 1;
    for (const Panel& panel : panels)
        for (const Point& p : panel.points)
            for (const double ns : p.ns) {
                least = std::min(least, std::max(ns, 1.0));
                most = std::max(most, ns);
            }
    Scale scale{std::pow(10, std::floor(std::log10(least))), std::pow(10, std::ceil(std::log10(most))), 0, 0};
    const double width = 2 * panel_width, height = head + panel_height * static_cast<double>((panels.size() + 1) / 2);
    std::fprintf(file, "<svg xmlns=\"http://www.w3.org/2000/svg\" width=\"%.0f\" height=\"%.0f\" viewBox=\"0 0 %.0f %.0f\">\n", width,
                 height, width, height);
    std::fputs("<style>text{font:12px sans-serif} .title{font-weight:bold;font-size:13px} "
               ".head{font-weight:bold;font-size:15px}</style>\n", file);
    std::fprintf(file, "<rect width=\"%.0f\" height=\"%.0f\" fill=\"#fff\"/>\n", width, height);
    draw_text(file, left, 24, "class=\"head\"", "Cost of a call against the fullness of the state: medians, warm words, logarithmic");
    double x = left;
    for (const Look& look : looks) {
        std::fprintf(file, "<path d=\"M%.0f 44h34\" stroke=\"%s\" stroke-width=\"2\" stroke-dasharray=\"%s\"/>\n", x, look.colour, look.dash);
        draw_text(file, x + 40, 48, "", look.name);
        x += 160;
    }
    for (std::size_t i = 0; i < panels.size(); ++i) {
        scale.x0 = panel_width * static_cast<double>(i % 2);
        scale.y0 = head + panel_height * static_cast<double>(i / 2);
        draw_axes(file, scale, panels[i].title);
        draw_lines(file, scale, panels[i].points);
    }
    return std::fputs("</svg>\n", file) >= 0;
}
