// A contour with handles: on-curve nodes pair with on-curve nodes, handles with handles. Built as examples/editor is.
#include <pairing.hpp>

#include <cstdio>

using pairing::Link;
using pairing::Master;
using pairing::Node;
using pairing::Outcome;
using pairing::Sort;

static pairing::Drawing drawing;

static const char *word(Sort sort) { return sort == Sort::on_curve ? "both on-curve" : "both handles"; }

// Both nodes of a link are of one sort, so that of the light one says it.
static Sort sort_of(const Link &link) {
    for (const Node &node : drawing.light())
        if (node.number() == link.a()) return node.sort();
    return Sort::on_curve;
}

static bool show(const char *what, const Outcome &outcome) {
    if (!outcome) {
        std::printf("%s: refused: %s: %s\n", what, outcome.name(), outcome.text());
        return false;
    }
    std::printf("%s: %zu links\n", what, drawing.links().size());
    for (const Link &link : drawing.links())
        std::printf("  light %u - bold %u, %s\n", link.a(), link.b(), word(sort_of(link)));
    return true;
}

int main() {
    // The upper half of a bowl, along the contour. Number, horizontal, vertical, capacity, and for handles the sort.
    const Node light[] = {{1, 0, 400, 1},
                          {2, 100, 400, 1},
                          {3, 210, 400, 1, Sort::off_curve},
                          {4, 300, 310, 1, Sort::off_curve},
                          {5, 300, 200, 1}};
    const Node bold[] = {{1, -30, 410, 1},
                         {2, 160, 410, 1},
                         {3, 300, 410, 1, Sort::off_curve},
                         {4, 420, 320, 1, Sort::off_curve},
                         {5, 420, 200, 1}};
    // Light 3 is nearer to bold 2 than light 2 is. As a handle it leaves bold 2 alone; as an on-curve node it takes it.
    const bool done = show("the bowl", drawing.load(light, bold)) &&
                      show("light 3 becomes on-curve", drawing.set_sort(Master::light, 3, Sort::on_curve)) &&
                      show("light 3 is a handle again", drawing.set_sort(Master::light, 3, Sort::off_curve)) &&
                      show("light 3, still a handle, gets capacity 2", drawing.set_capacity(Master::light, 3, 2));
    const Outcome left = drawing.spare(Master::light, 3);
    std::printf("light 3 has %u left\n", left.value());
    return done && left ? 0 : 1;
}
