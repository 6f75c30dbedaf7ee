// Prints the scenes of docs/pictures: a drawing, an edit of it, and the engine's links before and after; or two drawings
// of the same places. tools/pictures draws them.
#include <pairing.hpp>

#include <cstdio>
#include <vector>

using pairing::Drawing;
using pairing::Edit;
using pairing::Link;
using pairing::Master;
using pairing::Node;
using pairing::Outcome;
using pairing::Sort;
using pairing::View;

static void print(const char *master, View<const Node> nodes) {
    for (const Node &node : nodes)
        std::printf("%s %u %d %d %u %u\n", master, node.number(), node.horizontal(), node.vertical(), node.capacity(),
                    static_cast<unsigned>(node.sort()));
}

static void print(View<const Node> light, View<const Node> bold, View<const Link> links) {
    print("light", light);
    print("bold", bold);
    for (const Link &link : links)
        std::printf("link %u %u %u %u\n", link.a(), link.b(), link.distance(), link.amount());
}

static void print(const Drawing &drawing) { print(drawing.light(), drawing.bold(), drawing.links()); }

// A scene's name, how it is drawn, and what its edit is. Says whether the engine did all of it.
static bool scene(const char *name, const char *style, const char *what, View<const Node> light, View<const Node> bold,
                  const Edit &edit) {
    Drawing drawing;
    if (!drawing.load(light, bold)) return false;
    std::printf("scene %s %s %s\nbefore\n", name, style, what);
    print(drawing);
    const Outcome outcome = drawing.edit(edit);
    std::printf("after %u\n", outcome.value());
    print(drawing);
    return outcome.done();
}

static bool ties() {
    const Node light[] = {{1, 0, 0, 1}, {2, 200, 0, 1}, {3, 420, 0, 2}};
    const Node bold[] = {{7, 100, 0, 1}, {8, 320, 0, 4}};
    const Edit edit = Edit::new_capacity(Master::bold, 7, 2, Sort::on_curve);
    return scene("ties", "open", "Bold 7 gets capacity 2", light, bold, edit);
}

static bool chain() {
    const Node light[] = {{1, 0, 150, 1}, {2, 330, 190, 2}, {3, 150, 10, 2}};
    const Node bold[] = {{1, 140, 130, 1}, {2, 420, 140, 2}, {3, 250, -10, 1}, {4, 20, 0, 2}};
    return scene("chain", "open", "Light 4 arrives", light, bold, Edit::arrival(Master::light, {4, 205, 220, 1}));
}

// A letter T. The bold one has two nodes at each inner corner, for which the light corners have capacity 2.
static bool letter() {
    const Node light[] = {{1, 195, 0, 1},   {2, 265, 0, 1},   {3, 265, 440, 2}, {4, 490, 440, 1},
                          {5, 490, 500, 1}, {6, -30, 500, 1}, {7, -30, 440, 1}, {8, 195, 440, 2}};
    const Node bold[] = {{1, 95, -40, 1},  {2, 365, -40, 1},  {3, 365, 300, 1},  {4, 395, 360, 1}, {5, 580, 360, 1},
                         {6, 580, 590, 1}, {7, -120, 590, 1}, {8, -120, 360, 1}, {9, 65, 360, 1},  {10, 95, 300, 1}};
    return scene("letter", "contour", "Bold 4 departs", light, bold, Edit::departure(Master::bold, 4));
}

static std::vector<Node> all_on_curve(View<const Node> nodes) {
    std::vector<Node> made;
    for (const Node &node : nodes)
        made.emplace_back(node.number(), node.horizontal(), node.vertical(), node.capacity());
    return made;
}

// The outer contour of a D. The nodes are printed with their sorts both times, so that the picture has the handles where
// the links of all nodes as on-curve ones go astray.
static bool handles() {
    constexpr Sort off = Sort::off_curve;
    const Node light[] = {{1, 0, 0, 1},          {2, 0, 400, 1},        {3, 100, 400, 1},
                          {4, 210, 400, 1, off}, {5, 300, 310, 1, off}, {6, 300, 200, 1},
                          {7, 300, 90, 1, off},  {8, 210, 0, 1, off},   {9, 100, 0, 1}};
    const Node bold[] = {{1, -60, -40, 1},      {2, -60, 440, 1},      {3, 160, 440, 1},
                         {4, 300, 440, 1, off}, {5, 420, 340, 1, off}, {6, 420, 200, 1},
                         {7, 420, 60, 1, off},  {8, 300, -40, 1, off}, {9, 160, -40, 1}};
    Drawing drawing, flat;
    if (!drawing.load(light, bold) || !flat.load(all_on_curve(light), all_on_curve(bold))) return false;
    std::printf("scene handles handles Handles pair with handles\npanel with sorts\n");
    print(light, bold, drawing.links());
    std::printf("panel all on-curve\n");
    print(light, bold, flat.links());
    return true;
}

int main() { return ties() && chain() && letter() && handles() ? 0 : 1; }
