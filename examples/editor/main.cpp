// The life of a drawing: load, edit, ask; and what a refusal looks like.
#include <pairing.hpp>

#include <cstdio>

using pairing::Edit;
using pairing::Master;
using pairing::Node;
using pairing::Outcome;
using pairing::Sort;

// The drawing holds its buffers, 18 KB: in the editor it is a member of the document, here it is static.
static pairing::Drawing drawing;

static void draw(std::size_t from) {
    const pairing::View<const pairing::Link> links = drawing.links();
    for (std::size_t row = from; row < links.size(); ++row)
        std::printf("  %zu: light %u - bold %u, amount %u\n", row, links[row].a(), links[row].b(), links[row].amount());
}

static void change(const char *what, const Edit &edit) {
    const Outcome outcome = drawing.edit(edit);
    if (!outcome) {
        std::printf("%s: refused: %s: %s\n", what, outcome.name(), outcome.text());
        return;
    }
    std::printf("%s: draw again from row %u of %zu\n", what, outcome.value(), drawing.links().size());
    draw(outcome.value());
}

int main() {
    // Number, horizontal, vertical, capacity.
    const Node light[] = {{1, 100, 0, 1}, {2, 160, 0, 1}, {3, 160, 700, 2}};
    const Node bold[] = {{1, 80, 0, 1}, {2, 190, 0, 1}, {3, 190, 720, 1}, {4, 80, 720, 1}};

    const Outcome loaded = drawing.load(light, bold);
    if (!loaded) {
        std::printf("refused: %s: %s; row %u\n", loaded.name(), loaded.text(), loaded.value());
        return 1;
    }
    std::printf("pairing %s: %u links\n", PAIRING_VERSION, loaded.value());
    draw(0);

    change("light 3 gets capacity 1", Edit::new_capacity(Master::light, 3, 1, Sort::on_curve));
    change("light 4 arrives", Edit::arrival(Master::light, {4, 100, 700, 1}));
    change("light 9 moves", Edit::move(Master::light, 9, 0, 0));

    const Outcome left = drawing.spare(Master::bold, 4);
    std::printf("bold 4 has %u left\n", left.value());
    return left ? 0 : 1;
}
