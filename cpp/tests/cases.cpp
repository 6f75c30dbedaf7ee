// The cases E1 to E11 of the scope document, through the wrapper; E11 also through the replay program.
#include "harness.hpp"

#include <cstdio>
#include <cstdlib>

using namespace pairing;
using harness::is;
using harness::is_done;
using harness::node;
using harness::World;

namespace {

using Nodes = std::vector<Node>;
using Links = std::vector<Link>;

Drawing load(const Nodes &light, const Nodes &bold, const Links &links) {
    Drawing drawing;
    CHECK(is_done(drawing.load(light, bold), static_cast<std::uint32_t>(links.size())));
    CHECK(Links(drawing.links().begin(), drawing.links().end()) == links);
    return drawing;
}

Drawing e7() {
    return load({node(1, 0, 0), node(2, 3, 0, 2)}, {node(1, 1, 0, 2), node(2, 7, 0)},
                {{1, 1, 1, 1}, {2, 1, 4, 1}, {2, 2, 16, 1}});
}

Drawing e11() {
    return load({node(1, 0, 0), node(2, 10, 0)}, {node(1, 4, 0), node(2, 12, 0)}, {{2, 2, 4, 1}, {1, 1, 16, 1}});
}

const Edit e11_edits[] = {Edit::arrival(Master::a, node(3, 5, 0)), Edit::departure(Master::a, 2)};

const char *const e11_text =
    "load 2\nedit 1 kept 0 links 2\nedit 2 kept 1 links 2\nlink 3 1 1 1\nlink 1 2 144 1\n";

}  // namespace

TEST(e1_both_empty) {
    Drawing drawing = load({}, {}, {});
    CHECK(is_done(drawing.pair(), 0));
    CHECK(is_done(drawing.step(), 0));
}

TEST(e2_one_empty) {
    Drawing drawing = load({node(1, 0, 0)}, {}, {});
    CHECK(is_done(drawing.spare(Master::a, 1), 1));
}

TEST(e3_corners) {
    Drawing drawing = load({node(1, -16384, -16384)}, {node(1, 16384, 16384)}, {{1, 1, 2147483648, 1}});
    Counts counts;
    CHECK(is_done(drawing.bands(counts), 0));
    for (std::size_t k = 0; k < PAIRING_BANDS; ++k) CHECK(counts[k] == (k == 32));
}

TEST(e4_ranges) {
    Drawing drawing;
    const Node far[] = {node(1, 16385, 0)}, most[] = {node(1, 0, 0, 64)}, more[] = {node(1, 0, 0, 65)};
    CHECK(is(drawing.load(far, {}), Refusal::table_a, 0));
    CHECK(is(drawing.load({}, far), Refusal::table_b, 0));
    CHECK(is_done(drawing.load(most, most), 1));
    CHECK(is(drawing.load(more, most), Refusal::table_a, 0));
    CHECK(drawing.light().size() == 1 && drawing.light()[0] == most[0] && drawing.links().size() == 1);
}

TEST(e5_tie) {
    const Links links = {{1, 1, 1, 1}};
    load({node(1, 0, 0), node(2, 2, 0)}, {node(1, 1, 0)}, links);
    load({node(2, 2, 0), node(1, 0, 0)}, {node(1, 1, 0)}, links);
}

TEST(e6_capacities) {
    Drawing drawing = load({node(1, 0, 0, 3)}, {node(1, 0, 0, 2), node(2, 0, 3, 2)}, {{1, 1, 0, 2}, {1, 2, 9, 1}});
    CHECK(is_done(drawing.spare(Master::b, 2), 1));
}

TEST(e7_most_links) { e7(); }

TEST(e8_lists_that_are_not_finished) {
    Drawing drawing = e7();
    const Links finished(drawing.links().begin(), drawing.links().end());
    drawing.restart();
    for (const int kind : {0, 1, 2, 3, 4, 5})
        CHECK(is(drawing.edit({static_cast<Kind>(kind), Master::a, 1, 0, 0, 1}), Refusal::unfinished, 0));
    CHECK(is_done(drawing.step(), 1));
    CHECK(drawing.links().size() == 1 && drawing.links()[0] == finished[0]);

    World world = harness::e7();
    world.list[0] = Link();
    CHECK(is(step(world.a, world.b, world.list), Refusal::list, 0));
}

TEST(e9_nothing_changed) {
    Drawing drawing = e7();
    CHECK(is_done(drawing.edit(Edit::move(Master::a, 2, 3, 0)), 3));
}

TEST(e10_full_master) {
    Nodes light;
    for (int k = 1; k <= PAIRING_TABLE_ROWS; ++k) light.push_back(node(k, k, -k));
    Drawing drawing = load(light, {}, {});
    CHECK(is(drawing.edit(Edit::arrival(Master::a, node(512, 0, 0))), Refusal::number, 0));
    CHECK(is(drawing.edit(Edit::arrival(Master::a, node(513, 0, 0))), Refusal::full, 0));
}

TEST(e11_wrapper) {
    Drawing drawing = e11();
    std::string text = "load " + std::to_string(drawing.links().size()) + "\n";
    int count = 0;
    for (const Edit &edit : e11_edits) {
        const Outcome outcome = drawing.edit(edit);
        CHECK(outcome.done());
        text += "edit " + std::to_string(++count) + " kept " + std::to_string(outcome.value()) + " links " +
                std::to_string(drawing.links().size()) + "\n";
    }
    for (const Link &link : drawing.links())
        text += "link " + std::to_string(link.a()) + " " + std::to_string(link.b()) + " " +
                std::to_string(link.distance()) + " " + std::to_string(link.amount()) + "\n";
    CHECK(text == e11_text);
}

// The program reads what the wrapper's types hold.
TEST(e11_replay_program) {
    CHECK(!harness::replay.empty());
    Table a, b;
    const Drawing drawing = e11();
    for (std::size_t row = 0; row < 2; ++row) {
        a[row] = drawing.light()[row];
        b[row] = drawing.bold()[row];
    }
    char input[] = "/tmp/pairing.XXXXXX";
    const int opened = mkstemp(input);
    CHECK(opened >= 0);
    if (opened < 0) return;
    std::FILE *file = fdopen(opened, "wb");
    for (const ConstBytes part : {ConstBytes(a), ConstBytes(b), ConstBytes(e11_edits[0]), ConstBytes(e11_edits[1])})
        CHECK(std::fwrite(part.data(), 1, part.size(), file) == part.size());
    CHECK(std::fclose(file) == 0);

    std::FILE *program = popen(("'" + harness::replay + "' <" + input).c_str(), "r");
    CHECK(program != nullptr);
    if (!program) return;
    std::string text;
    for (int c = std::fgetc(program); c != EOF; c = std::fgetc(program)) text += static_cast<char>(c);
    CHECK(pclose(program) == 0);
    CHECK(text == e11_text);
    std::remove(input);
}
