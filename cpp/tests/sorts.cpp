// On-curve and off-curve nodes: only nodes of one sort pair.
#include "harness.hpp"

#include <algorithm>
#include <tuple>

using namespace pairing;
using harness::is;
using harness::is_done;
using harness::links_of;
using harness::Memory;
using harness::node;
using harness::Random;
using harness::some_nodes;
using harness::Sorts;

namespace {

using Nodes = std::vector<Node>;
using Links = std::vector<Link>;

constexpr Sort on = Sort::on_curve, off = Sort::off_curve;

// What a drawing of these nodes has as its links; each load is done.
Links links(const Nodes &light, const Nodes &bold) {
    Drawing drawing;
    const Outcome outcome = drawing.load(light, bold);
    CHECK(is_done(outcome, static_cast<std::uint32_t>(drawing.links().size())));
    return links_of(drawing);
}

Nodes of_sort(const Nodes &nodes, Sort sort) {
    Nodes some;
    for (const Node &one : nodes)
        if (one.sort() == sort) some.push_back(one);
    return some;
}

const Node &numbered(const Nodes &nodes, int number) {
    return *std::find_if(nodes.begin(), nodes.end(), [=](const Node &one) { return one.number() == number; });
}

Memory bytes_of(const Drawing &drawing) {
    const auto *start = reinterpret_cast<const std::uint8_t *>(&drawing);
    return {start, start + sizeof drawing};
}

// A function of Drawing that is refused: the engine is asked once, and no byte changes.
template <class Set>
void refused(Drawing &drawing, Refusal refusal, const Set &set) {
    const Memory before = bytes_of(drawing);
    const std::size_t calls = harness::engine_calls();
    CHECK(is(set(), refusal, 0));
    CHECK(harness::engine_calls() == calls + 1);
    CHECK(bytes_of(drawing) == before);
}

}  // namespace

TEST(a_nearer_node_of_the_other_sort_is_passed_over) {
    for (const Sort sort : {on, off}) {
        const Sort other = sort == on ? off : on;
        const Nodes light = {node(1, 0, 0, 1, sort)};
        const Nodes bold = {node(1, 1, 0, 1, other), node(2, 100, 0, 1, sort)};
        CHECK(links(light, bold) == (Links{{1, 2, 10000, 1}}));
        CHECK(links(light, {node(1, 1, 0, 1, sort), bold[1]}) == (Links{{1, 1, 1, 1}}));
    }
}

TEST(what_is_left_is_not_for_the_other_sort) {
    Drawing drawing;
    const Node light[] = {node(1, 0, 0, 3)}, bold[] = {node(1, 0, 0, 3, off), node(2, 9, 0, 1)};
    CHECK(is_done(drawing.load(light, bold), 1));
    CHECK(drawing.links()[0] == Link(1, 2, 81, 1));
    CHECK(is_done(drawing.spare(Master::light, 1), 2));
    CHECK(is_done(drawing.spare(Master::bold, 1), 3));
}

TEST(masters_of_different_sorts_have_no_link) {
    Drawing drawing;
    const Node light[] = {node(1, 0, 0, 64), node(2, 5, 5)}, bold[] = {node(1, 0, 0, 64, off), node(2, 5, 5, 1, off)};
    CHECK(is_done(drawing.load(light, bold), 0));
    CHECK(drawing.links().size() == 0 && is_done(drawing.step(), 0));
    CHECK(is_done(drawing.spare(Master::bold, 1), 64));
}

// Distance and numbers settle the order of the links, whichever sort they are of.
TEST(links_of_both_sorts_stand_in_one_order) {
    const Links same = {{1, 1, 25, 1}, {2, 2, 25, 1}};
    CHECK(links({node(1, 0, 0), node(2, 0, 100, 1, off)}, {node(1, 5, 0), node(2, 5, 100, 1, off)}) == same);
    CHECK(links({node(1, 0, 100, 1, off), node(2, 0, 0)}, {node(1, 5, 100, 1, off), node(2, 5, 0)}) == same);
    CHECK(links({node(1, 0, 0), node(2, 0, 100, 1, off)}, {node(1, 5, 0), node(2, 3, 100, 1, off)}) ==
          (Links{{2, 2, 9, 1}, {1, 1, 25, 1}}));
}

TEST(each_sort_is_paired_as_if_by_itself) {
    Random random{7};
    for (const int count : {12, 20, 33, 64, 100, PAIRING_TABLE_ROWS}) {
        const Nodes light = some_nodes(random, count, Sorts::with_handles);
        const Nodes bold = some_nodes(random, count, Sorts::with_handles);
        const Links both = links(light, bold);
        for (const Sort sort : {on, off}) {
            Links some;
            for (const Link &link : both) {
                CHECK(numbered(light, link.a()).sort() == numbered(bold, link.b()).sort());
                if (numbered(light, link.a()).sort() == sort) some.push_back(link);
            }
            CHECK(some == links(of_sort(light, sort), of_sort(bold, sort)) && !some.empty());
        }
        CHECK(std::is_sorted(both.begin(), both.end(), [](const Link &one, const Link &other) {
            return std::make_tuple(one.distance(), one.a(), one.b()) <
                   std::make_tuple(other.distance(), other.a(), other.b());
        }));
    }
}

TEST(steps_and_spares_of_both_sorts) {
    Random random{8};
    Drawing drawing;
    const Nodes light = some_nodes(random, 40, Sorts::with_handles), bold = some_nodes(random, 20, Sorts::with_handles);
    CHECK(drawing.load(light, bold).done());
    const Links all = links_of(drawing);
    for (const Node &one : drawing.light()) {
        std::uint32_t used = 0;
        for (const Link &link : all) used += link.a() == one.number() ? link.amount() : 0;
        CHECK(is_done(drawing.spare(Master::light, one.number()), one.capacity() - used));
    }
    drawing.restart();
    while (drawing.step().value() == 1) CHECK(drawing.links().size() <= all.size());
    CHECK(links_of(drawing) == all && !all.empty());
}

TEST(capacities_of_handles) {
    Drawing drawing;
    const Node most[] = {node(1, 0, 0, 64, off)}, some[] = {node(1, 0, 0, 60, off)};
    CHECK(is_done(drawing.load(most, some), 1));
    CHECK(drawing.links()[0] == Link(1, 1, 0, 60) && is_done(drawing.spare(Master::light, 1), 4));
    for (const int capacity : {65, 0, 255}) {
        const Node wrong[] = {node(1, 0, 0, capacity, off)};
        CHECK(is(drawing.load(wrong, some), Refusal::table_a, 0));
        CHECK(is(drawing.load(most, wrong), Refusal::table_b, 0));
    }
    CHECK(is(drawing.edit(Edit::new_capacity(Master::bold, 1, 65, off)), Refusal::field, 0));
    CHECK(is_done(drawing.edit(Edit::new_capacity(Master::bold, 1, 64, off)), 0));
    CHECK(drawing.links()[0] == Link(1, 1, 0, 64) && is_done(drawing.spare(Master::light, 1), 0));
}

TEST(a_node_that_changes_its_sort_loses_its_links) {
    Drawing drawing;
    const Node light[] = {node(1, 0, 0), node(2, 10, 0)}, bold[] = {node(1, 4, 0), node(2, 12, 0)};
    CHECK(is_done(drawing.load(light, bold), 2));
    const Memory before = bytes_of(drawing);
    const Links both = {{2, 2, 4, 1}, {1, 1, 16, 1}}, one = {{1, 1, 16, 1}};
    CHECK(links_of(drawing) == both);
    CHECK(is_done(drawing.edit(Edit::new_capacity(Master::light, 2, 1, off)), 0));
    CHECK(links_of(drawing) == one && drawing.light()[1].sort() == off);
    CHECK(is_done(drawing.spare(Master::light, 2), 1) && is_done(drawing.spare(Master::bold, 2), 1));
    // Its partner follows, and they are linked as handles.
    CHECK(is_done(drawing.set_sort(Master::bold, 2, off), 0));
    CHECK(links_of(drawing) == both);
    CHECK(is_done(drawing.set_sort(Master::light, 2, on), 0));
    CHECK(links_of(drawing) == one);
    CHECK(is_done(drawing.set_sort(Master::bold, 2, on), 0));
    CHECK(bytes_of(drawing) == before);
}

TEST(one_of_capacity_and_sort_is_set_and_the_other_kept) {
    Drawing drawing;
    // The two masters have the same number with different fields.
    const Node light[] = {node(5, 0, 0, 2, off)}, bold[] = {node(5, 0, 0, 3), node(6, 9, 0, 4, off)};
    CHECK(is_done(drawing.load(light, bold), 1));
    CHECK(links_of(drawing) == (Links{{5, 6, 81, 2}}));
    const std::size_t calls = harness::engine_calls();
    CHECK(is_done(drawing.set_capacity(Master::light, 5, 7), 0));
    CHECK(drawing.light()[0] == node(5, 0, 0, 7, off) && links_of(drawing) == (Links{{5, 6, 81, 4}}));
    CHECK(is_done(drawing.set_capacity(Master::bold, 5, 9), 1));
    CHECK(drawing.bold()[0] == node(5, 0, 0, 9, on) && drawing.bold()[1] == bold[1]);
    CHECK(is_done(drawing.set_sort(Master::light, 5, on), 0));
    CHECK(drawing.light()[0] == node(5, 0, 0, 7, on) && links_of(drawing) == (Links{{5, 5, 0, 7}}));
    CHECK(is_done(drawing.set_sort(Master::bold, 6, on), 1));
    CHECK(drawing.bold()[1] == node(6, 9, 0, 4, on) && drawing.bold()[0] == node(5, 0, 0, 9, on));
    CHECK(is_done(drawing.set_sort(Master::bold, 6, on), 1));
    CHECK(harness::engine_calls() == calls + 5);
}

TEST(setting_the_capacity_or_the_sort_is_refused_as_an_edit_is) {
    Drawing drawing;
    const Node light[] = {node(5, 0, 0, 2, off)}, bold[] = {node(5, 0, 0, 3, off), node(6, 9, 0, 4, off)};
    CHECK(is_done(drawing.load(light, bold), 1));
    const auto capacity = [&](Master master, int number, int to, Refusal refusal) {
        refused(drawing, refusal, [&] { return drawing.set_capacity(master, number, to); });
    };
    const auto sort = [&](Master master, int number, int to, Refusal refusal) {
        refused(drawing, refusal, [&] { return drawing.set_sort(master, number, static_cast<Sort>(to)); });
    };
    for (const int wrong : {0, 65, 255, 256 + 7, -255}) capacity(Master::light, 5, wrong, Refusal::field);
    for (const int wrong : {2, 3, 128, 255}) sort(Master::light, 5, wrong, Refusal::field);
    // No number may be cut to that of a node.
    for (const int number : {0, -1, 65536 + 5}) {
        capacity(Master::light, number, 1, Refusal::field);
        sort(Master::light, number, 0, Refusal::field);
    }
    capacity(Master::light, 6, 1, Refusal::number);
    sort(Master::light, 6, 1, Refusal::number);
    capacity(static_cast<Master>(2), 5, 1, Refusal::master);
    sort(static_cast<Master>(2), 5, 0, Refusal::master);
    drawing.restart();
    capacity(Master::light, 5, 1, Refusal::unfinished);
    sort(Master::light, 5, 0, Refusal::unfinished);
}

// Tables with capacities of two bytes.
TEST(old_tables_are_on_curve) {
    Memory a = {1, 0, 0, 0, 0, 0, 3, 0}, b = {1, 0, 0, 0, 0, 0, 2, 0, 2, 0, 0, 0, 3, 0, 2, 0};
    a.resize(PAIRING_TABLE_BYTES);
    b.resize(PAIRING_TABLE_BYTES);
    Table light;
    const Bytes rows = light;
    std::copy(a.begin(), a.end(), rows.begin());
    CHECK(light[0] == node(1, 0, 0, 3, on) && light[0].sort() == on && light[0].capacity() == 3);
    List list;
    CHECK(is_done(pair(a, b, list), 2));
    CHECK(list[0] == Link(1, 1, 0, 2) && list[1] == Link(1, 2, 9, 1));
    // A handle on the very spot changes nothing.
    CHECK(is_done(edit(a, b, list, Edit::arrival(Master::bold, node(3, 0, 0, 64, off))), 2));
    CHECK(list.used().size() == 2 && is_done(spare(a, b, list, Master::bold, 3), 64));
}
