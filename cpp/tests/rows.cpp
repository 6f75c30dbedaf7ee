// Rows, views and outcomes, without the engine.
#include "harness.hpp"

#include <array>
#include <set>

using namespace pairing;
using harness::copy;
using harness::node;

using Byte = std::vector<std::uint8_t>;

TEST(node_bytes) {
    const Node all(0x1234, -2, 0x0102, 0x43, Sort::off_curve);
    CHECK(copy(all.bytes()) == (Byte{0x34, 0x12, 0xfe, 0xff, 0x02, 0x01, 0x43, 0x01}));
    CHECK(all.number() == 0x1234 && all.horizontal() == -2 && all.vertical() == 0x0102 && all.capacity() == 0x43);
    CHECK(all.sort() == Sort::off_curve);
    CHECK(copy(Node().bytes()) == Byte(PAIRING_NODE_BYTES));
    static_assert(Node{65535, -32768, 32767, 255}.horizontal() == -32768);
    static_assert(Node{65535, -32768, 32767, 255}.vertical() == 32767);
    static_assert(Node{65535, -32768, 32767, 255}.capacity() == 255);
}

TEST(a_node_without_a_sort_is_on_curve) {
    CHECK(copy(Node(1, 2, 3, 64).bytes()) == (Byte{1, 0, 2, 0, 3, 0, 64, 0}));
    CHECK(Node(1, 2, 3, 64) == Node(1, 2, 3, 64, Sort::on_curve) && Node(1, 2, 3, 64).sort() == Sort::on_curve);
    CHECK(Node(1, 2, 3, 64) != Node(1, 2, 3, 64, Sort::off_curve));
    CHECK(Node().sort() == Sort::on_curve);
}

TEST(link_bytes) {
    const Link link(0x0102, 0x0304, 0x80000000, 0x0506);
    CHECK(copy(link.bytes()) == (Byte{2, 1, 4, 3, 0, 0, 0, 0x80, 6, 5}));
    CHECK(link.a() == 0x0102 && link.b() == 0x0304 && link.distance() == 0x80000000 && link.amount() == 0x0506);
}

TEST(edit_bytes) {
    CHECK(copy(Edit::arrival(Master::b, node(7, -1, 2, 3)).bytes()) == (Byte{1, 1, 7, 0, 0xff, 0xff, 2, 0, 3, 0}));
    CHECK(copy(Edit::departure(Master::light, 7).bytes()) == (Byte{2, 0, 7, 0, 0, 0, 0, 0, 0, 0}));
    CHECK(copy(Edit::move(Master::bold, 7, 120, -40).bytes()) == (Byte{3, 1, 7, 0, 120, 0, 0xd8, 0xff, 0, 0}));
    CHECK(copy(Edit::new_capacity(Master::a, 7, 64, Sort::on_curve).bytes()) == (Byte{4, 0, 7, 0, 0, 0, 0, 0, 64, 0}));
    CHECK(copy(Edit(static_cast<Kind>(9), static_cast<Master>(8), 1, 2, 3, 4).bytes()) ==
          (Byte{9, 8, 1, 0, 2, 0, 3, 0, 4, 0}));
}

TEST(edit_bytes_of_a_handle) {
    const Sort off = Sort::off_curve;
    CHECK(copy(Edit::arrival(Master::b, node(7, -1, 2, 3, off)).bytes()) == (Byte{1, 1, 7, 0, 0xff, 0xff, 2, 0, 3, 1}));
    CHECK(copy(Edit::new_capacity(Master::a, 7, 64, off).bytes()) == (Byte{4, 0, 7, 0, 0, 0, 0, 0, 64, 1}));
    CHECK(copy(Edit(Kind::move, Master::a, 7, 2, 3, 0, off).bytes()) == (Byte{3, 0, 7, 0, 2, 0, 3, 0, 0, 1}));
}

// The byte stays what it is: cut to one bit it would be one of the two sorts.
TEST(a_sort_without_a_name_keeps_its_byte) {
    for (const int number : {2, 3, 64, 128, 255}) {
        const auto byte = static_cast<std::uint8_t>(number);
        const Node wrong(1, 0, 0, 1, static_cast<Sort>(number));
        CHECK(copy(wrong.bytes()) == (Byte{1, 0, 0, 0, 0, 0, 1, byte}) && wrong.sort() == static_cast<Sort>(number));
        CHECK(Edit::arrival(Master::a, wrong).bytes()[9] == byte);
        CHECK(Edit::new_capacity(Master::a, 1, 1, static_cast<Sort>(number)).bytes()[9] == byte);
    }
}

TEST(values_that_do_not_fit) {
    const Byte refused = {0, 0, 0, 0, 0, 0, 0xff, 0xff};
    const Node nodes[] = {{65536, 0, 0, 1}, {-1, 0, 0, 1},     {1, 32768, 0, 1}, {1, -32769, 0, 1},
                          {1, 0, 32768, 1}, {1, 0, -32769, 1}, {1, 0, 0, 65536}, {1, 0, 0, -1},
                          {1, 0, 0, 256},   {1, 0, 0, 257},    {1, 0, 0, 320},   {1, 0, 0, 257, Sort::off_curve}};
    for (const Node &one : nodes) {
        CHECK(copy(one.bytes()) == refused);
        CHECK(Edit::arrival(Master::a, one) != Edit::arrival(Master::a, node(1, 0, 0)));
    }
    for (const Edit &one : {Edit::move(Master::a, 65536 + 7, 0, 0), Edit::move(Master::a, 7, 65536, 0),
                            Edit::move(Master::a, 7, 0, -65536),
                            Edit::new_capacity(Master::a, 7, 65537, Sort::on_curve),
                            Edit::new_capacity(Master::a, 7, 257, Sort::on_curve),
                            Edit::new_capacity(Master::a, 7, -255, Sort::off_curve)})
        CHECK(one.bytes()[2] == 0 && one.bytes()[3] == 0);
}

TEST(equality) {
    CHECK(node(1, 2, 3) == node(1, 2, 3));
    CHECK(node(1, 2, 3) != node(1, 2, 3, 2));
    CHECK(Link(1, 2, 3, 4) != Link(1, 2, 3, 5));
}

TEST(views) {
    std::vector<std::uint8_t> bytes = {1, 2, 3};
    const std::array<std::uint8_t, 2> fixed = {4, 5};
    std::uint8_t plain[4] = {6, 7, 8, 9};
    const Bytes written = bytes;
    const ConstBytes read = written, other = fixed, third = plain, empty;
    CHECK(read.data() == bytes.data() && read.size() == 3 && read[2] == 3);
    CHECK(other.data() == fixed.data() && other.size() == 2);
    CHECK(third.data() == plain && third.size() == 4 && third.end() - third.begin() == 4);
    CHECK(empty.data() == nullptr && empty.size() == 0);
    static_assert(!std::is_convertible_v<ConstBytes, Bytes>);
    static_assert(!std::is_convertible_v<const std::vector<std::uint8_t> &, Bytes>);
    static_assert(!std::is_convertible_v<const Table &, Bytes>);
    static_assert(!std::is_convertible_v<View<const Node>, ConstBytes>);
}

TEST(rows_in_use) {
    Table table;
    CHECK(table.used().size() == 0);
    table[0] = node(5, 0, 0);
    table[1] = node(6, 0, 0);
    table[3] = node(7, 0, 0);
    CHECK(table.used().size() == 2 && table.used()[1].number() == 6 && table.used().data() == &table[0]);
    for (std::size_t row = 0; row < PAIRING_TABLE_ROWS; ++row) table[row] = node(1, 0, 0);
    CHECK(table.used().size() == PAIRING_TABLE_ROWS);
    const ConstBytes bytes = table;
    CHECK(bytes.size() == PAIRING_TABLE_BYTES && bytes[PAIRING_NODE_BYTES] == 1);
    CHECK(ConstBytes(List()).size() == PAIRING_LIST_BYTES && ConstBytes(Counts()).size() == PAIRING_COUNTS_BYTES);
}

TEST(outcomes) {
    const Outcome refused = Outcome::of(4 * 65536 + 1022);
    CHECK(!refused && !refused.done() && refused.refusal() == Refusal::list && refused.value() == 1022);
    const Outcome done = Outcome::of(1023);
    CHECK(done && done.done() && done.refusal() == Refusal::none && done.value() == 1023);
}

TEST(names_and_texts) {
    std::set<std::string> names, texts;
    const Refusal own[] = {Refusal::overlap, Refusal::null_pointer};
    for (std::uint32_t number = 0; number <= PAIRING_REFUSED_FULL; ++number) {
        const Outcome outcome = Outcome::of(number * 65536);
        CHECK(name(outcome.refusal()) == std::string(outcome.name()));
        names.insert(outcome.name());
        texts.insert(outcome.text());
    }
    for (const Refusal refusal : own) {
        names.insert(name(refusal));
        texts.insert(text(refusal));
    }
    CHECK(names.size() == 13 && texts.size() == 13 && names.count("unknown") == 0);
    // No answer has the number of a refusal of the wrapper.
    for (const Refusal refusal : own) CHECK(static_cast<std::uint32_t>(refusal) > PAIRING_REFUSAL(0xffffffff));
    CHECK(name(Outcome::of(11 * 65536).refusal()) == std::string("unknown"));
}

TEST(version) {
    const std::string parts = std::to_string(PAIRING_VERSION_MAJOR) + "." + std::to_string(PAIRING_VERSION_MINOR) +
                              "." + std::to_string(PAIRING_VERSION_PATCH);
    CHECK(parts == PAIRING_VERSION);
}
