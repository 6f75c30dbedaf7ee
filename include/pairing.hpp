// pairing.hpp - the C++17 wrapper of pairing.h, which is the manual of the calls.
//
// No exceptions, no allocation, no state: calls on different buffers may run on different threads.
//
// A call takes views of bytes and gives an Outcome. Beside what the engine refuses, the wrapper refuses a written
// buffer that overlaps another one, and a null pointer whose length is not 0; it does so ahead of the engine, which is
// then not called. An empty view may be null. A refused call has changed no byte.
#ifndef PAIRING_HPP
#define PAIRING_HPP

#include "pairing_rows.hpp"

#include <initializer_list>

namespace pairing {

// The engine's refusals, and two of the wrapper that no answer of the engine has a number for.
enum class Refusal : std::uint32_t {
    none = PAIRING_DONE,
    length = PAIRING_REFUSED_LENGTH,
    table_a = PAIRING_REFUSED_TABLE_A,
    table_b = PAIRING_REFUSED_TABLE_B,
    list = PAIRING_REFUSED_LIST,
    unfinished = PAIRING_REFUSED_UNFINISHED,
    kind = PAIRING_REFUSED_KIND,
    master = PAIRING_REFUSED_MASTER,
    field = PAIRING_REFUSED_FIELD,
    number = PAIRING_REFUSED_NUMBER,
    full = PAIRING_REFUSED_FULL,
    overlap = 0x10000,
    null_pointer = 0x10001
};

namespace detail {

struct Words {
    const char *name;
    const char *text;
};

constexpr Words words(Refusal refusal) noexcept {
    switch (refusal) {
        case Refusal::none: return {"none", "the call is done"};
        case Refusal::length: return {"length", "a buffer is shorter or longer than its stated size"};
        case Refusal::table_a: return {"table_a", "table A has a faulty row; the value is the first"};
        case Refusal::table_b: return {"table_b", "table B has a faulty row; the value is the first"};
        case Refusal::list: return {"list", "the list is not that of the tables; the value is the first wrong row"};
        case Refusal::unfinished: return {"unfinished", "the list ends too early; the value is the first missing row"};
        case Refusal::kind: return {"kind", "the kind of the edit is not one of the four"};
        case Refusal::master: return {"master", "the master is neither A nor B"};
        case Refusal::field: return {"field", "the number is 0, or a field of the edit is not zero or not in range"};
        case Refusal::number: return {"number", "an arrival of a number in use, or else a number that no node has"};
        case Refusal::full: return {"full", "an arrival into a master that is full"};
        case Refusal::overlap: return {"overlap", "a written buffer overlaps another one"};
        case Refusal::null_pointer: return {"null_pointer", "a pointer is null and its length is not 0"};
    }
    return {"unknown", "a refusal that this header does not know"};
}

}  // namespace detail

constexpr const char *name(Refusal refusal) noexcept { return detail::words(refusal).name; }
constexpr const char *text(Refusal refusal) noexcept { return detail::words(refusal).text; }

// What a call gives: done with a value, or refused with one, which for a table or a list is the row at fault.
class [[nodiscard]] Outcome {
public:
    constexpr Outcome(Refusal refusal, std::uint32_t value) noexcept : refusal_(refusal), value_(value) {}
    static constexpr Outcome of(std::uint32_t answer) noexcept {
        return {static_cast<Refusal>(PAIRING_REFUSAL(answer)), PAIRING_VALUE(answer)};
    }
    constexpr bool done() const noexcept { return refusal_ == Refusal::none; }
    constexpr explicit operator bool() const noexcept { return done(); }
    constexpr Refusal refusal() const noexcept { return refusal_; }
    constexpr std::uint32_t value() const noexcept { return value_; }
    constexpr const char *name() const noexcept { return pairing::name(refusal_); }
    constexpr const char *text() const noexcept { return pairing::text(refusal_); }

private:
    Refusal refusal_;
    std::uint32_t value_;
};

namespace detail {

// A buffer of a call: where it stands, and whether the call writes it.
struct Lent {
    Lent(Bytes bytes) noexcept : Lent(bytes, true) {}
    Lent(ConstBytes bytes) noexcept : Lent(bytes, false) {}
    Lent(ConstBytes bytes, bool is_written) noexcept
        : start(reinterpret_cast<std::uintptr_t>(bytes.data())),
          size(bytes.size()),
          null(!bytes.data() && bytes.size() > 0),
          written(is_written) {}

    std::uintptr_t start;
    std::size_t size;
    bool null;
    bool written;
};

// Whether the two have a byte in common. The difference of two starts cannot overflow; a start and a size could.
inline bool overlap(const Lent &one, const Lent &other) noexcept {
    if (one.size == 0 || other.size == 0) return false;
    return one.start <= other.start ? other.start - one.start < one.size : one.start - other.start < other.size;
}

// What the wrapper itself refuses.
template <std::size_t count>
Refusal refusal_of(const Lent (&lent)[count]) noexcept {
    for (const Lent &one : lent)
        if (one.null) return Refusal::null_pointer;
    for (std::size_t k = 1; k < count; ++k)
        for (std::size_t i = 0; i < k; ++i)
            if ((lent[i].written || lent[k].written) && overlap(lent[i], lent[k])) return Refusal::overlap;
    return Refusal::none;
}

inline constexpr std::uint8_t nothing = 0;

// A valid pointer, which an empty view may lack. Behind an empty one nothing is read or written.
template <class T>
T *address(View<T> view) noexcept {
    return view.data() ? view.data() : const_cast<T *>(&nothing);
}

// Pair and Step take and write the same buffers.
inline Outcome write_links(decltype(pairing_pair) *call, ConstBytes a, ConstBytes b, Bytes list) noexcept {
    const Refusal refusal = refusal_of({a, b, list});
    if (refusal != Refusal::none) return {refusal, 0};
    return Outcome::of(call(address(a), a.size(), address(b), b.size(), address(list), list.size()));
}

}  // namespace detail

// Writes the finished list of the two tables, whatever the list holds. Value: how many links.
inline Outcome pair(ConstBytes a, ConstBytes b, Bytes list) noexcept {
    return detail::write_links(pairing_pair, a, b, list);
}

// Writes the next link of a list that holds the first ones. Value: 1, or 0 where the list is finished.
inline Outcome step(ConstBytes a, ConstBytes b, Bytes list) noexcept {
    return detail::write_links(pairing_step, a, b, list);
}

// Changes one node and keeps the list finished. Value: rows kept; draw the links from that row on again.
inline Outcome edit(Bytes a, Bytes b, Bytes list, ConstBytes edit) noexcept {
    using detail::address;
    const Refusal refusal = detail::refusal_of({a, b, list, edit});
    if (refusal != Refusal::none) return {refusal, 0};
    return Outcome::of(pairing_edit(address(a), a.size(), address(b), b.size(), address(list), list.size(),
                                    address(edit), edit.size()));
}

// Value: what a node has left. A number of more than two bytes counts as 0.
inline Outcome spare(ConstBytes a, ConstBytes b, ConstBytes list, Master master, int number) noexcept {
    using detail::address;
    const Refusal refusal = detail::refusal_of({a, b, list});
    if (refusal != Refusal::none) return {refusal, 0};
    return Outcome::of(pairing_spare(address(a), a.size(), address(b), b.size(), address(list), list.size(),
                                     static_cast<std::uint8_t>(master), Node{number, 0, 0, 0}.number()));
}

// Counts the links by the binary digits of their squared distance. Value: 0.
inline Outcome bands(ConstBytes a, ConstBytes b, ConstBytes list, Bytes counts) noexcept {
    using detail::address;
    const Refusal refusal = detail::refusal_of({a, b, list, counts});
    if (refusal != Refusal::none) return {refusal, 0};
    return Outcome::of(pairing_bands(address(a), a.size(), address(b), b.size(), address(list), list.size(),
                                     address(counts), counts.size()));
}

// Two tables and a list of its own, 18,422 bytes; at first no nodes, and so the list is finished. Threads that share
// one take turns; a copy is a drawing of its own.
class Drawing {
public:
    // Takes these nodes and pairs them. Value: how many links. Refused: the drawing stays as it was; more nodes than a
    // table has rows are a length.
    Outcome load(View<const Node> light, View<const Node> bold) noexcept {
        for (const View<const Node> nodes : {light, bold}) {
            if (!nodes.data() && nodes.size() > 0) return {Refusal::null_pointer, 0};
            if (nodes.size() > PAIRING_TABLE_ROWS) return {Refusal::length, 0};
        }
        const Table a = table_of(light), b = table_of(bold);
        const Outcome outcome = pairing::pair(a, b, list_);
        if (outcome) {
            a_ = a;
            b_ = b;
        }
        return outcome;
    }
    // Takes all links out of the list, so that step can show them come one by one.
    void restart() noexcept { list_ = List(); }

    Outcome pair() noexcept { return pairing::pair(a_, b_, list_); }
    Outcome step() noexcept { return pairing::step(a_, b_, list_); }
    Outcome edit(const Edit &edit) noexcept { return pairing::edit(a_, b_, list_, edit); }
    // An edit that sets one of the two, and keeps the other as the node has it.
    Outcome set_capacity(Master master, int number, int capacity) noexcept {
        return edit(Edit::new_capacity(master, number, capacity, node(master, number).sort()));
    }
    Outcome set_sort(Master master, int number, Sort sort) noexcept {
        return edit(Edit::new_capacity(master, number, node(master, number).capacity(), sort));
    }
    Outcome spare(Master master, int number) const noexcept { return pairing::spare(a_, b_, list_, master, number); }
    Outcome bands(Counts &counts) const noexcept { return pairing::bands(a_, b_, list_, counts); }

    View<const Node> light() const noexcept { return a_.used(); }
    View<const Node> bold() const noexcept { return b_.used(); }
    View<const Link> links() const noexcept { return list_.used(); }

private:
    static Table table_of(View<const Node> nodes) noexcept {
        Table table;
        for (std::size_t row = 0; row < nodes.size(); ++row) table[row] = nodes[row];
        return table;
    }
    // For a number that the master has not, fields in range: it is then the number that the engine refuses.
    Node node(Master master, int number) const noexcept {
        for (const Node &one : master == Master::light ? light() : bold())
            if (one.number() == number) return one;
        return {0, 0, 0, PAIRING_CAPACITY_MIN};
    }

    Table a_;
    Table b_;
    List list_;
};

static_assert(sizeof(Drawing) == 2 * PAIRING_TABLE_BYTES + PAIRING_LIST_BYTES);

}  // namespace pairing

#endif  // PAIRING_HPP
