// Fuzz target: the engine's calls beside the model's (rust/fuzz), on drawings, damage and calls that the input asks for. A
// difference in an answer, in a lent byte or in one that is not lent ends the program.
#include "interface.hpp"
#include "pairing.hpp"

#include <algorithm>
#include <array>
#include <cstdio>
#include <cstdlib>
#include <iterator>
#include <map>
#include <string>

extern "C" std::uint32_t model_call(const char *name, const interface::Lent *lent, const std::uint64_t *numbers);

namespace {

using interface::Name;
using pairing::Edit;
using pairing::Kind;
using pairing::Master;
using pairing::Node;
using pairing::Sort;

// The input, a byte at a time; zeros behind its end.
class Input {
public:
    Input(const std::uint8_t *data, std::size_t size) : at_(data), end_(data + size) {}
    bool more() const { return at_ < end_; }
    std::uint8_t byte() { return more() ? *at_++ : std::uint8_t{0}; }
    std::size_t below(std::size_t end) { return (end > 256 ? word() : byte()) % end; }
    std::uint16_t word() {
        const unsigned low = byte();
        return static_cast<std::uint16_t>(low | unsigned{byte()} << 8);
    }

private:
    const std::uint8_t *at_, *end_;
};

// The tables, the list, and the edit or the counts, each with bytes around it that are never lent, or only where a buffer
// is lent too long.
constexpr std::size_t margin = 32;
constexpr std::size_t stated[] = {PAIRING_TABLE_BYTES, PAIRING_TABLE_BYTES, PAIRING_LIST_BYTES, PAIRING_COUNTS_BYTES};
constexpr std::size_t starts[] = {margin, 3 * margin + stated[0], 5 * margin + stated[0] + stated[1],
                                  7 * margin + stated[0] + stated[1] + stated[2]};
struct Memory {
    std::uint8_t bytes[starts[3] + stated[3] + margin];
    std::uint8_t *buffer(std::size_t which) { return bytes + starts[which]; }
};

struct Place {
    const char *name;
    std::size_t which, size;
};
constexpr Place places[] = {{"a", 0, PAIRING_TABLE_BYTES},
                            {"b", 1, PAIRING_TABLE_BYTES},
                            {"list", 2, PAIRING_LIST_BYTES},
                            {"edit", 3, PAIRING_EDIT_BYTES},
                            {"counts", 3, PAIRING_COUNTS_BYTES}};

// Where a buffer of this name stands, and its stated size.
const Place &place_of(const std::string &name) {
    for (const Place &place : places)
        if (place.name == name) return place;
    std::fprintf(stderr, "no place for a buffer of the name %s\n", name.c_str());
    std::abort();
}

// How often each call was done (number 0) or refused with which number; told at the end.
struct Tally {
    std::vector<std::array<long, PAIRING_REFUSED_FULL + 1>> times{interface::calls.size()};

    ~Tally() {
        for (std::size_t k = 0; k < times.size(); ++k) {
            std::fprintf(stderr, "%s by refusal number:", interface::calls[k].text);
            for (const long count : times[k]) std::fprintf(stderr, " %ld", count);
            std::fprintf(stderr, "\n");
        }
    }
};
Tally tally;

class World {
public:
    explicit World(Input &input) : input_(input) {
        std::fill(std::begin(now_.bytes), std::end(now_.bytes), std::uint8_t{0xc3});
        for (const std::size_t which : {0u, 1u, 2u}) std::fill_n(now_.buffer(which), stated[which], std::uint8_t{0});
        static const int scales[] = {1, 9, 128, 129};
        scale_ = scales[input_.below(4)];
        for (const std::size_t master : {0u, 1u}) fill(master, 12 - input_.below(13), input_);
        call(Name::pair);
    }

    void play() {
        for (int turn = 0; turn < 40 && input_.more(); ++turn) {
            const std::size_t way = input_.below(9 + interface::calls.size());
            if (way >= 9) {
                make(interface::calls[way - 9].name);
                continue;
            }
            switch (way) {
                case 1: damage(); break;
                case 2: now_ = sound_; break;
                case 3: length_ = {input_.below(4), input_.below(2 * margin)}; break;
                case 4: more_nodes(); break;
                default: edit(some_edit()); break;
            }
        }
    }

private:
    // A call with what the input has for it.
    void make(Name name) {
        switch (name) {
            case Name::pair:
            case Name::step: call(name); break;
            case Name::edit: raw_edit(); break;
            case Name::spare: spare(); break;
            case Name::bands: bands(); break;
        }
    }

    std::vector<interface::Lent> lend(const interface::Call &call, Memory &memory) const {
        std::vector<interface::Lent> lent;
        for (const interface::Buffer &buffer : call.buffers) {
            auto [name, which, size] = place_of(buffer.name);
            // From a margin more down; a few of them far too short.
            if (length_.by > 0 && length_.which == which)
                size = size + margin > length_.by * 3 ? size + margin - length_.by * 3 : 0;
            lent.push_back({memory.buffer(which), size});
        }
        return lent;
    }

    // Runs a call on both sides, and goes on from what they agree on.
    void call(Name name, const std::map<std::string, std::uint64_t> &given = {}) {
        const auto place = static_cast<std::size_t>(name);
        const interface::Call &call = interface::calls[place];
        std::vector<std::uint64_t> numbers;
        for (const char *number : call.numbers) numbers.push_back(given.at(number));
        Memory other = now_;
        const std::uint32_t right = model_call(call.text, lend(call, other).data(), numbers.data());
        const std::uint32_t answer = call.make(lend(call, now_).data(), numbers.data());
        const auto differs = std::mismatch(std::begin(now_.bytes), std::end(now_.bytes), other.bytes);
        const bool same = differs.first == std::end(now_.bytes);
        if (answer != right || !same) {
            std::fprintf(stderr, "%s answers %x, the model %x; ", call.text, answer, right);
            if (same) std::fprintf(stderr, "no byte differs\n");
            else std::fprintf(stderr, "byte %td is %d, the model's %d\n", differs.first - now_.bytes, *differs.first,
                              *differs.second);
            std::abort();
        }
        const std::uint32_t refusal = PAIRING_REFUSAL(answer);
        ++tally.times[place][refusal];
        if (refusal == PAIRING_DONE && (name == Name::pair || name == Name::edit)) sound_ = now_;
        // Damage is mended after two calls, or all later ones would only see that.
        const bool hurt = refusal >= PAIRING_REFUSED_TABLE_A && refusal <= PAIRING_REFUSED_UNFINISHED;
        if (hurt && ++hurts_ % 2 == 0) now_ = sound_;
        length_ = {0, 0};
    }

    std::size_t used(std::size_t master) {
        std::size_t rows = 0;
        while (rows < PAIRING_TABLE_ROWS && number_at(master, rows) != 0) ++rows;
        return rows;
    }
    std::uint16_t number_at(std::size_t master, std::size_t row) {
        const std::uint8_t *at = now_.buffer(master) + PAIRING_NODE_BYTES * row;
        return static_cast<std::uint16_t>(at[0] | at[1] << 8);
    }

    int position(Input &from) { return static_cast<std::int8_t>(from.byte()) * scale_; }
    // Mostly small; up to 127 now and then.
    static int capacity(Input &from) {
        const int byte = from.byte();
        return byte < 192 ? 1 + byte % 5 : byte - 128;
    }
    // Mostly one of the two; a bit beyond now and then.
    static Sort sort(Input &from) {
        const int byte = from.byte();
        return static_cast<Sort>(byte < 240 ? byte % 2 : byte - 238);
    }
    // Mostly one that the master has.
    std::uint16_t some_number(std::size_t master) {
        const std::size_t rows = used(master), row = input_.below(rows + rows / 4 + 1);
        return row < rows ? number_at(master, row) : input_.word();
    }

    // Sound nodes behind the last one. Their numbers are the odd ones, each once, in a mixed order.
    void fill(std::size_t master, std::size_t count, Input &from) {
        const auto within = [](int value, int low, int high) { return std::min(std::max(value, low), high); };
        for (std::size_t row = used(master); count > 0 && row < PAIRING_TABLE_ROWS; ++row, --count) {
            const int number = static_cast<int>((2 * filled_++ + 1) * 25717 % 65536);
            const int x = within(position(from), PAIRING_POSITION_MIN, PAIRING_POSITION_MAX);
            const int y = within(position(from), PAIRING_POSITION_MIN, PAIRING_POSITION_MAX);
            const int units = within(capacity(from), PAIRING_CAPACITY_MIN, PAIRING_CAPACITY_MAX);
            const Node node(number, x, y, units, from.below(2) == 1 ? Sort::off_curve : Sort::on_curve);
            std::copy(node.bytes().begin(), node.bytes().end(), now_.buffer(master) + PAIRING_NODE_BYTES * row);
        }
    }
    // Some nodes; or a full master, once in an input, since the model is slow.
    void more_nodes() {
        const std::uint8_t byte = input_.byte();
        if (byte < 192 || full_) {
            fill(byte % 2, byte % 16, input_);
        } else {
            std::uint8_t many[4 * PAIRING_TABLE_ROWS];
            const unsigned factor = input_.byte(), more = input_.byte();
            for (unsigned k = 0; k < sizeof many; ++k)
                many[k] = static_cast<std::uint8_t>((k * factor + more) * k >> 3);
            Input from(many, sizeof many);
            fill(byte % 2, PAIRING_TABLE_ROWS, from);
            full_ = true;
            call(Name::pair);
            // One more than there is room for.
            edit(Edit::arrival(static_cast<Master>(byte % 2), Node(input_.word(), 0, 0, PAIRING_CAPACITY_MAX)));
        }
        call(Name::pair);
    }

    Edit some_edit() {
        const auto kind = static_cast<Kind>(1 + input_.below(4));
        const std::size_t master = input_.below(2);
        const int number = kind == Kind::arrival ? 0xffff - input_.word() : some_number(master);
        const bool placed = kind == Kind::arrival || kind == Kind::move;
        const int x = placed ? position(input_) : 0, y = placed ? position(input_) : 0;
        const bool sized = kind == Kind::arrival || kind == Kind::capacity;
        const int units = sized ? capacity(input_) : 0;
        return {kind, static_cast<Master>(master), number, x, y, units, sized ? sort(input_) : Sort::on_curve};
    }
    void edit(const Edit &edit) {
        std::copy(edit.bytes().begin(), edit.bytes().end(), now_.buffer(3));
        call(Name::edit);
    }
    void raw_edit() {
        for (std::size_t k = 0; k < PAIRING_EDIT_BYTES; ++k) now_.buffer(3)[k] = input_.byte();
        // Kinds and masters near the right ones.
        now_.buffer(3)[0] %= 8;
        now_.buffer(3)[1] %= 4;
        call(Name::edit);
    }
    void spare() {
        const std::uint8_t master = input_.byte() % 3;
        call(Name::spare, {{"master", master}, {"number", some_number(master % 2)}});
    }
    void bands() {
        std::fill_n(now_.buffer(3), PAIRING_COUNTS_BYTES, input_.byte());
        call(Name::bands);
    }

    // The list zero from a row on, a row for another, or a byte of a row. Rows near the last in use are the likely ones.
    void damage() {
        const std::size_t way = input_.below(4), which = way == 0 ? 2 : input_.below(3);
        const std::size_t width = which == 2 ? PAIRING_LINK_BYTES : PAIRING_NODE_BYTES, rows = stated[which] / width;
        const std::size_t likely = used(0) + used(1) + 2;
        const std::size_t row = input_.below(way == 3 ? rows : likely) % rows, other = input_.below(likely) % rows;
        std::uint8_t *start = now_.buffer(which), *at = start + width * row;
        if (way == 0) std::fill(at, start + stated[which], std::uint8_t{0});
        else if (way == 1) std::swap_ranges(at, at + width, row == other ? now_.buffer(3) : start + width * other);
        else at[input_.below(width)] ^= input_.byte();
    }

    struct Length {
        std::size_t which, by;
    };

    Input &input_;
    Memory now_, sound_;
    Length length_ = {0, 0};
    int scale_ = 1, hurts_ = 0;
    std::size_t filled_ = 0;
    bool full_ = false;
};

}  // namespace

extern "C" int LLVMFuzzerTestOneInput(const std::uint8_t *data, std::size_t size) {
    Input input(data, size);
    World(input).play();
    return 0;
}
