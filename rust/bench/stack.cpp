// The stack that each call uses at 512 x 512 nodes. A thread makes the call on memory painted beforehand;
// counted is from the frame that makes it down to the deepest byte written. A call fails at LIMIT bytes or more, or
// where it was never done. The last line is "N passed, M failed".
#include <pthread.h>

#include <algorithm>
#include <cstdint>
#include <cstdio>
#include <cstdlib>
#include <cstring>
#include <map>
#include <string>
#include <vector>

#include "interface.hpp"

#ifndef LIMIT
#define LIMIT (128 * 1024)
#endif

namespace {

using Bytes = std::vector<uint8_t>;

// What a call is lent and given, by the parameter's name in pairing.h.
struct Drawing {
    std::map<std::string, Bytes> buffers;
    std::map<std::string, uint64_t> numbers;
};

[[noreturn]] void give_up(const std::string &why) {
    std::fprintf(stderr, "stack: %s\n", why.c_str());
    std::exit(1);
}

template <class Value>
Value &named(std::map<std::string, Value> &all, const char *name) {
    const auto found = all.find(name);
    if (found == all.end()) give_up(std::string("no value for the parameter ") + name);
    return found->second;
}

struct Run {
    Run(const interface::Call &of, Drawing &drawing) : call(of) {
        for (const interface::Buffer &buffer : call.buffers) {
            Bytes &bytes = named(drawing.buffers, buffer.name);
            lent.push_back({bytes.data(), bytes.size()});
        }
        for (const char *number : call.numbers) numbers.push_back(named(drawing.numbers, number));
    }

    const interface::Call &call;
    std::vector<interface::Lent> lent;
    std::vector<uint64_t> numbers;
    uint32_t answer = 0;
    const uint8_t *frame = nullptr;
};

void *make_call(void *argument) {
    auto *run = static_cast<Run *>(argument);
    run->frame = static_cast<const uint8_t *>(__builtin_frame_address(0));
    run->answer = run->call.make(run->lent.data(), run->numbers.data());
    return nullptr;
}

// The bytes of stack that a call uses, as one colour of paint shows them.
size_t used(Run &run, uint8_t paint) {
    const size_t size = 1024 * 1024;
    void *memory = nullptr;
    if (posix_memalign(&memory, 4096, size) != 0) give_up("no memory");
    auto *stack = static_cast<uint8_t *>(memory);
    std::memset(stack, paint, size);
    pthread_attr_t attributes;
    pthread_t thread;
    pthread_attr_init(&attributes);
    if (pthread_attr_setstack(&attributes, stack, size) != 0) give_up("no stack");
    if (pthread_create(&thread, &attributes, make_call, &run) != 0) give_up("no thread");
    pthread_join(thread, nullptr);
    pthread_attr_destroy(&attributes);
    const uint8_t *deepest = std::find_if(stack, stack + size, [=](uint8_t byte) { return byte != paint; });
    if (deepest == stack) give_up("the painted stack is too small");
    const size_t bytes = run.frame - deepest;
    std::free(memory);
    return bytes;
}

void put(Bytes &bytes, size_t at, unsigned value) {
    bytes[at] = value & 255;
    bytes[at + 1] = value >> 8 & 255;
}

unsigned number(unsigned row) { return 65535 - 127 * row; }

// So many nodes all over the field, of capacities 1 to 64, and of one sort or of two by turns.
Bytes table(unsigned seed, unsigned nodes, unsigned sorts) {
    auto draw = [&](unsigned below) {
        seed = seed * 1664525u + 1013904223u;
        return (seed >> 8) % below;
    };
    const unsigned field = PAIRING_POSITION_MAX - PAIRING_POSITION_MIN + 1;
    Bytes table(PAIRING_TABLE_BYTES);
    for (unsigned row = 0; row < nodes; row++) {
        const size_t at = row * PAIRING_NODE_BYTES;
        put(table, at, number(row));
        put(table, at + 2, draw(field) + PAIRING_POSITION_MIN);
        put(table, at + 4, draw(field) + PAIRING_POSITION_MIN);
        put(table, at + 6, draw(PAIRING_CAPACITY_MAX) + 1);
        table[at + 7] = row % sorts;
    }
    return table;
}

// Two masters, an edit of the node in A's last row that is right for them, and their finished list. A new capacity also
// makes the node on-curve.
Drawing drawing(uint8_t kind, unsigned sorts) {
    const bool arrival = kind == PAIRING_KIND_ARRIVAL;
    const bool placed = arrival || kind == PAIRING_KIND_MOVE;
    const bool capacity = arrival || kind == PAIRING_KIND_CAPACITY;
    Bytes a = table(1, PAIRING_TABLE_ROWS - arrival, sorts), b = table(2, PAIRING_TABLE_ROWS, sorts);
    Bytes list(PAIRING_LIST_BYTES), edit(PAIRING_EDIT_BYTES), counts(PAIRING_COUNTS_BYTES);
    edit[0] = kind;
    put(edit, 2, number(PAIRING_TABLE_ROWS - 1));
    put(edit, 4, placed ? 7 : 0);
    put(edit, 6, placed ? 8 : 0);
    put(edit, 8, capacity ? 9 : 0);
    Drawing all = {{{"a", a}, {"b", b}, {"list", list}, {"edit", edit}, {"counts", counts}},
                   {{"master", PAIRING_MASTER_B}, {"number", number(0)}}};
    Run pair(interface::calls[static_cast<size_t>(interface::Name::pair)], all);
    make_call(&pair);
    return all;
}

// Every kind of edit of masters of one sort and of two, each with the finished list, with half of it, and with one that
// has a wrong row.
std::vector<Drawing> drawings() {
    std::vector<Drawing> all;
    const size_t row = PAIRING_LINK_BYTES * (PAIRING_TABLE_ROWS / 2);
    for (unsigned sorts : {1, 2}) {
        for (uint8_t kind = PAIRING_KIND_ARRIVAL; kind <= PAIRING_KIND_CAPACITY; kind++) {
            const Drawing finished = drawing(kind, sorts);
            Drawing half = finished, wrong = finished;
            Bytes &list = half.buffers["list"];
            std::fill(list.begin() + row, list.end(), 0);
            wrong.buffers["list"][row + PAIRING_LINK_BYTES - 2] ^= 1;
            all.insert(all.end(), {finished, half, wrong});
        }
    }
    return all;
}

}  // namespace

int main() {
    const std::vector<Drawing> all = drawings();
    int passed = 0, failed = 0;
    for (const interface::Call &call : interface::calls) {
        size_t most = 0;
        int done = 0;
        for (const Drawing &drawing : all) {
            // Two colours, since a call may write a byte of one.
            for (uint8_t paint : {0x5a, 0xa5}) {
                Drawing own = drawing;
                Run run(call, own);
                most = std::max(most, used(run, paint));
                done += PAIRING_REFUSAL(run.answer) == PAIRING_DONE;
            }
        }
        const bool good = done > 0 && most < LIMIT;
        std::printf("%-5s %7zu bytes of stack, limit %d%s\n", call.text, most, LIMIT, good ? "" : ": failed");
        (good ? passed : failed)++;
    }
    std::printf("%d passed, %d failed\n", passed, failed);
    return failed != 0;
}
