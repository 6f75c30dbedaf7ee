// pairing_rows.hpp - rows and views for pairing.hpp, which is the file to include.
//
// A row type (Node, Link, Edit, Count) holds the bytes of its row, and reads and writes its fields a byte at a time. So
// an array of rows is the buffer that the engine takes: nothing is converted, and the machine's byte order has no say
// in it. A number that its field cannot hold is never cut to fit: the row is made one that the engine refuses.
#ifndef PAIRING_ROWS_HPP
#define PAIRING_ROWS_HPP

#include "pairing.h"

#include <cstddef>
#include <cstdint>
#include <cstring>
#include <type_traits>
#include <utility>

namespace pairing {

enum class Master : std::uint8_t { a = PAIRING_MASTER_A, b = PAIRING_MASTER_B, light = a, bold = b };

enum class Sort : std::uint8_t { on_curve = PAIRING_SORT_ON_CURVE, off_curve = PAIRING_SORT_OFF_CURVE };

enum class Kind : std::uint8_t {
    arrival = PAIRING_KIND_ARRIVAL,
    departure = PAIRING_KIND_DEPARTURE,
    move = PAIRING_KIND_MOVE,
    capacity = PAIRING_KIND_CAPACITY
};

// A pointer and a length, as std::span has it. Made from an array, or from whatever has data() and size().
template <class T>
class View {
public:
    constexpr View() noexcept = default;
    constexpr View(T *data, std::size_t size) noexcept : data_(data), size_(size) {}
    template <std::size_t size>
    constexpr View(T (&array)[size]) noexcept : data_(array), size_(size) {}
    template <class Container, class = std::enable_if_t<std::is_convertible_v<
                                   decltype(std::declval<Container &>().data()), T *>>>
    constexpr View(Container &&container) noexcept : data_(container.data()), size_(container.size()) {}

    constexpr T *data() const noexcept { return data_; }
    constexpr std::size_t size() const noexcept { return size_; }
    constexpr T *begin() const noexcept { return data_; }
    constexpr T *end() const noexcept { return data_ + size_; }
    constexpr T &operator[](std::size_t place) const noexcept { return data_[place]; }

private:
    T *data_ = nullptr;
    std::size_t size_ = 0;
};

using Bytes = View<std::uint8_t>;
using ConstBytes = View<const std::uint8_t>;

namespace detail {

constexpr std::uint32_t get(const std::uint8_t *bytes, std::size_t width) noexcept {
    std::uint32_t value = 0;
    for (std::size_t k = width; k > 0; --k) value = value << 8 | bytes[k - 1];
    return value;
}

constexpr void put(std::uint8_t *bytes, std::size_t width, std::uint32_t value) noexcept {
    for (std::size_t k = 0; k < width; ++k) bytes[k] = static_cast<std::uint8_t>(value >> 8 * k);
}

// The five fields of a node; says whether they can hold the values, and puts nothing where they cannot. A capacity has
// one byte, since a greater one would run into the sort. Any sort fits; the engine refuses one above off-curve.
constexpr bool put_node(std::uint8_t *bytes, int number, int horizontal, int vertical, int capacity,
                        Sort sort) noexcept {
    if (number < 0 || number > 0xffff || capacity < 0 || capacity > 0xff) return false;
    if (horizontal < -0x8000 || horizontal > 0x7fff || vertical < -0x8000 || vertical > 0x7fff) return false;
    const int fields[] = {number, horizontal, vertical};
    for (std::size_t k = 0; k < 3; ++k) put(bytes + 2 * k, 2, static_cast<std::uint32_t>(fields[k]));
    bytes[6] = static_cast<std::uint8_t>(capacity);
    bytes[7] = static_cast<std::uint8_t>(sort);
    return true;
}

// The bytes of a row, and its fields of two bytes by their offset.
template <std::size_t size>
class Row {
public:
    constexpr ConstBytes bytes() const noexcept { return bytes_; }
    friend bool operator==(const Row &one, const Row &other) noexcept {
        return std::memcmp(one.bytes_, other.bytes_, size) == 0;
    }
    friend bool operator!=(const Row &one, const Row &other) noexcept { return !(one == other); }

protected:
    constexpr std::uint16_t number(std::size_t at) const noexcept {
        return static_cast<std::uint16_t>(get(bytes_ + at, 2));
    }
    constexpr std::int16_t position(std::size_t at) const noexcept {
        const int value = number(at);
        return static_cast<std::int16_t>(value < 0x8000 ? value : value - 0x10000);
    }

    std::uint8_t bytes_[size] = {};
};

}  // namespace detail

// A node of a table; without fields a zero row.
class Node : public detail::Row<PAIRING_NODE_BYTES> {
public:
    constexpr Node() noexcept = default;
    // With a value that its field cannot hold: number 0, capacity and sort 255, a faulty row in every table.
    constexpr Node(int number, int horizontal, int vertical, int capacity, Sort sort = Sort::on_curve) noexcept {
        if (!detail::put_node(bytes_, number, horizontal, vertical, capacity, sort)) detail::put(bytes_ + 6, 2, 0xffff);
    }
    constexpr std::uint16_t number() const noexcept { return Row::number(0); }
    constexpr std::int16_t horizontal() const noexcept { return position(2); }
    constexpr std::int16_t vertical() const noexcept { return position(4); }
    constexpr std::uint16_t capacity() const noexcept { return bytes_[6]; }
    constexpr Sort sort() const noexcept { return static_cast<Sort>(bytes_[7]); }
    constexpr bool used() const noexcept { return number() != 0; }
};

// A link of a list; without fields a zero row. The distance is squared.
class Link : public detail::Row<PAIRING_LINK_BYTES> {
public:
    constexpr Link() noexcept = default;
    constexpr Link(std::uint16_t a, std::uint16_t b, std::uint32_t distance, std::uint16_t amount) noexcept {
        detail::put(bytes_, 2, a);
        detail::put(bytes_ + 2, 2, b);
        detail::put(bytes_ + 4, 4, distance);
        detail::put(bytes_ + 8, 2, amount);
    }
    constexpr std::uint16_t a() const noexcept { return number(0); }
    constexpr std::uint16_t b() const noexcept { return number(2); }
    constexpr std::uint32_t distance() const noexcept { return detail::get(bytes_ + 4, 4); }
    constexpr std::uint16_t amount() const noexcept { return number(8); }
    constexpr bool used() const noexcept { return a() != 0; }
};

// A change of one node.
class Edit : public detail::Row<PAIRING_EDIT_BYTES> {
public:
    // With a value that its field cannot hold: number 0, which is refused.
    constexpr Edit(Kind kind, Master master, int number, int horizontal, int vertical, int capacity,
                   Sort sort = Sort::on_curve) noexcept {
        bytes_[0] = static_cast<std::uint8_t>(kind);
        bytes_[1] = static_cast<std::uint8_t>(master);
        detail::put_node(bytes_ + 2, number, horizontal, vertical, capacity, sort);
    }
    static constexpr Edit arrival(Master master, const Node &node) noexcept {
        return {Kind::arrival, master, node.number(), node.horizontal(), node.vertical(), node.capacity(), node.sort()};
    }
    static constexpr Edit departure(Master master, int number) noexcept {
        return {Kind::departure, master, number, 0, 0, 0};
    }
    static constexpr Edit move(Master master, int number, int horizontal, int vertical) noexcept {
        return {Kind::move, master, number, horizontal, vertical, 0};
    }
    // Sets both, so the sort has to be said: a default would turn a handle into an on-curve node. Drawing has functions
    // that set one and keep the other.
    static constexpr Edit new_capacity(Master master, int number, int capacity, Sort sort) noexcept {
        return {Kind::capacity, master, number, 0, 0, capacity, sort};
    }
    constexpr operator ConstBytes() const noexcept { return bytes(); }
};

// A count of Bands.
class Count : public detail::Row<2> {
public:
    constexpr operator std::uint16_t() const noexcept { return number(0); }
};

// Rows in order: a buffer as the engine takes it.
template <class Row, std::size_t rows>
class Rows {
public:
    constexpr Row &operator[](std::size_t row) noexcept { return rows_[row]; }
    constexpr const Row &operator[](std::size_t row) const noexcept { return rows_[row]; }
    // The rows ahead of the first whose number is 0.
    constexpr View<const Row> used() const noexcept {
        std::size_t count = 0;
        while (count < rows && rows_[count].used()) ++count;
        return {rows_, count};
    }
    operator Bytes() noexcept { return {reinterpret_cast<std::uint8_t *>(rows_), sizeof rows_}; }
    operator ConstBytes() const noexcept { return {reinterpret_cast<const std::uint8_t *>(rows_), sizeof rows_}; }

private:
    Row rows_[rows] = {};
};

using Table = Rows<Node, PAIRING_TABLE_ROWS>;
using List = Rows<Link, PAIRING_LIST_ROWS>;
using Counts = Rows<Count, PAIRING_BANDS>;

namespace detail {

template <class T, std::size_t size>
constexpr bool is_bytes =
    sizeof(T) == size && alignof(T) == 1 && std::is_trivially_copyable_v<T> && std::is_standard_layout_v<T>;

static_assert(is_bytes<Node, PAIRING_NODE_BYTES> && is_bytes<Link, PAIRING_LINK_BYTES>);
static_assert(is_bytes<Edit, PAIRING_EDIT_BYTES> && is_bytes<Counts, PAIRING_COUNTS_BYTES>);
static_assert(is_bytes<Table, PAIRING_TABLE_BYTES> && is_bytes<List, PAIRING_LIST_BYTES>);

}  // namespace detail

}  // namespace pairing

#endif  // PAIRING_ROWS_HPP
