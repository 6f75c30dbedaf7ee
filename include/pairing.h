/*
 * pairing.h - pairs the nodes of a light and a bold font master.
 *
 * This header is the manual of the C interface. Link with libpairing.a.
 *
 * Nodes have capacities, and each is of a sort: on-curve, or off-curve (a
 * handle). A pair is a node of A (the light master) and a node of B (the bold
 * one) of the same sort. Of all pairs whose nodes both have something left, the
 * earliest becomes a link: its amount is the lesser of what the two have left,
 * and both lose that amount. This goes on until no such pair is left. The
 * earliest pair is the one with the smallest squared distance; among those the
 * one with the smaller A number, then the one with the smaller B number. The
 * order of rows has no say in it.
 *
 *
 * ROWS AND BUFFERS
 *
 * All fields are little-endian and unsigned, but for positions, which are
 * two's complement. Offsets are in bytes.
 *
 * table      PAIRING_TABLE_BYTES: PAIRING_TABLE_ROWS rows, one a node; the
 *            nodes first, in any order, then zero rows
 *              0  number      2   1 to 65,535, once in its master; A and B
 *                                 may use the same number
 *              2  horizontal  2   PAIRING_POSITION_MIN to .._MAX
 *              4  vertical    2   PAIRING_POSITION_MIN to .._MAX
 *              6  capacity    1   PAIRING_CAPACITY_MIN to .._MAX
 *              7  sort        1   a PAIRING_SORT_..
 * list       PAIRING_LIST_BYTES: PAIRING_LIST_ROWS rows, one a link; the
 *            links first, in the order in which they were taken, then zero
 *            rows
 *              0  A number          2
 *              2  B number          2
 *              4  squared distance  4
 *              8  amount            2
 * edit       PAIRING_EDIT_BYTES
 *              0  kind        1   a PAIRING_KIND_..
 *              1  master      1   PAIRING_MASTER_A or PAIRING_MASTER_B
 *              2  number      2   of the node
 *              4  horizontal  2   arrival and move; else zero
 *              6  vertical    2   arrival and move; else zero
 *              8  capacity    1   arrival and new capacity; else zero
 *              9  sort        1   arrival and new capacity; else zero
 * counts     PAIRING_COUNTS_BYTES: PAIRING_BANDS counts of 2 bytes each
 *
 * Capacity and sort are the low and the high byte of one field of two bytes: a
 * table with capacities of two bytes reads as one of on-curve nodes alone.
 *
 * A row of a table is faulty
 *  - if its number is not 0, and a position, the capacity or the sort is out of
 *    range, or an earlier row has the same number or the number 0;
 *  - if its number is 0, and another of its bytes is not.
 *
 * The finished list of two tables without a faulty row holds all their links
 * in order, then zero rows. Where both masters have nodes of the same sort
 * there is at least one link, and there are fewer links than the two have nodes
 * together; else there is none.
 *
 *
 * LENDING
 *
 * A buffer is a pointer and its length in bytes. The caller owns every buffer;
 * a call keeps no pointer, allocates nothing and holds no state, so that calls
 * on different buffers may run on different threads.
 *  - Every length and every content is answered: nothing has to be tested
 *    before a call. A call reads and writes within the lent lengths alone.
 *  - No pointer may be null, even where the length is 0, and each must be
 *    valid for its length. Any address will do; none has to be aligned.
 *  - A buffer that a call writes must overlap no other buffer of that call.
 *    Those that it only reads (pointer to const) may overlap each other.
 *
 *
 * ANSWERS
 *
 * Every call gives one 32-bit number, the refusal number times 65,536 plus a
 * value: PAIRING_REFUSAL and PAIRING_VALUE take them apart. Refusal number 0,
 * PAIRING_DONE, means that the call is done. A refused call has changed no
 * byte. The checks stand in the order of these numbers, and the first that
 * fits is given:
 *
 *  no.  given by             condition                                value
 *   1   all                  a buffer is shorter or longer than its   0
 *                            stated size; the edit and the counts
 *                            are buffers too
 *   2   all                  table A has a faulty row                 first such row
 *   3   all                  table B has a faulty row                 first such row
 *   4   all but Pair         the list differs from the finished one,  that row
 *                            and from the first row that differs to
 *                            its end some byte is not zero
 *   5   Edit, Spare, Bands   the list differs from the finished one,  that row
 *                            and is zero from there to its end
 *   6   Edit                 the kind is not one of the four          0
 *   7   Edit, Spare          the master is neither A nor B            0
 *   8   Edit, Spare          the number is 0; for Edit also: a field  0
 *                            that must be zero is not, or one that
 *                            is used is out of range
 *   9   Edit, Spare          an arrival of a number that the master   0
 *                            has; otherwise a number that it has not
 *  10   Edit                 an arrival, and the master is full       0
 *
 * Rows are counted from 0.
 */
#ifndef PAIRING_H
#define PAIRING_H

#include <stddef.h>
#include <stdint.h>

#define PAIRING_VERSION_MAJOR 0
#define PAIRING_VERSION_MINOR 1
#define PAIRING_VERSION_PATCH 0
#define PAIRING_VERSION "0.1.0"

/* Sizes in bytes, and numbers of rows. */
#define PAIRING_NODE_BYTES 8
#define PAIRING_TABLE_ROWS 512
#define PAIRING_TABLE_BYTES 4096
#define PAIRING_LINK_BYTES 10
#define PAIRING_LIST_ROWS 1023
#define PAIRING_LIST_BYTES 10230
#define PAIRING_EDIT_BYTES 10
#define PAIRING_BANDS 33
#define PAIRING_COUNTS_BYTES 66

/* Ranges of a node's fields. */
#define PAIRING_POSITION_MIN (-16384)
#define PAIRING_POSITION_MAX 16384
#define PAIRING_CAPACITY_MIN 1
#define PAIRING_CAPACITY_MAX 64
#define PAIRING_SORT_ON_CURVE 0
#define PAIRING_SORT_OFF_CURVE 1

#define PAIRING_MASTER_A 0
#define PAIRING_MASTER_B 1

#define PAIRING_KIND_ARRIVAL 1
#define PAIRING_KIND_DEPARTURE 2
#define PAIRING_KIND_MOVE 3
#define PAIRING_KIND_CAPACITY 4

/* Refusal numbers; the table above says when each is given. */
#define PAIRING_DONE 0
#define PAIRING_REFUSED_LENGTH 1
#define PAIRING_REFUSED_TABLE_A 2
#define PAIRING_REFUSED_TABLE_B 3
#define PAIRING_REFUSED_LIST 4
#define PAIRING_REFUSED_UNFINISHED 5
#define PAIRING_REFUSED_KIND 6
#define PAIRING_REFUSED_MASTER 7
#define PAIRING_REFUSED_FIELD 8
#define PAIRING_REFUSED_NUMBER 9
#define PAIRING_REFUSED_FULL 10

/* The two parts of an answer. */
#define PAIRING_REFUSAL(answer) ((uint32_t)(answer) / 65536u)
#define PAIRING_VALUE(answer) ((uint32_t)(answer) % 65536u)

#ifdef __cplusplus
extern "C" {
#endif

/*
 * Pair writes the finished list of the two tables over the whole list,
 * whatever it holds.
 * Value: the number of links.
 */
uint32_t pairing_pair(const uint8_t *a, size_t a_len,
                      const uint8_t *b, size_t b_len,
                      uint8_t *list, size_t list_len);

/*
 * Step goes on from a list that holds the first links of the finished one,
 * none or more, and zero rows after them: it writes the next link.
 * Value: 1, or 0 where the list is finished, and then nothing is written. From
 * a zero list the first 0 comes after as many steps as there are links.
 */
uint32_t pairing_step(const uint8_t *a, size_t a_len,
                      const uint8_t *b, size_t b_len,
                      uint8_t *list, size_t list_len);

/*
 * Edit changes one node of one table, and turns the finished list of the
 * tables as they were into that of the tables as they are.
 *   arrival        the node goes behind the last one
 *   departure      the later rows close up in order, the last becomes zero
 *   move           the two positions of its row are set
 *   new capacity   the capacity and the sort of its row are set
 * No other row and not the other table is touched. Value: rows kept, which is
 * how many links from the first on the list has as before, their amounts
 * included; only rows from there on are written. An edit that changes nothing
 * is done, and keeps all links.
 */
uint32_t pairing_edit(uint8_t *a, size_t a_len,
                      uint8_t *b, size_t b_len,
                      uint8_t *list, size_t list_len,
                      const uint8_t *edit, size_t edit_len);

/*
 * Spare says what a node has left, given the finished list.
 * Value: its capacity less the amounts of its links.
 */
uint32_t pairing_spare(const uint8_t *a, size_t a_len,
                       const uint8_t *b, size_t b_len,
                       const uint8_t *list, size_t list_len,
                       uint8_t master, uint16_t number);

/*
 * Bands counts the links of the finished list by distance: count k, from 0 to
 * PAIRING_BANDS - 1, is the number of links whose squared distance has k
 * binary digits; a distance of 0 has none. All counts are written, whatever
 * the buffer holds.
 * Value: 0.
 */
uint32_t pairing_bands(const uint8_t *a, size_t a_len,
                       const uint8_t *b, size_t b_len,
                       const uint8_t *list, size_t list_len,
                       uint8_t *counts, size_t counts_len);

#ifdef __cplusplus
}
#endif

#endif /* PAIRING_H */
