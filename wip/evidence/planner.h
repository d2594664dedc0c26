/*
 * The calls of the path planner beside the controller's three (cell.h), for k up to 10: paths, travel times, orders, forks, the set-up screen, what is kept by name.
 * `rt staticlib exports` writes the library to link, target/staticlib/libexports.a.
 *
 * The result is a value, or a refusal's number made negative: result < 0 is a refusal, and then -result is one of the numbers below. A call with no value of its own gives 0.
 *
 * Buffers. A buffer is a pointer and then how many numbers it has (not bytes). The buffers of one call may not overlap. A null pointer with length 0 is an empty buffer; a null pointer with
 * any other length is not allowed. n is the number of stops, 2^k. Every buffer may be longer than is asked for, except a table of times, of places or of pairs, which is exactly n * n long. A
 * refusal writes nothing. After success each output holds its result first and is untouched beyond; work space is 0 in the numbers that are asked for. The calls keep no state.
 *
 * `highest` is the highest version that the caller knows, 4, 5 or 6: a newer path is refused at its head.
 */
#ifndef PLANNER_H
#define PLANNER_H

#include <stddef.h>
#include <stdint.h>

#ifdef __cplusplus
extern "C" {
#endif

/* The largest k, and its stops. */
#define PLANNER_MAX_K 10
#define PLANNER_MAX_STOPS 1024

/* The largest k of a tour, and of a plan with empty pockets. */
#define PLANNER_MAX_TOUR_K 7
#define PLANNER_MAX_FILLED_K 6

/* The stops of a path of this k, 0 to PLANNER_MAX_K. */
#define PLANNER_STOPS(k) ((size_t)1 << (k))

/* The bytes of a path of this version, 4, 5 or 6, and k; of an order file; of a string of fork bits. */
#define PLANNER_PATH_SIZE(version, k) (12 + PLANNER_STOPS(k) * ((version) == 4 ? 18 : (version) == 5 ? 20 : 22))
#define PLANNER_ORDER_FILE_SIZE(k) (26 + 2 * PLANNER_STOPS(k) + (PLANNER_STOPS(k) + 7) / 8)
#define PLANNER_BITS_SIZE(k) ((PLANNER_STOPS(k) + 7) / 8)

/* Names under which orders are kept are 1 to this. */
#define PLANNER_NAMES 8

/* The refusals. */
enum planner_refusal {
    /* fewer than 4 bytes left for a record, or fewer than its length claims */
    PLANNER_TRUNCATED = 1,
    /* length is not that of the kind and version */
    PLANNER_WRONG_LENGTH = 2,
    /* not the kind due here */
    PLANNER_WRONG_KIND = 3,
    /* version not 4, 5 or 6, or above the highest known; highest known not 4, 5 or 6 */
    PLANNER_WRONG_VERSION = 4,
    /* k above 10, above 7 for tours, above 6 with empty pockets, or an order file's k not the path's */
    PLANNER_WRONG_K = 5,
    /* a stop's field out of range, or a byte that is neither 0 for filled nor 1 for empty */
    PLANNER_OUT_OF_RANGE = 6,
    /* bytes after the end record */
    PLANNER_TRAILING_BYTES = 7,
    /* a lent buffer too short, or a table not n * n long */
    PLANNER_WRONG_SIZE = 8,
    /* a stop number n or more in an order */
    PLANNER_NO_SUCH_STOP = 9,
    /* an order not allowed */
    PLANNER_NOT_ALLOWED = 10,
    /* an order file's total, or a group's sum, is not the order's */
    PLANNER_WRONG_TOTAL = 11,
    /* a fork bit outside 1 to n-1 set, or bits not the order's */
    PLANNER_WRONG_FORKS = 12,
    /* a field not 0 that the version to be written lacks */
    PLANNER_LOST_FIELD = 13,
    /* a fork that is not 1 to n-1 */
    PLANNER_NO_SUCH_FORK = 14,
    /* a name that is not 1 to 8 */
    PLANNER_NO_SUCH_NAME = 15,
    /* nothing kept under a name that is to be come back to */
    PLANNER_NOTHING_KEPT = 16
};

/* ---- paths and travel times ---- */

/* Reads a path into coords (3n: x, y, z of each stop), speeds, blends and dwells (n each): version * 65536 + k. */
int64_t ffi_read_path(const uint8_t *bytes, size_t bytes_len, uint16_t highest, int32_t *coords, size_t coords_len, uint16_t *speeds, size_t speeds_len,
                      uint16_t *blends, size_t blends_len, uint16_t *dwells, size_t dwells_len);

/* Writes a path: the count of bytes, PLANNER_PATH_SIZE(version, k). */
int64_t ffi_write_path(uint16_t version, uint16_t k, const int32_t *coords, size_t coords_len, const uint16_t *speeds, size_t speeds_len,
                       const uint16_t *blends, size_t blends_len, const uint16_t *dwells, size_t dwells_len, uint8_t *out, size_t out_len);

/* The table of times in milliseconds, n * n, row 'from', column 'to'. */
int64_t ffi_make_table(uint16_t k, const int32_t *coords, size_t coords_len, const uint16_t *speeds, size_t speeds_len, const uint16_t *blends, size_t blends_len,
                       const uint16_t *dwells, size_t dwells_len, uint32_t *table, size_t table_len);

/* The same from path bytes whose head has this version and k. */
int64_t ffi_table_from(const uint8_t *bytes, size_t bytes_len, uint16_t version, uint16_t k, uint32_t *table, size_t table_len);

/* Stop d of a path, drawn from its bytes: 0 for a stop, 1 at the end, or the refusal that a whole reading gives; and its field 0 to 5: x, y, z, speed, blend, dwell. */
int64_t ffi_draw(const uint8_t *bytes, size_t bytes_len, uint16_t highest, size_t d);
int64_t ffi_draw_field(const uint8_t *bytes, size_t bytes_len, uint16_t highest, size_t d, uint16_t field);

/* ---- orders ---- */

/* The shortest allowed order of n stops by a table of times: its total. order has n places; totals and pivots are work space of 2n numbers each. */
int64_t ffi_plan(uint16_t k, const uint32_t *table, size_t table_len, uint16_t *order, size_t order_len, uint64_t *totals, size_t totals_len, uint16_t *pivots, size_t pivots_len);

/* The same: how many candidates were weighed. */
int64_t ffi_plan_weighings(uint16_t k, const uint32_t *table, size_t table_len, uint16_t *order, size_t order_len, uint64_t *totals, size_t totals_len, uint16_t *pivots,
                           size_t pivots_len);

/* What a plan takes, from k alone: bytes of work space, and weighings. */
int64_t ffi_foretell_bytes(uint16_t k);
int64_t ffi_foretell_weighings(uint16_t k);

/* From path bytes: total * 2^20 + version * 2^16 + k. table, n * n, holds the times afterwards. */
int64_t ffi_plan_path(const uint8_t *bytes, size_t bytes_len, uint16_t highest, uint32_t *table, size_t table_len, uint16_t *order, size_t order_len, uint64_t *totals,
                      size_t totals_len, uint16_t *pivots, size_t pivots_len);

/* Where a stop's entry for its place is added to the total; places is n * n, row stop, column place. */
int64_t ffi_plan_places(uint16_t k, const uint32_t *table, size_t table_len, const uint32_t *places, size_t places_len, uint16_t *order, size_t order_len, uint64_t *totals,
                        size_t totals_len, uint16_t *pivots, size_t pivots_len);

/* The shortest round trip, k up to PLANNER_MAX_TOUR_K: its total has the move from the last stop back to the first. */
int64_t ffi_tour(uint16_t k, const uint32_t *table, size_t table_len, uint16_t *order, size_t order_len, uint64_t *totals, size_t totals_len, uint16_t *pivots, size_t pivots_len);

/* The shortest list of the filled stops, k up to PLANNER_MAX_FILLED_K: total * 128 + length. empties has a byte a stop, 1 for empty; bits the list's forks; work n * n numbers. */
int64_t ffi_plan_filled(uint16_t k, const uint32_t *table, size_t table_len, const uint8_t *empties, size_t empties_len, uint16_t *list, size_t list_len, uint8_t *bits, size_t bits_len,
                        uint64_t *work, size_t work_len);

/*
 * What a fork of a path costs the other way: field 0 its state in the planned order, 1 for exchanged; field 1 the least total of the orders that have it the other way; field 2 how much
 * more that is; field 3 the last place at which the two orders part, plus 1, where it is a tie, and 0 where the other way is dearer. totals, pivots and orders are work space of 2n numbers.
 */
int64_t ffi_fork_cost(const uint8_t *bytes, size_t bytes_len, uint16_t highest, uint16_t fork, uint64_t *totals, size_t totals_len, uint16_t *pivots, size_t pivots_len,
                      uint16_t *orders, size_t orders_len, uint16_t field);

/* ---- forks ---- */

/* The fork bits of an order, PLANNER_BITS_SIZE(k) bytes: bit v is fork v, byte v / 8, low bit first. And the order of fork bits. */
int64_t ffi_fork_bits(uint16_t k, const uint16_t *order, size_t order_len, uint8_t *bits, size_t bits_len);
int64_t ffi_order_of_bits(uint16_t k, const uint8_t *bits, size_t bits_len, uint16_t *order, size_t order_len);

/* An order with the states of a set of forks inverted. */
int64_t ffi_exchange(uint16_t k, const uint16_t *order, size_t order_len, const uint8_t *bits, size_t bits_len, uint16_t *out, size_t out_len);

/* ---- the set-up screen ---- */

/* The travel within the group of every fork, n sums: that of fork v in place v, 0 in place 0. */
int64_t ffi_group_sums(const uint8_t *bytes, size_t bytes_len, uint16_t highest, const uint16_t *order, size_t order_len, uint64_t *sums, size_t sums_len);

/* Exchanges one fork in an order and its sums. */
int64_t ffi_exchange_fork(const uint8_t *bytes, size_t bytes_len, uint16_t highest, uint16_t fork, uint16_t *order, size_t order_len, uint64_t *sums, size_t sums_len);

/* Keeps an order and its sums under a name; comes back to what is kept; forgets all names. marks has 8 bytes, stops and kept 8n numbers. */
int64_t ffi_keep(const uint8_t *bytes, size_t bytes_len, uint16_t highest, uint16_t name, const uint16_t *order, size_t order_len, const uint64_t *sums, size_t sums_len,
                 uint8_t *marks, size_t marks_len, uint16_t *stops, size_t stops_len, uint64_t *kept, size_t kept_len);
int64_t ffi_come_back(const uint8_t *bytes, size_t bytes_len, uint16_t highest, uint16_t name, uint16_t *order, size_t order_len, uint64_t *sums, size_t sums_len,
                      const uint8_t *marks, size_t marks_len, const uint16_t *stops, size_t stops_len, const uint64_t *kept, size_t kept_len);
int64_t ffi_clear(uint8_t *marks, size_t marks_len);

/* ---- order files ---- */

/* The total of an order by a table. */
int64_t ffi_order_total(uint16_t k, const uint16_t *order, size_t order_len, const uint32_t *table, size_t table_len);

/* Writes an order file: the count of bytes, PLANNER_ORDER_FILE_SIZE(k). Reads one, against a table: the total. */
int64_t ffi_write_order_file(uint16_t k, const uint16_t *order, size_t order_len, const uint32_t *table, size_t table_len, uint8_t *out, size_t out_len);
int64_t ffi_read_order_file(uint16_t k, const uint32_t *table, size_t table_len, const uint8_t *file, size_t file_len, uint16_t *order, size_t order_len, uint8_t *bits,
                            size_t bits_len);

#ifdef __cplusplus
}
#endif

#endif
