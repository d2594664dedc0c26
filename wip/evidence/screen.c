/*
 * A set-up screen's session on the 50 example (k = 2, x = 0, 30, 10, 20, speeds 100, rest 0): the path is planned, the travel within groups is made beside the order, a fork is exchanged and a set
 * of forks after it, orders are kept by name and come back to; then what each fork costs the other way, and some refusals. Exits with 1 where an answer differs.
 */
#include "planner.h"

#include <stdio.h>
#include <string.h>

#define K 2
#define N 4

static int failures;

/* Counts an answer that is not the one due. */
static void expect(const char *what, int64_t found, int64_t due)
{
    if (found != due) {
        printf("%s: %lld, not %lld\n", what, (long long)found, (long long)due);
        failures++;
    }
}

/* Counts numbers that are not those due. */
static void expect_same(const char *what, const void *found, const void *due, size_t bytes)
{
    if (memcmp(found, due, bytes) != 0) {
        printf("%s: other numbers\n", what);
        failures++;
    }
}

/* The path in version 4. */
static const uint8_t path[] = {
    0x06, 0x00, 0x01, 0x00, 0x04, 0x00, 0x02, 0x00,
    0x10, 0x00, 0x02, 0x00, 0, 0, 0, 0, 0, 0, 0, 0, 0, 0, 0, 0, 100, 0,
    0x10, 0x00, 0x02, 0x00, 30, 0, 0, 0, 0, 0, 0, 0, 0, 0, 0, 0, 100, 0,
    0x10, 0x00, 0x02, 0x00, 10, 0, 0, 0, 0, 0, 0, 0, 0, 0, 0, 0, 100, 0,
    0x10, 0x00, 0x02, 0x00, 20, 0, 0, 0, 0, 0, 0, 0, 0, 0, 0, 0, 100, 0,
    0x02, 0x00, 0x03, 0x00,
};

/* The records of the screen, and the work space of a plan. */
static uint16_t order[N];
static uint64_t sums[N];
static uint8_t marks[PLANNER_NAMES];
static uint16_t stops[PLANNER_NAMES * N];
static uint64_t kept[PLANNER_NAMES * N];
static uint64_t totals[2 * N];
static uint16_t pivots[2 * N];
static uint16_t orders[2 * N];

/* Plans the path, and makes the sums beside the order. */
static void plan(void)
{
    static uint32_t table[N * N];
    static const uint16_t due[N] = {2, 3, 1, 0};
    static const uint64_t due_sums[N] = {0, 50, 30, 10};
    int64_t planned = ffi_plan_path(path, sizeof path, 6, table, N * N, order, N, totals, 2 * N, pivots, 2 * N);
    expect("plan", planned, ((int64_t)50 << 20) + (4 << 16) + K);
    expect_same("order", order, due, sizeof due);
    expect("sums", ffi_group_sums(path, sizeof path, 6, order, N, sums, N), 0);
    expect_same("sums", sums, due_sums, sizeof due_sums);
}

/* Exchanges fork 2, keeps what was planned, exchanges, and comes back. */
static void session(void)
{
    static const uint16_t turned[N] = {2, 3, 0, 1};
    uint8_t set[1] = {1 << 1 | 1 << 2};
    uint16_t both[N];
    static const uint16_t both_due[N] = {0, 1, 2, 3};
    uint16_t planned[N];
    memcpy(planned, order, sizeof planned);
    expect("clear", ffi_clear(marks, PLANNER_NAMES), 0);
    expect("keep", ffi_keep(path, sizeof path, 6, 2, order, N, sums, N, marks, PLANNER_NAMES, stops, PLANNER_NAMES * N, kept, PLANNER_NAMES * N), 0);
    expect("exchange", ffi_exchange_fork(path, sizeof path, 6, 2, order, N, sums, N), 0);
    expect_same("exchanged", order, turned, sizeof turned);
    expect("total", (int64_t)sums[1], 60);
    expect("come back", ffi_come_back(path, sizeof path, 6, 2, order, N, sums, N, marks, PLANNER_NAMES, stops, PLANNER_NAMES * N, kept, PLANNER_NAMES * N), 0);
    expect_same("come back", order, planned, sizeof planned);
    expect("total", (int64_t)sums[1], 50);
    expect("set", ffi_exchange(K, order, N, set, 1, both, N), 0);
    expect_same("set", both, both_due, sizeof both_due);
}
