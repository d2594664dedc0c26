/*
 * The 50 example by the controller's calls: k = 2, x = 0, 30, 10, 20, speeds 100, rest 0. The path is planned, its order file is checked,
 * and the path is rewritten in versions 5 and 6 and back; then some refusals, among them a controller that knows only 4 or 5 and is handed a newer
 * path. Exits with 1 where an answer differs.
 */
#include "cell.h"

#include <stdio.h>
#include <string.h>

static int failures;

/* Counts an answer that is not the one due. */
static void expect(const char *what, int64_t found, int64_t due)
{
    if (found != due) {
        printf("%s: %lld, not %lld\n", what, (long long)found, (long long)due);
        failures++;
    }
}

/* Counts bytes that are not those due. */
static void expect_bytes(const char *what, const uint8_t *found, const uint8_t *due, size_t len)
{
    if (memcmp(found, due, len) != 0) {
        printf("%s: other bytes\n", what);
        failures++;
    }
}

/* The path in version 4. */
static const uint8_t path[] = {
    0x06, 0x00, 0x01, 0x00, 0x04, 0x00, 0x02, 0x00,
    0x10, 0x00, 0x02, 0x00, 0, 0, 0, 0, 0, 0, 0, 0, 0, 0, 0, 0, 100, 0,
    0x10, 0x00, 0x02, 0x00, 30, 0, 0, 0, 0, 0, 0, 0, 0, 0, 0, 0, 100, 0,
    0x10, 0x00, 0x02, 0x00, 10, 0, 0, 0, 0, 0, 0, 0, 0, 0, 0, 0, 100, 0,
    0x10, 0x00, 0x02, 0x00, 20, 0, 0, 0, 0, 0, 0, 0, 0, 0, 0, 0, 100, 0,
    0x02, 0x00, 0x03, 0x00,
};

/* Its order file: order head, total with stops, forks, end. */
static const uint8_t file[] = {
    0x04, 0x00, 0x04, 0x00, 0x02, 0x00,
    0x12, 0x00, 0x05, 0x00, 0x32, 0x00, 0x00, 0x00, 0x00, 0x00, 0x00, 0x00, 0x02, 0x00, 0x03, 0x00, 0x01, 0x00, 0x00, 0x00,
    0x03, 0x00, 0x06, 0x00, 0x06,
    0x02, 0x00, 0x03, 0x00,
};

/* Plans the path and checks what was written. */
static void plan_and_check(void)
{
    uint8_t out[CELL_MAX_ORDER_FILE_SIZE];
    memset(out, 0xAA, sizeof out);
    int64_t count = cell_plan(path, sizeof path, 5, out, sizeof out);
    expect("plan", count, sizeof file);
    expect("the size of the file", CELL_ORDER_FILE_SIZE(2), sizeof file);
    expect_bytes("plan", out, file, sizeof file);
    expect("beyond the file", out[sizeof file], 0xAA);
    expect("check", cell_check(path, sizeof path, 5, out, (size_t)count), 0);
    expect("check with highest 4", cell_check(path, sizeof path, 4, out, (size_t)count), 0);

    expect("plan into 34 bytes", cell_plan(path, sizeof path, 5, out, sizeof file - 1), -CELL_WRONG_SIZE);
    expect("plan for highest 7", cell_plan(path, sizeof path, 7, out, sizeof out), -CELL_WRONG_VERSION);
    expect("plan no bytes", cell_plan(NULL, 0, 5, out, sizeof out), -CELL_TRUNCATED);
    expect("check no file", cell_check(path, sizeof path, 5, NULL, 0), -CELL_TRUNCATED);
    expect_bytes("after refusals", out, file, sizeof file);

    out[10] = 51;
    expect("check a total of 51", cell_check(path, sizeof path, 5, out, sizeof file), -CELL_WRONG_TOTAL);
}

/* Rewrites the path in version 5 and back. */
static void rewrite(void)
{
    uint8_t five[CELL_MAX_PATH_SIZE];
    uint8_t four[CELL_MAX_PATH_SIZE];
    memset(five, 0xAA, sizeof five);
    int64_t count = cell_rewrite(path, sizeof path, 4, 5, five, sizeof five);
    expect("rewrite in version 5", count, CELL_PATH_SIZE(5, 2));
    expect("the version", five[4], 5);
    expect("a stop's length", five[8], 18);
    expect("beyond the path", five[CELL_PATH_SIZE(5, 2)], 0xAA);
    expect("read by version 4", cell_check(five, (size_t)count, 4, file, sizeof file), -CELL_WRONG_VERSION);
    expect("the same order", cell_check(five, (size_t)count, 5, file, sizeof file), 0);
    expect("rewrite in version 4", cell_rewrite(five, (size_t)count, 5, 4, four, sizeof four), sizeof path);
    expect_bytes("rewrite in version 4", four, path, sizeof path);

    expect("rewrite in version 7", cell_rewrite(path, sizeof path, 5, 7, four, 0), -CELL_WRONG_VERSION);
    expect("rewrite into 91 bytes", cell_rewrite(path, sizeof path, 5, 5, four, 91), -CELL_WRONG_SIZE);
    five[26] = 1;
    expect("a blend of 1 in version 4", cell_rewrite(five, (size_t)count, 5, 4, four, 0), -CELL_LOST_FIELD);
    expect_bytes("after refusals", four, path, sizeof path);
}

/* The path in version 6, for controllers that know versions up to 4, 5 and 6. */
static void newer(void)
{
    uint8_t six[CELL_MAX_PATH_SIZE];
    uint8_t out[CELL_MAX_PATH_SIZE];
    memset(out, 0xAA, sizeof out);
    int64_t count = cell_rewrite(path, sizeof path, 4, 6, six, sizeof six);
    expect("rewrite in version 6", count, CELL_PATH_SIZE(6, 2));
    expect("the version", six[4], 6);
    expect("a stop's length", six[8], 20);
    for (uint16_t highest = 4; highest < 6; highest++) {
        expect("plan a newer path", cell_plan(six, (size_t)count, highest, out, sizeof out), -CELL_WRONG_VERSION);
        expect("check by a newer path", cell_check(six, (size_t)count, highest, file, sizeof file), -CELL_WRONG_VERSION);
        expect("rewrite a newer path", cell_rewrite(six, (size_t)count, highest, 4, out, sizeof out), -CELL_WRONG_VERSION);
        expect("the head alone", cell_plan(six, 8, highest, out, sizeof out), -CELL_WRONG_VERSION);
    }
    expect("after refusals", out[0], 0xAA);
    expect("the same order", cell_check(six, (size_t)count, 6, file, sizeof file), 0);
    expect("rewrite in version 4", cell_rewrite(six, (size_t)count, 6, 4, out, sizeof out), sizeof path);
    expect_bytes("rewrite in version 4", out, path, sizeof path);

    /* a dwell of 1 ms at stop 0, which the order arrives at last */
    six[28] = 1;
    expect("a dwell of 1 in version 5", cell_rewrite(six, (size_t)count, 6, 5, out, 0), -CELL_LOST_FIELD);
    expect("a dwell of 1 in version 4", cell_rewrite(six, (size_t)count, 6, 4, out, 0), -CELL_LOST_FIELD);
    expect("a dwell of 1 in the total", cell_check(six, (size_t)count, 6, file, sizeof file), -CELL_WRONG_TOTAL);
    expect("a dwell of 1 in version 6", cell_rewrite(six, (size_t)count, 6, 6, out, sizeof out), count);
    expect_bytes("a dwell of 1 in version 6", out, six, (size_t)count);
}

int main(void)
{
    plan_and_check();
    rewrite();
    newer();
    if (failures != 0) {
        return 1;
    }
    printf("the controller's calls answer as they must\n");
    return 0;
}
