/*
 * The three calls of the cell's controller.
 *
 * The result is the count of bytes written, 0 for a good check, or a refusal's number made negative: result < 0 is a refusal, and then
 * -result is one of the numbers below.
 *
 * Buffers. A buffer is a pointer and then its length in bytes. The input and the output of one call may not overlap. A null pointer with
 * length 0 is an empty buffer; a null pointer with any other length is not allowed. A refusal writes nothing. After success the output
 * holds the result first and is untouched beyond. The calls keep no state and need no other memory than about 21 KB of stack.
 *
 * `highest` is the highest version that the controller knows, 4, 5 or 6: a newer path is turned down at its head, by CELL_WRONG_VERSION. k goes
 * up to CELL_MAX_K.
 */
#ifndef CELL_H
#define CELL_H

#include <stddef.h>
#include <stdint.h>

#ifdef __cplusplus
extern "C" {
#endif

/* The largest k of these calls, and its stops. */
#define CELL_MAX_K 6
#define CELL_MAX_STOPS 64

/* The stops of a path of this k, 0 to CELL_MAX_K. */
#define CELL_STOPS(k) ((size_t)1 << (k))

/* The bytes of a path of this version, 4, 5 or 6, and k, and of the longest one. */
#define CELL_PATH_SIZE(version, k) (12 + CELL_STOPS(k) * ((version) == 4 ? 18 : (version) == 5 ? 20 : 22))
#define CELL_MAX_PATH_SIZE 1420

/* The bytes of an order file of this k, and of the longest one. */
#define CELL_ORDER_FILE_SIZE(k) (26 + 2 * CELL_STOPS(k) + (CELL_STOPS(k) + 7) / 8)
#define CELL_MAX_ORDER_FILE_SIZE 162

/* The refusals. */
enum cell_refusal {
    /* fewer than 4 bytes left for a record, or fewer than its length claims */
    CELL_TRUNCATED = 1,
    /* length is not that of the kind and version */
    CELL_WRONG_LENGTH = 2,
    /* not the kind due here */
    CELL_WRONG_KIND = 3,
    /* version not 4, 5 or 6, or above the highest known; highest known not 4, 5 or 6 */
    CELL_WRONG_VERSION = 4,
    /* k above 10, or an order file's k not the path's */
    CELL_WRONG_K = 5,
    /* a stop's field out of range */
    CELL_OUT_OF_RANGE = 6,
    /* bytes after the end record */
    CELL_TRAILING_BYTES = 7,
    /* a lent buffer too short, or k above 6 */
    CELL_WRONG_SIZE = 8,
    /* a stop number n or more in an order */
    CELL_NO_SUCH_STOP = 9,
    /* an order not allowed */
    CELL_NOT_ALLOWED = 10,
    /* an order file's total is not its order's */
    CELL_WRONG_TOTAL = 11,
    /* a fork bit outside 1 to n-1 set, or bits not the order's */
    CELL_WRONG_FORKS = 12,
    /* a field not 0 that the version to be written lacks */
    CELL_LOST_FIELD = 13,
    /* a fork that is not 1 to n-1; no call here takes a fork */
    CELL_NO_SUCH_FORK = 14,
    /* a name that is not 1 to 8; no call here takes a name */
    CELL_NO_SUCH_NAME = 15,
    /* nothing kept under a name that is to be come back to; no call here keeps orders */
    CELL_NOTHING_KEPT = 16
};

/*
 * Plans the wanted order of a path and writes its order file: CELL_ORDER_FILE_SIZE(k) bytes. An output that is too short is refused in
 * the path's head, by CELL_WRONG_SIZE; CELL_MAX_ORDER_FILE_SIZE bytes are always enough.
 */
int64_t cell_plan(const uint8_t *path, size_t path_len, uint16_t highest, uint8_t *out, size_t out_len);

/* Checks an order file against a path: 0 where the file is good. The path's reading comes first. */
int64_t cell_check(const uint8_t *path, size_t path_len, uint16_t highest, const uint8_t *file, size_t file_len);

/*
 * Writes a path in another version, 4, 5 or 6, which may be above the highest known: CELL_PATH_SIZE(version, k) bytes. The version, then a
 * field not 0 that it would lose, then the output's length are tested after the path's reading; CELL_MAX_PATH_SIZE bytes are always enough.
 */
int64_t cell_rewrite(const uint8_t *path, size_t path_len, uint16_t highest, uint16_t version, uint8_t *out, size_t out_len);

#ifdef __cplusplus
}
#endif

#endif
