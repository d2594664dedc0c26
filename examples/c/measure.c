/*
 * The stack of the controller's calls at k = 6, as the last part of docs/BENCHMARK.md: 64 stops from a fixed seed in version 6. A call's stack
 * is that of a thread whose stack was filled with a pattern, less that of a thread which calls nothing.
 */
#define _POSIX_C_SOURCE 200809L
#include "cell.h"

#include <pthread.h>
#include <stdio.h>
#include <stdlib.h>
#include <string.h>

#define STACK (256 * 1024)

static uint8_t path[CELL_MAX_PATH_SIZE];
static uint8_t file[CELL_MAX_ORDER_FILE_SIZE];
static uint8_t other[CELL_MAX_PATH_SIZE];

/* Writes a number of some bytes, little-endian, and returns the place after it. */
static uint8_t *put(uint8_t *at, uint32_t number, int width)
{
    for (int i = 0; i < width; i++)
        *at++ = (uint8_t)(number >> (8 * i));
    return at;
}

/* The path. */
static void make_path(void)
{
    uint32_t seed = 1;
    uint8_t *at = put(put(put(put(path, 6, 2), 1, 2), 6, 2), CELL_MAX_K, 2);
    for (int i = 0; i < CELL_MAX_STOPS; i++) {
        at = put(put(at, 20, 2), 2, 2);
        for (int axis = 0; axis < 3; axis++) {
            seed = seed * 1664525 + 1013904223;
            at = put(at, (seed >> 8) % 40001 - 20000, 4);
        }
        at = put(put(put(at, 100 + (uint32_t)i, 2), (uint32_t)i, 2), 50 * (uint32_t)i, 2);
    }
    put(put(at, 2, 2), 3, 2);
}

static int64_t nothing(void) { return 0; }
static int64_t plan(void) { return cell_plan(path, sizeof path, 6, file, sizeof file); }
static int64_t check(void) { return cell_check(path, sizeof path, 6, file, sizeof file); }
static int64_t rewrite(void) { return cell_rewrite(path, sizeof path, 6, 6, other, sizeof other); }

struct job {
    int64_t (*call)(void);
    int64_t result;
};

/* One call in a thread. */
static void *once(void *given)
{
    struct job *job = given;
    job->result = job->call();
    return NULL;
}

/* The bytes of stack that a thread with one call writes to. */
static size_t stack_of(struct job *job)
{
    pthread_attr_t attributes;
    pthread_t thread;
    uint8_t *stack = aligned_alloc(4096, STACK);
    if (!stack)
        exit(1);
    memset(stack, 0xA5, STACK);
    if (pthread_attr_init(&attributes) || pthread_attr_setstack(&attributes, stack, STACK)
        || pthread_create(&thread, &attributes, once, job) || pthread_join(thread, NULL))
        exit(1);
    size_t untouched = 0;
    while (untouched < STACK && stack[untouched] == 0xA5)
        untouched++;
    free(stack);
    return STACK - untouched;
}

int main(void)
{
    static const char *names[] = {"cell_plan", "cell_check", "cell_rewrite"};
    struct job jobs[] = {{plan, 0}, {check, 0}, {rewrite, 0}};
    struct job none = {nothing, 0};
    make_path();
    size_t least = stack_of(&none);
    printf("\n## The stack of the controller's calls\n\nAt k = 6 and version 6: the bytes beyond those of a thread that calls nothing.\n\n");
    printf("| call | result | bytes of stack |\n|---|---|---|\n");
    for (int i = 0; i < 3; i++) {
        size_t stack = stack_of(&jobs[i]) - least;
        printf("| `%s` | %lld | %zu |\n", names[i], (long long)jobs[i].result, stack);
        if (jobs[i].result < 0)
            return 1;
    }
    return 0;
}
