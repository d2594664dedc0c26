/*
 * Checks an order file against a path by the call of a controller that knows versions up to a highest one, and writes the result: 0 for a good one,
 * or the refusal's number made negative.
 *
 *     check PATH ORDER HIGHEST
 */
#include "cell.h"

#include <stdio.h>
#include <stdlib.h>

/* Reads a file whole, or as much as there is room for; more than the longest path has changes no answer. */
static size_t read_file(const char *name, uint8_t *bytes, size_t room)
{
    FILE *in = fopen(name, "rb");
    if (in == NULL) {
        fprintf(stderr, "%s cannot be read\n", name);
        return 0;
    }
    size_t count = fread(bytes, 1, room, in);
    fclose(in);
    return count;
}

int main(int count, char **names)
{
    static uint8_t path[CELL_MAX_PATH_SIZE + 1];
    static uint8_t file[CELL_MAX_ORDER_FILE_SIZE + 1];
    if (count != 4) {
        fprintf(stderr, "check PATH ORDER HIGHEST\n");
        return 2;
    }
    size_t path_len = read_file(names[1], path, sizeof path);
    size_t file_len = read_file(names[2], file, sizeof file);
    uint16_t highest = (uint16_t)strtoul(names[3], NULL, 10);
    printf("%lld\n", (long long)cell_check(path, path_len, highest, file, file_len));
    return 0;
}
