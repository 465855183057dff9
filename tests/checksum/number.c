/* What header reading and a whole read without any room say of blobs. Standard input has the blobs, each behind its length (4
 * bytes, little-endian); standard output a line for each: number and place of the one, number and place of the other. A right
 * blob gives "0 0 5 0". For tests/checksum/run.py.
 * Exit status: 0 all were read, 2 not so. */
#include "../../include/lerc2.h"

#include <inttypes.h>
#include <stdio.h>
#include <stdlib.h>

static void print_answers(const uint8_t *blob, size_t size) {
    uint8_t masks[2] = {0};
    uint64_t header[LERC2_HEADER], said[LERC2_READ], image[1] = {0}, places[2] = {0};
    size_t list[1] = {0};
    uint32_t of_header = lerc2_read_header(blob, size, header, LERC2_HEADER, &places[0], 1);
    uint32_t of_read = lerc2_read(blob, size, false, &masks[0], 0, &masks[1], 0, list, 0, image, 0, said, LERC2_READ,
                                  &places[1], 1);
    printf("%" PRIu32 " %" PRIu64 " %" PRIu32 " %" PRIu64 "\n", of_header, places[0], of_read, places[1]);
}

int main(void) {
    uint8_t front[4];
    while (fread(front, 1, 4, stdin) == 4) {
        size_t size = front[0] | (size_t)front[1] << 8 | (size_t)front[2] << 16 | (size_t)front[3] << 24;
        uint8_t *blob = malloc(size ? size : 1);
        if (blob == NULL || fread(blob, 1, size, stdin) != size) {
            fprintf(stderr, "number: a blob is cut, or there is no memory for it\n");
            return 2;
        }
        print_answers(blob, size);
        free(blob);
    }
    return fflush(stdout) == 0 && !ferror(stdout) ? 0 : 2;
}
