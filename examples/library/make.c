/* Makes the stream of an OBJ text, as the program `simplify` does, by the library:
 *
 *     cc -O2 -I. examples/library/make.c unproved/libvdpm.a -o make
 *     ./make 100 < examples/torus.obj > torus.vdpm
 */
#include "libvdpm.h"

#include <inttypes.h>
#include <stdio.h>
#include <stdlib.h>

/* The bytes of a file to its end, which the caller frees; NULL where memory is wanting. */
static uint8_t *read_all(FILE *file, size_t *length) {
    size_t room = 1 << 16;
    uint8_t *bytes = malloc(room);
    *length = 0;
    while (bytes) {
        size_t n = fread(bytes + *length, 1, room - *length, file);
        if (n == 0) return bytes;
        *length += n;
        if (*length < room) continue;
        uint8_t *more = realloc(bytes, room *= 2);
        if (!more) free(bytes);
        bytes = more;
    }
    return NULL;
}

/* Writes the bytes that were made. */
static int put_made(vdpm_made *made) {
    size_t length = 0, notes = 0;
    if (vdpm_made_length(made, &length, &notes) != VDPM_DONE) return 0;
    uint8_t *bytes = malloc(length + 1);
    int done = bytes && vdpm_made_bytes(made, bytes, length) == VDPM_DONE
        && fwrite(bytes, 1, length, stdout) == length;
    free(bytes);
    return done;
}

int main(int argc, char **argv) {
    if (argc < 2 || argc > 3) {
        fprintf(stderr, "make FACES [DIGITS] < TEXT > STREAM\n");
        return 2;
    }
    uint32_t faces = (uint32_t)strtoul(argv[1], NULL, 10);
    uint32_t digits = argc == 3 ? (uint32_t)strtoul(argv[2], NULL, 10) : 0;
    size_t length = 0;
    uint8_t *text = read_all(stdin, &length);
    vdpm_made made = VDPM_CLOSED;
    vdpm_fault fault;
    uint32_t status = VDPM_NO_MEMORY;
    if (text) status = vdpm_simplify(text, length, faces, digits, 0, &made, &fault);
    free(text);
    if (status == VDPM_DONE && !put_made(&made)) status = VDPM_NO_MEMORY;
    vdpm_made_close(&made);
    if (status == VDPM_FAULTY)
        fprintf(stderr, "make: fault %" PRIu32 " at %" PRIu64 "\n", fault.number, fault.place);
    else if (status != VDPM_DONE)
        fprintf(stderr, "make: status %" PRIu32 "\n", status);
    return status == VDPM_DONE ? 0 : 1;
}
