/* Does a script on a stream, as `vdpm live` does, by the library:
 *
 *     cc -O2 -I. examples/library/script.c unproved/libvdpm.a -o script
 *     ./script model.vdpm 1000 < script.txt
 */
#include "libvdpm.h"

#include <stdio.h>
#include <stdlib.h>
#include <string.h>

/* The bytes of a file, which the caller frees; NULL where it can't be read. */
static uint8_t *read_file(const char *name, size_t *length) {
    FILE *file = fopen(name, "rb");
    if (!file) return NULL;
    uint8_t *bytes = NULL;
    if (fseek(file, 0, SEEK_END) == 0) {
        long size = ftell(file);
        rewind(file);
        bytes = malloc(size > 0 ? (size_t)size : 1);
        *length = bytes ? fread(bytes, 1, (size_t)size, file) : 0;
    }
    fclose(file);
    return bytes;
}

/* Writes the reply to the last line. */
static int put_reply(vdpm_viewer *viewer) {
    size_t length = 0;
    if (vdpm_reply_length(viewer, &length) != VDPM_DONE) return 0;
    uint8_t *reply = malloc(length + 1);
    int done = reply && vdpm_reply(viewer, reply, length) == VDPM_DONE
        && fwrite(reply, 1, length, stdout) == length;
    free(reply);
    return done;
}

int main(int argc, char **argv) {
    if (argc != 3) {
        fprintf(stderr, "script STREAM BUDGET < SCRIPT\n");
        return 2;
    }
    size_t length = 0;
    uint8_t *stream = read_file(argv[1], &length);
    if (!stream) {
        fprintf(stderr, "script: %s can't be read\n", argv[1]);
        return 3;
    }
    vdpm_viewer viewer = VDPM_CLOSED;
    uint64_t place = 0;
    uint32_t budget = (uint32_t)strtoul(argv[2], NULL, 10);
    uint32_t status = vdpm_open(stream, length, budget, &viewer, &place);
    free(stream);
    if (status != VDPM_DONE) {
        fprintf(stderr, "script: fault %u at %llu\n", status, (unsigned long long)place);
        return 1;
    }
    char line[2048];
    while (status == VDPM_DONE && fgets(line, sizeof line, stdin)) {
        status = vdpm_line(&viewer, (const uint8_t *)line, strcspn(line, "\n"));
        if (status == VDPM_DONE && !put_reply(&viewer)) status = VDPM_NO_MEMORY;
    }
    vdpm_close(&viewer);
    if (status == VDPM_DONE || status == VDPM_QUIT) return 0;
    fprintf(stderr, "script: status %u\n", status);
    return 1;
}
