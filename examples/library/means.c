/* Tells what each node of a stream has of numbers by vertex, as the parts of colours:
 *
 *     cc -O2 -I. examples/library/means.c unproved/libvdpm.a -o means
 *     ./means model.vdpm 3 < colours.txt
 *
 * The text has the numbers of the mesh's first vertex, 3 here, from 0 to 65535, then those of its
 * second; a line of the answer has a node and its numbers.
 */
#include "libvdpm.h"

#include <stdio.h>
#include <stdlib.h>

/* The bytes of a file, which the caller frees; NULL where it can't be read. */
static uint8_t *read_file(const char *name, size_t *length) {
    FILE *file = fopen(name, "rb");
    if (!file) return NULL;
    uint8_t *bytes = NULL;
    if (fseek(file, 0, SEEK_END) == 0) {
        long size = ftell(file);
        rewind(file);
        bytes = malloc(size > 0 ? (size_t)size : 1);
        *length = bytes ? fread(bytes, 1, (size_t)size, file) : 0;
    }
    fclose(file);
    return bytes;
}

/* Reads the numbers of the vertices, and writes those of the nodes. */
static uint32_t put_means(vdpm_viewer *viewer, uint32_t channels) {
    vdpm_sizes sizes;
    uint32_t status = vdpm_counts(viewer, &sizes);
    if (status != VDPM_DONE) return status;
    size_t length = (size_t)sizes.leaves * channels, room = (size_t)sizes.nodes * channels;
    uint16_t *by_vertex = malloc((length + 1) * sizeof *by_vertex);
    uint16_t *by_node = malloc((room + 1) * sizeof *by_node);
    status = by_vertex && by_node ? VDPM_DONE : VDPM_NO_MEMORY;
    size_t read = 0;
    while (status == VDPM_DONE && read < length && scanf("%hu", &by_vertex[read]) == 1) read++;
    if (status == VDPM_DONE)
        status = vdpm_means(viewer, channels, by_vertex, read, by_node, room);
    for (size_t node = 0; status == VDPM_DONE && node < sizes.nodes; node++) {
        printf("%zu", node);
        for (uint32_t i = 0; i < channels; i++) printf(" %u", by_node[node * channels + i]);
        putchar('\n');
    }
    free(by_vertex);
    free(by_node);
    return status;
}

int main(int argc, char **argv) {
    if (argc != 3) {
        fprintf(stderr, "means STREAM CHANNELS < NUMBERS\n");
        return 2;
    }
    size_t length = 0;
    uint8_t *stream = read_file(argv[1], &length);
    if (!stream) {
        fprintf(stderr, "means: %s can't be read\n", argv[1]);
        return 3;
    }
    vdpm_viewer viewer = VDPM_CLOSED;
    uint64_t place = 0;
    uint32_t status = vdpm_open(stream, length, 0, &viewer, &place);
    free(stream);
    if (status == VDPM_DONE) status = put_means(&viewer, (uint32_t)strtoul(argv[2], NULL, 10));
    vdpm_close(&viewer);
    if (status == VDPM_DONE) return 0;
    fprintf(stderr, "means: status %u\n", status);
    return 1;
}
