/* Flies round a model and tells for each view what it took and what is shown:
 *
 *     ./vdpm build < examples/torus.obj > torus.vdpm
 *     python3 tools/library.py
 *     cc -O2 -I. examples/library/fly.c unproved/libvdpm.a -o fly
 *     ./fly torus.vdpm 16
 */
#include "libvdpm.h"

#include <inttypes.h>
#include <stdio.h>
#include <stdlib.h>
#include <string.h>

enum { RADIUS = 30000, HEIGHT = 12000, FOCAL = 1000, TOLERANCE = 8 };

/* The mesh of a front, as a program that draws would hand it to its graphics library. */
typedef struct mesh {
    uint32_t *nodes, *faces, *corners, *corner_nodes;
    int32_t *places;
    uint32_t node_count, face_count;
} mesh;

static void drop_mesh(mesh *it) {
    free(it->nodes);
    free(it->faces);
    free(it->corners);
    free(it->corner_nodes);
    free(it->places);
    memset(it, 0, sizeof *it);
}

/* Room for so many numbers, and for one where there are none: NULL is want of memory then. */
static void *room_for(size_t count) {
    return malloc((count ? count : 1) * sizeof(uint32_t));
}

/* Fetches the mesh that is shown. */
static uint32_t fetch_mesh(vdpm_viewer *viewer, mesh *it) {
    vdpm_sizes sizes;
    uint32_t status = vdpm_counts(viewer, &sizes);
    if (status != VDPM_DONE) return status;
    size_t v = it->node_count = sizes.shown_nodes, f = it->face_count = sizes.shown_faces;
    it->nodes = room_for(v);
    it->places = room_for(3 * v);
    it->faces = room_for(f);
    it->corners = room_for(3 * f);
    it->corner_nodes = room_for(3 * f);
    if (!it->nodes || !it->places || !it->faces || !it->corners || !it->corner_nodes)
        return VDPM_NO_MEMORY;
    return vdpm_frame(viewer, it->nodes, v, it->places, 3 * v, it->faces, f, it->corners, 3 * f,
                      it->corner_nodes, 3 * f);
}

/* Goes to a view from (x, y, HEIGHT), and prints what came of it. */
static uint32_t look_from(vdpm_viewer *viewer, int32_t x, int32_t y) {
    vdpm_look look = {{x, y, HEIGHT}, FOCAL, TOLERANCE, TOLERANCE, VDPM_BY_ERROR};
    vdpm_moved moved;
    uint32_t status = vdpm_view(viewer, &look, NULL, 0, &moved);
    if (status != VDPM_DONE) return status;
    mesh shown = {0};
    status = fetch_mesh(viewer, &shown);
    if (status == VDPM_DONE)
        printf("%6" PRId32 " %6" PRId32 ": %u moves, %u vertices, %u faces\n", x, y, moved.moves,
               shown.node_count, shown.face_count);
    drop_mesh(&shown);
    return status;
}

/* A step of so many on a square round the model: whole numbers are enough to fly. */
static void stand_at(int step, int steps, int32_t *x, int32_t *y) {
    int side = 4 * step / steps, along = 4 * step % steps;
    int32_t a = -RADIUS + (int32_t)(2L * RADIUS * along / steps);
    *x = side == 0 ? a : side == 1 ? RADIUS : side == 2 ? -a : -RADIUS;
    *y = side == 0 ? -RADIUS : side == 1 ? a : side == 2 ? RADIUS : -a;
}

static uint8_t *read_file(const char *name, size_t *length) {
    FILE *file = fopen(name, "rb");
    if (!file) return NULL;
    uint8_t *bytes = NULL;
    if (fseek(file, 0, SEEK_END) == 0) {
        long size = ftell(file);
        rewind(file);
        bytes = malloc(size > 0 ? (size_t)size : 1);
        *length = bytes ? fread(bytes, 1, (size_t)size, file) : 0;
    }
    fclose(file);
    return bytes;
}

int main(int argc, char **argv) {
    int steps = argc == 3 ? atoi(argv[2]) : 0;
    if (steps < 1) {
        fprintf(stderr, "fly STREAM STEPS\n");
        return 2;
    }
    size_t length = 0;
    uint8_t *stream = read_file(argv[1], &length);
    vdpm_viewer viewer = VDPM_CLOSED;
    uint64_t place = 0;
    uint32_t status = stream ? vdpm_open(stream, length, UINT32_MAX, &viewer, &place) : VDPM_NOT_SO;
    free(stream);
    for (int step = 0; step < steps && status == VDPM_DONE; step++) {
        int32_t x, y;
        stand_at(step, steps, &x, &y);
        status = look_from(&viewer, x, y);
    }
    vdpm_close(&viewer);
    if (status != VDPM_DONE) fprintf(stderr, "fly: status %u, place %" PRIu64 "\n", status, place);
    return status == VDPM_DONE ? 0 : 1;
}
