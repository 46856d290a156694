/* Calls the library at the edges of what its header allows: arrays of no items that are NULL, rooms
 * that are too small, and handles that aren't open. Prints each answer that isn't as told. */
#include "libvdpm.h"

#include <stdio.h>
#include <stdlib.h>
#include <string.h>

static int wrong;

static void told(const char *what, uint32_t status, uint32_t wanted) {
    if (status == wanted) return;
    printf("%s: %u, and not %u\n", what, (unsigned)status, (unsigned)wanted);
    wrong = 1;
}

/* The stream of nothing: a text of comments has no mesh in it. */
static uint8_t *empty_stream(size_t *length) {
    static const uint8_t text[] = "# nothing\n";
    vdpm_made made = VDPM_CLOSED;
    vdpm_fault fault;
    size_t notes = 1;
    uint8_t *bytes;
    told("vdpm_build", vdpm_build(text, sizeof text - 1, 0, 0, &made, &fault), VDPM_DONE);
    told("vdpm_made_length", vdpm_made_length(&made, length, &notes), VDPM_DONE);
    told("no notes", (uint32_t)notes, 0);
    told("vdpm_made_notes", vdpm_made_notes(&made, NULL, 0), VDPM_DONE);
    told("vdpm_made_bytes", vdpm_made_bytes(&made, NULL, 0), VDPM_NO_ROOM);
    bytes = malloc(*length);
    if (!bytes) abort();
    told("vdpm_made_bytes", vdpm_made_bytes(&made, bytes, *length), VDPM_DONE);
    vdpm_made_close(&made);
    vdpm_made_close(&made);
    return bytes;
}

static void texts_of_nothing(void) {
    vdpm_made made = VDPM_CLOSED;
    vdpm_fault fault;
    told("vdpm_prepare", vdpm_prepare(NULL, 0, 0, &made, &fault), VDPM_FAULTY);
    told("vdpm_simplify", vdpm_simplify(NULL, 0, 0, 0, 0, &made, &fault), VDPM_DONE);
    vdpm_made_close(&made);
    told("vdpm_build", vdpm_build(NULL, 0, 0, 0, &made, &fault), VDPM_DONE);
    told("vdpm_build again", vdpm_build(NULL, 0, 0, 0, &made, &fault), VDPM_NOT_SO);
    vdpm_made_close(&made);
    told("vdpm_build", vdpm_build(NULL, 0, 0, 5, &made, &fault), VDPM_OUT_OF_RANGE);
    told("vdpm_made_bytes", vdpm_made_bytes(&made, NULL, 0), VDPM_NOT_SO);
}

/* The scale of a text whose points don't stand on the grid, of one whose points do, and of none. */
static void scales(void) {
    static const uint8_t scaled[] = "v -1 0 0\nv 0 2.5 0\nv -3.5 2.5 0\nf 1 2 3\n";
    static const uint8_t standing[] = "v 0 0 0\nv 4 0 0\nv 0 4 0\nf 1 2 3\n";
    vdpm_made made = VDPM_CLOSED;
    vdpm_fault fault;
    vdpm_scale scale;
    memset(&scale, 7, sizeof scale);
    told("vdpm_made_scale", vdpm_made_scale(&made, &scale), VDPM_NOT_SO);
    told("vdpm_prepare", vdpm_prepare(scaled, sizeof scaled - 1, 0, &made, &fault), VDPM_DONE);
    told("vdpm_made_scale", vdpm_made_scale(&made, &scale), VDPM_DONE);
    told("extent", (uint32_t)scale.extent.whole, 3);
    told("its part", scale.extent.part == UINT64_C(500000000000000000), 1);
    told("steps", scale.steps, 65534);
    told("middle of x", (uint32_t)scale.middle[0].whole, 1);
    told("its part", scale.middle[0].part == UINT64_C(7500000000000000000), 1);
    told("its sign", scale.middle[0].negative, 1);
    told("middle of y", (uint32_t)scale.middle[1].whole, 1);
    told("its part", scale.middle[1].part == UINT64_C(2500000000000000000), 1);
    told("its sign", scale.middle[1].negative, 0);
    vdpm_made_close(&made);
    told("vdpm_prepare", vdpm_prepare(standing, sizeof standing - 1, 0, &made, &fault), VDPM_DONE);
    told("vdpm_made_scale", vdpm_made_scale(&made, &scale), VDPM_DONE);
    told("as it stood", scale.steps | (uint32_t)scale.extent.whole | scale.middle[0].negative, 0);
    vdpm_made_close(&made);
}

/* The stream of nothing, packed and given back; and bytes that are neither. */
static void packed_nothing(const uint8_t *stream, size_t length) {
    vdpm_made made = VDPM_CLOSED, back = VDPM_CLOSED;
    vdpm_fault fault = {7, 7};
    uint8_t packed[64], again[64];
    size_t count = 0, told_length = 0, notes = 1;
    told("vdpm_pack", vdpm_pack(NULL, 0, &made, &fault), VDPM_FAULTY);
    told("cut off", fault.number, 22);
    told("vdpm_unpack", vdpm_unpack(NULL, 0, &made, &fault), VDPM_FAULTY);
    told("not packed", fault.number, 34);
    told("no place", (uint32_t)fault.place, 0);
    told("vdpm_pack", vdpm_pack(stream, length, &made, &fault), VDPM_DONE);
    told("no fault", fault.number, 0);
    told("vdpm_pack again", vdpm_pack(stream, length, &made, &fault), VDPM_NOT_SO);
    told("vdpm_unpack again", vdpm_unpack(stream, length, &made, &fault), VDPM_NOT_SO);
    told("vdpm_unpack_first again", vdpm_unpack_first(stream, length, 0, &made, &fault),
         VDPM_NOT_SO);
    told("vdpm_made_length", vdpm_made_length(&made, &count, &notes), VDPM_DONE);
    told("no notes", (uint32_t)notes, 0);
    told("vdpm_made_bytes", vdpm_made_bytes(&made, packed, sizeof packed), VDPM_DONE);
    vdpm_made_close(&made);
    told("vdpm_unpack", vdpm_unpack(packed, count, &back, &fault), VDPM_DONE);
    told("vdpm_made_length", vdpm_made_length(&back, &told_length, &notes), VDPM_DONE);
    told("as long", (uint32_t)told_length, (uint32_t)length);
    told("vdpm_made_bytes", vdpm_made_bytes(&back, again, sizeof again), VDPM_DONE);
    told("the same", (uint32_t)(memcmp(again, stream, length) != 0), 0);
    vdpm_made_close(&back);
    told("vdpm_unpack_first", vdpm_unpack_first(packed, count, 0, &back, &fault), VDPM_DONE);
    told("vdpm_made_length", vdpm_made_length(&back, &told_length, &notes), VDPM_DONE);
    told("as long", (uint32_t)told_length, (uint32_t)length);
    vdpm_made_close(&back);
    told("vdpm_unpack_first", vdpm_unpack_first(packed, 7, 0, &back, &fault), VDPM_FAULTY);
    told("cut off", fault.number, 35);
}

/* A view of nothing: its planes may be NULL, and numbers out of range are refused. */
static void views_by_numbers(vdpm_viewer *viewer) {
    vdpm_look look = {{16777215, -16777215, 0}, 65535, 65535, 65535, VDPM_BY_DEVIATION};
    const int64_t plane[4] = {32767, -32767, 0, INT64_C(4398046511104)};
    vdpm_moved moved = {7, 7};
    told("vdpm_view", vdpm_view(viewer, &look, NULL, 0, &moved), VDPM_DONE);
    told("no moves", moved.moves, 0);
    told("none left", moved.left, 0);
    told("vdpm_view", vdpm_view(viewer, &look, plane, 4, &moved), VDPM_DONE);
    told("vdpm_view", vdpm_view(viewer, &look, plane, 3, &moved), VDPM_OUT_OF_RANGE);
    look.measure = 2;
    told("vdpm_view", vdpm_view(viewer, &look, NULL, 0, &moved), VDPM_OUT_OF_RANGE);
    look.measure = VDPM_BY_ERROR;
    look.silhouette = 65536;
    moved.moves = 7;
    told("vdpm_view", vdpm_view(viewer, &look, NULL, 0, &moved), VDPM_OUT_OF_RANGE);
    told("nothing told", moved.moves, 7);
}

/* Slots of no items, and a change of nothing. */
static void slots_of_nothing(void) {
    vdpm_slots slots = VDPM_CLOSED;
    vdpm_slots_sizes sizes = {7, 7};
    const uint32_t none = 0;
    told("vdpm_slots_of", vdpm_slots_of(&slots, NULL, 0, NULL, 0), VDPM_NOT_SO);
    told("vdpm_slots_open", vdpm_slots_open(0, &slots), VDPM_DONE);
    told("vdpm_slots_open again", vdpm_slots_open(0, &slots), VDPM_NOT_SO);
    told("vdpm_slots_change", vdpm_slots_change(&slots, NULL, 0, &none, 1, NULL, 0, &sizes),
         VDPM_OUT_OF_RANGE);
    told("nothing told", sizes.written, 7);
    told("vdpm_slots_change", vdpm_slots_change(&slots, NULL, 0, NULL, 0, NULL, 0, &sizes),
         VDPM_DONE);
    told("none written", sizes.written | sizes.length, 0);
    told("vdpm_slots_of", vdpm_slots_of(&slots, NULL, 0, NULL, 0), VDPM_DONE);
    vdpm_slots_close(&slots);
    vdpm_slots_close(&slots);
}

static void views_of_nothing(vdpm_viewer *viewer) {
    vdpm_sizes sizes;
    vdpm_change_sizes changes;
    vdpm_box box = {{7, 7, 7}, {7, 7, 7}};
    vdpm_fineness fineness = {7, 7, 7};
    size_t length = 1;
    uint32_t number = 7;
    memset(&sizes, 7, sizeof sizes);
    told("vdpm_line", vdpm_line(viewer, NULL, 0), VDPM_BAD_LINE);
    told("vdpm_reply_length", vdpm_reply_length(viewer, &length), VDPM_DONE);
    told("no reply", (uint32_t)length, 0);
    told("vdpm_reply", vdpm_reply(viewer, NULL, 0), VDPM_DONE);
    told("vdpm_counts", vdpm_counts(viewer, &sizes), VDPM_DONE);
    told("no nodes", sizes.nodes, 0);
    told("vdpm_frame", vdpm_frame(viewer, NULL, 0, NULL, 0, NULL, 0, NULL, 0, NULL, 0), VDPM_DONE);
    told("vdpm_change", vdpm_change(viewer, NULL, 0, NULL, 0, NULL, 0, NULL, 0, NULL, 0, NULL, 0,
                                    &changes), VDPM_DONE);
    told("vdpm_means", vdpm_means(viewer, 3, NULL, 0, NULL, 0), VDPM_DONE);
    told("vdpm_means", vdpm_means(viewer, 0, NULL, 0, NULL, 0), VDPM_DONE);
    told("vdpm_fits", vdpm_fits(viewer, 2, NULL, 0, NULL, 0), VDPM_DONE);
    told("vdpm_inputs", vdpm_inputs(viewer, NULL, 0, NULL, 0, &number), VDPM_DONE);
    told("no faces", number, 0);
    told("vdpm_extent", vdpm_extent(viewer, &box), VDPM_DONE);
    told("no extent", (uint32_t)(box.low[0] | box.low[2] | box.high[1]), 0);
    told("vdpm_level", vdpm_level(viewer, &fineness), VDPM_DONE);
    told("no error", (uint32_t)fineness.error, 0);
    number = 7;
    told("vdpm_splitter", vdpm_splitter(viewer, 0, &number), VDPM_NO_SUCH);
    told("vdpm_maker", vdpm_maker(viewer, VDPM_NONE, &number), VDPM_NO_SUCH);
    told("vdpm_ancestor", vdpm_ancestor(viewer, 0, &number), VDPM_NO_SUCH);
    told("vdpm_place", vdpm_place(viewer, 0, NULL, 0), VDPM_NO_SUCH);
    told("nothing written", number, 7);
}

int main(void) {
    vdpm_viewer viewer = VDPM_CLOSED;
    uint64_t place = 1;
    size_t length = 0;
    uint8_t *stream = empty_stream(&length);
    texts_of_nothing();
    slots_of_nothing();
    scales();
    told("vdpm_open", vdpm_open(NULL, 0, 0, &viewer, &place), 22);
    told("vdpm_line", vdpm_line(&viewer, NULL, 0), VDPM_NOT_SO);
    told("vdpm_open", vdpm_open(stream, length, 0, &viewer, &place), VDPM_DONE);
    told("no place", (uint32_t)place, 0);
    told("vdpm_open again", vdpm_open(stream, length, 0, &viewer, &place), VDPM_NOT_SO);
    packed_nothing(stream, length);
    free(stream);
    views_of_nothing(&viewer);
    views_by_numbers(&viewer);
    vdpm_close(&viewer);
    vdpm_close(&viewer);
    told("vdpm_reply", vdpm_reply(&viewer, NULL, 0), VDPM_NOT_SO);
    told("vdpm_version", vdpm_version(), VDPM_VERSION);
    return wrong;
}
