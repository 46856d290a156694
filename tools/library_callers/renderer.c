/* Keeps a vertex buffer and an index buffer as a renderer does, by the slots of what changes, and
 * compares them with the frame after each line of a script:
 *
 *     renderer STREAM < SCRIPT
 *
 * Ends with status 0 where each buffer shows what the frame has, each item once, and says how many
 * slots were written and how many whole frames would have been. */
#include "libvdpm.h"

#include <stdio.h>
#include <stdlib.h>
#include <string.h>

enum { MOST_BYTES = 1 << 24, MOST_LINE = 256 };

/* A buffer of the renderer's: for each slot as many numbers as an item has. */
typedef struct buffer {
    vdpm_slots slots;
    uint32_t *items; /* of each slot, or VDPM_NONE */
    int32_t *values; /* three for each slot */
    uint32_t *writes;
    uint32_t room, length;
} buffer;

typedef struct lists {
    uint32_t *gone_faces, *gone_nodes, *new_nodes, *put_faces, *put_corners, *corners;
    int32_t *new_places;
    vdpm_change_sizes sizes;
} lists;

static vdpm_viewer viewer = VDPM_CLOSED;
static vdpm_sizes sizes;
static uint32_t faces;

static void must(int holds, const char *what) {
    if (holds) return;
    printf("not so: %s\n", what);
    exit(1);
}

static void *room_for(size_t count) {
    void *room = malloc(4 * count + 4);
    if (!room) abort();
    return room;
}

static void open_buffer(buffer *it, uint32_t items) {
    static const vdpm_slots closed = VDPM_CLOSED;
    it->slots = closed;
    it->room = items;
    it->length = 0;
    it->items = room_for(items);
    it->values = room_for(3 * (size_t)items);
    it->writes = room_for(items);
    must(vdpm_slots_open(items, &it->slots) == VDPM_DONE, "slots open");
    must(vdpm_slots_open(items, &it->slots) == VDPM_NOT_SO, "slots open once");
    for (uint32_t i = 0; i < items; i++) it->items[i] = VDPM_NONE;
}

static void close_buffer(buffer *it) {
    vdpm_slots_close(&it->slots);
    free(it->items);
    free(it->values);
    free(it->writes);
}

/* Writes a change into a buffer, and tells how many slots that were. */
static uint32_t write_change(buffer *it, const uint32_t *gone, uint32_t gone_count,
                             const uint32_t *put, uint32_t put_count, const int32_t *values) {
    vdpm_slots_sizes told = {7, 7};
    if (gone_count + put_count > 0) {
        must(vdpm_slots_change(&it->slots, gone, gone_count, put, put_count, it->writes, 0, &told)
                 == VDPM_NO_ROOM, "room is wanted");
        must(told.written <= gone_count + put_count && told.length == it->length, "how much");
    }
    must(vdpm_slots_change(&it->slots, gone, gone_count, put, put_count, it->writes, it->room,
                           &told) == VDPM_DONE, "a change of slots");
    for (uint32_t i = 0; i < told.written; i++) {
        uint32_t slot = it->writes[i];
        must(slot < told.length && told.length <= it->room, "a slot of the buffer");
        it->items[slot] = i < put_count ? put[i] : VDPM_NONE;
        if (i < put_count) memcpy(it->values + 3 * (size_t)slot, values + 3 * (size_t)i, 12);
    }
    it->length = told.length;
    return told.written;
}

/* Whether a buffer has these items, each once, with these values. */
static void compare(buffer *it, const uint32_t *items, uint32_t count, const int32_t *values) {
    uint32_t *slots = room_for(count), shown = 0;
    must(vdpm_slots_of(&it->slots, items, count, slots, count) == VDPM_DONE, "slots of items");
    for (uint32_t i = 0; i < count; i++) {
        must(slots[i] < it->length && it->items[slots[i]] == items[i], "an item in its slot");
        must(!memcmp(it->values + 3 * (size_t)slots[i], values + 3 * (size_t)i, 12), "its values");
    }
    for (uint32_t i = 0; i < it->length; i++) shown += it->items[i] != VDPM_NONE;
    must(shown == count, "no other item");
    free(slots);
}

static void take_change(lists *l) {
    uint32_t n = sizes.nodes, f = faces;
    must(vdpm_change(&viewer, l->gone_faces, f, l->gone_nodes, n, l->new_nodes, n, l->new_places,
                     3 * (size_t)n, l->put_faces, f, l->put_corners, 3 * (size_t)f, &l->sizes)
             == VDPM_DONE, "a change");
}

/* The corners of faces as slots of their nodes. */
static const int32_t *as_slots(buffer *vertices, lists *l, const uint32_t *nodes, size_t count) {
    must(vdpm_slots_of(&vertices->slots, nodes, count, l->corners, count) == VDPM_DONE, "corners");
    return (const int32_t *)l->corners;
}

/* The base mesh is what is put first: nothing was shown before. */
static uint32_t write_frame(buffer *vertices, buffer *indices, lists *l, int at_first) {
    uint32_t *nodes = room_for(sizes.nodes), *shown = room_for(faces), written = 0;
    uint32_t *corners = room_for(3 * (size_t)faces), *corner_nodes = room_for(3 * (size_t)faces);
    int32_t *places = room_for(3 * (size_t)sizes.nodes);
    uint32_t v = sizes.shown_nodes, f = sizes.shown_faces;
    must(vdpm_frame(&viewer, nodes, v, places, 3 * (size_t)v, shown, f, corners, 3 * (size_t)f,
                    corner_nodes, 3 * (size_t)f) == VDPM_DONE, "a frame");
    if (at_first) {
        written += write_change(vertices, NULL, 0, nodes, v, places);
        written += write_change(indices, NULL, 0, shown, f,
                                as_slots(vertices, l, corner_nodes, 3 * (size_t)f));
    }
    compare(vertices, nodes, v, places);
    compare(indices, shown, f, as_slots(vertices, l, corner_nodes, 3 * (size_t)f));
    free(nodes);
    free(shown);
    free(corners);
    free(corner_nodes);
    free(places);
    return written;
}

static uint32_t follow(buffer *vertices, buffer *indices, lists *l) {
    uint32_t written;
    take_change(l);
    written = write_change(vertices, l->gone_nodes, l->sizes.gone_nodes, l->new_nodes,
                           l->sizes.new_nodes, l->new_places);
    return written + write_change(indices, l->gone_faces, l->sizes.gone_faces, l->put_faces,
                                  l->sizes.put_faces,
                                  as_slots(vertices, l, l->put_corners,
                                           3 * (size_t)l->sizes.put_faces));
}

static void open_stream(const char *path) {
    FILE *file = fopen(path, "rb");
    uint8_t *stream = room_for(MOST_BYTES / 4);
    uint64_t place;
    size_t length;
    uint32_t none = VDPM_NONE;
    must(file != NULL, "the stream is there");
    length = fread(stream, 1, MOST_BYTES, file);
    fclose(file);
    must(vdpm_open(stream, length, none, &viewer, &place) == VDPM_DONE, "the stream opens");
    free(stream);
    must(vdpm_counts(&viewer, &sizes) == VDPM_DONE, "counts");
    vdpm_inputs(&viewer, NULL, 0, NULL, 0, &faces);
}

int main(int count, char **words) {
    buffer vertices, indices;
    lists l;
    char line[MOST_LINE];
    uint64_t written = 0, whole = 0;
    if (count != 2) return 2;
    open_stream(words[1]);
    l.gone_faces = room_for(faces);
    l.gone_nodes = room_for(sizes.nodes);
    l.new_nodes = room_for(sizes.nodes);
    l.put_faces = room_for(faces);
    l.put_corners = room_for(3 * (size_t)faces);
    l.corners = room_for(3 * (size_t)faces);
    l.new_places = room_for(3 * (size_t)sizes.nodes);
    open_buffer(&vertices, sizes.nodes);
    open_buffer(&indices, faces);
    take_change(&l);
    write_frame(&vertices, &indices, &l, 1);
    while (fgets(line, MOST_LINE, stdin)) {
        uint32_t status = vdpm_line(&viewer, (const uint8_t *)line, strcspn(line, "\n"));
        must(status == VDPM_DONE, line);
        must(vdpm_counts(&viewer, &sizes) == VDPM_DONE, "counts");
        written += follow(&vertices, &indices, &l);
        whole += sizes.shown_nodes + sizes.shown_faces;
        write_frame(&vertices, &indices, &l, 0);
    }
    printf("%llu of %llu\n", (unsigned long long)written, (unsigned long long)whole);
    close_buffer(&vertices);
    close_buffer(&indices);
    free(l.gone_faces);
    free(l.gone_nodes);
    free(l.new_nodes);
    free(l.put_faces);
    free(l.put_corners);
    free(l.corners);
    free(l.new_places);
    vdpm_close(&viewer);
    return 0;
}
