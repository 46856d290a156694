/* What programs were built with that ask for version 1 of the library: its functions, layouts and
 * numbers, as they were when each was new. A compiler refuses this file where the header tells
 * another. A new function or number is added here with the version that brings it; no line goes or
 * changes until the major version does. Layouts are those of 64-bit systems. */
#include "libvdpm.h"

#define SIZE(type, bytes) typedef char size_of_##type[sizeof(type) == (bytes) ? 1 : -1]
#define FIELD(type, name, at) typedef char is_##type##_##name[offsetof(type, name) == (at) ? 1 : -1]
#define NUMBER(name, value) typedef char name##_is[(name) == (value) ? 1 : -1]

/* Of 1.0. */

NUMBER(VDPM_DONE, 0);
NUMBER(VDPM_FAULTY, 1);
NUMBER(VDPM_OUT_OF_RANGE, 2);
NUMBER(VDPM_NO_MEMORY, 5);
NUMBER(VDPM_NOT_SO, 6);
NUMBER(VDPM_NO_ROOM, 7);
NUMBER(VDPM_NO_SUCH, 8);
NUMBER(VDPM_QUIT, 9);
NUMBER(VDPM_BAD_LINE, 30);
NUMBER(VDPM_NO_RECORD, 31);
NUMBER(VDPM_NONE, 0xFFFFFFFF);

SIZE(vdpm_viewer, 16);
FIELD(vdpm_viewer, at, 0);
FIELD(vdpm_viewer, open, 8);

SIZE(vdpm_sizes, 24);
FIELD(vdpm_sizes, shown_nodes, 0);
FIELD(vdpm_sizes, shown_faces, 4);
FIELD(vdpm_sizes, nodes, 8);
FIELD(vdpm_sizes, leaves, 12);
FIELD(vdpm_sizes, records, 16);
FIELD(vdpm_sizes, digits, 20);

SIZE(vdpm_change_sizes, 16);
FIELD(vdpm_change_sizes, gone_faces, 0);
FIELD(vdpm_change_sizes, gone_nodes, 4);
FIELD(vdpm_change_sizes, new_nodes, 8);
FIELD(vdpm_change_sizes, put_faces, 12);

SIZE(vdpm_made, 16);
FIELD(vdpm_made, at, 0);
FIELD(vdpm_made, open, 8);

SIZE(vdpm_fault, 16);
FIELD(vdpm_fault, number, 0);
FIELD(vdpm_fault, place, 8);

uint32_t vdpm_open(const uint8_t *, size_t, uint32_t, vdpm_viewer *, uint64_t *);
uint32_t vdpm_line(vdpm_viewer *, const uint8_t *, size_t);
uint32_t vdpm_reply_length(vdpm_viewer *, size_t *);
uint32_t vdpm_reply(vdpm_viewer *, uint8_t *, size_t);
uint32_t vdpm_counts(vdpm_viewer *, vdpm_sizes *);
uint32_t vdpm_frame(vdpm_viewer *, uint32_t *, size_t, int32_t *, size_t, uint32_t *, size_t,
                    uint32_t *, size_t, uint32_t *, size_t);
uint32_t vdpm_change(vdpm_viewer *, uint32_t *, size_t, uint32_t *, size_t, uint32_t *, size_t,
                     int32_t *, size_t, uint32_t *, size_t, uint32_t *, size_t,
                     vdpm_change_sizes *);
uint32_t vdpm_splitter(vdpm_viewer *, uint32_t, uint32_t *);
uint32_t vdpm_maker(vdpm_viewer *, uint32_t, uint32_t *);
uint32_t vdpm_ancestor(vdpm_viewer *, uint32_t, uint32_t *);
uint32_t vdpm_place(vdpm_viewer *, uint32_t, int32_t *, size_t);
uint32_t vdpm_means(vdpm_viewer *, uint32_t, const uint16_t *, size_t, uint16_t *, size_t);
void vdpm_close(vdpm_viewer *);

uint32_t vdpm_build(const uint8_t *, size_t, uint32_t, uint32_t, vdpm_made *, vdpm_fault *);
uint32_t vdpm_simplify(const uint8_t *, size_t, uint32_t, uint32_t, uint32_t, vdpm_made *,
                       vdpm_fault *);
uint32_t vdpm_prepare(const uint8_t *, size_t, uint32_t, vdpm_made *, vdpm_fault *);
uint32_t vdpm_made_length(vdpm_made *, size_t *, size_t *);
uint32_t vdpm_made_bytes(vdpm_made *, uint8_t *, size_t);
uint32_t vdpm_made_notes(vdpm_made *, uint8_t *, size_t);
void vdpm_made_close(vdpm_made *);

/* Of 1.1. */

NUMBER(VDPM_BY_ERROR, 0);
NUMBER(VDPM_BY_DEVIATION, 1);

SIZE(vdpm_look, 28);
FIELD(vdpm_look, eye, 0);
FIELD(vdpm_look, focal, 12);
FIELD(vdpm_look, tolerance, 16);
FIELD(vdpm_look, silhouette, 20);
FIELD(vdpm_look, measure, 24);

SIZE(vdpm_moved, 8);
FIELD(vdpm_moved, moves, 0);
FIELD(vdpm_moved, left, 4);

SIZE(vdpm_box, 24);
FIELD(vdpm_box, low, 0);
FIELD(vdpm_box, high, 12);

SIZE(vdpm_fineness, 24);
FIELD(vdpm_fineness, error, 0);
FIELD(vdpm_fineness, deviation, 8);
FIELD(vdpm_fineness, split, 16);

uint32_t vdpm_version(void);
uint32_t vdpm_view(vdpm_viewer *, const vdpm_look *, const int64_t *, size_t, vdpm_moved *);
uint32_t vdpm_fits(vdpm_viewer *, uint32_t, const int32_t *, size_t, int32_t *, size_t);
uint32_t vdpm_inputs(vdpm_viewer *, uint32_t *, size_t, uint32_t *, size_t, uint32_t *);
uint32_t vdpm_extent(vdpm_viewer *, vdpm_box *);
uint32_t vdpm_level(vdpm_viewer *, vdpm_fineness *);
uint32_t vdpm_pack(const uint8_t *, size_t, vdpm_made *, vdpm_fault *);
uint32_t vdpm_unpack(const uint8_t *, size_t, vdpm_made *, vdpm_fault *);

/* Of 1.2. */

SIZE(vdpm_decimal, 24);
FIELD(vdpm_decimal, whole, 0);
FIELD(vdpm_decimal, part, 8);
FIELD(vdpm_decimal, negative, 16);

SIZE(vdpm_scale, 104);
FIELD(vdpm_scale, extent, 0);
FIELD(vdpm_scale, middle, 24);
FIELD(vdpm_scale, steps, 96);

SIZE(vdpm_slots, 16);
FIELD(vdpm_slots, at, 0);
FIELD(vdpm_slots, open, 8);

SIZE(vdpm_slots_sizes, 8);
FIELD(vdpm_slots_sizes, written, 0);
FIELD(vdpm_slots_sizes, length, 4);

uint32_t vdpm_made_scale(vdpm_made *, vdpm_scale *);

uint32_t vdpm_slots_open(uint32_t, vdpm_slots *);
uint32_t vdpm_slots_change(vdpm_slots *, const uint32_t *, size_t, const uint32_t *, size_t,
                           uint32_t *, size_t, vdpm_slots_sizes *);
uint32_t vdpm_slots_of(vdpm_slots *, const uint32_t *, size_t, uint32_t *, size_t);
void vdpm_slots_close(vdpm_slots *);

/* Of 1.3. */

SIZE(vdpm_run, 16);
FIELD(vdpm_run, at, 0);
FIELD(vdpm_run, open, 8);

SIZE(vdpm_progress, 32);
FIELD(vdpm_progress, faces, 0);
FIELD(vdpm_progress, faces_left, 8);
FIELD(vdpm_progress, collapses, 16);
FIELD(vdpm_progress, ended, 24);

uint32_t vdpm_simplify_begin(const uint8_t *, size_t, uint32_t, uint32_t, uint32_t, vdpm_run *,
                             vdpm_fault *);
uint32_t vdpm_simplify_more(vdpm_run *, uint32_t, vdpm_progress *);
uint32_t vdpm_simplify_end(vdpm_run *, vdpm_made *);
void vdpm_simplify_close(vdpm_run *);
uint32_t vdpm_unpack_first(const uint8_t *, size_t, uint32_t, vdpm_made *, vdpm_fault *);
