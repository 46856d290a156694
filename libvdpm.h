/* libvdpm: a view-dependent progressive mesh in a program's own memory.
 *
 * A viewer is one hierarchy that is being shown: the bytes of a stream, a front of it, and the
 * reply to the last script line. It does what `vdpm live` does (docs/commands/view.md,
 * docs/FORMATS.md), without a process and without text where arrays serve better. Streams are made
 * here too: vdpm_prepare, vdpm_build and vdpm_simplify do what the programs do with a text, and
 * vdpm_pack and vdpm_unpack what `pack` does with a stream.
 * docs/LIBRARY.md tells how to build and use it, and what is proved of it.
 *
 * Ownership. A vdpm_viewer is the caller's: a variable or a field, all zero at first
 * (VDPM_CLOSED). Between vdpm_open and vdpm_close it owns memory of the library, so it is
 * neither copied nor changed by hand then; that isn't looked at. So it is with a vdpm_made between
 * the making and vdpm_made_close, and with a vdpm_slots between vdpm_slots_open and
 * vdpm_slots_close. The library keeps no pointer that it is given: every array is the
 * caller's, and is read or written during the call alone.
 * The arrays of a call don't overlap. One whose length or room is 0 may be NULL, as data() of an
 * empty std::vector is; no other pointer is.
 *
 * Threads. One thread at a time uses a viewer, or what was made. It need not be the one that opened
 * or made it, if a lock or a join orders their calls. Different ones are independent, each on any
 * thread. No function is called from a signal handler.
 *
 * Memory comes from malloc and goes back to free. Nothing aborts: out of memory is the answer
 * VDPM_NO_MEMORY. That doesn't hold of the stack: a thread that calls has 128 KB, whatever the size
 * of the mesh; with less it may end by SIGSEGV.
 *
 * Units. Coordinates are whole numbers from -32,767 to 32,767, in units of 10 to the power of
 * -digits (vdpm_counts). Nodes, faces, leaves and records are counted from 0, as in frames. */
#ifndef LIBVDPM_H
#define LIBVDPM_H

#include <stddef.h>
#include <stdint.h>

#ifdef __cplusplus
extern "C" {
#endif

/* The version of the library. What may change with which number: docs/LIBRARY.md. */
#define VDPM_VERSION_MAJOR 1
#define VDPM_VERSION_MINOR 3
#define VDPM_VERSION_PATCH 0
#define VDPM_VERSION \
    (VDPM_VERSION_MAJOR * 10000 + VDPM_VERSION_MINOR * 100 + VDPM_VERSION_PATCH)

/* The same of the library that a program runs with, which may be a newer one. */
uint32_t vdpm_version(void);

/* What a function answers: VDPM_DONE, or why not. A fault of a stream is answered by its own
 * number (docs/commands/vdpm.md, "The faults of a stream"): 11, 20 to 29 or 33. */
enum {
    VDPM_DONE = 0,
    VDPM_FAULTY = 1,       /* the text has a fault, which is told beside the answer */
    VDPM_OUT_OF_RANGE = 2, /* a number that was asked for is out of its range; nothing was done */
    VDPM_NO_MEMORY = 5,  /* out of memory */
    VDPM_NOT_SO = 6,     /* the handle isn't open, and nothing was written; what opens or makes: it
                          * is open already */
    VDPM_NO_ROOM = 7,    /* an array has less room than is needed; nothing was written */
    VDPM_NO_SUCH = 8,    /* there is no such node or leaf; nothing was written */
    VDPM_QUIT = 9,       /* the line was `q`: nothing was done */
    VDPM_BAD_LINE = 30,  /* the line is none of the forms; nothing was done */
    VDPM_NO_RECORD = 31  /* the line names a record that isn't there; nothing was done */
};

/* What is told in place of a record, a vertex or a slot where there is none. */
#define VDPM_NONE UINT32_C(0xFFFFFFFF)

/* A viewer. Its fields are the library's own. */
typedef struct vdpm_viewer {
    void *at;
    uint32_t open;
} vdpm_viewer;

/* A viewer that isn't open: vdpm_viewer viewer = VDPM_CLOSED; */
#define VDPM_CLOSED {0, 0}

/* How large a hierarchy and the mesh that is shown of it are. */
typedef struct vdpm_sizes {
    uint32_t shown_nodes; /* active nodes: the vertices of the mesh shown */
    uint32_t shown_faces; /* its faces */
    uint32_t nodes;       /* nodes in all */
    uint32_t leaves;      /* leaves: the vertices of the complete mesh */
    uint32_t records;     /* records: each is a vertex split */
    uint32_t digits;      /* decimals of a coordinate, 0 to 4 */
} vdpm_sizes;

/* Opens a viewer on `length` bytes of a stream, which are all of it, and shows its base mesh. A
 * view makes at most `budget` moves; the line `b N` sets another budget. The bytes are copied as
 * far as they are needed.
 * Answers VDPM_DONE; the number of the fault for which `vdpm check` refuses the bytes, with its
 * place in *place (0 where it has none); VDPM_NO_MEMORY; or VDPM_NOT_SO. Beside all that is no
 * fault *place is 0. The viewer is as it was where it isn't VDPM_DONE. */
uint32_t vdpm_open(const uint8_t *stream, size_t length, uint32_t budget, vdpm_viewer *viewer,
                   uint64_t *place);

/* Does one script line of `vdpm live`, given without its LF, and keeps its reply.
 * Answers VDPM_DONE, VDPM_QUIT, VDPM_BAD_LINE, VDPM_NO_RECORD, VDPM_NOT_SO, or VDPM_NO_MEMORY:
 * memory for a reply of more than 64 bytes was wanting. The line is done then too, and the reply
 * has some of its first bytes; only the mark of `d` has changed by such a line. */
uint32_t vdpm_line(vdpm_viewer *viewer, const uint8_t *line, size_t length);

/* Tells the length of the reply to the last line, in bytes: 0 before the first, and after a line
 * that wasn't done. */
uint32_t vdpm_reply_length(vdpm_viewer *viewer, size_t *length);

/* Copies the reply, with its LFs and without a final zero, to the front of `room` bytes, of which
 * the rest stays as it was. The reply stays until the next line. */
uint32_t vdpm_reply(vdpm_viewer *viewer, uint8_t *out, size_t room);

/* A view: where the eye stands, how fine the mesh is to be, and by what nodes are judged. */
typedef struct vdpm_look {
    int32_t eye[3];      /* x, y, z, in units, each at most 16,777,215 away from 0 */
    uint32_t focal;      /* the focal length, in pixels, at most 65,535 */
    uint32_t tolerance;  /* how far off a surface may look, in pixels, at most 65,535 */
    uint32_t silhouette; /* the same at outlines, at most `tolerance`; that for a view without */
    uint32_t measure;    /* VDPM_BY_ERROR or VDPM_BY_DEVIATION */
} vdpm_look;

/* By what a view judges a node: by how far the vertices under it are from its place, or the faces
 * from the surface, which keeps fewer on flat ground. */
#define VDPM_BY_ERROR 0
#define VDPM_BY_DEVIATION 1

/* What a view came to. */
typedef struct vdpm_moved {
    uint32_t moves; /* how many splits and collapses were made */
    uint32_t left;  /* how many are left, for a view that the budget cut; 0 where none are */
} vdpm_moved;

/* Adapts the mesh to a view, as the lines `v`, `vs`, `vd` and `vds` do; the reply to the last line
 * stays. With pixels as the unit of `focal` and the tolerances, only their proportion counts, so
 * that 2,000 and 1 are 1,000 and a half.
 * `planes`  planes_length numbers, four for each of at most six planes: a, b and c, at most 32,767
 *           away from 0, and o, at most 4,398,046,511,104 away from it; o is in units, times those
 *           of a, b and c. What has a x + b y + c z + o below 0 isn't refined.
 * Answers VDPM_DONE, with what it came to in *moved; VDPM_OUT_OF_RANGE, where a number is out of
 * its range, or planes_length above 24 or not a multiple of 4; or VDPM_NOT_SO. Nothing is done,
 * and *moved is as it was, where it isn't VDPM_DONE. */
uint32_t vdpm_view(vdpm_viewer *viewer, const vdpm_look *look, const int64_t *planes,
                   size_t planes_length, vdpm_moved *moved);

/* Tells how large the hierarchy and the mesh shown are, so that the caller can make room for a
 * frame. */
uint32_t vdpm_counts(vdpm_viewer *viewer, vdpm_sizes *sizes);

/* Writes the mesh that is shown, in the order of the frame text. With V = shown_nodes and F =
 * shown_faces:
 * `nodes`         V numbers: the active nodes, ascending
 * `places`        3 V numbers: their coordinates x, y, z
 * `faces`         F numbers: the kept faces, ascending
 * `corners`       3 F numbers: the corners of each face, as positions in `nodes` (an index buffer)
 * `corner_nodes`  3 F numbers: the same corners as node numbers
 * The room is counted in numbers, and may be more; the rest of it stays as it was. */
uint32_t vdpm_frame(vdpm_viewer *viewer, uint32_t *nodes, size_t nodes_room, int32_t *places,
                    size_t places_room, uint32_t *faces, size_t faces_room, uint32_t *corners,
                    size_t corners_room, uint32_t *corner_nodes, size_t corner_nodes_room);

/* How many entries each list of a change has. */
typedef struct vdpm_change_sizes {
    uint32_t gone_faces; /* faces that were shown and aren't */
    uint32_t gone_nodes; /* nodes that were active and aren't */
    uint32_t new_nodes;  /* nodes that are active and weren't */
    uint32_t put_faces;  /* faces that are shown and weren't, or were with another corner */
} vdpm_change_sizes;

/* Writes what changed since the marked front, as the line `d` tells it, and marks the front as it
 * stands; the base front is marked at first. Who has the frame of the marked front, takes out what
 * is gone and puts the rest in by number, in place of what has this number, has the frame of this
 * one. With the four numbers in *sizes, all lists ascending:
 * `gone_faces`   gone_faces numbers
 * `gone_nodes`   gone_nodes numbers
 * `new_nodes`    new_nodes numbers
 * `new_places`   3 new_nodes numbers: their coordinates x, y, z
 * `put_faces`    put_faces numbers
 * `put_corners`  3 put_faces numbers: the corners of each face, as node numbers
 * The room is counted in numbers, and may be more; the rest of it stays as it was. Answers
 * VDPM_DONE, VDPM_NOT_SO, or VDPM_NO_ROOM: nothing is marked, and nothing written but *sizes, by
 * which the caller makes room and asks again. */
uint32_t vdpm_change(vdpm_viewer *viewer, uint32_t *gone_faces, size_t gone_faces_room,
                     uint32_t *gone_nodes, size_t gone_nodes_room, uint32_t *new_nodes,
                     size_t new_nodes_room, int32_t *new_places, size_t new_places_room,
                     uint32_t *put_faces, size_t put_faces_room, uint32_t *put_corners,
                     size_t put_corners_room, vdpm_change_sizes *sizes);

/* Tells the record that splits a node (the number for the lines `s` and `c`), or VDPM_NONE for a
 * node of one leaf. */
uint32_t vdpm_splitter(vdpm_viewer *viewer, uint32_t node, uint32_t *record);

/* Tells the record that made a node, or VDPM_NONE for a root. */
uint32_t vdpm_maker(vdpm_viewer *viewer, uint32_t node, uint32_t *record);

/* Tells the active node that has a leaf below it. */
uint32_t vdpm_ancestor(vdpm_viewer *viewer, uint32_t leaf, uint32_t *node);

/* Writes the three coordinates of a node to the front of `room` numbers; the rest stays as it was.
 */
uint32_t vdpm_place(vdpm_viewer *viewer, uint32_t node, int32_t *out, size_t room);

/* Writes what all nodes have of numbers by vertex of the complete mesh, as the parts of colours:
 * in each channel the whole number nearest to the mean over the leaves under a node, halves up.
 * With C = channels, and leaves and nodes as vdpm_counts tells them:
 * `by_vertex`  C leaves numbers: those of the first vertex of the text that the stream was made of,
 *              then those of the second, in its order
 * `by_node`    C nodes numbers: those of node 0, then those of node 1
 * The room is counted in numbers, and may be more; the rest of it stays as it was. What is shown
 * doesn't bear on it: the vertex nodes[i] of a frame has the C numbers from by_node[C nodes[i]] on.
 * Answers VDPM_DONE; VDPM_OUT_OF_RANGE, where `length` isn't C leaves; VDPM_NO_ROOM;
 * VDPM_NO_MEMORY; or VDPM_NOT_SO. Nothing is written where it isn't VDPM_DONE. */
uint32_t vdpm_means(vdpm_viewer *viewer, uint32_t channels, const uint16_t *by_vertex,
                    size_t length, uint16_t *by_node, size_t room);

/* Writes what all nodes have of numbers by vertex of the complete mesh that go with positions, as
 * the coordinates of a texture: in each channel that of the linear map which fits the numbers of
 * the vertices under a node best (least squares), at the node's own position, and between the least
 * and the greatest of them. With C = channels, and leaves and nodes as vdpm_counts tells them:
 * `by_vertex`  C leaves numbers, each at most 2,097,152 away from 0, as 65,536 times u and v: those
 *              of the first vertex of the text that the stream was made of, then those of the
 *              second, in its order
 * `by_node`    C nodes numbers: those of node 0, then those of node 1
 * The room is counted in numbers, and may be more; the rest of it stays as it was. What is shown
 * doesn't bear on it. Answers VDPM_DONE; VDPM_OUT_OF_RANGE, where `length` isn't C leaves or a
 * number is out of its range; VDPM_NO_ROOM; VDPM_NO_MEMORY; or VDPM_NOT_SO. Nothing is written
 * where it isn't VDPM_DONE. */
uint32_t vdpm_fits(vdpm_viewer *viewer, uint32_t channels, const int32_t *by_vertex, size_t length,
                   int32_t *by_node, size_t room);

/* Tells which vertices and faces of the text that the stream was made of nodes and faces are,
 * counted from 0 in its order, so that what the text has beside its mesh can be told by them. With
 * nodes as vdpm_counts tells it, and *faces as is told here, the faces in all:
 * `by_node`  nodes numbers: the vertex that a node of one leaf is; VDPM_NONE for another node
 * `by_face`  faces numbers: the face that a face is
 * The room is counted in numbers, and may be more; the rest of it stays as it was. What is shown
 * doesn't bear on it. Answers VDPM_DONE, VDPM_NOT_SO, or VDPM_NO_ROOM, where nothing is written but
 * *faces, by which the caller makes room and asks again. */
uint32_t vdpm_inputs(vdpm_viewer *viewer, uint32_t *by_node, size_t by_node_room, uint32_t *by_face,
                     size_t by_face_room, uint32_t *faces);

/* The bounding box of a mesh: on each axis the least and the greatest coordinate, in units. */
typedef struct vdpm_box {
    int32_t low[3];
    int32_t high[3];
} vdpm_box;

/* Tells the bounding box of the complete mesh, all 0 where that has no vertex. What is shown
 * doesn't bear on it. Answers VDPM_DONE or VDPM_NOT_SO. */
uint32_t vdpm_extent(vdpm_viewer *viewer, vdpm_box *box);

/* How fine the mesh that is shown is. */
typedef struct vdpm_fineness {
    uint64_t error;     /* the greatest error of a node shown, in units: no vertex of the complete
                         * mesh is farther than this from the node that shows it */
    uint64_t deviation; /* the greatest deviation of one, by which views by deviation judge it */
    uint32_t split;     /* how many records are split */
} vdpm_fineness;

/* Tells how fine the mesh that is shown is. Answers VDPM_DONE or VDPM_NOT_SO. */
uint32_t vdpm_level(vdpm_viewer *viewer, vdpm_fineness *fineness);

/* Closes a viewer and gives its memory back. One that isn't open stays as it is. */
void vdpm_close(vdpm_viewer *viewer);

/* What was made of a text: bytes, and lines that are said beside them. Its fields are the library's
 * own. All zero at first: vdpm_made made = VDPM_CLOSED; */
typedef struct vdpm_made {
    void *at;
    uint32_t open;
} vdpm_made;

/* A fault of a text, as the program tells it (docs/commands). Both
 * are 0 beside each answer but VDPM_FAULTY. */
typedef struct vdpm_fault {
    uint32_t number; /* 0 where there is none */
    uint64_t place;  /* the line, face or vertex, counted from 1, or the byte of a binary file or
                        the unit of a stream, counted from 0; 0 where it has none */
} vdpm_fault;

/* Makes the stream of an OBJ text, `length` bytes, as `vdpm build FACES --digits DIGITS` does: its
 * mesh is simplified to `faces` faces, or as far as pairs may be collapsed (0: as far as that
 * goes), and coordinates have `digits` decimals, 0 to 4. vdpm_made_bytes has the stream then.
 * Answers VDPM_DONE; VDPM_FAULTY, with the fault for which the program refuses the text in *fault;
 * VDPM_OUT_OF_RANGE, for digits above 4; VDPM_NO_MEMORY; or VDPM_NOT_SO. Nothing is made, and
 * *made is as it was, where it isn't VDPM_DONE. */
uint32_t vdpm_build(const uint8_t *text, size_t length, uint32_t faces, uint32_t digits,
                    vdpm_made *made, vdpm_fault *fault);

/* The same as the program `simplify FACES --digits DIGITS` does it, by finer costs; where
 * `keep_border` isn't 0, with its `--keep-border`: each frame shows the border of the mesh. A text
 * with nothing of a mesh in it, as a file of another kind, has fault 14, without a place. */
uint32_t vdpm_simplify(const uint8_t *text, size_t length, uint32_t faces, uint32_t digits,
                       uint32_t keep_border, vdpm_made *made, vdpm_fault *fault);

/* What is being simplified, step by step. Its fields are the library's own. All zero at first:
 * vdpm_run run = VDPM_CLOSED; */
typedef struct vdpm_run {
    void *at;
    uint32_t open;
} vdpm_run;

/* How far that is. */
typedef struct vdpm_progress {
    uint64_t faces;      /* how many faces the mesh has */
    uint64_t faces_left; /* how many are left of them; never more than before */
    uint64_t collapses;  /* how many collapses were done */
    uint32_t ended;      /* 1 where this is the end, and 0 where more can be done */
} vdpm_progress;

/* Makes in steps what vdpm_simplify makes at once, the same bytes, so that who waits can be told
 * how far it is: vdpm_simplify_begin reads the text, with the answers and faults of vdpm_simplify.
 * Then vdpm_simplify_more does `most` collapses more, or fewer where that is the end, and tells how
 * far it is; once the end is told it does nothing. With 0 it just tells. Answers VDPM_DONE or
 * VDPM_NOT_SO. It ends at the first that comes: no more than `faces` faces are left, or no edge may
 * be collapsed. So the part done is at least
 * (progress.faces - progress.faces_left) / (progress.faces - faces). */
uint32_t vdpm_simplify_begin(const uint8_t *text, size_t length, uint32_t faces, uint32_t digits,
                             uint32_t keep_border, vdpm_run *run, vdpm_fault *fault);
uint32_t vdpm_simplify_more(vdpm_run *run, uint32_t most, vdpm_progress *progress);

/* Makes the stream, where the end was told, and closes the run: vdpm_made_bytes has the stream
 * then. Answers VDPM_DONE; VDPM_NO_MEMORY, with the run closed and *made as it was; or VDPM_NOT_SO,
 * where the run isn't open or its end wasn't told, or *made is open, and nothing is changed. */
uint32_t vdpm_simplify_end(vdpm_run *run, vdpm_made *made);

/* Gives a run up, and its memory back. One that isn't open stays as it is. */
void vdpm_simplify_close(vdpm_run *run);

/* Makes any OBJ, PLY or STL file fit for those above, as `prepare` does: vdpm_made_bytes has an
 * OBJ text then, and vdpm_made_notes the lines that the program says of it. `size` is 0, and points
 * that fit the grid stand as they are, or from 1 to 32,767: the longest axis of the box goes from
 * -size to size. Answers as vdpm_build does; VDPM_OUT_OF_RANGE is for a greater size. */
uint32_t vdpm_prepare(const uint8_t *text, size_t length, uint32_t size, vdpm_made *made,
                      vdpm_fault *fault);

/* Packs a stream as the program `pack` does, and unpacks one as `pack --unpack` does:
 * vdpm_made_bytes has the packed text then, or the stream, byte for byte the one that was packed.
 * Each answers as vdpm_build does, but for VDPM_OUT_OF_RANGE. A fault's place is the number that
 * `pack` says beside it: of the version, byte, root, face, record, input or digits. */
uint32_t vdpm_pack(const uint8_t *stream, size_t length, vdpm_made *made, vdpm_fault *fault);
uint32_t vdpm_unpack(const uint8_t *packed, size_t length, vdpm_made *made, vdpm_fault *fault);

/* Unpacks the first records of a packed text, as `pack --unpack --records RECORDS` does: `length`
 * may end anywhere, and vdpm_made_bytes has the stream of what these bytes tell then, as a model
 * of its own, which shows what the whole does while no later record is split. Where the text has no
 * more records and all its bytes are there it is the stream that was packed. Bytes that end before
 * the base mesh have fault 35. Answers as vdpm_unpack does. */
uint32_t vdpm_unpack_first(const uint8_t *packed, size_t length, uint32_t records,
                           vdpm_made *made, vdpm_fault *fault);

/* Tells how many bytes were made, and how many the lines have that are said beside them: 0 but
 * after vdpm_prepare. */
uint32_t vdpm_made_length(vdpm_made *made, size_t *bytes, size_t *notes);

/* Copies what was made, or the lines that are said beside it, to the front of `room` bytes, without
 * a final zero; the rest stays as it was. */
uint32_t vdpm_made_bytes(vdpm_made *made, uint8_t *out, size_t room);
uint32_t vdpm_made_notes(vdpm_made *made, uint8_t *out, size_t room);

/* A number with D decimals: whole + part / 10^D, and less than zero where negative is 1. */
typedef struct vdpm_decimal {
    uint64_t whole;
    uint64_t part; /* less than 10^D */
    uint32_t negative;
} vdpm_decimal;

/* How positions lead back to the coordinates of the file: on each axis a coordinate is
 * extent / steps * position + middle, to within half a step. */
typedef struct vdpm_scale {
    vdpm_decimal extent;    /* how long the longest axis of the bounding box is; 18 decimals */
    vdpm_decimal middle[3]; /* the middle of the box; 19 decimals */
    uint32_t steps;         /* into how many steps the extent is divided, 2 to 65,534; 0, as is all
                             * else, where positions are the coordinates */
} vdpm_scale;

/* Tells that of what vdpm_prepare made, exactly, as the first line of the text does; all 0 for what
 * another function made. Answers VDPM_DONE or VDPM_NOT_SO. */
uint32_t vdpm_made_scale(vdpm_made *made, vdpm_scale *scale);

/* Gives the memory of what was made back. What isn't open stays as it is. */
void vdpm_made_close(vdpm_made *made);

/* The slots of a renderer's buffer, by which a change (vdpm_change) is written into it: an item, a
 * node in a vertex buffer or a face in an index buffer, keeps one slot while it is shown. Its
 * fields are the library's own. All zero at first: vdpm_slots slots = VDPM_CLOSED; */
typedef struct vdpm_slots {
    void *at;
    uint32_t open;
} vdpm_slots;

/* What a change of slots came to. */
typedef struct vdpm_slots_sizes {
    uint32_t written; /* how many slots are to be written */
    uint32_t length;  /* how many slots the buffer has: the most items that it ever showed */
} vdpm_slots_sizes;

/* Opens the slots of a buffer for items 0 to `items` - 1, of which none is shown: 13 bytes an item.
 * Answers VDPM_DONE, VDPM_NO_MEMORY or VDPM_NOT_SO. *slots is as it was where it isn't VDPM_DONE.
 */
uint32_t vdpm_slots_open(uint32_t items, vdpm_slots *slots);

/* Changes what is shown: the items of `gone` leave, and those of `put` come, or stay and are
 * written anew, as gone_nodes and new_nodes, or gone_faces and put_faces, of vdpm_change. No change
 * writes fewer slots. With the numbers in *sizes:
 * `writes`  `written` numbers: the slots to write, first those of the items of `put`, in its order,
 *           then those that are left empty
 * The room is counted in numbers, and gone_length + put_length are always enough; the rest of it
 * stays as it was.
 * Answers VDPM_DONE; VDPM_OUT_OF_RANGE, where an item of `gone` isn't shown, one of `put` isn't
 * below the `items` of vdpm_slots_open, or one stands twice in them; VDPM_NO_ROOM; or VDPM_NOT_SO.
 * Nothing is changed, and nothing written, where it isn't VDPM_DONE, but that *sizes tells beside
 * VDPM_NO_ROOM how many would be written. */
uint32_t vdpm_slots_change(vdpm_slots *slots, const uint32_t *gone, size_t gone_length,
                           const uint32_t *put, size_t put_length, uint32_t *writes,
                           size_t writes_room, vdpm_slots_sizes *sizes);

/* Tells the slot of each of `length` items, or VDPM_NONE for one that isn't shown, in the front of
 * `room` numbers; the rest stays as it was. So the put_corners of vdpm_change become an index
 * buffer's, by the slots of the nodes. */
uint32_t vdpm_slots_of(vdpm_slots *slots, const uint32_t *items, size_t length, uint32_t *out,
                       size_t room);

/* Closes slots and gives their memory back. What isn't open stays as it is. */
void vdpm_slots_close(vdpm_slots *slots);

#ifdef __cplusplus
}
#endif

#endif
