/* Flies round a model and draws it with OpenGL 3.3, without a window, and writes the last picture:
 *
 *     cc -O2 -I. examples/library/draw.c unproved/libvdpm.a -lEGL -lGL -lm -o draw
 *     ./draw torus.vdpm 100 > torus.ppm
 *
 * Nodes never move, so each has its place in a vertex buffer from the start, by its number. A step
 * writes the index buffer alone, in which a face keeps its slot while it is shown (vdpm_slots).
 */
#include "libvdpm.h"

#define GL_GLEXT_PROTOTYPES
#include <EGL/egl.h>
#include <EGL/eglext.h>
#include <GL/gl.h>
#include <GL/glext.h>
#include <math.h>
#include <stdio.h>
#include <stdlib.h>
#include <string.h>

/* Numbers of pixels, and how many times as far as the model reaches the eye is. */
enum { WIDTH = 800, HEIGHT = 600, FOCAL = 700, TOLERANCE = 1, DISTANCE = 3 };

static const char *const VERTEX =
    "#version 330\nuniform mat4 view; in vec3 place; out vec3 at;\n"
    "void main() { at = place; gl_Position = view * vec4(place, 1); }\n";
static const char *const FRAGMENT =
    "#version 330\nuniform vec3 eye; in vec3 at; out vec4 colour;\n"
    "void main() { vec3 n = normalize(cross(dFdx(at), dFdy(at)));\n"
    " colour = vec4(vec3(0.9, 0.85, 0.75) * abs(dot(n, normalize(eye - at))), 1); }\n";

static void stop(const char *what, uint32_t status) {
    fprintf(stderr, "draw: %s: %u\n", what, (unsigned)status);
    exit(1);
}

static void *grown(void *at, size_t count) {
    at = realloc(at, (count ? count : 1) * sizeof(uint32_t));
    if (!at) stop("out of memory", VDPM_NO_MEMORY);
    return at;
}

/* The index buffer: by slot three nodes, which are all 0 where no face is. */
typedef struct faces {
    vdpm_slots slots;
    uint32_t *corners, *writes;
    uint32_t length, room, most; /* slots that there are, that have room, and that one writes */
} faces;

/* What a change is written into. */
typedef struct change {
    uint32_t *gone_faces, *gone_nodes, *new_nodes, *put_faces, *put_corners;
    int32_t *new_places;
    vdpm_change_sizes sizes, rooms;
} change;

/* Lets faces go, puts others in, and tells in it->writes the slots that have other corners then. */
static uint32_t change_faces(faces *it, const uint32_t *gone, uint32_t gone_length,
                             const uint32_t *put, const uint32_t *corners, uint32_t put_length) {
    vdpm_slots_sizes sizes;
    if (gone_length + put_length > it->most)
        it->writes = grown(it->writes, it->most = gone_length + put_length);
    uint32_t status = vdpm_slots_change(&it->slots, gone, gone_length, put, put_length, it->writes,
                                        it->most, &sizes);
    if (status != VDPM_DONE) stop("vdpm_slots_change", status);
    it->length = sizes.length;
    if (it->length > it->room) {
        it->room = 2 * it->length;
        it->corners = grown(it->corners, 3 * (size_t)it->room);
    }
    for (uint32_t i = 0; i < sizes.written; i++) {
        uint32_t *slot = it->corners + 3 * (size_t)it->writes[i];
        if (i < put_length) memcpy(slot, corners + 3 * (size_t)i, 3 * sizeof(uint32_t));
        else memset(slot, 0, 3 * sizeof(uint32_t));
    }
    return sizes.written;
}

/* Brings the index buffer after a change: all where it has become longer, or else from the first
 * to the last of the slots that were written. */
static void upload_faces(const faces *it, uint32_t room, uint32_t written) {
    const size_t slot = 3 * sizeof(uint32_t);
    uint32_t from = UINT32_MAX, to = 0;
    for (uint32_t i = 0; i < written; i++) {
        if (it->writes[i] < from) from = it->writes[i];
        if (it->writes[i] >= to) to = it->writes[i] + 1;
    }
    if (room != it->room)
        glBufferData(GL_ELEMENT_ARRAY_BUFFER, (GLsizeiptr)(it->room * slot), it->corners,
                     GL_DYNAMIC_DRAW);
    else if (written)
        glBufferSubData(GL_ELEMENT_ARRAY_BUFFER, (GLintptr)(from * slot),
                        (GLsizeiptr)((to - from) * slot), it->corners + 3 * (size_t)from);
}

static uint32_t ask_change(vdpm_viewer *viewer, change *it) {
    vdpm_change_sizes r = it->rooms;
    return vdpm_change(viewer, it->gone_faces, r.gone_faces, it->gone_nodes, r.gone_nodes,
                       it->new_nodes, r.new_nodes, it->new_places, 3 * (size_t)r.new_nodes,
                       it->put_faces, r.put_faces, it->put_corners, 3 * (size_t)r.put_faces,
                       &it->sizes);
}

static void fetch_change(vdpm_viewer *viewer, change *it) {
    uint32_t status = ask_change(viewer, it);
    if (status == VDPM_NO_ROOM) {
        vdpm_change_sizes r = it->rooms = it->sizes;
        it->gone_faces = grown(it->gone_faces, r.gone_faces);
        it->gone_nodes = grown(it->gone_nodes, r.gone_nodes);
        it->new_nodes = grown(it->new_nodes, r.new_nodes);
        it->new_places = grown(it->new_places, 3 * (size_t)r.new_nodes);
        it->put_faces = grown(it->put_faces, r.put_faces);
        it->put_corners = grown(it->put_corners, 3 * (size_t)r.put_faces);
        status = ask_change(viewer, it);
    }
    if (status != VDPM_DONE) stop("vdpm_change", status);
}

/* Opens the slots, and puts in the base mesh, which is shown, and marked, at first. */
static void put_base(vdpm_viewer *viewer, faces *shown) {
    vdpm_sizes sizes;
    uint32_t all = 0;
    if (vdpm_counts(viewer, &sizes) != VDPM_DONE) stop("vdpm_counts", VDPM_NOT_SO);
    /* (it has no room, but tells how many faces there are in all) */
    vdpm_inputs(viewer, NULL, 0, NULL, 0, &all);
    if (vdpm_slots_open(all, &shown->slots) != VDPM_DONE) stop("vdpm_slots_open", VDPM_NO_MEMORY);
    size_t v = sizes.shown_nodes, f = sizes.shown_faces;
    uint32_t *nodes = grown(NULL, v), *numbers = grown(NULL, f);
    uint32_t *corners = grown(NULL, 3 * f), *corner_nodes = grown(NULL, 3 * f);
    int32_t *places = grown(NULL, 3 * v);
    uint32_t status = vdpm_frame(viewer, nodes, v, places, 3 * v, numbers, f, corners, 3 * f,
                                 corner_nodes, 3 * f);
    if (status != VDPM_DONE) stop("vdpm_frame", status);
    change_faces(shown, NULL, 0, numbers, corner_nodes, sizes.shown_faces);
    upload_faces(shown, 0, sizes.shown_faces);
    free(nodes);
    free(numbers);
    free(corners);
    free(corner_nodes);
    free(places);
}

/* Goes to a view from the eye, and brings the faces and the index buffer after it. */
static void look_from(vdpm_viewer *viewer, const int32_t *eye, change *news, faces *shown) {
    const vdpm_look look = {{eye[0], eye[1], eye[2]}, FOCAL, TOLERANCE, TOLERANCE, VDPM_BY_ERROR};
    vdpm_moved moved;
    uint32_t status = vdpm_view(viewer, &look, NULL, 0, &moved), room = shown->room;
    if (status != VDPM_DONE) stop("vdpm_view", status);
    fetch_change(viewer, news);
    uint32_t written = change_faces(shown, news->gone_faces, news->sizes.gone_faces,
                                    news->put_faces, news->put_corners, news->sizes.put_faces);
    upload_faces(shown, room, written);
}

/* Puts the places of all nodes into a vertex buffer, and tells the number farthest from 0 of those
 * of the full mesh: coarse ones may stand outside it. */
static int32_t upload_nodes(vdpm_viewer *viewer) {
    vdpm_sizes sizes;
    int32_t reach = 1;
    if (vdpm_counts(viewer, &sizes) != VDPM_DONE) stop("vdpm_counts", VDPM_NOT_SO);
    float *all = grown(NULL, 3 * (size_t)sizes.nodes);
    for (uint32_t node = 0; node < sizes.nodes; node++) {
        int32_t place[3];
        uint32_t record;
        if (vdpm_place(viewer, node, place, 3) != VDPM_DONE) stop("vdpm_place", node);
        if (vdpm_splitter(viewer, node, &record) != VDPM_DONE) stop("vdpm_splitter", node);
        for (int i = 0; i < 3; i++) {
            all[3 * (size_t)node + i] = (float)place[i];
            if (record == VDPM_NONE && abs(place[i]) > reach) reach = abs(place[i]);
        }
    }
    glBufferData(GL_ARRAY_BUFFER, (GLsizeiptr)(3 * sizeof(float) * sizes.nodes), all,
                 GL_STATIC_DRAW);
    free(all);
    return reach;
}

/* Rows of a rotation that looks from the eye to 0, z up. */
static void axes_of(const int32_t *eye, float axes[3][3]) {
    float flat = hypotf((float)eye[0], (float)eye[1]), far = hypotf(flat, (float)eye[2]);
    float x = eye[0] / flat, y = eye[1] / flat, up = flat / far, down = eye[2] / far;
    float rows[3][3] = {{-y, x, 0}, {-x * down, -y * down, up}, {x * up, y * up, down}};
    memcpy(axes, rows, sizeof rows);
}

static void draw(GLuint program, const int32_t *eye, float reach, uint32_t count) {
    float axes[3][3], view[16] = {0}, far = 2 * DISTANCE * reach, near = far / 100;
    axes_of(eye, axes);
    for (int row = 0; row < 3; row++) {
        float moved = 0;
        for (int i = 0; i < 3; i++) moved -= axes[row][i] * (float)eye[i];
        /* right and up by the focal length; depth, and what is divided by, from the third row */
        float scale = row == 0 ? 2.0f * FOCAL / WIDTH : 2.0f * FOCAL / HEIGHT;
        if (row == 2) scale = -(far + near) / (far - near);
        for (int i = 0; i < 3; i++) view[4 * i + row] = scale * axes[row][i];
        view[12 + row] = scale * moved;
        if (row == 2) {
            for (int i = 0; i < 3; i++) view[4 * i + 3] = -axes[2][i];
            view[15] = -moved;
            view[14] -= 2 * far * near / (far - near);
        }
    }
    glUniformMatrix4fv(glGetUniformLocation(program, "view"), 1, GL_FALSE, view);
    glUniform3f(glGetUniformLocation(program, "eye"), (float)eye[0], (float)eye[1], (float)eye[2]);
    glClear(GL_COLOR_BUFFER_BIT | GL_DEPTH_BUFFER_BIT);
    glDrawElements(GL_TRIANGLES, (GLsizei)(3 * count), GL_UNSIGNED_INT, NULL);
}

/* A context without a window, which draws into a picture of its own. */
static void open_picture(void) {
    const EGLint asked[] = {EGL_CONTEXT_MAJOR_VERSION, 3, EGL_CONTEXT_MINOR_VERSION, 3, EGL_NONE};
    EGLDisplay display = eglGetPlatformDisplay(EGL_PLATFORM_SURFACELESS_MESA, NULL, NULL);
    if (!eglInitialize(display, NULL, NULL) || !eglBindAPI(EGL_OPENGL_API))
        stop("EGL", (uint32_t)eglGetError());
    EGLContext it = eglCreateContext(display, EGL_NO_CONFIG_KHR, EGL_NO_CONTEXT, asked);
    if (!eglMakeCurrent(display, EGL_NO_SURFACE, EGL_NO_SURFACE, it))
        stop("OpenGL 3.3", (uint32_t)eglGetError());
    GLuint frame, parts[2], array;
    const GLenum kinds[2] = {GL_RGBA8, GL_DEPTH_COMPONENT24};
    const GLenum uses[2] = {GL_COLOR_ATTACHMENT0, GL_DEPTH_ATTACHMENT};
    glGenFramebuffers(1, &frame);
    glBindFramebuffer(GL_FRAMEBUFFER, frame);
    glGenRenderbuffers(2, parts);
    for (int i = 0; i < 2; i++) {
        glBindRenderbuffer(GL_RENDERBUFFER, parts[i]);
        glRenderbufferStorage(GL_RENDERBUFFER, kinds[i], WIDTH, HEIGHT);
        glFramebufferRenderbuffer(GL_FRAMEBUFFER, uses[i], GL_RENDERBUFFER, parts[i]);
    }
    glGenVertexArrays(1, &array);
    glBindVertexArray(array);
    glViewport(0, 0, WIDTH, HEIGHT);
    glEnable(GL_DEPTH_TEST);
    glClearColor(0.1f, 0.1f, 0.12f, 1);
}

static GLuint open_program(void) {
    const char *const texts[2] = {VERTEX, FRAGMENT};
    GLuint program = glCreateProgram(), buffers[2];
    GLint linked = 0;
    for (int i = 0; i < 2; i++) {
        GLuint shader = glCreateShader(i ? GL_FRAGMENT_SHADER : GL_VERTEX_SHADER);
        glShaderSource(shader, 1, &texts[i], NULL);
        glCompileShader(shader);
        glAttachShader(program, shader);
    }
    glBindAttribLocation(program, 0, "place");
    glLinkProgram(program);
    glGetProgramiv(program, GL_LINK_STATUS, &linked);
    if (!linked) stop("the shaders aren't linked", glGetError());
    glUseProgram(program);
    glGenBuffers(2, buffers);
    glBindBuffer(GL_ARRAY_BUFFER, buffers[0]);
    glBindBuffer(GL_ELEMENT_ARRAY_BUFFER, buffers[1]);
    glEnableVertexAttribArray(0);
    glVertexAttribPointer(0, 3, GL_FLOAT, GL_FALSE, 0, NULL);
    return program;
}

static void write_picture(void) {
    static uint8_t pixels[HEIGHT][WIDTH][3];
    glPixelStorei(GL_PACK_ALIGNMENT, 1);
    glReadPixels(0, 0, WIDTH, HEIGHT, GL_RGB, GL_UNSIGNED_BYTE, pixels);
    printf("P6 %d %d 255\n", WIDTH, HEIGHT);
    for (int row = HEIGHT; row--;) fwrite(pixels[row], 3, WIDTH, stdout);
}

static vdpm_viewer open_stream(const char *name) {
    vdpm_viewer viewer = VDPM_CLOSED;
    uint64_t place = 0;
    FILE *file = fopen(name, "rb");
    if (!file || fseek(file, 0, SEEK_END)) stop("the stream can't be read", 0);
    long size = ftell(file);
    uint8_t *bytes = grown(NULL, (size_t)size);
    rewind(file);
    size_t length = fread(bytes, 1, (size_t)size, file);
    fclose(file);
    uint32_t status = vdpm_open(bytes, length, UINT32_MAX, &viewer, &place);
    if (status != VDPM_DONE) stop("the stream has a fault", status);
    free(bytes);
    return viewer;
}

int main(int argc, char **argv) {
    int steps = argc == 3 ? atoi(argv[2]) : 0;
    if (steps < 1) {
        fprintf(stderr, "draw STREAM STEPS > PICTURE.ppm\n");
        return 2;
    }
    vdpm_viewer viewer = open_stream(argv[1]);
    open_picture();
    GLuint program = open_program();
    float reach = (float)upload_nodes(&viewer);
    faces shown = {0};
    change news = {0};
    put_base(&viewer, &shown);
    for (int step = 0; step < steps; step++) {
        float turn = 6.2831853f * (float)step / (float)steps, far = DISTANCE * reach;
        int32_t eye[3] = {(int32_t)(far * 0.8f * cosf(turn)), (int32_t)(far * 0.8f * sinf(turn)),
                          (int32_t)(far * 0.5f)};
        look_from(&viewer, eye, &news, &shown);
        draw(program, eye, reach, shown.length);
    }
    write_picture();
    fprintf(stderr, "draw: %u slots of faces\n", (unsigned)shown.length);
    vdpm_slots_close(&shown.slots);
    vdpm_close(&viewer);
    return glGetError() == GL_NO_ERROR ? 0 : 1;
}
