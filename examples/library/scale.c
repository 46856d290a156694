/* Makes an OBJ, PLY or STL file fit, as the program `prepare` does, and tells its vertices in the
 * coordinates of the file:
 *
 *     cc -O2 -I. examples/library/scale.c unproved/libvdpm.a -o scale
 *     ./scale < examples/ring_scan.obj
 */
#include "libvdpm.h"

#include <stdio.h>
#include <stdlib.h>
#include <string.h>

enum { MOST = 1 << 26 }; /* bytes that are read */

/* On each axis a coordinate is `step` times the number of the text, and `middle` more. */
typedef struct {
    double step, middle[3];
} scale;

/* Reads the first line, `# coordinate = A / B * place + (X Y Z)`, or that coordinates are as they
 * stood. The decimals are exact, and more than a double holds: it has the nearest. */
static scale scale_of(const char *text) {
    double a, b, x, y, z;
    scale found = {1, {0, 0, 0}};
    if (sscanf(text, "# coordinate = %lf / %lf * place + (%lf %lf %lf)", &a, &b, &x, &y, &z) == 5)
        found = (scale){a / b, {x, y, z}};
    return found;
}

/* Tells the vertices of a text that was made. */
static void put_vertices(const char *text) {
    const scale way = scale_of(text);
    for (const char *line = text; line; line = strchr(line, '\n')) {
        line += *line == '\n';
        if (*line != 'v') continue;
        char *at = (char *)line + 1;
        for (int axis = 0; axis < 3; axis++) {
            long place = strtol(at, &at, 10);
            printf("%.12g%c", way.step * place + way.middle[axis], axis < 2 ? ' ' : '\n');
        }
    }
}

/* The same of what was made, whose bytes get a final zero here. */
static uint32_t put_made(vdpm_made *made) {
    size_t length = 0, notes = 0;
    uint32_t status = vdpm_made_length(made, &length, &notes);
    char *text = status == VDPM_DONE ? calloc(length + 1, 1) : NULL;
    if (!text) return VDPM_NO_MEMORY;
    status = vdpm_made_bytes(made, (uint8_t *)text, length);
    if (status == VDPM_DONE) put_vertices(text);
    free(text);
    return status;
}

int main(void) {
    uint8_t *file = malloc(MOST);
    size_t length = file ? fread(file, 1, MOST, stdin) : 0;
    vdpm_made made = VDPM_CLOSED;
    vdpm_fault fault;
    uint32_t status = file ? vdpm_prepare(file, length, 0, &made, &fault) : VDPM_NO_MEMORY;
    free(file);
    if (status == VDPM_DONE) status = put_made(&made);
    vdpm_made_close(&made);
    if (status != VDPM_DONE) fprintf(stderr, "scale: status %u\n", status);
    return status == VDPM_DONE ? 0 : 1;
}
