/* Has threads with little stack make a model fit, make its stream, and show it, all at once and
 * each by itself, and then has them use one viewer one after another:
 *
 *     threads THREADS STACK LINES < OBJ
 *
 * STACK is in bytes. Ends with status 0 where all got the same. */
#include "libvdpm.h"

#include <pthread.h>
#include <stdio.h>
#include <stdlib.h>
#include <string.h>

enum { MOST_THREADS = 64 };

typedef struct bytes {
    uint8_t *at;
    size_t length;
} bytes;

typedef struct work {
    bytes text;
    int lines;
    uint64_t sum; /* of all that was told, or 0 where something wasn't done */
} work;

static vdpm_viewer handed = VDPM_CLOSED;

static uint64_t summed(uint64_t sum, const void *at, size_t length) {
    const uint8_t *byte = at;
    for (size_t i = 0; i < length; i++) sum = (sum ^ byte[i]) * UINT64_C(1099511628211);
    return sum;
}

static bytes taken_out(vdpm_made *made) {
    bytes it = {NULL, 0};
    size_t notes = 0;
    if (vdpm_made_length(made, &it.length, &notes) == VDPM_DONE) it.at = malloc(it.length + 1);
    if (it.at && vdpm_made_bytes(made, it.at, it.length) != VDPM_DONE) abort();
    vdpm_made_close(made);
    return it;
}

static bytes stream_of(bytes text) {
    vdpm_made made = VDPM_CLOSED;
    vdpm_fault fault;
    bytes fit, stream = {NULL, 0};
    if (vdpm_prepare(text.at, text.length, 30000, &made, &fault) != VDPM_DONE) return stream;
    fit = taken_out(&made);
    if (vdpm_simplify(fit.at, fit.length, 0, 0, 0, &made, &fault) == VDPM_DONE)
        stream = taken_out(&made);
    free(fit.at);
    return stream;
}

/* Does a line and adds its reply to the sum, which is 0 from then on where it isn't done. */
static uint64_t lined(vdpm_viewer *viewer, const char *line, uint64_t sum) {
    size_t length = 0;
    uint8_t *reply;
    if (vdpm_line(viewer, (const uint8_t *)line, strlen(line)) != VDPM_DONE) return 0;
    if (vdpm_reply_length(viewer, &length) != VDPM_DONE) return 0;
    reply = malloc(length + 1);
    if (!reply || vdpm_reply(viewer, reply, length) != VDPM_DONE) return 0;
    if (sum) sum = summed(sum, reply, length);
    free(reply);
    return sum;
}

/* A flight of so many views, with each sort of line. */
static uint64_t flown(vdpm_viewer *viewer, int lines, uint64_t sum) {
    static const char *const others[] = {"d", "m", "l", "t", "p 0 0 99000 1 2 -300", "w", "k"};
    char line[80];
    for (int i = 0; i < lines; i++) {
        int kind = i % 5 == 4;
        snprintf(line, sizeof line, "%s %d %d 40000 1000 %d", kind ? "vd" : "v", 500 * (i % 100),
                 -30000 + 700 * (i % 60), 1 + i % 30);
        sum = lined(viewer, line, sum);
        if (i % 10 == 9) sum = lined(viewer, others[i / 10 % 7], sum);
    }
    return sum;
}

static void *alone(void *given) {
    work *it = given;
    vdpm_viewer viewer = VDPM_CLOSED;
    uint64_t place = 0;
    bytes stream = stream_of(it->text);
    if (stream.at && vdpm_open(stream.at, stream.length, UINT32_MAX, &viewer, &place) == VDPM_DONE)
        it->sum = flown(&viewer, it->lines, summed(1, stream.at, stream.length));
    vdpm_close(&viewer);
    free(stream.at);
    return NULL;
}

static void *in_turn(void *given) {
    work *it = given;
    it->sum = flown(&handed, 10, 1);
    return NULL;
}

static pthread_t begun(void *(*does)(void *), work *it, size_t stack) {
    pthread_t thread;
    pthread_attr_t shape;
    if (pthread_attr_init(&shape) || pthread_attr_setstacksize(&shape, stack)
        || pthread_create(&thread, &shape, does, it))
        abort();
    pthread_attr_destroy(&shape);
    return thread;
}

static int handed_on(bytes text, int threads, size_t stack) {
    uint64_t place = 0;
    bytes stream = stream_of(text);
    int done = vdpm_open(stream.at, stream.length, UINT32_MAX, &handed, &place) == VDPM_DONE;
    for (int i = 0; i < threads; i++) {
        work it = {text, 0, 0};
        pthread_join(begun(in_turn, &it, stack), NULL);
        done = done && it.sum != 0;
    }
    vdpm_close(&handed);
    free(stream.at);
    return done;
}

int main(int argc, char **argv) {
    static uint8_t room[1 << 22];
    bytes text = {room, fread(room, 1, sizeof room, stdin)};
    int threads = argc == 4 ? atoi(argv[1]) : 0, same = 1;
    size_t stack = argc == 4 ? (size_t)atol(argv[2]) : 0;
    work works[MOST_THREADS];
    pthread_t begun_ones[MOST_THREADS];
    if (threads < 1 || threads > MOST_THREADS) return 2;
    for (int i = 0; i < threads; i++) {
        works[i] = (work){text, atoi(argv[3]), 0};
        begun_ones[i] = begun(alone, &works[i], stack);
    }
    for (int i = 0; i < threads; i++) {
        pthread_join(begun_ones[i], NULL);
        same = same && works[i].sum && works[i].sum == works[0].sum;
    }
    return same && handed_on(text, threads, stack) ? 0 : 1;
}
