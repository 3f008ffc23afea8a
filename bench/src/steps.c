/* The one-event step: an image opened once, a log walked one event at a time, against the same in C.
     steps ROUNDS        ns an event of the 32 KiB logs, every round's own figure
   The library is libstepbench.a with one function, made for this measurement only: the step of libgusemrak.a checks its
   image at each call, as it takes any bytes. */
#include <stdio.h>
#include <stdlib.h>
#include <time.h>
#include "contest.h"
#include "lookup.h"

/* Opens the image; 0 where it is refused. Then gives each event of the log to the walk, which begins at place 0, and
   adds up what each step answers: its place, its level and its failure steps. */
extern uint64_t gusemrak_bench_steps(const uint8_t *image, size_t nimage, const uint8_t *log, size_t nlog);

typedef struct { uint32_t place, level, steps; } stepped;
typedef uint32_t search(const uint8_t *edges, uint32_t count, uint32_t event);

/* An edge after the other, as the library has to: the contract of a step holds for any bytes, where nothing rises. */
static inline uint32_t in_order(const uint8_t *edges, uint32_t count, uint32_t event) {
    for (uint32_t j = 0; j < count; j++)
        if (edges[4 * j] == event) return le16(edges + 4 * j + 2);
    return 0;
}

#define INLINE static inline __attribute__((always_inline))
INLINE stepped step(const uint8_t *image, const uint8_t *edges, uint32_t place, uint32_t event, search *find) {
    uint32_t p = place, steps = 0, target;
    for (;;) {
        const uint64_t r = le64(image + 14 * (size_t)p);    /* first edge, edge count, fallback */
        target = find(edges + 4 * (r & 0xffff), r >> 16 & 0xffff, event);
        if (target || !p) break;
        p = r >> 32 & 0xffff;
        steps++;
    }
    return (stepped){target, le16(image + 14 * (size_t)target + 6), steps};
}
INLINE uint64_t steps_by(const uint8_t *image, size_t nimage, const uint8_t *log, size_t nlog, search *find) {
    answer checked = plain_check_image(image, nimage);
    uint64_t sum = 0;
    if (checked.number) return 0;
    const uint8_t *edges = image + 14 * checked.a;
    stepped s = {0, 0, 0};
    for (size_t i = 0; i < nlog; i++) {
        s = step(image, edges, s.place, log[i], find);
        sum += (uint64_t)s.place + s.level + s.steps;
    }
    return sum;
}
static uint64_t c_steps(const uint8_t *image, size_t nimage, const uint8_t *log, size_t nlog) {
    return steps_by(image, nimage, log, nlog, in_order);
}
static uint64_t window_steps(const uint8_t *image, size_t nimage, const uint8_t *log, size_t nlog) {
    return steps_by(image, nimage, log, nlog, lookup);
}

static double now(void) {
    struct timespec t;
    clock_gettime(CLOCK_THREAD_CPUTIME_ID, &t);
    return (double)t.tv_sec + 1e-9 * (double)t.tv_nsec;
}

int main(int argc, char **argv) {
    static const struct {
        const char *name;
        uint64_t (*call)(const uint8_t *, size_t, const uint8_t *, size_t);
    } who[] = {{"c-step", c_steps}, {"c-window", window_steps}, {"project", gusemrak_bench_steps}};
    enum { WHO = sizeof who / sizeof *who };
    static workload w;
    static uint8_t image[IMAGE_MOST];
    int rounds = argc == 2 ? atoi(argv[1]) : 0, times = 10;
    if (rounds < 1) {
        fprintf(stderr, "steps ROUNDS\n");
        return 2;
    }
    for (int k = 0; workload_names[k]; k++) {
        make_workload(workload_names[k], &w, SMALL_LOG);
        size_t n = plain_compile(w.book, w.nbook, image, sizeof image).a;
        uint64_t want = c_steps(image, n, w.log, w.nlog);
        if (gusemrak_bench_steps(image, n, w.log, w.nlog) != want || gusemrak_bench_steps(image, n - 1, w.log, w.nlog)) {
            fprintf(stderr, "%s: other steps\n", w.name);
            return 1;
        }
        for (int r = 0; r < rounds; r++)
            for (int c = 0; c < WHO; c++) {
                int one = (c + r) % WHO;
                double start = now();
                for (int i = 0; i < times; i++)
                    if (who[one].call(image, n, w.log, w.nlog) != want) return 1;
                printf("%s\t%s\t%d\t%.5g\n", w.name, who[one].name, r, (now() - start) / times / (double)w.nlog * 1e9);
            }
        drop_workload(&w);
    }
    return 0;
}
