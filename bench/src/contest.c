/* One process, all contestants: in each round every one is timed once, and each round begins with another, so that a slow
   spell of the machine falls on all alike. What is printed is every round's own figure; bench/report makes the tables.
     contest check                    do all contestants give the same?
     contest runs small|large ROUNDS  ns an event: the 32 KiB log, or the large one in runs of 32 KiB
     contest short ROUNDS             the same log in runs of 1 to 32,768 events
     contest compile ROUNDS           us a compile, or a build from the book's words
     contest slow ROUNDS              us a compile of the slow books
     contest checks ROUNDS            us for check_book and check_image
     contest dump DIR                 words, logs and lists as files, for the peer in Python
   Times are processor time of the thread: nobody here has a second one, and the machine may be shared. */
#include <stdio.h>
#include <stdlib.h>
#include <time.h>
#include "contest.h"

static double now(void) {
    struct timespec t;
    clock_gettime(CLOCK_THREAD_CPUTIME_ID, &t);
    return (double)t.tv_sec + 1e-9 * (double)t.tv_nsec;
}

/* One thing to be timed. */
typedef struct {
    const char *name;
    void (*once)(void *);
    void *with;
    int times;
} timed;

enum { MOST = 32 };

/* Each is first run once, to warm up and to see how often it must run for at least `least` seconds a round. */
static void time_all(const char *workload_name, timed *t, size_t count, int rounds, double least, double per) {
    for (size_t c = 0; c < count; c++) {
        t[c].once(t[c].with);
        double start = now();
        t[c].once(t[c].with);
        double took = now() - start;
        t[c].times = took < least ? (int)(least / (took + 1e-9)) + 1 : 1;
    }
    for (int r = 0; r < rounds; r++)
        for (size_t k = 0; k < count; k++) {
            timed *x = &t[(k + (size_t)r) % count];
            double start = now();
            for (int i = 0; i < x->times; i++) x->once(x->with);
            printf("%s\t%s\t%d\t%.5g\n", workload_name, x->name, r, (now() - start) / x->times * per);
        }
    fflush(stdout);
}

/* ---- runs ---- */
typedef struct {
    const contestant *who;
    void *built;
    const uint8_t *log;
    size_t nlog, run;
} walking;
static uint8_t records[LIST_ROOM] __attribute__((aligned(64)));
static void walk_once(void *with) {
    walking *x = with;
    x->who->walk(x->built, x->log, x->nlog, x->run, records, sizeof records, NULL, NULL);
}
static void time_runs(const workload *w, size_t run, int rounds, int images_only, const char *label) {
    static walking x[MOST];
    static timed t[MOST];
    size_t count = 0;
    for (size_t c = 0; c < contestant_count(); c++) {
        const contestant *who = &contestants[c];
        if (!contestant_here(who) || (images_only && !who->call)) continue;
        x[count] = (walking){who, who->build(who, w), w->log, w->nlog, run};
        t[count] = (timed){who->name, walk_once, &x[count], 0};
        if (!images_only) printf("memory\t%s\t%s\t%zu\n", w->name, who->name, who->memory(x[count].built));
        count++;
    }
    time_all(label, t, count, rounds, 0.005, 1e9 / (double)w->nlog);
    while (count--) x[count].who->drop(x[count].built);
}

/* ---- compiles ---- */
typedef struct {
    compile_call call;
    const contestant *who;
    const workload *w;
} making;
static uint8_t image[IMAGE_MOST];
static void compile_once(void *with) {
    making *x = with;
    if (x->call(x->w->book, x->w->nbook, image, sizeof image).number) exit(1);
}
static void build_once(void *with) {
    making *x = with;
    x->who->drop(x->who->build(x->who, x->w));
}
static void time_compiles(const workload *w, int rounds) {
    static making x[MOST];
    static timed t[MOST];
    size_t count = 0;
    for (size_t c = 0; c < compiler_count(); c++) {
        if (!compilers[c].call) continue;
        x[count] = (making){compilers[c].call, NULL, w};
        t[count] = (timed){compilers[c].name, compile_once, &x[count], 0};
        count++;
    }
    for (size_t c = 0; w->nwords && c < contestant_count(); c++) {
        if (!contestants[c].by_word) continue;
        x[count] = (making){NULL, &contestants[c], w};
        t[count] = (timed){contestants[c].name, build_once, &x[count], 0};
        count++;
    }
    time_all(w->name, t, count, rounds, 0.002, 1e6);
}

/* ---- checks ---- */
typedef struct {
    check_call call;
    const uint8_t *bytes;
    size_t n;
} checking;
static void check_once(void *with) {
    checking *x = with;
    if (x->call(x->bytes, x->n).number) exit(1);
}
static void time_checks(const workload *w, int rounds) {
    static checking x[MOST];
    static timed t[MOST];
    size_t nimage = plain_compile(w->book, w->nbook, image, sizeof image).a, count = 0;
    for (size_t k = 0; k < checker_count(); k++) {
        static char name[MOST][32];
        const struct { const char *what; check_call call; const uint8_t *bytes; size_t n; } both[] = {
            {"book", checkers[k].book, w->book, w->nbook}, {"image", checkers[k].image, image, nimage}};
        for (int b = 0; b < 2; b++) {
            if (!both[b].call) continue;
            snprintf(name[count], sizeof name[count], "%s %s", checkers[k].name, both[b].what);
            x[count] = (checking){both[b].call, both[b].bytes, both[b].n};
            t[count] = (timed){name[count], check_once, &x[count], 0};
            count++;
        }
    }
    time_all(w->name, t, count, rounds, 0.001, 1e6);
}

/* ---- files for the peer in Python ---- */
static FILE *opened(const char *dir, const char *name, const char *ending) {
    char path[512];
    snprintf(path, sizeof path, "%s/%s.%s", dir, name, ending);
    FILE *f = fopen(path, "wb");
    if (!f) {
        perror(path);
        exit(1);
    }
    return f;
}
static void dump_list(void *to, const uint8_t *list, size_t count) { fwrite(list, 8, count, to); }
static void dump(const workload *w, const char *dir) {
    FILE *f = opened(dir, w->name, "ev");
    fwrite(w->log, 1, w->nlog, f);
    fclose(f);
    f = opened(dir, w->name, "words");
    for (size_t k = 0; k < w->nwords; k++) {
        fprintf(f, "%u %u ", w->words[k].state, w->words[k].mark);
        for (uint32_t j = 0; j < w->words[k].length; j++) fprintf(f, "%02X", w->words[k].events[j]);
        fputc('\n', f);
    }
    fclose(f);
    f = opened(dir, w->name, "list");
    void *built = contestants[0].build(&contestants[0], w);
    contestants[0].walk(built, w->log, w->nlog, SMALL_LOG, records, sizeof records, dump_list, f);
    contestants[0].drop(built);
    fclose(f);
}

int main(int argc, char **argv) {
    static workload w;
    const char *part = argc > 1 ? argv[1] : "", *second = argc > 2 ? argv[2] : "";
    if (!strcmp(part, "check") && argc == 2) return check_all();
    int runs = !strcmp(part, "runs") && argc == 4, large = runs && !strcmp(second, "large");
    int shorter = !strcmp(part, "short") && argc == 3, compile = !strcmp(part, "compile") && argc == 3;
    int checks = !strcmp(part, "checks") && argc == 3, slow = !strcmp(part, "slow") && argc == 3;
    int dumps = !strcmp(part, "dump") && argc == 3;
    int rounds = atoi(argc > 2 ? argv[argc - 1] : "0");
    if (!(runs || shorter || compile || checks || slow || dumps) || (!dumps && rounds < 1)) {
        fprintf(stderr, "contest check | runs small|large N | short N | compile N | slow N | checks N | dump DIR\n");
        return 2;
    }
    for (int k = 0; !slow && workload_names[k]; k++) {
        make_workload(workload_names[k], &w, large ? 0 : SMALL_LOG);
        if (runs) time_runs(&w, SMALL_LOG, rounds, 0, w.name);
        if (compile) time_compiles(&w, rounds);
        if (checks) time_checks(&w, rounds);
        if (dumps) dump(&w, second);
        static const size_t lengths[] = {1, 16, 64, 256, 1024, 4096, 32768};
        int named = !strcmp(w.name, "a-words60") || !strcmp(w.name, "c-wide200") || !strcmp(w.name, "e1-noise");
        for (size_t i = 0; shorter && named && i < sizeof lengths / sizeof *lengths; i++) {
            char label[64];
            snprintf(label, sizeof label, "%s/%zu", w.name, lengths[i]);
            time_runs(&w, lengths[i], rounds, 1, label);
        }
        drop_workload(&w);
    }
    for (int k = 0; slow && slow_book_names[k]; k++) {
        make_workload(slow_book_names[k], &w, 0);
        time_compiles(&w, rounds);
        drop_workload(&w);
    }
    return 0;
}
