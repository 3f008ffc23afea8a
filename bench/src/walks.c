/* One run of each workload and nothing else, to be counted by callgrind.
     walks dump DIR                      image and log of each workload, as files
     walks CONTESTANT DIR WORKLOAD       reads them and makes one run
   A run that is refused, or has another answer than plain C's, ends in status 1: a count of it would say nothing. */
#include <stdio.h>
#include <stdlib.h>
#include "contest.h"

static const struct { const char *name; run_call call; } who[] = {
    {"project", gusemrak_run}, {"c-tuned", tuned_run}, {"c-checked", checked_run}, {"c-plain", plain_run}};

static FILE *opened(const char *dir, const char *name, const char *ending, const char *how) {
    char path[512];
    snprintf(path, sizeof path, "%s/%s.%s", dir, name, ending);
    FILE *f = fopen(path, how);
    if (!f) {
        perror(path);
        exit(1);
    }
    return f;
}
static size_t read_whole(const char *dir, const char *name, const char *ending, uint8_t *into, size_t most) {
    FILE *f = opened(dir, name, ending, "rb");
    size_t n = fread(into, 1, most, f);
    fclose(f);
    return n;
}
static void dump(const char *dir) {
    static workload w;
    static uint8_t image[IMAGE_MOST];
    for (int k = 0; workload_names[k]; k++) {
        make_workload(workload_names[k], &w, SMALL_LOG);
        answer made = plain_compile(w.book, w.nbook, image, sizeof image);
        FILE *f = opened(dir, w.name, "sm", "wb");
        fwrite(image, 1, made.a, f);
        fclose(f);
        f = opened(dir, w.name, "ev", "wb");
        fwrite(w.log, 1, w.nlog, f);
        fclose(f);
        drop_workload(&w);
    }
}

int main(int argc, char **argv) {
    static uint8_t image[IMAGE_MOST], log[SMALL_LOG], list[SMALL_LOG * 64 * 8], other[sizeof list];
    if (argc == 3 && !strcmp(argv[1], "dump")) {
        dump(argv[2]);
        return 0;
    }
    size_t k = 0;
    while (argc == 4 && k < sizeof who / sizeof *who && strcmp(who[k].name, argv[1])) k++;
    if (argc != 4 || k == sizeof who / sizeof *who || !who[k].call) {
        fprintf(stderr, "walks dump DIR | walks project|c-tuned|c-checked|c-plain DIR WORKLOAD\n");
        return 2;
    }
    size_t nimage = read_whole(argv[2], argv[3], "sm", image, sizeof image);
    size_t nlog = read_whole(argv[2], argv[3], "ev", log, sizeof log);
    answer ran = who[k].call(image, nimage, 0, 0, log, nlog, list, sizeof list);
    answer want = k == 3 ? ran : plain_run(image, nimage, 0, 0, log, nlog, other, sizeof other);
    int same = !memcmp(&ran, &want, sizeof ran) && (k == 3 || !memcmp(list, other, 8 * ran.c));
    if (ran.number || ran.a != SMALL_LOG || !same) {
        fprintf(stderr, "%s on %s: another answer than plain C's\n", argv[1], argv[3]);
        return 1;
    }
    return 0;
}
