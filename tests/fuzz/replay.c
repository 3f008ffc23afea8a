/* replay FILE.. makes the call of each input on the library and on the twin, wherever its slices may stand: a test for
 * each function, and `N passed, M failed` last. replay show FILE.. prints the calls in words and makes none. */
#define _DEFAULT_SOURCE /* sigaltstack */

#include "call.h"

#include <signal.h>
#include <stdio.h>
#include <stdlib.h>
#include <string.h>
#include <unistd.h>

enum { MOST = 1 << 17, LONGEST = 60 };

static struct call now;
static const char *file_now;

/* A call that does not come back is shown like any other that fails. The library takes no lock, so printing does. */
static void caught(int number)
{
    printf("FAILED %s: signal %d%s\n", file_now, number, number == SIGALRM ? ", no answer" : "");
    show(&now);
    printf("0 passed, 1 failed\n");
    fflush(stdout);
    _exit(1);
}

/* The call in a file; 0 where it holds none. The bytes stay until the next. */
static int read_call(const char *file)
{
    static uint8_t bytes[MOST];
    FILE *from = fopen(file, "rb");
    if (from == NULL) {
        perror(file);
        exit(2);
    }
    size_t size = fread(bytes, 1, sizeof bytes, from);
    fclose(from);
    file_now = file;
    return decode(bytes, size, &now);
}

static void watch(void)
{
    /* A stack of its own: where a call has used up its stack, the handler has none left there. */
    static uint8_t stack[1 << 16];
    stack_t other = {.ss_sp = stack, .ss_size = sizeof stack};
    struct sigaction action = {.sa_handler = caught, .sa_flags = SA_ONSTACK | (int)SA_RESETHAND};
    static const int signals[] = {SIGSEGV, SIGBUS, SIGILL, SIGFPE, SIGABRT, SIGALRM};
    sigaltstack(&other, NULL);
    for (size_t i = 0; i < sizeof signals / sizeof *signals; i++)
        sigaction(signals[i], &action, NULL);
}

/* The call with its slices ending and beginning at a page, and its empty ones null and not. */
static int differs_anywhere(void)
{
    for (int way = 0; way < 4; way++) {
        now.beginning = way & 1;
        now.null = way >> 1;
        if (judge(&now) != 0)
            return 1;
    }
    return 0;
}

int main(int count, char **words)
{
    if (count > 2 && strcmp(words[1], "show") == 0) {
        for (int i = 2; i < count; i++)
            if (read_call(words[i]))
                show(&now);
        return 0;
    }
    watch();
    size_t inputs[FUNCTIONS] = {0}, differ[FUNCTIONS] = {0}, skipped = 0;
    for (int i = 1; i < count; i++) {
        if (!read_call(words[i]) || !landed(now.function)) {
            skipped++;
            continue;
        }
        alarm(LONGEST);
        inputs[now.function]++;
        differ[now.function] += (size_t)differs_anywhere();
        alarm(0);
    }
    unsigned passed = 0, failed = 0;
    for (enum function f = 0; f < FUNCTIONS; f++) {
        if (!landed(f))
            continue;
        /* A function without an input is one that nothing has been tried on. */
        if (inputs[f] > 0 && differ[f] == 0)
            passed++;
        else
            failed++;
        if (inputs[f] == 0 || differ[f] > 0)
            printf("FAILED %s: %zu of %zu inputs differ\n", name_of(f), differ[f], inputs[f]);
    }
    printf("%d inputs, %zu of them of functions that have not landed\n", count - 1, skipped);
    printf("%u passed, %u failed\n", passed, failed);
    return failed != 0;
}
