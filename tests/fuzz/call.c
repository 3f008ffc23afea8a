/* A call made on the proved library and on the twin: the same answers, the same bytes in lent memory, nothing else
 * changed. The library's slices stand beside pages that cannot be touched. */
#define _DEFAULT_SOURCE /* MAP_ANONYMOUS */

#include "call.h"
#include "twin.h"

#include <stdio.h>
#include <stdlib.h>
#include <string.h>
#include <sys/mman.h>
#include <unistd.h>

const char *name_of(enum function function)
{
    static const char *const names[FUNCTIONS] = {"check_book", "compile", "check_image", "fallback", "level",
                                                 "mark", "edge", "step", "run", "short_list",
                                                 "part", "group", "whole"};
    return names[function];
}

/* A function that has not landed is not in the library. The twin then has its name, so that everything builds; no call
 * of it is made. */
#ifdef F_CHECK_BOOK
enum { HAS_CHECK_BOOK = 1 };
#else
enum { HAS_CHECK_BOOK = 0 };
#define gusemrak_check_book twin_check_book
#endif
#ifdef F_COMPILE
enum { HAS_COMPILE = 1 };
#else
enum { HAS_COMPILE = 0 };
#define gusemrak_compile twin_compile
#endif
#ifdef F_CHECK_IMAGE
enum { HAS_CHECK_IMAGE = 1 };
#else
enum { HAS_CHECK_IMAGE = 0 };
#define gusemrak_check_image twin_check_image
#endif
#ifdef F_QUESTIONS
enum { HAS_QUESTIONS = 1 };
#else
enum { HAS_QUESTIONS = 0 };
#define gusemrak_fallback twin_fallback
#define gusemrak_level twin_level
#define gusemrak_mark twin_mark
#define gusemrak_edge twin_edge
#endif
#ifdef F_STEP
enum { HAS_STEP = 1 };
#else
enum { HAS_STEP = 0 };
#define gusemrak_step twin_step
#endif
#ifdef F_RUN
enum { HAS_RUN = 1 };
#else
enum { HAS_RUN = 0 };
#define gusemrak_run twin_run
#endif
#ifdef F_SHORT_LIST
enum { HAS_SHORT_LIST = 1 };
#else
enum { HAS_SHORT_LIST = 0 };
#define gusemrak_short_list twin_short_list
#endif
#ifdef F_PART
enum { HAS_PART = 1 };
#else
enum { HAS_PART = 0 };
#define gusemrak_part twin_part
#endif
#ifdef F_GROUP
enum { HAS_GROUP = 1 };
#else
enum { HAS_GROUP = 0 };
#define gusemrak_group twin_group
#endif

int landed(enum function function)
{
    static const int has[FUNCTIONS] = {
        HAS_CHECK_BOOK, HAS_COMPILE, HAS_CHECK_IMAGE, HAS_QUESTIONS, HAS_QUESTIONS, HAS_QUESTIONS, HAS_QUESTIONS,
        HAS_STEP, HAS_RUN, HAS_SHORT_LIST, HAS_PART, HAS_GROUP,
        HAS_COMPILE && HAS_CHECK_IMAGE && HAS_RUN && HAS_SHORT_LIST && HAS_PART};
    return has[function];
}

/* ---- Bytes to a call ---- */

static uint32_t number(const uint8_t *at, int bytes)
{
    uint32_t number = 0;
    for (int i = bytes; i-- > 0;)
        number = number << 8 | at[i];
    return number;
}

int decode(const uint8_t *data, size_t size, struct call *call)
{
    memset(call, 0, sizeof *call);
    if (size == 0 || (data[0] & 15) >= FUNCTIONS)
        return 0;
    call->function = (enum function)(data[0] & 15);
    call->beginning = data[0] >> 4 & 1;
    call->null = data[0] >> 5 & 1;
    size_t header = header_of(call->function);
    if (size < header)
        return 0;
    const uint8_t *at = data + 1;
    switch (call->function) {
    case FALLBACK: case LEVEL: case MARK:
        call->place = number(at, 4);
        break;
    case EDGE: case STEP:
        call->place = number(at, 4);
        call->event = at[4];
        break;
    case RUN:
        call->place = number(at, 4);
        call->base = number(at + 4, 4);
        call->room = number(at + 8, 2);
        break;
    case COMPILE: case SHORT_LIST: case WHOLE:
        call->room = number(at, 2);
        break;
    case PART:
        call->base = number(at, 4);
        call->end = number(at + 4, 4);
        call->length = number(at + 8, 4);
        break;
    case GROUP:
        call->event = at[0];
        break;
    default:
        break;
    }
    const uint8_t *rest = data + header;
    size_t left = size - header;
    if (has_log(call->function)) {
        call->nlog = number(rest - 2, 2);
        if (call->nlog > left)
            call->nlog = left;
        call->log = rest;
        rest += call->nlog;
        left -= call->nlog;
    }
    call->main = rest;
    call->nmain = left;
    if (call->function == PART) {
        call->log = call->main;
        call->nlog = call->nmain;
    }
    return 1;
}

static void show_bytes(const char *what, const uint8_t *bytes, size_t n)
{
    printf(" %s ", what);
    for (size_t i = 0; i < n; i++)
        printf("%02x", bytes[i]);
}

void show(const struct call *call)
{
    printf("    %s with", call->function == WHOLE ? "compile, then run," : name_of(call->function));
    switch (call->function) {
    case FALLBACK: case LEVEL: case MARK:
        printf(" place %u", call->place);
        break;
    case EDGE: case STEP:
        printf(" place %u event %02x", call->place, call->event);
        break;
    case RUN:
        printf(" place %u base %u room %zu", call->place, call->base, call->room);
        break;
    case COMPILE: case SHORT_LIST: case WHOLE:
        printf(" room %zu", call->room);
        break;
    case PART:
        printf(" base %u end %u length %u", call->base, call->end, call->length);
        break;
    case GROUP:
        printf(" event %02x", call->event);
        break;
    default:
        break;
    }
    if (has_log(call->function) || call->function == PART)
        show_bytes("log", call->log, call->nlog);
    if (call->function == CHECK_BOOK || call->function == COMPILE || call->function == WHOLE)
        show_bytes("book", call->main, call->nmain);
    else if (call->function == SHORT_LIST)
        show_bytes("list", call->main, call->nmain);
    else if (call->function != PART && call->function != GROUP)
        show_bytes("image", call->main, call->nmain);
    printf("\n    slices %s a page that cannot be touched, empty ones %s\n",
           call->beginning ? "beginning at" : "ending at", call->null ? "null" : "untouchable");
    fflush(stdout);
}

/* ---- Memory beside pages that cannot be touched ---- */

enum { ROOMY = 1 << 18, MARGIN = 64, SPOTS = 3 };

static uint8_t *spots[SPOTS];

static uint8_t *spot(int number)
{
    if (spots[number] == NULL) {
        size_t page = (size_t)sysconf(_SC_PAGESIZE);
        uint8_t *start = mmap(NULL, ROOMY + 2 * page, PROT_NONE, MAP_PRIVATE | MAP_ANONYMOUS, -1, 0);
        if (start == MAP_FAILED || mprotect(start + page, ROOMY, PROT_READ | PROT_WRITE) != 0) {
            perror("guarded memory");
            exit(2);
        }
        spots[number] = start + page;
    }
    return spots[number];
}

/* Where a slice of this length stands. */
static uint8_t *stand(const struct call *call, int number, size_t n)
{
    if (n == 0)
        return call->null ? NULL : spot(number) + ROOMY;
    return call->beginning ? spot(number) : spot(number) + ROOMY - n;
}

static const uint8_t *given(const struct call *call, int number, const uint8_t *bytes, size_t n)
{
    uint8_t *at = stand(call, number, n);
    if (n > 0)
        memcpy(at, bytes, n);
    return at;
}

/* Lent memory, twice: the twin's between margins, the library's beside its page with one margin. */
static uint8_t twins[ROOMY + 2 * MARGIN], before[ROOMY + 2 * MARGIN];
static uint8_t *lent, pattern;

static void lend(const struct call *call, size_t room)
{
    pattern = (uint8_t)(pattern + 101);
    for (size_t i = 0; i < room + 2 * MARGIN; i++)
        before[i] = (uint8_t)((uint8_t)i * 37 + 11) ^ pattern;
    memcpy(twins, before, room + 2 * MARGIN);
    lent = stand(call, 2, room);
    if (room > 0) {
        memcpy(lent, before + MARGIN, room);
        uint8_t *margin = call->beginning ? lent + room : lent - MARGIN;
        memcpy(margin, before, MARGIN);
    }
}

/* ---- Both made ---- */

static int differ_in_answer(const char *name, gusemrak_answer due, gusemrak_answer got)
{
    if (due.number == got.number && due.place == got.place && due.a == got.a && due.b == got.b && due.c == got.c &&
        due.d == got.d)
        return 0;
    const gusemrak_answer *answers[] = {&due, &got};
    printf("DIFFERS %s:", name);
    for (int i = 0; i < 2; i++) {
        const gusemrak_answer *one = answers[i];
        printf(" %s number %u place %u a %llu b %llu c %llu d %llu%s", i == 0 ? "twin" : "proved", one->number,
               one->place, (unsigned long long)one->a, (unsigned long long)one->b, (unsigned long long)one->c,
               (unsigned long long)one->d, i == 0 ? "," : "\n");
    }
    return 1;
}

static int differ_in_lent(const struct call *call, const char *name, size_t room)
{
    if (room > 0 && memcmp(lent, twins + MARGIN, room) != 0) {
        size_t i = 0;
        while (lent[i] == twins[MARGIN + i])
            i++;
        printf("DIFFERS %s: lent byte %zu is %02x where the twin leaves %02x\n", name, i, lent[i], twins[MARGIN + i]);
        return 1;
    }
    if (memcmp(twins, before, MARGIN) != 0 || memcmp(twins + MARGIN + room, before + MARGIN + room, MARGIN) != 0) {
        printf("DIFFERS %s: the twin wrote beside its lent memory\n", name);
        return 1;
    }
    if (room > 0 && memcmp(call->beginning ? lent + room : lent - MARGIN, before, MARGIN) != 0) {
        printf("DIFFERS %s: the library wrote beside its lent memory\n", name);
        return 1;
    }
    return 0;
}

static int differ_in_given(const char *name, int number, const uint8_t *at, const uint8_t *bytes, size_t n)
{
    if (n == 0 || memcmp(at, bytes, n) == 0)
        return 0;
    printf("DIFFERS %s: slice %d, given to be read, has changed\n", name, number);
    return 1;
}

/* A call that is given one slice and lent nothing. `at` is where the slice stands, first for the twin and then for the
 * library. */
#define ASKED(NAME, ...)                                                                                               \
    do {                                                                                                               \
        const uint8_t *at = call->main;                                                                                \
        gusemrak_answer due = twin_##NAME(__VA_ARGS__);                                                                \
        at = given(call, 0, call->main, call->nmain);                                                                  \
        return differ_in_answer(#NAME, due, gusemrak_##NAME(__VA_ARGS__)) ||                                           \
               differ_in_given(#NAME, 0, at, call->main, call->nmain);                                                 \
    } while (0)

/* One that is lent memory besides. */
#define LENT(NAME)                                                                                                     \
    do {                                                                                                               \
        const uint8_t *at = given(call, 0, call->main, call->nmain);                                                   \
        lend(call, call->room);                                                                                        \
        gusemrak_answer due = twin_##NAME(call->main, call->nmain, twins + MARGIN, call->room);                        \
        return differ_in_answer(#NAME, due, gusemrak_##NAME(at, call->nmain, lent, call->room)) ||                     \
               differ_in_lent(call, #NAME, call->room) || differ_in_given(#NAME, 0, at, call->main, call->nmain);      \
    } while (0)

static int run_differs(const struct call *call)
{
    const uint8_t *image = given(call, 0, call->main, call->nmain), *log = given(call, 1, call->log, call->nlog);
    lend(call, call->room);
    gusemrak_answer due = twin_run(call->main, call->nmain, call->place, call->base, call->log, call->nlog,
                                   twins + MARGIN, call->room);
    gusemrak_answer got = gusemrak_run(image, call->nmain, call->place, call->base, log, call->nlog, lent, call->room);
    return differ_in_answer("run", due, got) || differ_in_lent(call, "run", call->room) ||
           differ_in_given("run", 0, image, call->main, call->nmain) ||
           differ_in_given("run", 1, log, call->log, call->nlog);
}

static int part_differs(const struct call *call)
{
    const uint8_t *log = given(call, 0, call->log, call->nlog);
    return differ_in_answer("part", twin_part(call->log, call->nlog, call->base, call->end, call->length),
                            gusemrak_part(log, call->nlog, call->base, call->end, call->length)) ||
           differ_in_given("part", 0, log, call->log, call->nlog);
}

static int group_differs(const struct call *call)
{
    return differ_in_answer("group", (gusemrak_answer){.a = twin_group(call->event)},
                            (gusemrak_answer){.a = gusemrak_group(call->event)});
}

static int differs(const struct call *call)
{
    switch (call->function) {
    case CHECK_BOOK: ASKED(check_book, at, call->nmain);
    case COMPILE: LENT(compile);
    case CHECK_IMAGE: ASKED(check_image, at, call->nmain);
    case FALLBACK: ASKED(fallback, at, call->nmain, call->place);
    case LEVEL: ASKED(level, at, call->nmain, call->place);
    case MARK: ASKED(mark, at, call->nmain, call->place);
    case EDGE: ASKED(edge, at, call->nmain, call->place, call->event);
    case STEP: ASKED(step, at, call->nmain, call->place, call->event);
    case RUN: return run_differs(call);
    case SHORT_LIST: LENT(short_list);
    case PART: return part_differs(call);
    case GROUP: return group_differs(call);
    default: return 0;
    }
}

/* The way of a log, each call with the bytes that the one before it wrote. */
static int whole_differs(const struct call *call)
{
    static uint8_t image[GUSEMRAK_IMAGE_MOST], records[65536];
    struct call one = *call;
    one.function = COMPILE;
    one.room = GUSEMRAK_IMAGE_MOST;
    if (differs(&one))
        return 1;
    gusemrak_answer compiled = twin_compile(call->main, call->nmain, image, sizeof image);
    if (compiled.number != 0)
        return 0;
    one.main = image;
    one.nmain = (size_t)compiled.a;
    one.function = CHECK_IMAGE;
    if (differs(&one))
        return 1;
    one.function = RUN;
    one.room = call->room;
    if (differs(&one))
        return 1;
    gusemrak_answer ran = twin_run(image, (size_t)compiled.a, 0, 0, call->log, call->nlog, records, call->room);
    /* The first of them: the log is copied for each. */
    for (size_t i = 0; i < ran.c && i < 16; i++) {
        one.function = PART;
        one.end = gusemrak_record_end(records + 8 * i);
        one.length = gusemrak_record_length(records + 8 * i);
        if (differs(&one))
            return 1;
    }
    one.function = SHORT_LIST;
    one.main = records;
    one.nmain = 8 * (size_t)ran.c;
    return differs(&one);
}

int judge(const struct call *call)
{
    int found = call->function == WHOLE ? whole_differs(call) : differs(call);
    if (found)
        show(call);
    return found;
}
