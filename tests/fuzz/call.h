/* An input of the fuzzer as the call it stands for. README.md has the bytes. */
#ifndef CALL_H
#define CALL_H

#include <stddef.h>
#include <stdint.h>

enum function {
    CHECK_BOOK, COMPILE, CHECK_IMAGE, FALLBACK, LEVEL, MARK, EDGE, STEP, RUN, SHORT_LIST, PART, GROUP,
    WHOLE, /* a book compiled, its image checked and run, the records shortened and their parts asked for */
    FUNCTIONS
};

struct call {
    enum function function;
    int beginning; /* slices begin at a page that cannot be touched, where they otherwise end at one */
    int null;      /* empty slices are given as null */
    uint32_t place, base, end, length;
    uint8_t event;
    size_t room;
    const uint8_t *main, *log; /* the book, image or list; the log */
    size_t nmain, nlog;
};

/* Bytes before the log and the main slice; where there is a log its length stands in the last two of them. */
static inline size_t header_of(unsigned function)
{
    static const uint8_t headers[FUNCTIONS] = {1, 3, 1, 5, 5, 5, 6, 6, 13, 3, 13, 2, 5};
    return headers[function];
}

static inline int has_log(unsigned function) { return function == RUN || function == WHOLE; }

/* 0 where the bytes stand for no call. */
int decode(const uint8_t *data, size_t size, struct call *call);

/* Prints a call in the words of tests/differ. */
void show(const struct call *call);

/* Makes the call on the library and on the twin. 0 where they agree; where they do not, both answers are printed and
 * the call is shown. */
int judge(const struct call *call);

/* Whether the functions that the call needs have landed. */
int landed(enum function function);

const char *name_of(enum function function);

#endif
