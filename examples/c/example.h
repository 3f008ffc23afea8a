/* What the examples share: reading and writing files, and saying a refusal in words. None of it is needed to use
 * gusemrak.h; copy what serves. */
#ifndef EXAMPLE_H
#define EXAMPLE_H

#include <stdio.h>
#include <stdlib.h>

#include "gusemrak.h"

/* Bytes of a file; free(bytes) when done. */
typedef struct {
    uint8_t *bytes;
    size_t length;
} file_bytes;

static inline void give_up(const char *what, const char *name)
{
    fprintf(stderr, "%s %s\n", what, name);
    exit(2);
}

/* Reads a file of any length. */
static inline file_bytes read_file(const char *name)
{
    file_bytes file = {NULL, 0};
    size_t room = 0;
    FILE *from = fopen(name, "rb");
    if (from == NULL)
        give_up("cannot open", name);
    for (;;) {
        if (file.length == room) {
            uint8_t *more = realloc(file.bytes, room = room == 0 ? 4096 : 2 * room);
            if (more == NULL)
                give_up("no memory for", name);
            file.bytes = more;
        }
        size_t got = fread(file.bytes + file.length, 1, room - file.length, from);
        if (got == 0)
            break;
        file.length += got;
    }
    if (ferror(from))
        give_up("cannot read", name);
    fclose(from);
    return file;
}

static inline void write_file(const char *name, const uint8_t *bytes, size_t length)
{
    FILE *to = fopen(name, "wb");
    if (to == NULL)
        give_up("cannot open", name);
    if (fwrite(bytes, 1, length, to) != length || fclose(to) != 0)
        give_up("cannot write", name);
}

/* The words of the refusal table. */
static inline const char *refusal_words(uint32_t number)
{
    static const char *const words[] = {
        "not refused",
        "book under 12 bytes",
        "book over 65,536 bytes",
        "letters wrong",
        "form not 1",
        "S or E outside its range",
        "distance not 4S+4E+12, or beyond the file",
        "a zero byte that is not zero",
        "the states' edge counts do not add up to E",
        "event not above the one before it in the same state",
        "target not above its own state, or not below S",
        "state 0 marked",
        "a state other than 0 with no edge into it",
        "a state other than 0, unmarked, with no edge out",
        "compile: over 1,024 places",
        "compile: over 4,096 edges",
        "compile: lent buffer shorter than the image",
        "image trailer wrong, or image length wrong",
        "image state record wrong",
        "image edge record wrong",
        "a place given to a run, a walk or a question not below the place count",
        "base plus log length over 4,294,967,295",
        "record list length not a multiple of 8",
        "short list longer than its buffer",
        "record does not name a part of this log",
    };
    return number < sizeof words / sizeof words[0] ? words[number] : "no refusal of a call has this number";
}

/* Ends the program with what was refused. The caller has seen that number is not 0. */
static inline void refused(gusemrak_answer answer)
{
    printf("refused %u at %u: %s\n", (unsigned)answer.number, (unsigned)answer.place, refusal_words(answer.number));
    exit(1);
}

/* Compiles a book from a file into the buffer, or ends the program. */
static inline size_t compile_file(const char *name, uint8_t image[GUSEMRAK_IMAGE_MOST])
{
    file_bytes book = read_file(name);
    gusemrak_answer compiled = gusemrak_compile(book.bytes, book.length, image, GUSEMRAK_IMAGE_MOST);
    free(book.bytes);
    if (compiled.number != 0)
        refused(compiled);
    return (size_t)compiled.a;
}

/* The full list of a log. It is kept whole: the short list and the parts are drawn from it. */
typedef struct {
    uint8_t *records;
    size_t length;      /* in bytes */
    uint32_t place;     /* after the last event */
    uint64_t steps;
} full_list;

/* Reads a log of any length in parts: each call goes on where the one before it stopped for want of room. */
static inline full_list read_log(const uint8_t *image, size_t n, const uint8_t *log, size_t nlog)
{
    full_list list = {NULL, 0, 0, 0};
    size_t taken = 0;
    do {
        /* With this room for the next part at least one event is taken, so the loop ends. */
        uint8_t *more = realloc(list.records, list.length + 8 * GUSEMRAK_ROOM_LEAST);
        if (more == NULL)
            give_up("no memory for", "the list");
        list.records = more;
        gusemrak_answer ran = gusemrak_run(image, n, list.place, (uint32_t)taken, log + taken, nlog - taken,
                                           list.records + list.length, 8 * GUSEMRAK_ROOM_LEAST);
        if (ran.number != 0)
            refused(ran);
        taken += (size_t)ran.a;
        list.place = (uint32_t)ran.b;
        list.length += GUSEMRAK_RECORD * (size_t)ran.c;
        list.steps += ran.d;
    } while (taken < nlog);
    return list;
}

#endif
