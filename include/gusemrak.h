/* gusemrak.h: reading a probe's event log through a compiled book of trouble signatures.
 *
 * A log is a byte an event. A book holds signatures, words of events, each with a mark (its class, 1 to 255). A book is
 * compiled once to an image; a run reads a log through the image and writes a record for every signature that ends at
 * an event, short ones inside long ones too. That is the full list. The short list, one record for each event where
 * something ended, is drawn from the full list and never from a second run.
 *
 *     check_book, compile                  a book, once
 *     run                                  a log, in one call or in parts
 *     short_list, part, group              what to do with the records
 *     check_image                          an image that was kept in a file
 *     fallback, level, mark, edge, step    one place of an image, one event
 *
 * Link with libgusemrak.a. docs/FORMATS.md has the bytes of books, images and records; docs/MAKING-A-BOOK.md makes a
 * book from two words; examples/c/ has programs to copy.
 *
 *
 * What holds of every call
 *
 * Any bytes may be given. A bad book, image, log, list or buffer is refused by a number fixed for its fault; there is
 * no input that a call must not be given, and every call ends.
 *
 * A refused call answers its number and place, with a, b, c and d all 0, and has changed nothing in the memory lent to
 * it. A call that is not refused answers number 0 and place 0; it has changed only the bytes that it says it wrote,
 * from the first byte of the lent buffer on, and left the bytes past these as they were.
 *
 * A slice is a pointer and a length in bytes. The pointer must be good for that many bytes while the call lasts; a
 * pointer may be null only where its length is 0. Memory lent for writing must not overlap anything else that is given
 * to the same call: not the book, not the image, not the log, not the list that is shortened.
 *
 * The calls keep nothing from one to the next. The same input has the same answer, whatever was called before.
 *
 *
 * Refusals
 *
 * Each number is judged over the whole input before the next; the lowest number that applies is the answer. The place
 * of a refusal is the offset in bytes, from the state table of a book or the start of an image, of the first record at
 * fault: state s of a book is at 4s and its edge j at 4S+4j; place p of an image is at 14p and its edge j at 14Q+4j.
 * It is 0 where the table names no record. (A fault in the very first record has place 0 too.)
 *
 *     No.  Given exactly when                                                              Place
 *      1   book under 12 bytes                                                             0
 *      2   book over 65,536 bytes                                                          0
 *      3   letters wrong                                                                   0
 *      4   form not 1                                                                      0
 *      5   S or E outside its range (S 1 to 512, E 0 to 2,048)                             0
 *      6   distance not 4S+4E+12, or beyond the file                                       0
 *      7   a zero byte that is not zero                                                    record
 *      8   the states' edge counts do not add up to E                                      0
 *      9   event not above the one before it in the same state                             edge
 *     10   target not above its own state, or not below S                                  edge
 *     11   state 0 marked                                                                  0
 *     12   a state other than 0 with no edge into it                                       state
 *     13   a state other than 0, unmarked, with no edge out                                state
 *     14   compile: over 1,024 places                                                      0
 *     15   compile: over 4,096 edges                                                       0
 *     16   compile: lent buffer shorter than the image                                     0
 *     17   image trailer wrong, or image length wrong                                      0
 *     18   image state record wrong (a place record; 14Q where the counts do not add up)   record
 *     19   image edge record wrong                                                         record
 *     20   a place given to a run, a walk or a question not below the place count          0
 *     21   base plus log length over 4,294,967,295                                         0
 *     22   record list length not a multiple of 8                                          0
 *     23   short list longer than its buffer                                               0
 *     24   record does not name a part of this log                                         0
 *     25   program only: log file over 32,768 bytes (no call below gives it)               0
 *
 * Which call gives which, in the order of judging:
 *
 *     check_book                           1 to 13
 *     compile                              1 to 13, 14, 15, 16
 *     check_image                          17, 18, 19
 *     fallback, level, mark, edge, step    17, 18, 19, 20
 *     run                                  17, 18, 19, 20, 21
 *     short_list                           22, 23
 *     part                                 21, 24
 *     group                                none
 */
#ifndef GUSEMRAK_H
#define GUSEMRAK_H

#include <stddef.h>
#include <stdint.h>

#ifdef __cplusplus
extern "C" {
#endif

/* Sizes for buffers. */
#define GUSEMRAK_BOOK_MOST   65536  /* a longer book is refused by 2; read one byte more than this to see it */
#define GUSEMRAK_IMAGE_MOST  30732  /* no image is longer: a compile into this many bytes is never refused by 16 */
#define GUSEMRAK_RECORD          8  /* bytes of a record */
#define GUSEMRAK_ROOM_LEAST   8184  /* 1,023 records, the most that one event has: a run with this room moves on */

/* What a call answers. number is 0 where it is not refused. Which of a, b, c and d an answer has is said at each call;
 * those that it does not have are 0. */
typedef struct {
    uint32_t number, place;
    uint64_t a, b, c, d;
} gusemrak_answer;


/* ---- Books ---- */

/* Is this a book? Refused by 1 to 13.
 *     a  states, the start counted
 *     b  edges
 * A book of one state holds no signature; it is accepted and finds nothing. */
gusemrak_answer gusemrak_check_book(const uint8_t *book, size_t n);

/* Compiles a book: checks it, and writes its image to out. Refused by 1 to 16; 14 and 15 say that the image would be
 * too large in any buffer, 16 that it is too large for this one.
 *     a  length of the image in bytes, 14b + 4c + 12: so many bytes of out are written
 *     b  places
 *     c  edges
 * An image does not depend on the maker's note and does not refer to the book: it can be kept in a file by itself. */
gusemrak_answer gusemrak_compile(const uint8_t *book, size_t n, uint8_t *out, size_t room);


/* ---- Images ---- */

/* Is this an image? Refused by 17 to 19. n must be the image's own length, not that of a larger buffer it stands in.
 *     a  places
 *     b  edges
 * Every image that a compile wrote is accepted. So are others: an accepted image is safe to walk, and whether it is the
 * image of a certain book is told by compiling that book and comparing bytes. */
gusemrak_answer gusemrak_check_image(const uint8_t *image, size_t n);

/* The questions, and the step below them, take any bytes for the image, so each call checks the whole image first: it
 * costs about what check_image costs, which is linear in the length of the image and far more than the answer itself.
 * For more than a few events, use gusemrak_run: it checks the image once for the whole log.
 *
 * Each is refused by 17 to 19, and by 20 where place is not below the place count. */

/*     a  the fallback: the place of the chain without its head; 0 at place 0 */
gusemrak_answer gusemrak_fallback(const uint8_t *image, size_t n, uint32_t place);

/*     a  the level: the length of the shortest ending of what was read that leads to the place's head; 0 at place 0 */
gusemrak_answer gusemrak_level(const uint8_t *image, size_t n, uint32_t place);

/*     a  the mark of the place's head, 1 to 255; 0 where it is unmarked
 * An unmarked place is not a quiet one: a place on the way down its fallbacks can be marked. */
gusemrak_answer gusemrak_mark(const uint8_t *image, size_t n, uint32_t place);

/* The place's own edge on an event; fallbacks are not tried.
 *     a  1 where there is one, 0 where there is none
 *     b  its target, a place; 0 where there is none (no edge leads to place 0) */
gusemrak_answer gusemrak_edge(const uint8_t *image, size_t n, uint32_t place, uint8_t event);

/* One event of a walk. Begin with place 0, and give each answer's place to the next call. Refused as the questions are.
 *     a  the place after the event
 *     b  its level
 *     c  the failure steps of this event: the fallbacks taken before an edge was found, or place 0 reached */
gusemrak_answer gusemrak_step(const uint8_t *image, size_t n, uint32_t place, uint8_t event);


/* ---- Runs ---- */

/* Reads a log through an image and writes the records to out. Refused by 17 to 19, then 20 for the place, then 21.
 *     a  events taken
 *     b  the place after them
 *     c  records: 8c bytes of out are written
 *     d  failure steps of all the events taken
 * place is where the walk begins: 0 for the beginning of a log. base is how many events came before this log: an end is
 * counted from it.
 *
 * Each event is followed by one record for every marked place among the place it leads to and that place's fallbacks,
 * longest first: one for each marked state of the book that some ending of the events reaches. The run stops before the
 * first event whose records do not all fit, and has then taken fewer events than the log has. It is not refused for
 * want of room: with room 0 it goes on as far as no record arises. To read on from there, give
 *
 *     place = b,  base = base + a,  log = log + a,  nlog = nlog - a
 *
 * to the next call, until nlog is 0; the lists of all calls, one after the other, are the list of the whole log, and
 * their failure steps add up. With a room of GUSEMRAK_ROOM_LEAST bytes or more every call on a log that is not empty
 * takes at least one event; with less, a call can take none, and would take none when made again. */
gusemrak_answer gusemrak_run(const uint8_t *image, size_t n, uint32_t place, uint32_t base,
                             const uint8_t *log, size_t nlog, uint8_t *out, size_t room);


/* ---- Records ---- */

/* A record is 8 bytes:
 *     0-3  end: base plus the number of the event it stands at, counted from 1 (little-endian)
 *     4-5  length: how many events the signature's ending has, the shortest that leads to its state (little-endian)
 *     6    mark: the signature's class, 1 to 255
 *     7    zero
 * record points to the first of the eight. */
static inline uint32_t gusemrak_record_end(const uint8_t *record)
{
    return (uint32_t)record[0] | (uint32_t)record[1] << 8 | (uint32_t)record[2] << 16 | (uint32_t)record[3] << 24;
}

static inline uint16_t gusemrak_record_length(const uint8_t *record)
{
    return (uint16_t)(record[4] | record[5] << 8);
}

static inline uint8_t gusemrak_record_mark(const uint8_t *record)
{
    return record[6];
}

/* Draws the short list from a full list: a record is kept if it is the first, or if its end differs from the end of the
 * record just before it. In a run's list that is the longest at each event. Refused by 22 where n is not a multiple of
 * 8, then by 23 where the kept records are longer than the buffer (a room of n bytes is always enough).
 *     a  records kept: 8a bytes of out are written
 * Records are compared by their ends alone, and kept as they stand: any list of whole records has a short list. */
gusemrak_answer gusemrak_short_list(const uint8_t *list, size_t n, uint8_t *out, size_t room);

/* Which part of the log does a record name? base is that of the run, log its whole log, end and length are the
 * record's. Refused by 21 where base plus nlog is over 4,294,967,295, then by 24 where length is 0, length exceeds end,
 * or the part is not inside this log.
 *     a  offset in the log of the part's first event
 *     b  its length, that of the record
 * The part is log + a, b bytes. A record of a run that began elsewhere than at place 0 may reach back beyond the log
 * that the run was given: that is 24. After a log read in parts, give the whole log with the first part's base. */
gusemrak_answer gusemrak_part(const uint8_t *log, size_t nlog, uint32_t base, uint32_t end, uint32_t length);

/* The group letter of an event, for listings:
 *     00-0F S system, 10-1F M measuring, 20-2F C calibration, 30-3F D diagnosis, 40-4F W storing, 50-FF R reserved */
uint8_t gusemrak_group(uint8_t event);

#ifdef __cplusplus
}
#endif

#endif
