/* make_book OUT: writes book A, made from its states. docs/MAKING-A-BOOK.md says how the states were found. */
#include "example.h"

/* An edge names its own state as well, so that the table below reads by itself. */
struct edge {
    uint16_t state;
    uint8_t event;
    uint16_t target;
};

/* The marks of states 0 to 4, and the edges by rising state, then by rising event. */
static const uint8_t marks[] = {0, 0, 0, 0, 5};
static const struct edge edges[] = {
    {0, 0x21, 1}, {0, 0x31, 2}, {1, 0x31, 3}, {2, 0x22, 3}, {3, 0x41, 4},
};

enum { STATES = sizeof marks, EDGES = sizeof edges / sizeof edges[0], LENGTH = 4 * STATES + 4 * EDGES + 12 };

static uint8_t *put16(uint8_t *at, unsigned number)
{
    at[0] = (uint8_t)(number & 255);
    at[1] = (uint8_t)(number >> 8);
    return at + 2;
}

int main(int count, char **names)
{
    uint8_t book[LENGTH], *at = book;
    if (count != 2)
        give_up("usage:", "make_book OUT");
    for (unsigned state = 0; state < STATES; state++) {
        unsigned own = 0;
        for (unsigned i = 0; i < EDGES; i++)
            own += edges[i].state == state;
        *at++ = marks[state];
        *at++ = 0;
        at = put16(at, own);
    }
    for (unsigned i = 0; i < EDGES; i++) {
        *at++ = edges[i].event;
        *at++ = 0;
        at = put16(at, edges[i].target);
    }
    at = put16(at, LENGTH);     /* the distance, 32 bits: its high half is 0, as no book's tables reach 65,536 bytes */
    at = put16(at, 0);
    at = put16(at, STATES);
    at = put16(at, EDGES);
    at = put16(at, 1);          /* the form */
    *at++ = 'S';
    *at++ = 'B';

    gusemrak_answer checked = gusemrak_check_book(book, sizeof book);
    if (checked.number != 0)
        refused(checked);
    write_file(names[1], book, sizeof book);
    printf("%u bytes, %u states, %u edges\n", (unsigned)sizeof book, (unsigned)checked.a, (unsigned)checked.b);
    return 0;
}
