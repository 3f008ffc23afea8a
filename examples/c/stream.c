/* stream BOOK < LOG: records while a log comes in, in pieces of a few events. Place and base carry the walk from one
 * piece to the next, so a signature that lies across pieces is found; the pieces themselves need not be kept. */
#include "example.h"

int main(int count, char **names)
{
    static uint8_t image[GUSEMRAK_IMAGE_MOST], records[GUSEMRAK_ROOM_LEAST];
    uint8_t piece[3];
    uint32_t place = 0, base = 0;
    size_t got;
    if (count != 2)
        give_up("usage:", "stream BOOK < LOG");
    size_t n = compile_file(names[1], image);
    while ((got = fread(piece, 1, sizeof piece, stdin)) > 0) {
        size_t taken = 0;
        /* A piece may have more records than the buffer has room for: then the run is called again for its rest. */
        while (taken < got) {
            gusemrak_answer ran = gusemrak_run(image, n, place, base, piece + taken, got - taken,
                                               records, sizeof records);
            if (ran.number != 0)
                refused(ran);
            for (size_t i = 0; i < ran.c; i++) {
                const uint8_t *record = records + GUSEMRAK_RECORD * i;
                printf("end %u length %u mark %u\n", (unsigned)gusemrak_record_end(record),
                       (unsigned)gusemrak_record_length(record), (unsigned)gusemrak_record_mark(record));
            }
            taken += (size_t)ran.a;
            base += (uint32_t)ran.a;
            place = (uint32_t)ran.b;
        }
    }
    printf("%u events, place %u\n", (unsigned)base, (unsigned)place);
    return 0;
}
