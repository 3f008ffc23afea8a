/* part BOOK LOG: each record with the events of the log that it names. */
#include "example.h"

int main(int count, char **names)
{
    static uint8_t image[GUSEMRAK_IMAGE_MOST];
    if (count != 3)
        give_up("usage:", "part BOOK LOG");
    size_t n = compile_file(names[1], image);
    file_bytes log = read_file(names[2]);
    full_list list = read_log(image, n, log.bytes, log.length);
    for (size_t at = 0; at < list.length; at += GUSEMRAK_RECORD) {
        const uint8_t *record = list.records + at;
        uint32_t end = gusemrak_record_end(record), length = gusemrak_record_length(record);
        /* The log was read from its beginning, with base 0. */
        gusemrak_answer part = gusemrak_part(log.bytes, log.length, 0, end, length);
        if (part.number != 0)
            refused(part);
        printf("end %u mark %u:", (unsigned)end, (unsigned)gusemrak_record_mark(record));
        for (size_t i = 0; i < part.b; i++)
            printf(" %02x", (unsigned)log.bytes[part.a + i]);
        printf("\n");
    }
    free(list.records);
    free(log.bytes);
    return 0;
}
