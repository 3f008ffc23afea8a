/* list BOOK LOG: the full list of a log, with the group of the event that each record ends at. */
#include "example.h"

int main(int count, char **names)
{
    static uint8_t image[GUSEMRAK_IMAGE_MOST];
    if (count != 3)
        give_up("usage:", "list BOOK LOG");
    size_t n = compile_file(names[1], image);
    file_bytes log = read_file(names[2]);
    full_list list = read_log(image, n, log.bytes, log.length);

    printf("end length mark last\n");
    for (size_t at = 0; at < list.length; at += GUSEMRAK_RECORD) {
        const uint8_t *record = list.records + at;
        uint32_t end = gusemrak_record_end(record);
        /* The base is 0 here, so event number end, counted from 1, is this one. */
        uint8_t last = log.bytes[end - 1];
        printf("%u %u %u %c\n", (unsigned)end, (unsigned)gusemrak_record_length(record),
               (unsigned)gusemrak_record_mark(record), gusemrak_group(last));
    }
    printf("places %u fails %llu\n", (unsigned)gusemrak_check_image(image, n).a, (unsigned long long)list.steps);
    free(list.records);
    free(log.bytes);
    return 0;
}
