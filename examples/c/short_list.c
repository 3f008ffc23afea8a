/* short_list BOOK LOG: the engineer's full list, and the operator's short list drawn from it. The log is read once. */
#include "example.h"

static void print_list(const char *name, const uint8_t *list, size_t length)
{
    printf("%s list, records %u\n", name, (unsigned)(length / GUSEMRAK_RECORD));
    for (size_t at = 0; at < length; at += GUSEMRAK_RECORD)
        printf("end %u length %u mark %u\n", (unsigned)gusemrak_record_end(list + at),
               (unsigned)gusemrak_record_length(list + at), (unsigned)gusemrak_record_mark(list + at));
}

int main(int count, char **names)
{
    static uint8_t image[GUSEMRAK_IMAGE_MOST];
    if (count != 3)
        give_up("usage:", "short_list BOOK LOG");
    size_t n = compile_file(names[1], image);
    file_bytes log = read_file(names[2]);
    full_list full = read_log(image, n, log.bytes, log.length);
    print_list("full", full.records, full.length);

    /* The short list is never longer than the full one; and it must not be written over it. A byte more than is needed,
     * as malloc(0) may answer null. */
    uint8_t *kept = malloc(full.length + 1);
    if (kept == NULL)
        give_up("no memory for", "the short list");
    gusemrak_answer shortened = gusemrak_short_list(full.records, full.length, kept, full.length);
    if (shortened.number != 0)
        refused(shortened);
    print_list("short", kept, GUSEMRAK_RECORD * (size_t)shortened.a);
    free(kept);
    free(full.records);
    free(log.bytes);
    return 0;
}
