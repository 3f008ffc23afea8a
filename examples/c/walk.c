/* walk BOOK LOG: one event at a time, and after each the place with its fallbacks. For whole logs use a run: each call
 * here checks the image again. */
#include "example.h"

/* A place that a step has answered is a place of the image, so none of these questions is refused. */
static void print_chain(const uint8_t *image, size_t n, uint32_t place)
{
    while (place != 0) {
        unsigned level = (unsigned)gusemrak_level(image, n, place).a;
        unsigned mark = (unsigned)gusemrak_mark(image, n, place).a;
        printf("; place %u level %u", (unsigned)place, level);
        if (mark != 0)
            printf(" mark %u", mark);
        place = (uint32_t)gusemrak_fallback(image, n, place).a;
    }
}

int main(int count, char **names)
{
    static uint8_t image[GUSEMRAK_IMAGE_MOST];
    uint32_t place = 0;
    if (count != 3)
        give_up("usage:", "walk BOOK LOG");
    size_t n = compile_file(names[1], image);
    file_bytes log = read_file(names[2]);
    for (size_t i = 0; i < log.length; i++) {
        uint8_t event = log.bytes[i];
        gusemrak_answer own = gusemrak_edge(image, n, place, event);
        gusemrak_answer walk = gusemrak_step(image, n, place, event);
        if (walk.number != 0)
            refused(walk);
        printf("%02x at place %u: %s, steps %u", (unsigned)event, (unsigned)place, own.a == 1 ? "edge" : "no edge",
               (unsigned)walk.c);
        place = (uint32_t)walk.a;
        print_chain(image, n, place);
        printf("\n");
    }
    free(log.bytes);
    return 0;
}
