/* compile BOOK IMAGE: compiles a book and keeps its image in a file. */
#include "example.h"

int main(int count, char **names)
{
    static uint8_t image[GUSEMRAK_IMAGE_MOST];
    if (count != 3)
        give_up("usage:", "compile BOOK IMAGE");
    file_bytes book = read_file(names[1]);
    gusemrak_answer compiled = gusemrak_compile(book.bytes, book.length, image, sizeof image);
    free(book.bytes);
    if (compiled.number != 0)
        refused(compiled);
    printf("%u bytes, %u places, %u edges\n", (unsigned)compiled.a, (unsigned)compiled.b, (unsigned)compiled.c);
    write_file(names[2], image, (size_t)compiled.a);
    return 0;
}
