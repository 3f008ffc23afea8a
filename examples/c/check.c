/* check BOOK..: is each file a book? Prints its counts, or why it is refused and where. */
#include "example.h"

int main(int count, char **names)
{
    int bad = 0;
    for (int i = 1; i < count; i++) {
        file_bytes book = read_file(names[i]);
        gusemrak_answer checked = gusemrak_check_book(book.bytes, book.length);
        free(book.bytes);
        if (checked.number == 0) {
            printf("%s: %u states, %u edges\n", names[i], (unsigned)checked.a, (unsigned)checked.b);
        } else {
            printf("%s: refused %u at %u: %s\n", names[i], (unsigned)checked.number, (unsigned)checked.place,
                   refusal_words(checked.number));
            bad = 1;
        }
    }
    return bad;
}
