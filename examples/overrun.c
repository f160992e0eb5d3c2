/* Writes the words of its recorded input, and ends with how many there are. It has a bug. */
#include "calls.h"

static struct {
    char word[8]; /* longer words are cut */
    unsigned words;
} seen;

static void end_word(unsigned length) {
    seen.words++;
    seen.word[length] = 0;
    write(1, seen.word, length);
}

int main(void) {
    char input[16];
    unsigned length = 0;
    long count;
    while ((count = read(0, input, sizeof input)) > 0)
        for (long i = 0; i < count; i++)
            if (input[i] > ' ') {
                if (length < sizeof seen.word)
                    seen.word[length++] = input[i];
            } else if (length > 0) {
                end_word(length);
                length = 0;
            }
    return seen.words;
}
