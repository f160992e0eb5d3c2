/* Reads words, keeps them in a list, the last first, and prints them. It ends with how many there are, and has a bug. */
#include <stdio.h>
#include <stdlib.h>
#include <string.h>

enum { RECENT = 4 };

struct word {
    struct word *next;
    char letters[];
};

static struct {
    size_t lengths[RECENT]; /* of the last few words, in a ring; behind the newest stands a 0 */
    struct word *first;
} seen;

static void keep_length(size_t length) {
    static unsigned at;
    seen.lengths[at] = length;
    seen.lengths[at + 1] = 0;
    at = (at + 1) % RECENT;
}

static void keep_word(const char *letters) {
    struct word *word = malloc(sizeof *word + strlen(letters) + 1);
    strcpy(word->letters, letters);
    word->next = seen.first;
    seen.first = word;
}

int main(void) {
    char line[80];
    int count = 0;
    while (fgets(line, sizeof line, stdin))
        for (char *word = strtok(line, " \n"); word; word = strtok(NULL, " \n")) {
            keep_length(strlen(word));
            keep_word(word);
        }
    for (struct word *word = seen.first; word; word = word->next, count++)
        printf("%s\n", word->letters);
    return count;
}
