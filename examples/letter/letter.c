/* Sets a text in lines of 32 columns, both margins straight. A word longer than a line makes the free space wrap. */
#include <ctype.h>
#include <stdio.h>
#include <stdlib.h>
#include <string.h>

enum { COLUMNS = 32, LONGEST = 120, MOST_WORDS = 200 };

static char *words[MOST_WORDS];
static char page[4096];
static size_t used;

static void put(char c, size_t times)
{
    while (times-- > 0)
        page[used++] = c;
}

/* Reads the words, as far as there is room for them. */
static size_t read_words(void)
{
    char word[LONGEST + 1];
    size_t length = 0, count = 0;
    int c;
    do {
        c = getchar();
        if (c != EOF && !isspace(c) && length < LONGEST) {
            word[length++] = (char)c;
        } else if (length > 0 && count < MOST_WORDS) {
            word[length++] = 0;
            words[count] = malloc(length);
            if (words[count] == NULL)
                abort();
            memcpy(words[count++], word, length);
            length = 0;
        }
    } while (c != EOF);
    return count;
}

/* Sets the words from `first` up to `end` in one line. */
static void set_line(size_t first, size_t end)
{
    size_t letters = 0;
    for (size_t i = first; i < end; i++)
        letters += strlen(words[i]);
    size_t space = COLUMNS - letters;
    for (size_t i = first; i < end; i++) {
        size_t left = end - 1 - i;
        size_t gap = left > 0 ? space / left : 0;
        for (const char *c = words[i]; *c != 0; c++)
            put(*c, 1);
        put(' ', end - first == 1 ? space : gap);
        space -= gap;
    }
    put('\n', 1);
}

int main(void)
{
    size_t count = read_words();
    for (size_t first = 0; first < count;) {
        size_t end = first + 1, width = strlen(words[first]);
        while (end < count && width + 1 + strlen(words[end]) <= COLUMNS)
            width += 1 + strlen(words[end++]);
        set_line(first, end);
        first = end;
    }
    fputs(page, stdout);
    return 0;
}
