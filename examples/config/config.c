/* Reads a configuration of sections, keys and values, and looks up two numbers. An idle time above 300 fails an assertion. */
#include <assert.h>
#include <ctype.h>
#include <stdio.h>
#include <stdlib.h>
#include <string.h>

enum { MOST_LINE = 80, MOST_NAME = 16, MOST_ENTRIES = 20 };

struct entry {
    char section[MOST_NAME], key[MOST_NAME];
    char value[MOST_LINE];
};

static struct entry entries[MOST_ENTRIES];
static size_t count;

/* The text without the spaces at either end. */
static char *trimmed(char *text)
{
    char *end = text + strlen(text);
    while (isspace((unsigned char)*text))
        text++;
    while (end > text && isspace((unsigned char)end[-1]))
        *--end = 0;
    return text;
}

static void copy_name(char *to, const char *from)
{
    strncpy(to, from, MOST_NAME - 1);
}

static const char *value_of(const char *section, const char *key)
{
    for (size_t i = 0; i < count; i++)
        if (strcmp(entries[i].section, section) == 0 && strcmp(entries[i].key, key) == 0)
            return entries[i].value;
    return "";
}

/* Reads the lines. A line that is none ends the program with 2. */
static void read_entries(void)
{
    char line[MOST_LINE], section[MOST_NAME] = "";
    while (count < MOST_ENTRIES && fgets(line, sizeof line, stdin) != NULL) {
        char *text = trimmed(line), *sign = strchr(text, '=');
        if (*text == 0 || *text == ';')
            continue;
        if (*text == '[' && strchr(text, ']') != NULL) {
            *strchr(text, ']') = 0;
            copy_name(section, text + 1);
            continue;
        }
        if (sign == NULL)
            exit(2);
        *sign = 0;
        copy_name(entries[count].section, section);
        copy_name(entries[count].key, trimmed(text));
        strcpy(entries[count++].value, trimmed(sign + 1));
    }
}

int main(void)
{
    read_entries();
    long port = strtol(value_of("listen", "port"), NULL, 10);
    long idle = strtol(value_of("listen", "idle"), NULL, 10);
    if (port < 1 || port > 65535)
        return 3;
    assert(idle <= 300);
    printf("port %ld, idle %ld\n", port, idle);
    return 0;
}
