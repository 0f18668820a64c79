/* A file that is read, and a contact that is cut out of a line: what the C programs of this folder share. */
#include <stdbool.h>
#include <stdio.h>
#include <stdlib.h>
#include <string.h>

typedef struct {
    char *bytes;
    size_t len;
} text;

typedef struct {
    text name;
    text email;
} contact;

static void must(bool holds, const char *what)
{
    if (!holds) {
        fprintf(stderr, "%s\n", what);
        exit(1);
    }
}

static text read_file(const char *path)
{
    FILE *file = fopen(path, "rb");
    must(file != NULL && fseek(file, 0, SEEK_END) == 0 && ftell(file) >= 0, path);
    text read = {malloc((size_t)ftell(file) + 1), (size_t)ftell(file)};
    rewind(file);
    must(read.bytes != NULL && fread(read.bytes, 1, read.len, file) == read.len, path);
    read.bytes[read.len] = 0;
    fclose(file);
    return read;
}

/* The text before `end`, without the blanks around it. A NUL is put after it. */
static text cut(char *start, char *end)
{
    while (start < end && *start == ' ')
        start++;
    while (end > start && end[-1] == ' ')
        end--;
    *end = 0;
    return (text){start, (size_t)(end - start)};
}

/* Cuts the contact out of a line like `Jane <jane@x>`, if it is one. */
static bool is_contact(char *line, size_t len, contact *found)
{
    char *open = memchr(line, '<', len);
    char *close = open ? memchr(open, '>', len - (size_t)(open - line)) : NULL;
    if (close)
        *found = (contact){cut(line, open), cut(open + 1, close)};
    return close != NULL;
}
