/* Prints what mailmap_check, mailmap_dump and mailmap_verify print, using only gix_mailmap.h. tests/original/compare.py
 * runs it on the stored answers of the original, and reported.py on those of mailmap_verify.
 *
 *     stored FILE..            answers each line of standard input
 *     stored --compact FILE..  the mailmap of all FILEs
 *     stored entries FILE..    its entries, in hex
 *     stored resolve FILE..    the answers to the lines NAME EMAIL, in hex, on standard input
 *     stored parse FILE..      the entry or the fault of each line, in hex
 *     stored gcc|json|github CONTACTS FILE..    the findings in the FILEs and in the contacts
 *     stored notices CONTACTS FILE..            the same: the numbers, and the other texts in hex
 */
#include "gix_mailmap.h"
#include <stdio.h>
#include <stdlib.h>
#include <string.h>

typedef struct {
    char *bytes;
    size_t len;
} text;

static void must(bool holds, const char *what)
{
    if (!holds) {
        fprintf(stderr, "stored: %s\n", what);
        exit(3);
    }
}

/* a buffer of exactly this length, so that the address sanitizer sees a byte too many */
static text buffer(size_t len)
{
    text made = {malloc(len ? len : 1), len};
    must(made.bytes != NULL, "out of memory");
    return made;
}

static void append(text *all, const void *bytes, size_t len)
{
    all->bytes = realloc(all->bytes, all->len + len + 1);
    must(all->bytes != NULL, "out of memory");
    if (len > 0)
        memcpy(all->bytes + all->len, bytes, len);
    all->len += len;
}

static text read_all(FILE *file)
{
    text all = buffer(0);
    char part[4096];
    size_t len;
    while ((len = fread(part, 1, sizeof part, file)) > 0)
        append(&all, part, len);
    return all;
}

static text read_file(const char *path)
{
    FILE *file = fopen(path, "rb");
    must(file != NULL, "cannot read a file");
    text read = read_all(file);
    fclose(file);
    return read;
}

static gix_mailmap *merged(char **paths)
{
    gix_mailmap *map;
    must(gix_mailmap_open(&map, NULL, 0) == GIX_MAILMAP_OK, "open");
    for (; *paths; paths++) {
        text read = read_file(*paths);
        must(gix_mailmap_add(map, read.bytes, read.len) == GIX_MAILMAP_OK, "add");
        free(read.bytes);
    }
    return map;
}

static void put_hex(const char *bytes, gix_mailmap_field field, char after)
{
    if (!field.is_given)
        putchar('-');
    else if (field.len == 0)
        putchar('.');
    for (size_t i = 0; field.is_given && i < field.len; i++)
        printf("%02x", (unsigned char)bytes[i]);
    putchar(after);
}

typedef struct {
    gix_mailmap_listed *entries;
    size_t len;
    text texts;
} list;

static list listed(const gix_mailmap *map)
{
    list made;
    size_t texts_len;
    gix_mailmap_len(map, &made.len, &texts_len);
    made.entries = malloc((made.len ? made.len : 1) * sizeof *made.entries);
    made.texts = buffer(texts_len);
    must(gix_mailmap_list(map, made.entries, made.len, made.texts.bytes, texts_len) == GIX_MAILMAP_OK, "list");
    return made;
}

static void free_list(list l)
{
    free(l.entries);
    free(l.texts.bytes);
}

/* the same entry by its index */
static void same_by_index(const gix_mailmap *map, size_t index, const gix_mailmap_listed *e, const char *texts)
{
    size_t len = e->new_name.len + e->new_email.len + e->old_name.len + e->old_email.len;
    text one = buffer(len);
    gix_mailmap_listed entry;
    must(gix_mailmap_entry(map, index, &entry, one.bytes, len) == GIX_MAILMAP_OK, "entry");
    bool is_same = entry.start == 0 && memcmp(one.bytes, texts + e->start, len) == 0;
    must(is_same, "an entry and its index in the list differ");
    must(entry.new_name.is_given == e->new_name.is_given && entry.old_name.len == e->old_name.len, "entries differ");
    free(one.bytes);
}

static void put_entries(const gix_mailmap *map)
{
    list l = listed(map);
    for (size_t i = 0; i < l.len; i++) {
        const gix_mailmap_listed *e = &l.entries[i];
        const char *at = l.texts.bytes + e->start;
        same_by_index(map, i, e, l.texts.bytes);
        printf("E ");
        put_hex(at, e->new_name, ' ');
        put_hex(at + e->new_name.len, e->new_email, ' ');
        put_hex(at + e->new_name.len + e->new_email.len, e->old_name, ' ');
        put_hex(at + e->new_name.len + e->new_email.len + e->old_name.len, e->old_email, '\n');
    }
    gix_mailmap_listed none;
    must(gix_mailmap_entry(map, l.len, &none, l.texts.bytes, 0) == GIX_MAILMAP_NO_ENTRY, "an entry after the last");
    free_list(l);
}

static text as_mailmap(const gix_mailmap *map)
{
    size_t needed;
    must(gix_mailmap_write(map, NULL, 0, &needed) == (needed ? GIX_MAILMAP_TOO_SHORT : GIX_MAILMAP_OK), "write");
    text all = buffer(needed);
    must(gix_mailmap_write(map, all.bytes, all.len, &needed) == GIX_MAILMAP_OK, "write");
    return all;
}

static void put_compacted(text mailmap)
{
    size_t needed;
    must(gix_mailmap_compact(mailmap.bytes, mailmap.len, NULL, 0, &needed) != GIX_MAILMAP_OUT_OF_MEMORY, "compact");
    text out = buffer(needed);
    must(gix_mailmap_compact(mailmap.bytes, mailmap.len, out.bytes, out.len, &needed) == GIX_MAILMAP_OK, "compact");
    fwrite(out.bytes, 1, out.len, stdout);
    free(out.bytes);
}

static void put_answers(text mailmap, text contacts)
{
    size_t needed;
    must(gix_mailmap_check(mailmap.bytes, mailmap.len, contacts.bytes, contacts.len, NULL, 0, &needed)
         != GIX_MAILMAP_OUT_OF_MEMORY, "check");
    text out = buffer(needed);
    must(gix_mailmap_check(mailmap.bytes, mailmap.len, contacts.bytes, contacts.len, out.bytes, out.len, &needed)
         == GIX_MAILMAP_OK, "check");
    fwrite(out.bytes, 1, out.len, stdout);
    free(out.bytes);
}

static text unhexed(const char *digits)
{
    size_t len = strcmp(digits, ".") == 0 ? 0 : strlen(digits) / 2;
    text made = buffer(len);
    for (size_t i = 0; i < len; i++) {
        unsigned byte;
        must(sscanf(digits + 2 * i, "%2x", &byte) == 1, "no hex");
        made.bytes[i] = (char)byte;
    }
    return made;
}

static void put_resolved(const gix_mailmap *map, text name, text email)
{
    gix_mailmap_field new_name = {0, false}, new_email = {0, false};
    must(gix_mailmap_lookup(map, name.bytes, name.len, email.bytes, email.len, NULL, 0, &new_name, NULL, 0, &new_email)
         == GIX_MAILMAP_TOO_SHORT || new_name.len + new_email.len == 0, "lookup");
    text name_out = buffer(new_name.len), email_out = buffer(new_email.len);
    must(gix_mailmap_lookup(map, name.bytes, name.len, email.bytes, email.len, name_out.bytes, name_out.len, &new_name,
                            email_out.bytes, email_out.len, &new_email) == GIX_MAILMAP_OK, "lookup");
    put_hex(name_out.bytes, new_name, ' ');
    put_hex(email_out.bytes, new_email, '\n');
    free(name_out.bytes);
    free(email_out.bytes);
}

static void put_all_resolved(const gix_mailmap *map, text pairs)
{
    append(&pairs, "", 1);
    for (char *line = strtok(pairs.bytes, "\n"); line; line = strtok(NULL, "\n")) {
        char *second = strchr(line, ' ');
        must(second != NULL, "a name and an email are wanted");
        *second++ = 0;
        second[strcspn(second, " ")] = 0; /* a time may follow the email */
        text name = unhexed(line), email = unhexed(second);
        put_resolved(map, name, email);
        free(name.bytes);
        free(email.bytes);
    }
    free(pairs.bytes);
}

static void put_place(const char *mailmap, gix_mailmap_place place, bool is_given, char after)
{
    put_hex(mailmap + place.start, (gix_mailmap_field){place.len, is_given}, after);
}

static void put_parsed(text mailmap)
{
    static const char *const FAULTS[] = {
        NULL, "Line %zu does not contain an email ", "%zu: Missing closing bracket '>' in email ",
        "%zu: Email must not be empty ", "%zu: Emails without a name or email to map to are invalid "};
    gix_mailmap_cursor cursor = {0, 0};
    gix_mailmap_parsed p;
    while (gix_mailmap_parse(mailmap.bytes, mailmap.len, &cursor, &p) == GIX_MAILMAP_OK) {
        must((int)p.kind >= 0 && p.kind <= GIX_MAILMAP_NOTHING_TO_MAP, "an unknown fault");
        if (p.kind != 0) {
            printf("F ");
            printf(FAULTS[p.kind], p.line);
            put_place(mailmap.bytes, p.text, true, '\n');
            continue;
        }
        printf("E ");
        put_place(mailmap.bytes, p.new_name, p.new_name.len > 0, ' ');
        put_place(mailmap.bytes, p.new_email, p.new_email.len > 0, ' ');
        put_place(mailmap.bytes, p.old_name, p.old_name.len > 0, ' ');
        put_place(mailmap.bytes, p.old_email, true, '\n');
    }
    must(cursor.start <= mailmap.len, "a cursor past the end");
}

static gix_mailmap_named named(const char *path)
{
    text read = read_file(path);
    return (gix_mailmap_named){path, strlen(path), read.bytes, read.len};
}

static void put_report(gix_mailmap_format format, const gix_mailmap_named *contacts, size_t count,
                       const gix_mailmap_named *mailmaps)
{
    size_t needed;
    must(gix_mailmap_report_as(mailmaps, count, contacts, format, NULL, 0, &needed) != GIX_MAILMAP_OUT_OF_MEMORY, "report");
    text out = buffer(needed);
    must(gix_mailmap_report_as(mailmaps, count, contacts, format, out.bytes, out.len, &needed) == GIX_MAILMAP_OK, "report");
    fwrite(out.bytes, 1, out.len, stdout);
    free(out.bytes);
}

static void put_notices(const gix_mailmap_named *contacts, size_t count, const gix_mailmap_named *mailmaps)
{
    size_t needed, len;
    must(gix_mailmap_notices(mailmaps, count, contacts, NULL, 0, NULL, 0, &needed, &len) != GIX_MAILMAP_OUT_OF_MEMORY,
         "notices");
    gix_mailmap_notice *notices = malloc((needed ? needed : 1) * sizeof *notices);
    text texts = buffer(len);
    must(gix_mailmap_notices(mailmaps, count, contacts, notices, needed, texts.bytes, len, &needed, &len)
         == GIX_MAILMAP_OK, "notices");
    for (size_t i = 0; i < needed; i++) {
        const gix_mailmap_notice *n = &notices[i];
        printf("%zu %zu %zu %zu ", n->line, n->other_line, n->named.count, n->beside.count);
        put_place(texts.bytes, n->file, true, ' ');
        put_place(texts.bytes, n->level, true, ' ');
        put_place(texts.bytes, n->kind, true, ' ');
        put_place(texts.bytes, n->message, true, ' ');
        put_place(texts.bytes, n->other_file, true, ' ');
        put_place(texts.bytes, n->named.name, true, ' ');
        put_place(texts.bytes, n->named.email, true, ' ');
        put_place(texts.bytes, n->beside.name, true, ' ');
        put_place(texts.bytes, n->beside.email, true, '\n');
    }
    free(texts.bytes);
    free(notices);
}

static void put_findings(const char *form, const char *contacts_path, size_t count, char **paths)
{
    gix_mailmap_named *mailmaps = malloc((count + 1) * sizeof *mailmaps), contacts = named(contacts_path);
    must(mailmaps != NULL, "out of memory");
    for (size_t i = 0; i < count; i++)
        mailmaps[i] = named(paths[i]);
    if (strcmp(form, "notices") == 0)
        put_notices(&contacts, count, mailmaps);
    else
        put_report(strcmp(form, "json") == 0     ? GIX_MAILMAP_FORMAT_JSON
                   : strcmp(form, "github") == 0 ? GIX_MAILMAP_FORMAT_GITHUB
                                                 : GIX_MAILMAP_FORMAT_GCC,
                   &contacts, count, mailmaps);
    for (size_t i = 0; i < count; i++)
        free((char *)mailmaps[i].text);
    free((char *)contacts.text);
    free(mailmaps);
}

/* Whether the mode is one that makes no mailmap of the files; then it is done. */
static bool reads_texts(int count, char **words)
{
    const char *mode = count > 2 ? words[1] : "";
    bool parses = strcmp(mode, "parse") == 0;
    for (int i = 2; parses && i < count; i++) {
        text mailmap = read_file(words[i]);
        put_parsed(mailmap);
        free(mailmap.bytes);
    }
    bool finds = strcmp(mode, "gcc") == 0 || strcmp(mode, "json") == 0 || strcmp(mode, "github") == 0
        || strcmp(mode, "notices") == 0;
    if (finds)
        put_findings(mode, words[2], (size_t)count - 3, words + 3);
    return parses || finds;
}

int main(int count, char **words)
{
    if (reads_texts(count, words))
        return 0;
    bool is_mode = count > 1 && (strcmp(words[1], "--compact") == 0 || strcmp(words[1], "entries") == 0
                                 || strcmp(words[1], "resolve") == 0);
    const char *mode = is_mode ? words[1] : "check";
    gix_mailmap *map = merged(words + (is_mode ? 2 : 1));
    if (strcmp(mode, "entries") == 0) {
        put_entries(map);
    } else if (strcmp(mode, "resolve") == 0) {
        put_all_resolved(map, read_all(stdin));
    } else {
        text mailmap = as_mailmap(map);
        text contacts = strcmp(mode, "check") == 0 ? read_all(stdin) : buffer(0);
        if (strcmp(mode, "check") == 0)
            put_answers(mailmap, contacts);
        else
            put_compacted(mailmap);
        free(contacts.bytes);
        free(mailmap.bytes);
    }
    gix_mailmap_close(map);
    return 0;
}
