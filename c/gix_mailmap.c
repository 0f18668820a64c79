/* The calls of gix_mailmap.h. Except for the version and the texts of statuses, each calls a proved function, whose
 * name has `handle` or `text` added. Four things are done here because a proved function can't do them: allocating and
 * freeing handles, accepting NULL where a length is 0, taking a `const` handle in calls that only read, so that several
 * threads can read at the same time, and concatenating the texts that an array points to. */
#include "exports.h"
#include "layout.h"
#include <stdlib.h>
#include <string.h>

#if defined(__GNUC__)
#define LIKELY(condition) __builtin_expect(condition, 1)
#else
#define LIKELY(condition) (condition)
#endif

/* Its address replaces NULL. It is aligned for all element types, and never read or written. */
static uint64_t nothing;

static const void *text_at(const char *at)
{
    return LIKELY(at != NULL) ? at : (const void *)&nothing;
}

static void *room_at(void *at)
{
    return LIKELY(at != NULL) ? at : &nothing;
}

/* For calls that only read. No exported function takes a `const` handle, but those called with this one change neither
 * the handle nor its mailmap. */
static gix_mailmap *read_only(const gix_mailmap *map)
{
    return (gix_mailmap *)map;
}

const char *gix_mailmap_version(void)
{
    return GIX_MAILMAP_VERSION;
}

const char *gix_mailmap_status_text(gix_mailmap_status status)
{
    switch (status) {
    case GIX_MAILMAP_OK:
        return "no error";
    case GIX_MAILMAP_TOO_SHORT:
        return "a buffer is too short";
    case GIX_MAILMAP_OUT_OF_MEMORY:
        return "out of memory";
    case GIX_MAILMAP_NO_ENTRY:
        return "the mailmap has no entry at this index";
    case GIX_MAILMAP_NOT_AN_ENTRY:
        return "these texts make no entry";
    case GIX_MAILMAP_UNWRITABLE:
        return "an entry can't be written as a line";
    }
    return "unknown status";
}

/* A closed handle; NULL if there is no memory. */
static gix_mailmap *closed_map(void)
{
    gix_mailmap *map = malloc(sizeof *map);
    if (map != NULL)
        *map = (gix_mailmap){NULL, false};
    return map;
}

/* Frees a handle that couldn't be opened. */
static gix_mailmap_status opened(gix_mailmap **map, gix_mailmap_status status)
{
    if (status != GIX_MAILMAP_OK) {
        free(*map);
        *map = NULL;
    }
    return status;
}

gix_mailmap_status gix_mailmap_open(gix_mailmap **map, const char *text, size_t text_len)
{
    *map = closed_map();
    if (*map == NULL)
        return GIX_MAILMAP_OUT_OF_MEMORY;
    return opened(map, gix_mailmap_handle_open(*map, text_at(text), text_len));
}

gix_mailmap_status gix_mailmap_copy(gix_mailmap **copy, const gix_mailmap *map)
{
    *copy = closed_map();
    if (*copy == NULL)
        return GIX_MAILMAP_OUT_OF_MEMORY;
    return opened(copy, gix_mailmap_handle_copy(*copy, read_only(map)));
}

void gix_mailmap_close(gix_mailmap *map)
{
    if (map != NULL)
        gix_mailmap_handle_close(map);
    free(map);
}

gix_mailmap_status gix_mailmap_add(gix_mailmap *map, const char *text, size_t text_len)
{
    return gix_mailmap_handle_add(map, text_at(text), text_len);
}

gix_mailmap_status gix_mailmap_merge(gix_mailmap *map, const gix_mailmap *other)
{
    /* A proved function must not get one handle twice, and its own entries change nothing. */
    return map == other ? GIX_MAILMAP_OK : gix_mailmap_handle_merge(map, read_only(other));
}

gix_mailmap_status gix_mailmap_add_entry(gix_mailmap *map, const char *new_name, size_t new_name_len,
                                         const char *new_email, size_t new_email_len, const char *old_name,
                                         size_t old_name_len, const char *old_email, size_t old_email_len)
{
    return gix_mailmap_handle_add_entry(map, text_at(new_name), new_name_len, text_at(new_email), new_email_len,
                                        text_at(old_name), old_name_len, text_at(old_email), old_email_len);
}

gix_mailmap_status gix_mailmap_lookup(const gix_mailmap *map, const char *name, size_t name_len, const char *email,
                                      size_t email_len, char *GIX_MAILMAP_RESTRICT name_out, size_t name_out_len,
                                      gix_mailmap_field *GIX_MAILMAP_RESTRICT new_name,
                                      char *GIX_MAILMAP_RESTRICT email_out, size_t email_out_len,
                                      gix_mailmap_field *GIX_MAILMAP_RESTRICT new_email)
{
    return gix_mailmap_handle_lookup(read_only(map), text_at(name), name_len, text_at(email), email_len,
                                     room_at(name_out), name_out_len, new_name, room_at(email_out), email_out_len,
                                     new_email);
}

void gix_mailmap_len(const gix_mailmap *map, size_t *GIX_MAILMAP_RESTRICT entries_len,
                     size_t *GIX_MAILMAP_RESTRICT texts_len)
{
    gix_mailmap_handle_len(read_only(map), entries_len, texts_len);
}

gix_mailmap_status gix_mailmap_list(const gix_mailmap *map, gix_mailmap_listed *GIX_MAILMAP_RESTRICT entries,
                                    size_t entries_len, char *GIX_MAILMAP_RESTRICT texts, size_t texts_len)
{
    return gix_mailmap_handle_list(read_only(map), room_at(entries), entries_len, room_at(texts), texts_len);
}

gix_mailmap_status gix_mailmap_entry(const gix_mailmap *map, size_t index,
                                     gix_mailmap_listed *GIX_MAILMAP_RESTRICT entry, char *GIX_MAILMAP_RESTRICT texts,
                                     size_t texts_len)
{
    return gix_mailmap_handle_entry(read_only(map), index, entry, room_at(texts), texts_len);
}

gix_mailmap_status gix_mailmap_write(const gix_mailmap *map, char *GIX_MAILMAP_RESTRICT out, size_t out_len,
                                     size_t *GIX_MAILMAP_RESTRICT needed)
{
    return gix_mailmap_handle_write(read_only(map), room_at(out), out_len, needed);
}

gix_mailmap_status gix_mailmap_stream_open(gix_mailmap_stream **stream, const char *mailmap, size_t mailmap_len)
{
    *stream = malloc(sizeof **stream);
    if (*stream == NULL)
        return GIX_MAILMAP_OUT_OF_MEMORY;
    **stream = (gix_mailmap_stream){NULL, false};
    gix_mailmap_status status = gix_mailmap_stream_handle_open(*stream, text_at(mailmap), mailmap_len);
    if (status != GIX_MAILMAP_OK) {
        free(*stream);
        *stream = NULL;
    }
    return status;
}

void gix_mailmap_stream_close(gix_mailmap_stream *stream)
{
    if (stream != NULL)
        gix_mailmap_stream_handle_close(stream);
    free(stream);
}

gix_mailmap_status gix_mailmap_stream_push(gix_mailmap_stream *stream, const char *part, size_t part_len,
                                           size_t *GIX_MAILMAP_RESTRICT taken)
{
    return gix_mailmap_stream_handle_push(stream, text_at(part), part_len, taken);
}

gix_mailmap_status gix_mailmap_stream_finish(gix_mailmap_stream *stream)
{
    return gix_mailmap_stream_handle_finish(stream);
}

size_t gix_mailmap_stream_read(gix_mailmap_stream *stream, char *GIX_MAILMAP_RESTRICT out, size_t out_len)
{
    size_t count = 0;
    gix_mailmap_stream_handle_read(stream, room_at(out), out_len, &count);
    return count;
}

gix_mailmap_status gix_mailmap_check(const char *mailmap, size_t mailmap_len, const char *contacts, size_t contacts_len,
                                     char *GIX_MAILMAP_RESTRICT out, size_t out_len,
                                     size_t *GIX_MAILMAP_RESTRICT needed)
{
    return gix_mailmap_text_check(text_at(mailmap), mailmap_len, text_at(contacts), contacts_len, room_at(out), out_len,
                                  needed);
}

gix_mailmap_status gix_mailmap_compact(const char *mailmap, size_t mailmap_len, char *GIX_MAILMAP_RESTRICT out,
                                       size_t out_len, size_t *GIX_MAILMAP_RESTRICT needed)
{
    return gix_mailmap_text_compact(text_at(mailmap), mailmap_len, room_at(out), out_len, needed);
}

gix_mailmap_status gix_mailmap_prune(const char *mailmap, size_t mailmap_len, char *GIX_MAILMAP_RESTRICT out,
                                     size_t out_len, size_t *GIX_MAILMAP_RESTRICT needed)
{
    return gix_mailmap_text_prune(text_at(mailmap), mailmap_len, room_at(out), out_len, needed);
}

/* Saturates at SIZE_MAX. */
static size_t sum(size_t a, size_t b)
{
    return b <= SIZE_MAX - a ? a + b : SIZE_MAX;
}

/* Returns the address after the copy. */
static char *append(char *to, const char *text, size_t len)
{
    memcpy(to, text_at(text), len);
    return to + len;
}

/* The names and texts of several mailmaps in one block: first all lengths, then all names, then all texts. */
typedef struct block {
    lengths *each;
    lengths total;
    char *names;
    char *texts;
} block;

/* Allocates a block. Free its `each`, which is NULL if there is no memory. Without `with_names`, names are ignored and
 * their lengths are 0. */
static block block_of(const gix_mailmap_named *mailmaps, size_t count, bool with_names)
{
    lengths total = {0, 0};
    for (size_t i = 0; i < count; i++) {
        if (with_names)
            total.name = sum(total.name, mailmaps[i].name_len);
        total.text = sum(total.text, mailmaps[i].text_len);
    }
    /* The product fits, because the caller's array is longer. The 1 avoids malloc(0), which can return NULL. */
    size_t size = sum(count * sizeof(lengths) + 1, sum(total.name, total.text));
    lengths *each = size < SIZE_MAX ? malloc(size) : NULL;
    if (each == NULL)
        return (block){NULL, total, NULL, NULL};
    char *names = (char *)(each + count), *texts = names + total.name, *name = names, *text = texts;
    for (size_t i = 0; i < count; i++) {
        each[i] = (lengths){with_names ? mailmaps[i].name_len : 0, mailmaps[i].text_len};
        if (with_names)
            name = append(name, mailmaps[i].name, mailmaps[i].name_len);
        text = append(text, mailmaps[i].text, mailmaps[i].text_len);
    }
    return (block){each, total, names, texts};
}

gix_mailmap_status gix_mailmap_report_as(const gix_mailmap_named *mailmaps, size_t count,
                                         const gix_mailmap_named *contacts, gix_mailmap_format format,
                                         char *GIX_MAILMAP_RESTRICT out, size_t out_len,
                                         size_t *GIX_MAILMAP_RESTRICT needed)
{
    block b = block_of(mailmaps, count, true);
    *needed = 0;
    if (b.each == NULL)
        return GIX_MAILMAP_OUT_OF_MEMORY;
    gix_mailmap_status status = contacts == NULL
        ? gix_mailmap_text_report(format, b.each, count, b.names, b.total.name, b.texts, b.total.text, room_at(out),
                                  out_len, needed)
        : gix_mailmap_text_report_beside(format, b.each, count, b.names, b.total.name, b.texts, b.total.text,
                                         text_at(contacts->name), contacts->name_len, text_at(contacts->text),
                                         contacts->text_len, room_at(out), out_len, needed);
    free(b.each);
    return status;
}

gix_mailmap_status gix_mailmap_report(const gix_mailmap_named *mailmaps, size_t count, char *GIX_MAILMAP_RESTRICT out,
                                      size_t out_len, size_t *GIX_MAILMAP_RESTRICT needed)
{
    return gix_mailmap_report_as(mailmaps, count, NULL, GIX_MAILMAP_FORMAT_GCC, out, out_len, needed);
}

gix_mailmap_status gix_mailmap_notices(const gix_mailmap_named *mailmaps, size_t count,
                                       const gix_mailmap_named *contacts, gix_mailmap_notice *GIX_MAILMAP_RESTRICT out,
                                       size_t out_len, char *GIX_MAILMAP_RESTRICT texts, size_t texts_len,
                                       size_t *GIX_MAILMAP_RESTRICT needed, size_t *GIX_MAILMAP_RESTRICT texts_needed)
{
    block b = block_of(mailmaps, count, true);
    *needed = *texts_needed = 0;
    if (b.each == NULL)
        return GIX_MAILMAP_OUT_OF_MEMORY;
    gix_mailmap_status status = contacts == NULL
        ? gix_mailmap_text_notices(b.each, count, b.names, b.total.name, b.texts, b.total.text, room_at(out), out_len,
                                   room_at(texts), texts_len, needed, texts_needed)
        : gix_mailmap_text_notices_beside(b.each, count, b.names, b.total.name, b.texts, b.total.text,
                                          text_at(contacts->name), contacts->name_len, text_at(contacts->text),
                                          contacts->text_len, room_at(out), out_len, room_at(texts), texts_len, needed,
                                          texts_needed);
    free(b.each);
    return status;
}

gix_mailmap_status gix_mailmap_explain(const gix_mailmap_named *mailmaps, size_t count, const char *contacts,
                                       size_t contacts_len, char *GIX_MAILMAP_RESTRICT out, size_t out_len,
                                       size_t *GIX_MAILMAP_RESTRICT needed)
{
    block b = block_of(mailmaps, count, true);
    *needed = 0;
    if (b.each == NULL)
        return GIX_MAILMAP_OUT_OF_MEMORY;
    gix_mailmap_status status = gix_mailmap_text_explain(b.each, count, b.names, b.total.name, b.texts, b.total.text,
                                                         text_at(contacts), contacts_len, room_at(out), out_len,
                                                         needed);
    free(b.each);
    return status;
}

gix_mailmap_status gix_mailmap_unneeded(const gix_mailmap_named *mailmaps, size_t count, const char *contacts,
                                        size_t contacts_len, gix_mailmap_position *GIX_MAILMAP_RESTRICT out,
                                        size_t out_len, size_t *GIX_MAILMAP_RESTRICT needed)
{
    block b = block_of(mailmaps, count, false);
    *needed = 0;
    if (b.each == NULL)
        return GIX_MAILMAP_OUT_OF_MEMORY;
    gix_mailmap_status status = gix_mailmap_text_unneeded(b.each, count, b.texts, b.total.text, text_at(contacts),
                                                          contacts_len, room_at(out), out_len, needed);
    free(b.each);
    return status;
}

gix_mailmap_status gix_mailmap_suggest(const gix_mailmap_named *mailmaps, size_t count, const char *contacts,
                                       size_t contacts_len, char *GIX_MAILMAP_RESTRICT out, size_t out_len,
                                       size_t *GIX_MAILMAP_RESTRICT needed)
{
    block b = block_of(mailmaps, count, false);
    *needed = 0;
    if (b.each == NULL)
        return GIX_MAILMAP_OUT_OF_MEMORY;
    gix_mailmap_status status = gix_mailmap_text_suggest(b.each, count, b.texts, b.total.text, text_at(contacts),
                                                         contacts_len, room_at(out), out_len, needed);
    free(b.each);
    return status;
}

gix_mailmap_status gix_mailmap_verify(const char *mailmap, size_t mailmap_len,
                                      gix_mailmap_finding *GIX_MAILMAP_RESTRICT out, size_t out_len,
                                      size_t *GIX_MAILMAP_RESTRICT needed)
{
    return gix_mailmap_text_verify(text_at(mailmap), mailmap_len, room_at(out), out_len, needed);
}

gix_mailmap_status gix_mailmap_parse(const char *mailmap, size_t mailmap_len,
                                     gix_mailmap_cursor *GIX_MAILMAP_RESTRICT cursor,
                                     gix_mailmap_parsed *GIX_MAILMAP_RESTRICT parsed)
{
    return gix_mailmap_text_parse(text_at(mailmap), mailmap_len, cursor, parsed);
}
