/* The proved calls that crates/gix_mailmap_c exports. No pointer may be NULL, no call may get one handle twice, and no
 * two calls may use one handle at the same time. A returned number is one of gix_mailmap_status, 6 if the handle is
 * closed, or 7 if it is open already. gix_mailmap.c never causes the last two. */
#ifndef EXPORTS_H
#define EXPORTS_H

#include "gix_mailmap.h"

/* Handles. All zeros means closed. */
struct gix_mailmap {
    void *at;
    bool is_open;
};

struct gix_mailmap_stream {
    void *at;
    bool is_open;
};

uint32_t gix_mailmap_handle_open(gix_mailmap *map, const void *text, size_t text_len);
uint32_t gix_mailmap_handle_copy(gix_mailmap *map, gix_mailmap *other);
void gix_mailmap_handle_close(gix_mailmap *map);
uint32_t gix_mailmap_handle_add(gix_mailmap *map, const void *text, size_t text_len);
uint32_t gix_mailmap_handle_merge(gix_mailmap *map, gix_mailmap *other);
uint32_t gix_mailmap_handle_add_entry(gix_mailmap *map, const void *new_name, size_t new_name_len,
                                      const void *new_email, size_t new_email_len, const void *old_name,
                                      size_t old_name_len, const void *old_email, size_t old_email_len);
uint32_t gix_mailmap_handle_lookup(gix_mailmap *map, const void *name, size_t name_len, const void *email,
                                   size_t email_len, void *name_out, size_t name_out_len, gix_mailmap_field *name_field,
                                   void *email_out, size_t email_out_len, gix_mailmap_field *email_field);
uint32_t gix_mailmap_handle_len(gix_mailmap *map, size_t *entries_len, size_t *texts_len);
uint32_t gix_mailmap_handle_list(gix_mailmap *map, void *entries, size_t entries_len, void *texts,
                                 size_t texts_len);
uint32_t gix_mailmap_handle_entry(gix_mailmap *map, size_t index, gix_mailmap_listed *entry, void *texts,
                                  size_t texts_len);
uint32_t gix_mailmap_handle_write(gix_mailmap *map, void *out, size_t out_len, size_t *needed);

uint32_t gix_mailmap_stream_handle_open(gix_mailmap_stream *stream, const void *mailmap, size_t mailmap_len);
void gix_mailmap_stream_handle_close(gix_mailmap_stream *stream);
uint32_t gix_mailmap_stream_handle_push(gix_mailmap_stream *stream, const void *part, size_t part_len, size_t *taken);
uint32_t gix_mailmap_stream_handle_finish(gix_mailmap_stream *stream);
uint32_t gix_mailmap_stream_handle_read(gix_mailmap_stream *stream, void *out, size_t out_len, size_t *count);

uint32_t gix_mailmap_text_check(const void *mailmap, size_t mailmap_len, const void *contacts, size_t contacts_len,
                                void *out, size_t out_len, size_t *needed);
uint32_t gix_mailmap_text_compact(const void *mailmap, size_t mailmap_len, void *out, size_t out_len, size_t *needed);
uint32_t gix_mailmap_text_prune(const void *mailmap, size_t mailmap_len, void *out, size_t out_len, size_t *needed);
/* The lengths of a mailmap's name and text. The names of all mailmaps are in one buffer, and their texts in another. */
typedef struct lengths {
    size_t name;
    size_t text;
} lengths;

/* The format is a number of gix_mailmap_format. */
uint32_t gix_mailmap_text_report(uint32_t format, const lengths *all, size_t count, const void *names, size_t names_len,
                                 const void *texts, size_t texts_len, void *out, size_t out_len, size_t *needed);
uint32_t gix_mailmap_text_report_beside(uint32_t format, const lengths *all, size_t count, const void *names,
                                        size_t names_len, const void *texts, size_t texts_len, const void *file,
                                        size_t file_len, const void *contacts, size_t contacts_len, void *out,
                                        size_t out_len, size_t *needed);
uint32_t gix_mailmap_text_notices(const lengths *all, size_t count, const void *names, size_t names_len,
                                  const void *texts, size_t texts_len, void *out, size_t out_len, void *out_texts,
                                  size_t out_texts_len, size_t *needed, size_t *texts_needed);
uint32_t gix_mailmap_text_notices_beside(const lengths *all, size_t count, const void *names, size_t names_len,
                                         const void *texts, size_t texts_len, const void *file, size_t file_len,
                                         const void *contacts, size_t contacts_len, void *out, size_t out_len,
                                         void *out_texts, size_t out_texts_len, size_t *needed, size_t *texts_needed);
uint32_t gix_mailmap_text_explain(const lengths *all, size_t count, const void *names, size_t names_len,
                                  const void *texts, size_t texts_len, const void *contacts, size_t contacts_len,
                                  void *out, size_t out_len, size_t *needed);
uint32_t gix_mailmap_text_unneeded(const lengths *all, size_t count, const void *texts, size_t texts_len,
                                   const void *contacts, size_t contacts_len, void *out, size_t out_len,
                                   size_t *needed);
uint32_t gix_mailmap_text_suggest(const lengths *all, size_t count, const void *texts, size_t texts_len,
                                  const void *contacts, size_t contacts_len, void *out, size_t out_len, size_t *needed);
uint32_t gix_mailmap_text_verify(const void *mailmap, size_t mailmap_len, void *out, size_t out_len, size_t *needed);
uint32_t gix_mailmap_text_parse(const void *mailmap, size_t mailmap_len, gix_mailmap_cursor *cursor,
                                gix_mailmap_parsed *parsed);

#endif
