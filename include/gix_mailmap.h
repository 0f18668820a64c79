/* gix_mailmap: a library for git's mailmaps, with a proved core.
 *
 * A mailmap says which names and emails to show in place of others. These calls read a mailmap, look contacts up in it,
 * list it, and find what is wrong with it. A contact is a name and an email, as in `Jane <jane@x>`. An entry gives a
 * new name, a new email or both, for an old email, or for an old name with that email.
 *
 *     gix_mailmap *map;
 *     char name[256], email[256];
 *     gix_mailmap_field new_name, new_email;
 *
 *     if (gix_mailmap_open(&map, text, text_len) != GIX_MAILMAP_OK)
 *         return 1;
 *     if (gix_mailmap_lookup(map, "jd", 2, "jd@y", 4, name, sizeof name, &new_name, email, sizeof email, &new_email)
 *         == GIX_MAILMAP_OK)
 *         printf("%.*s <%.*s>\n", (int)new_name.len, name, (int)new_email.len, email);
 *     gix_mailmap_close(map);
 *
 * Texts are bytes with a length. They need not be UTF-8. They don't end with a NUL, and may hold one. No text is kept:
 * a mailmap has copies of its own.
 *
 * A text, a buffer or an array of length 0 may be NULL. So a call with an argument `needed` can be made with NULL and 0
 * for its buffer first. It returns GIX_MAILMAP_TOO_SHORT, or GIX_MAILMAP_OK if nothing is needed, and with these two
 * statuses `needed` says how much is needed. On GIX_MAILMAP_OUT_OF_MEMORY it is 0. On GIX_MAILMAP_UNWRITABLE, which
 * only gix_mailmap_write returns, it is the place of an entry.
 *
 *     size_t needed;
 *     if (gix_mailmap_compact(text, text_len, NULL, 0, &needed) == GIX_MAILMAP_OUT_OF_MEMORY)
 *         return 1;
 *
 * Buffers belong to the caller. What a call writes must not overlap with any other argument. What a call doesn't write
 * stays as it was.
 *
 * Threads: calls with a `const gix_mailmap *` read the mailmap, and any number of them may run at a time. Calls with a
 * `gix_mailmap *` change the mailmap, and no other call may use it at the same time. All calls with a stream change the
 * stream. A mailmap or a stream may be opened, used and closed by different threads. Calls with neither may run at any
 * time. No call may be made from a signal handler, or from the forked child of a process with threads.
 *
 * Memory comes from the program's malloc, realloc and free.
 *
 * The structs and the numbers below are part of the binary interface. A struct keeps its size and its members. A later
 * version may write new members into the padding of a struct that calls write. A struct that calls read has no padding:
 * if a later version has to read more, it will have a new struct and a new call. New numbers may come at the end of an
 * enum.
 *
 * The comment of a call ends with the statuses that it returns, without their prefix.
 */
#ifndef GIX_MAILMAP_H
#define GIX_MAILMAP_H

#include <stdbool.h>
#include <stddef.h>
#include <stdint.h>

/* The version of this header; gix_mailmap_version has that of the library. */
#define GIX_MAILMAP_VERSION "0.1.0"
#define GIX_MAILMAP_VERSION_MAJOR 0
#define GIX_MAILMAP_VERSION_MINOR 1
#define GIX_MAILMAP_VERSION_PATCH 0

/* For compilers: which arguments must not be NULL, that a status must not be ignored, and which buffers must not
 * overlap with another argument. */
#ifdef __GNUC__
#define GIX_MAILMAP_NONNULL(...) __attribute__((nonnull(__VA_ARGS__)))
#define GIX_MAILMAP_MUST_CHECK __attribute__((warn_unused_result))
#define GIX_MAILMAP_RESTRICT __restrict
#else
#define GIX_MAILMAP_NONNULL(...)
#define GIX_MAILMAP_MUST_CHECK
#define GIX_MAILMAP_RESTRICT
#endif

#ifdef __cplusplus
extern "C" {
#endif

/* A mailmap: gix_mailmap_open makes one, and gix_mailmap_close frees it. */
typedef struct gix_mailmap gix_mailmap;

/* A stream of contacts: gix_mailmap_stream_open makes one, and gix_mailmap_stream_close frees it. */
typedef struct gix_mailmap_stream gix_mailmap_stream;

/* What a call returns. Unless it is GIX_MAILMAP_OK, nothing changes, and a call writes only what its comment says. */
typedef enum gix_mailmap_status {
    GIX_MAILMAP_OK = 0,            /* the call did its work */
    GIX_MAILMAP_TOO_SHORT = 1,     /* a buffer is too short; no text and no list was written */
    GIX_MAILMAP_OUT_OF_MEMORY = 2, /* the mailmap or the stream is as it was */
    GIX_MAILMAP_NO_ENTRY = 3,      /* the mailmap has no entry at this index, or no line that is left */
    GIX_MAILMAP_NOT_AN_ENTRY = 4,  /* these texts make no entry */
    GIX_MAILMAP_UNWRITABLE = 5     /* an entry can't be written as a line */
} gix_mailmap_status;

/* The length of a name or an email, and whether the mailmap gives it. For gix_mailmap_lookup a new email is also given
 * if it differs from the contact's own only in spelling. */
typedef struct gix_mailmap_field {
    size_t len;
    bool is_given;
} gix_mailmap_field;

/* An entry: where its texts begin in the buffer of texts, how long each text is, and whether the entry has it. The
 * texts follow one another in this order. A text that is missing has length 0. The old email is never missing. */
typedef struct gix_mailmap_listed {
    size_t start;
    gix_mailmap_field new_name;
    gix_mailmap_field new_email;
    gix_mailmap_field old_name;
    gix_mailmap_field old_email;
} gix_mailmap_listed;

/* What may be wrong with a line. A line of one of the first four kinds gives no entry. A line of the fifth kind is read
 * as if it ended before the second `<`: `Jane <jane@x> <jd@y` maps jane@x to the name Jane, and `<jane@x> <jd@y` gives
 * no entry. */
typedef enum gix_mailmap_kind {
    GIX_MAILMAP_NO_EMAIL = 1,                /* there is no `<` */
    GIX_MAILMAP_MISSING_CLOSING_BRACKET = 2, /* the first `<` has no `>` after it */
    GIX_MAILMAP_EMPTY_EMAIL = 3,             /* the first email is empty or white space */
    GIX_MAILMAP_NOTHING_TO_MAP = 4,          /* there is only an email */
    GIX_MAILMAP_UNCLOSED_SECOND = 5,         /* the second `<` has no `>` after it */
    GIX_MAILMAP_IGNORED_TEXT = 6,            /* text after the second email, or after the only one, is ignored */
    GIX_MAILMAP_NO_EFFECT = 7,               /* later lines override the line, or other lines already say it */
    GIX_MAILMAP_ITSELF_MAPPED = 8,           /* the line maps to a contact that the mailmap maps to another */
    GIX_MAILMAP_GIT_READS = 9,               /* git reads the line differently */
    GIX_MAILMAP_BYTE_ORDER_MARK = 10,        /* the mailmap begins with U+FEFF, which is a part of its first line */
    GIX_MAILMAP_COMMENT_IN_LINE = 11         /* a name begins with `#`, which begins a comment only at the beginning */
} gix_mailmap_kind;

/* What is wrong with a line: its number, counted from 1, and one of these kinds. For GIX_MAILMAP_NO_EFFECT `beside` is
 * the number of the last line for the same old email, and the same old name if there is one, that does have an effect.
 * It may come before or after. For all other kinds `beside` is 0. */
typedef struct gix_mailmap_finding {
    size_t line;
    gix_mailmap_kind kind;
    size_t beside;
} gix_mailmap_finding;

/* A mailmap: its name, such as that of its file, and its text. */
typedef struct gix_mailmap_named {
    const char *name;
    size_t name_len;
    const char *text;
    size_t text_len;
} gix_mailmap_named;

/* A line of one of several mailmaps: the index of the mailmap, counted from 0, and the line's number there, counted
 * from 1. */
typedef struct gix_mailmap_position {
    size_t mailmap;
    size_t line;
} gix_mailmap_position;

/* How findings are written: as lines, as compilers print them, or one on each line as objects of JSON, or as
 * annotations of GitHub. */
typedef enum gix_mailmap_format {
    GIX_MAILMAP_FORMAT_GCC = 0,
    GIX_MAILMAP_FORMAT_JSON = 1,
    GIX_MAILMAP_FORMAT_GITHUB = 2
} gix_mailmap_format;

/* A text in a longer one: the offset at which it begins, counted from 0, and its length. */
typedef struct gix_mailmap_place {
    size_t start;
    size_t len;
} gix_mailmap_place;

/* A name and an email that a message has, and a number: how often they come, or of what git reads, its lines. What it
 * doesn't have is empty, or 0. */
typedef struct gix_mailmap_mention {
    gix_mailmap_place name;
    gix_mailmap_place email;
    size_t count;
} gix_mailmap_mention;

/* A finding in mailmaps or contacts, in words: the number of its line, counted from 1, and the places of its texts in a
 * buffer of texts: the name of its file, its level, which is `error`, `warning` or `note`, its kind by the name that
 * mailmap_verify prints, such as `same-email`, and what is said. `other_line` and `other_file` are the other line that
 * the message refers to, the first one if there are two; without one they are 0 and empty. `named` is what the message
 * names, and `beside` what it names second, as in the members of JSON; texts that the message cuts are whole there. */
typedef struct gix_mailmap_notice {
    size_t line;
    size_t other_line;
    gix_mailmap_place file;
    gix_mailmap_place level;
    gix_mailmap_place kind;
    gix_mailmap_place message;
    gix_mailmap_place other_file;
    gix_mailmap_mention named;
    gix_mailmap_mention beside;
} gix_mailmap_notice;

/* How far gix_mailmap_parse has read: the offset at which the next line begins, and how many lines come before it. */
typedef struct gix_mailmap_cursor {
    size_t start;
    size_t lines;
} gix_mailmap_cursor;

/* A line of a mailmap that gives an entry or has a fault: its number, counted from 1, and the places of its texts in
 * the mailmap. `text` is the line without the white space around it. For an entry `kind` is 0, and a text that it
 * doesn't have has length 0; it always has an old email, which may be empty. For a fault `kind` is one of the first
 * four of gix_mailmap_kind, and there is no other text. */
typedef struct gix_mailmap_parsed {
    size_t line;
    gix_mailmap_kind kind;
    gix_mailmap_place text;
    gix_mailmap_place new_name;
    gix_mailmap_place new_email;
    gix_mailmap_place old_name;
    gix_mailmap_place old_email;
} gix_mailmap_parsed;

/* The version of the library, such as `0.1.0`. */
const char *gix_mailmap_version(void);

/* A status in English, such as `out of memory`. */
const char *gix_mailmap_status_text(gix_mailmap_status status);

/* Opens a mailmap with the entries of a text. Lines that can't be read are left out.
 * OK; OUT_OF_MEMORY: `*map` is NULL. */
gix_mailmap_status gix_mailmap_open(gix_mailmap **map, const char *text, size_t text_len)
    GIX_MAILMAP_NONNULL(1) GIX_MAILMAP_MUST_CHECK;

/* Opens a mailmap that is equal to another one. It shares nothing with it.
 * OK; OUT_OF_MEMORY: `*copy` is NULL. */
gix_mailmap_status gix_mailmap_copy(gix_mailmap **copy, const gix_mailmap *map)
    GIX_MAILMAP_NONNULL(1, 2) GIX_MAILMAP_MUST_CHECK;

/* Frees a mailmap. NULL is allowed and does nothing. */
void gix_mailmap_close(gix_mailmap *map);

/* Adds the entries of a text after those that are there. Lines that can't be read are left out. A later entry with an
 * old name replaces an earlier one for the same old email and old name. A later entry without an old name replaces only
 * what it gives: `P <a@x>` and then `<n@y> <a@x>` map a@x to P and n@y. Old emails and old names keep their first
 * spelling.
 * OK; OUT_OF_MEMORY. */
gix_mailmap_status gix_mailmap_add(gix_mailmap *map, const char *text, size_t text_len)
    GIX_MAILMAP_NONNULL(1) GIX_MAILMAP_MUST_CHECK;

/* Adds the entries that another mailmap lists, as gix_mailmap_add does, and leaves that mailmap as it is. It is the way
 * to put several mailmaps together that were read apart. A mailmap that is merged into itself stays as it is.
 * OK; OUT_OF_MEMORY. */
gix_mailmap_status gix_mailmap_merge(gix_mailmap *map, const gix_mailmap *other)
    GIX_MAILMAP_NONNULL(1, 2) GIX_MAILMAP_MUST_CHECK;

/* Adds one entry, as gix_mailmap_add does. Its texts are taken as they are, not read as a line. An empty new name, new
 * email or old name counts as missing.
 * OK; OUT_OF_MEMORY; NOT_AN_ENTRY: there is no new name and no new email, or an old name and no new email. */
gix_mailmap_status gix_mailmap_add_entry(gix_mailmap *map, const char *new_name, size_t new_name_len,
                                         const char *new_email, size_t new_email_len, const char *old_name,
                                         size_t old_name_len, const char *old_email, size_t old_email_len)
    GIX_MAILMAP_NONNULL(1) GIX_MAILMAP_MUST_CHECK;

/* Looks a contact up by its name and email, which are taken as they are, not trimmed. Copies its new name to `name_out`
 * and its new email to `email_out`. If the mailmap gives no new name, the contact's own name is copied; likewise for
 * the email, but spelled as in the first entry that was added for it. `new_name` and `new_email` are written on OK and
 * on TOO_SHORT: the lengths, and whether the mailmap gives the text.
 * OK; TOO_SHORT: one of the buffers is too short, and both are as they were. */
gix_mailmap_status gix_mailmap_lookup(const gix_mailmap *map, const char *name, size_t name_len, const char *email,
                                      size_t email_len, char *GIX_MAILMAP_RESTRICT name_out, size_t name_out_len,
                                      gix_mailmap_field *GIX_MAILMAP_RESTRICT new_name,
                                      char *GIX_MAILMAP_RESTRICT email_out, size_t email_out_len,
                                      gix_mailmap_field *GIX_MAILMAP_RESTRICT new_email)
    GIX_MAILMAP_NONNULL(1, 8, 11) GIX_MAILMAP_MUST_CHECK;

/* Counts the entries of the mailmap, and the bytes of all their texts together (SIZE_MAX if that is more than a size_t
 * holds). It goes over all entries. */
void gix_mailmap_len(const gix_mailmap *map, size_t *GIX_MAILMAP_RESTRICT entries_len,
                     size_t *GIX_MAILMAP_RESTRICT texts_len)
    GIX_MAILMAP_NONNULL(1, 2, 3);

/* Lists the mailmap: one entry for each old email that is mapped without an old name, and one for each pair of old name
 * and old email. Entries are sorted by old email, then by old name, without regard to the case of ASCII letters; an
 * entry without an old name comes first. Entry i is in entries[i], and its texts are in `texts` from its `start` on.
 * `entries_len` counts entries, `texts_len` bytes; gix_mailmap_len says how many are needed.
 * OK; TOO_SHORT: `entries` or `texts` is too short, and both are as they were. */
gix_mailmap_status gix_mailmap_list(const gix_mailmap *map, gix_mailmap_listed *GIX_MAILMAP_RESTRICT entries,
                                    size_t entries_len, char *GIX_MAILMAP_RESTRICT texts, size_t texts_len)
    GIX_MAILMAP_NONNULL(1) GIX_MAILMAP_MUST_CHECK;

/* Writes the entry of the list at an index, counted from 0, and copies its texts to the beginning of `texts`, so its
 * `start` is 0. It goes over the entries before it: use gix_mailmap_list for all of them.
 * OK; TOO_SHORT: `texts` is as it was, and the entry is written; NO_ENTRY. */
gix_mailmap_status gix_mailmap_entry(const gix_mailmap *map, size_t index,
                                     gix_mailmap_listed *GIX_MAILMAP_RESTRICT entry, char *GIX_MAILMAP_RESTRICT texts,
                                     size_t texts_len)
    GIX_MAILMAP_NONNULL(1, 3) GIX_MAILMAP_MUST_CHECK;

/* Writes the mailmap as a text, from which gix_mailmap_open makes the same mailmap: a line for each entry, in the order
 * of gix_mailmap_list. Each line begins with a space, so that a name such as `#1` doesn't make it a comment. `needed`
 * is the length of the text, and 0 on OUT_OF_MEMORY. On UNWRITABLE it is the place in the list, counted from 0, of the
 * first entry that can't be written as a line. Only gix_mailmap_add_entry adds such entries.
 * OK; TOO_SHORT; OUT_OF_MEMORY; UNWRITABLE. */
gix_mailmap_status gix_mailmap_write(const gix_mailmap *map, char *GIX_MAILMAP_RESTRICT out, size_t out_len,
                                     size_t *GIX_MAILMAP_RESTRICT needed)
    GIX_MAILMAP_NONNULL(1, 4) GIX_MAILMAP_MUST_CHECK;

/* Reads the next line of a mailmap that gives an entry or has a fault, and says where its texts are. Comments and blank
 * lines are passed over. A cursor of zeros is at the first line:
 *
 *     gix_mailmap_cursor cursor = {0, 0};
 *     gix_mailmap_parsed parsed;
 *     while (gix_mailmap_parse(text, text_len, &cursor, &parsed) == GIX_MAILMAP_OK)
 *         if (parsed.kind == 0)
 *             printf("%zu: %.*s\n", parsed.line, (int)parsed.old_email.len, text + parsed.old_email.start);
 *
 * The entries are those that gix_mailmap_open adds, one after another. The call copies no text and allocates nothing. A
 * cursor past the end of the mailmap is at its end.
 * OK; NO_ENTRY: no such line is left, and `*cursor` and `*parsed` are as they were. */
gix_mailmap_status gix_mailmap_parse(const char *mailmap, size_t mailmap_len,
                                     gix_mailmap_cursor *GIX_MAILMAP_RESTRICT cursor,
                                     gix_mailmap_parsed *GIX_MAILMAP_RESTRICT parsed)
    GIX_MAILMAP_NONNULL(3, 4) GIX_MAILMAP_MUST_CHECK;

/* Maps each line of `contacts`, such as `Jane <jane@x>`, with the mailmap, and writes an answer for each, with a line
 * feed after it. A line that isn't a contact is its own answer. `needed` is the length of all answers, and 0 on
 * OUT_OF_MEMORY.
 * OK; TOO_SHORT; OUT_OF_MEMORY. */
gix_mailmap_status gix_mailmap_check(const char *mailmap, size_t mailmap_len, const char *contacts, size_t contacts_len,
                                     char *GIX_MAILMAP_RESTRICT out, size_t out_len,
                                     size_t *GIX_MAILMAP_RESTRICT needed)
    GIX_MAILMAP_NONNULL(7) GIX_MAILMAP_MUST_CHECK;

/* Writes a mailmap with the same entries, sorted by old email, without comments, what can't be read and what later
 * lines override. Each line begins with a space, as by gix_mailmap_write. The library answers with it as before. If
 * gix_mailmap_verify finds GIX_MAILMAP_GIT_READS, git may answer differently with it. To keep comments and order, use
 * gix_mailmap_prune. `needed` is the length, and 0 on OUT_OF_MEMORY.
 * OK; TOO_SHORT; OUT_OF_MEMORY. */
gix_mailmap_status gix_mailmap_compact(const char *mailmap, size_t mailmap_len, char *GIX_MAILMAP_RESTRICT out,
                                       size_t out_len, size_t *GIX_MAILMAP_RESTRICT needed)
    GIX_MAILMAP_NONNULL(5) GIX_MAILMAP_MUST_CHECK;

/* Writes the mailmap without the lines that have no effect. All other lines stay byte for byte, comments and faulty
 * lines too. If gix_mailmap_verify finds GIX_MAILMAP_GIT_READS, git may answer differently with the result. `needed` is
 * the length, and 0 on OUT_OF_MEMORY.
 * OK; TOO_SHORT; OUT_OF_MEMORY. */
gix_mailmap_status gix_mailmap_prune(const char *mailmap, size_t mailmap_len, char *GIX_MAILMAP_RESTRICT out,
                                     size_t out_len, size_t *GIX_MAILMAP_RESTRICT needed)
    GIX_MAILMAP_NONNULL(5) GIX_MAILMAP_MUST_CHECK;

/* Writes what is wrong with the lines of a mailmap, in their order. A line has at most five findings. Removing all
 * lines of GIX_MAILMAP_NO_EFFECT together, as gix_mailmap_prune does, changes no answer; removing only some of them may
 * change how an email is spelled. `out_len` counts findings. `needed` is the number of all findings, and 0 on
 * OUT_OF_MEMORY.
 * OK; TOO_SHORT; OUT_OF_MEMORY. */
gix_mailmap_status gix_mailmap_verify(const char *mailmap, size_t mailmap_len,
                                      gix_mailmap_finding *GIX_MAILMAP_RESTRICT out, size_t out_len,
                                      size_t *GIX_MAILMAP_RESTRICT needed)
    GIX_MAILMAP_NONNULL(5) GIX_MAILMAP_MUST_CHECK;

/* Writes what is wrong with some mailmaps as text, as mailmap_verify prints it: a line for each finding, such as
 * `NAME:3: warning: no effect: OTHER:7 says the same [no-effect]`. The mailmaps are read one after another, as if they
 * were one: a line may have no effect beside a line of another mailmap. Control bytes are shown as `\x1b`, C1 control
 * characters and those of the general categories Cf, Zl and Zp as `\u202e` or `\U000e0001`, and `##[`, which GitHub
 * takes for a command, as `##\x5b`; a line that begins with `::`, which it takes for one, too, begins with `\x3a:` in
 * place of that. Names, emails and ignored texts of more than 256 bytes are cut. `count` is the number of mailmaps.
 * `needed` is the length of the text, and 0 on OUT_OF_MEMORY.
 * OK; TOO_SHORT; OUT_OF_MEMORY. */
gix_mailmap_status gix_mailmap_report(const gix_mailmap_named *mailmaps, size_t count, char *GIX_MAILMAP_RESTRICT out,
                                      size_t out_len, size_t *GIX_MAILMAP_RESTRICT needed)
    GIX_MAILMAP_NONNULL(5) GIX_MAILMAP_MUST_CHECK;

/* Writes what is wrong with some mailmaps and, unless `contacts` is NULL, also with contacts, in a format. Without
 * contacts and as lines it is gix_mailmap_report. `contacts` has a name, such as that of a file, and a contact on each
 * line, such as all contacts of a history. The text is what mailmap_verify --contacts prints: the findings in the
 * mailmaps, among them the lines that no contact needs, and after them those about the contacts, in the order of their
 * lines, such as
 *
 *     history:7: warning: jane <JANE@x> (2) has the email of Jane Doe <jane@x> (9) [same-email]
 *     history:9: warning: git answers Jane Doe <JANE@x> [git-answers]
 *
 * As JSON, a finding has the members `file`, `line`, `level`, `kind` and `message`; `at`, with a `file` and a `line`,
 * if the message refers to another line; and as far as the message has them a `name`, an `email` and a `count`, and the
 * same in `beside`, of what it names second. A text is `{"text": ".."}`, or `{"bytes": ".."}` in Base64 if it isn't
 * UTF-8. Escaped are what JSON needs, `[` after `##`, control characters, and characters of the general categories Cf,
 * Zl and Zp, all as JSON does it. Later versions may write more members.
 *
 * As annotations, findings are what GitHub's workflows show at the lines of a file, such as
 *
 *     ::warning file=own,line=2,title=unneeded::no contact needs it
 *
 * `needed` is the length of the text, and 0 on OUT_OF_MEMORY.
 * OK; TOO_SHORT; OUT_OF_MEMORY. */
gix_mailmap_status gix_mailmap_report_as(const gix_mailmap_named *mailmaps, size_t count,
                                         const gix_mailmap_named *contacts, gix_mailmap_format format,
                                         char *GIX_MAILMAP_RESTRICT out, size_t out_len,
                                         size_t *GIX_MAILMAP_RESTRICT needed)
    GIX_MAILMAP_NONNULL(7) GIX_MAILMAP_MUST_CHECK;

/* Lists the same findings in words, in the same order, and copies their texts, one after another, to `texts`. Nothing
 * in them is escaped. `contacts` may be NULL here, too. `out_len` counts findings, `texts_len` bytes. `needed` is the
 * number of all findings, and `texts_needed` the length of their texts; both are 0 on OUT_OF_MEMORY.
 * OK; TOO_SHORT: `out` or `texts` is too short, and both are as they were; OUT_OF_MEMORY. */
gix_mailmap_status gix_mailmap_notices(const gix_mailmap_named *mailmaps, size_t count,
                                       const gix_mailmap_named *contacts, gix_mailmap_notice *GIX_MAILMAP_RESTRICT out,
                                       size_t out_len, char *GIX_MAILMAP_RESTRICT texts, size_t texts_len,
                                       size_t *GIX_MAILMAP_RESTRICT needed, size_t *GIX_MAILMAP_RESTRICT texts_needed)
    GIX_MAILMAP_NONNULL(8, 9) GIX_MAILMAP_MUST_CHECK;

/* Writes which lines of some mailmaps give contacts their new names and emails, as mailmap_verify --explain prints it:
 * a line for each line of `contacts`, such as
 *
 *     jd <jd@y> is Jane Doe <jane@x> by team:1, own:3
 *     joe <q@z> is not mapped
 *     plain is no contact
 *
 * and none for a blank line. At most two lines are named for a contact, in the order in which they are read: the line
 * that gives the name and the line that gives the email, or only its spelling. Mailmaps and escapes are as for
 * gix_mailmap_report, but no text is cut. `needed` is the length of the text, and 0 on OUT_OF_MEMORY.
 * OK; TOO_SHORT; OUT_OF_MEMORY. */
gix_mailmap_status gix_mailmap_explain(const gix_mailmap_named *mailmaps, size_t count, const char *contacts,
                                       size_t contacts_len, char *GIX_MAILMAP_RESTRICT out, size_t out_len,
                                       size_t *GIX_MAILMAP_RESTRICT needed)
    GIX_MAILMAP_NONNULL(7) GIX_MAILMAP_MUST_CHECK;

/* Lists the lines of some mailmaps that have an effect and that no contact needs, in their order. `contacts` has a
 * contact on each line, such as all contacts of a history; a line that isn't a contact needs nothing. A contact needs
 * the line that gives its new name, and the line that gives its new email. If no line gives a new email, it needs the
 * first line for its old email that has an effect, which says how that email is spelled. If all listed lines and all
 * lines that have no effect are removed together, the answers for these contacts stay the same. If git uses the
 * mailmaps, too, fix the lines of GIX_MAILMAP_GIT_READS first. Mailmaps are as for gix_mailmap_report; their names are
 * not read. `out_len` counts positions. `needed` is the number of all listed lines, and 0 on OUT_OF_MEMORY.
 * OK; TOO_SHORT; OUT_OF_MEMORY. */
gix_mailmap_status gix_mailmap_unneeded(const gix_mailmap_named *mailmaps, size_t count, const char *contacts,
                                        size_t contacts_len, gix_mailmap_position *GIX_MAILMAP_RESTRICT out,
                                        size_t out_len, size_t *GIX_MAILMAP_RESTRICT needed)
    GIX_MAILMAP_NONNULL(7) GIX_MAILMAP_MUST_CHECK;

/* Writes the lines that some mailmaps lack for contacts, as mailmap_verify --suggest prints them: for each group of
 * contacts that may be one person, how often each answer comes, and lines that give all of them one answer, such as
 *
 *     # 3 Jane Doe <jane@x>
 *     # 2 jane <jane@x>
 *     Jane Doe <jane@x>
 *
 * and an empty line. In a group the answers have one email, or equal or alike names, or one has the name that is the
 * login in the other one's email. `#?` begins the lines for a group without one email, since these may be two people:
 * whoever deletes the `#?` accepts the line. An email that several people share has comments and no lines. The text is
 * a mailmap, to be appended to the last one: if that isn't empty and doesn't end with a line feed, the text, if there
 * is any, begins with one. `contacts` has a contact on each line. Mailmaps are as for gix_mailmap_report; their names
 * are not read. `needed` is the length of the text, and 0 on OUT_OF_MEMORY.
 * OK; TOO_SHORT; OUT_OF_MEMORY. */
gix_mailmap_status gix_mailmap_suggest(const gix_mailmap_named *mailmaps, size_t count, const char *contacts,
                                       size_t contacts_len, char *GIX_MAILMAP_RESTRICT out, size_t out_len,
                                       size_t *GIX_MAILMAP_RESTRICT needed)
    GIX_MAILMAP_NONNULL(7) GIX_MAILMAP_MUST_CHECK;

/* Opens a stream, which maps contacts as gix_mailmap_check does. The contacts come in parts of any length, and a part
 * may end in the middle of a line:
 *
 *     while (part_len > 0) {
 *         if (gix_mailmap_stream_push(stream, part, part_len, &taken) != GIX_MAILMAP_OK)
 *             return 1;
 *         part += taken;
 *         part_len -= taken;
 *         while ((count = gix_mailmap_stream_read(stream, out, sizeof out)) > 0)
 *             fwrite(out, 1, count, stdout);
 *     }
 *
 * After the last part call gix_mailmap_stream_finish, and read until gix_mailmap_stream_read returns 0. A stream takes
 * some 1.1 MiB beside the mailmap and the answers that wait.
 * OK; OUT_OF_MEMORY: `*stream` is NULL. */
gix_mailmap_status gix_mailmap_stream_open(gix_mailmap_stream **stream, const char *mailmap, size_t mailmap_len)
    GIX_MAILMAP_NONNULL(1) GIX_MAILMAP_MUST_CHECK;

/* Frees a stream, with all answers that weren't read. NULL is allowed and does nothing. */
void gix_mailmap_stream_close(gix_mailmap_stream *stream);

/* Takes bytes from the beginning of `part`, and answers each line that ends in them. What comes after the last line
 * feed is kept until the rest of its line comes. `taken` is the number of bytes that the call took: on OK at least one,
 * unless `part_len` is 0. `taken` is less than `part_len` if 64 KiB of answers wait to be read, or if memory runs out
 * after some lines: read the answers, and push the rest. On OUT_OF_MEMORY `taken` is 0.
 * OK; OUT_OF_MEMORY. */
gix_mailmap_status gix_mailmap_stream_push(gix_mailmap_stream *stream, const char *part, size_t part_len,
                                           size_t *GIX_MAILMAP_RESTRICT taken)
    GIX_MAILMAP_NONNULL(1, 4) GIX_MAILMAP_MUST_CHECK;

/* Answers the last line, if no line feed ended it. What is pushed after that begins a new line.
 * OK; OUT_OF_MEMORY. */
gix_mailmap_status gix_mailmap_stream_finish(gix_mailmap_stream *stream) GIX_MAILMAP_NONNULL(1) GIX_MAILMAP_MUST_CHECK;

/* Copies the answers that wait to the beginning of `out`, as many bytes as fit, and returns how many bytes these are.
 * The last line may be copied in part. The number is 0 if no answers wait, or if `out_len` is 0. The call allocates
 * nothing. */
size_t gix_mailmap_stream_read(gix_mailmap_stream *stream, char *GIX_MAILMAP_RESTRICT out, size_t out_len)
    GIX_MAILMAP_NONNULL(1);

#ifdef __cplusplus
}
#endif

#endif
