/* Looks contacts up in small mailmaps, by libgit2 and by this library, and prints the answers of both as a table in
 * Markdown. docs/C.md has that table, and beside_libgit2.sh compares both.
 *
 *     beside_libgit2              the table
 *     beside_libgit2 --version    the version of libgit2
 */
#include "gix_mailmap.h"
#include <git2.h>
#include <stdio.h>
#include <stdlib.h>
#include <string.h>

/* a row: what it is about, a mailmap, and the name and the email of a contact */
typedef struct {
    const char *what;
    const char *mailmap;
    size_t mailmap_len;
    const char *name;
    const char *email;
} row;

#define ROW(what, mailmap, name, email) {what, mailmap, sizeof mailmap - 1, name, email}

/* Each mailmap has only the lines and the texts that it takes to show it. */
static const row rows[] = {
    ROW("The case of an email", "Jane <a@x>", "jd", "A@x"),
    ROW("The case of an old name", "<j@x> jd <a@x>", "JD", "a@x"),
    ROW("Fields from two lines", "Jane <a@x>\n<j@x> <a@x>", "jd", "a@x"),
    ROW("Only an email", "Jane <a@x>\n<a@x>", "jd", "a@x"),
    ROW("An empty old email", "<j@x> <>", "jd", ""),
    ROW("Other lines next to it", "Jane <a@x>\n<j@x> <>", "jd", "a@x"),
    ROW("An empty new email", "Jane <> <a@x>", "jd", "a@x"),
    ROW("A new email of spaces", "Jane < > <a@x>", "jd", "a@x"),
    ROW("Spaces in the new email's brackets", "< j@x > <a@x>", "jd", "a@x"),
    ROW("Spaces in the old email's brackets", "Jane < a@x >", "jd", "a@x"),
    ROW("The same, looked up with the spaces", "Jane < a@x >", "jd", " a@x "),
    ROW("Text after the last email", "Jane <a@x> jd", "jd", "a@x"),
    ROW("A second `<` without `>`", "Jane <a@x> <", "jd", "a@x"),
    ROW("A comment at the end of a line (no difference)", "Jane <a@x> # jd", "jd", "a@x"),
    ROW("An email in such a comment", "Jane <a@x> # <b@x>", "jd", "a@x"),
    ROW("`#` after spaces", " # Jane <a@x>", "jd", "a@x"),
    ROW("`#` in a name", "Jane #1 <a@x>", "jd", "a@x"),
    ROW("`#` in an email", "Jane <a#1@x>", "jd", "a#1@x"),
    ROW("A zero byte in a name", "J\0 <a@x>", "jd", "a@x"),
    ROW("A zero byte in another line", "Jane <a@x>\n\0", "jd", "a@x"),
    ROW("Other white space", "\u00a0Jane <a@x>", "jd", "a@x"),
};

static void must(bool holds, const char *what)
{
    if (!holds) {
        fprintf(stderr, "beside_libgit2: %s\n", what);
        exit(3);
    }
}

static void put_byte(unsigned char byte)
{
    if (byte == '\n')
        printf("\\n");
    else if (byte == 0)
        printf("\\0");
    else if (byte < ' ' || byte > '~')
        printf("\\x%02x", byte);
    else
        putchar(byte);
}

static void put_bytes(const void *bytes, size_t len)
{
    for (size_t i = 0; i < len; i++)
        put_byte(((const unsigned char *)bytes)[i]);
}

static void put_contact(const void *name, size_t name_len, const void *email, size_t email_len)
{
    printf(" `");
    put_bytes(name, name_len);
    printf(" <");
    put_bytes(email, email_len);
    printf(">` |");
}

static void put_libgit2(const row *r)
{
    git_mailmap *map;
    const char *name, *email;
    if (git_mailmap_from_buffer(&map, r->mailmap, r->mailmap_len) < 0) {
        printf(" no mailmap |");
        return;
    }
    must(git_mailmap_resolve(&name, &email, map, r->name, r->email) == 0, "git_mailmap_resolve");
    put_contact(name, strlen(name), email, strlen(email));
    git_mailmap_free(map);
}

/* all calls of this library */
static void put_ours(const row *r)
{
    gix_mailmap *map;
    char name[64], email[64];
    gix_mailmap_field new_name, new_email;
    must(gix_mailmap_open(&map, r->mailmap, r->mailmap_len) == GIX_MAILMAP_OK, "open");
    must(gix_mailmap_lookup(map, r->name, strlen(r->name), r->email, strlen(r->email), name, sizeof name, &new_name,
                            email, sizeof email, &new_email) == GIX_MAILMAP_OK, "lookup");
    put_contact(name, new_name.len, email, new_email.len);
    gix_mailmap_close(map);
}

static void put_row(const row *r)
{
    printf("| %s | `", r->what);
    put_bytes(r->mailmap, r->mailmap_len);
    printf("` |");
    put_contact(r->name, strlen(r->name), r->email, strlen(r->email));
    put_libgit2(r);
    put_ours(r);
    putchar('\n');
}

int main(int count, char **words)
{
    if (count == 2 && strcmp(words[1], "--version") == 0)
        return puts(LIBGIT2_VERSION) < 0;
    must(git_libgit2_init() > 0, "git_libgit2_init");
    puts("| What | Mailmap | Contact | libgit2 | Here |");
    puts("|---|---|---|---|---|");
    for (size_t i = 0; i < sizeof rows / sizeof *rows; i++)
        put_row(&rows[i]);
    git_libgit2_shutdown();
    return fflush(stdout) != 0;
}
