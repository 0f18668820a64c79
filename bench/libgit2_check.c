/* Answers the contacts on standard input as mailmap_check does, but by libgit2's git_mailmap.
 *
 *     cc -O2 -o libgit2_check libgit2_check.c -lgit2
 *     libgit2_check MAP < contacts
 *     libgit2_check --version            the version of libgit2
 *
 * If libgit2 rejects the mailmap, the status is 1, and standard error has the reason.
 */
#define _GNU_SOURCE
#include "c_contacts.h"
#include <git2.h>

static void must_be_done(int status, const char *what)
{
    must(status >= 0, git_error_last() ? git_error_last()->message : what);
}

static void answer(git_mailmap *map, char *line, size_t len)
{
    const char *name, *email;
    contact old;
    if (is_contact(line, len, &old)) {
        must_be_done(git_mailmap_resolve(&name, &email, map, old.name.bytes, old.email.bytes), "resolve");
        printf(*name ? "%s <%s>\n" : "%s<%s>\n", name, email);
    } else {
        puts(line);
    }
}

int main(int count, char **words)
{
    git_mailmap *map;
    char *line = NULL;
    size_t room = 0;
    ssize_t len;
    must(count == 2, "libgit2_check MAP");
    if (strcmp(words[1], "--version") == 0)
        return puts(LIBGIT2_VERSION) < 0;
    text read = read_file(words[1]);
    git_libgit2_init();
    must_be_done(git_mailmap_from_buffer(&map, read.bytes, read.len), "git_mailmap_from_buffer");
    while ((len = getline(&line, &room, stdin)) >= 0) {
        if (len > 0 && line[len - 1] == '\n')
            line[--len] = 0;
        answer(map, line, (size_t)len);
    }
    return fflush(stdout) != 0;
}
