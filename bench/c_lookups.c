/* Times lookups in C, by gix_mailmap or by libgit2, and prints a line as mailmap_bench does.
 *
 *     c_lookups gix MAP CONTACTS N         gix_mailmap_lookup
 *     c_lookups libgit2 MAP CONTACTS N     git_mailmap_resolve
 *     c_lookups threads MAP CONTACTS N     gix_mailmap_lookup by one, two and four threads
 *
 * The map is opened and the contacts are split before the clock runs, and the shortest of N rounds counts. The first
 * byte of each resulting name and email is read, and each returned length: `texts` is their sum, as in mailmap_bench's
 * bench-answer. libgit2 takes texts that end with a NUL, lends its answers and returns no length; gix_mailmap takes
 * lengths, copies and returns them.
 *
 * In a round of several threads each looks all contacts up, from the start of the first to the end of the last. For
 * each number of threads a line has that number, the lookups in a second, how many times as many as of one thread, and
 * the nanoseconds of the processor for a lookup.
 */
#define _POSIX_C_SOURCE 200809L
#include "c_contacts.h"
#include "gix_mailmap.h"
#include <git2.h>
#include <stdint.h>
#include <time.h>

typedef struct {
    contact *all;
    size_t len;
} contacts;

/* how long a round took, and how much processor time all threads used */
typedef struct {
    long long time, processor;
} taken;

static contacts contacts_of(text lines)
{
    contacts found = {malloc((lines.len / 2 + 1) * sizeof(contact)), 0};
    must(found.all != NULL, "out of memory");
    for (char *rest, *line = strtok_r(lines.bytes, "\n", &rest); line; line = strtok_r(NULL, "\n", &rest))
        found.len += is_contact(line, strlen(line), &found.all[found.len]);
    return found;
}

static size_t read_text(const char *bytes, size_t len)
{
    return len > 0 ? len + (uint8_t)bytes[0] : 0;
}

static size_t look_up_here(const gix_mailmap *map, contacts given)
{
    char name[4096], email[4096];
    gix_mailmap_field new_name = {0, false}, new_email = {0, false};
    size_t texts = 0;
    for (size_t i = 0; i < given.len; i++) {
        const contact *c = &given.all[i];
        must(gix_mailmap_lookup(map, c->name.bytes, c->name.len, c->email.bytes, c->email.len, name, sizeof name,
                                &new_name, email, sizeof email, &new_email) == GIX_MAILMAP_OK, "lookup");
        texts += read_text(name, new_name.len) + read_text(email, new_email.len);
    }
    return texts;
}

static size_t look_up_there(const git_mailmap *map, contacts given)
{
    size_t first_bytes = 0;
    for (size_t i = 0; i < given.len; i++) {
        const contact *c = &given.all[i];
        const char *name, *email;
        must(git_mailmap_resolve(&name, &email, map, c->name.bytes, c->email.bytes) == 0, "lookup");
        first_bytes += (uint8_t)name[0] + (uint8_t)email[0];
    }
    return first_bytes;
}

static long long now(clockid_t clock)
{
    struct timespec time;
    clock_gettime(clock, &time);
    return time.tv_sec * 1000000000LL + time.tv_nsec;
}

static long long least(long long a, long long b)
{
    return a < b ? a : b;
}

static taken run_round(const gix_mailmap *map, contacts given, int threads)
{
    long long start = INT64_MAX, end = 0, processor = 0;
#pragma omp parallel num_threads(threads) reduction(min : start) reduction(max : end) reduction(+ : processor)
    {
        /* all begin at once */
#pragma omp barrier
        start = now(CLOCK_MONOTONIC);
        long long used = now(CLOCK_THREAD_CPUTIME_ID);
        must(look_up_here(map, given) > 0, "no answers");
        processor = now(CLOCK_THREAD_CPUTIME_ID) - used;
        end = now(CLOCK_MONOTONIC);
    }
    return (taken){end - start, processor};
}

static void time_threads(const gix_mailmap *map, contacts given, long rounds)
{
    taken best[3] = {{INT64_MAX, INT64_MAX}, {INT64_MAX, INT64_MAX}, {INT64_MAX, INT64_MAX}};
    for (long round = 0; round < rounds; round++)
        for (int i = 0; i < 3; i++) {
            taken one = run_round(map, given, 1 << i);
            best[i] = (taken){least(best[i].time, one.time), least(best[i].processor, one.processor)};
        }
    for (int i = 0; i < 3; i++) {
        double lookups = (double)given.len * (1 << i);
        printf("%d %.0f %.2f %.0f\n", 1 << i, lookups * 1e9 / (double)best[i].time,
               (double)best[0].time * (1 << i) / (double)best[i].time, (double)best[i].processor / lookups);
    }
}

int main(int count, char **words)
{
    must(count == 5, "c_lookups gix|libgit2|threads MAP CONTACTS N");
    text map = read_file(words[2]);
    contacts given = contacts_of(read_file(words[3]));
    bool is_there = strcmp(words[1], "libgit2") == 0;
    gix_mailmap *here = NULL;
    git_mailmap *there = NULL;
    git_libgit2_init();
    must(gix_mailmap_open(&here, map.bytes, map.len) == GIX_MAILMAP_OK, "open");
    must(!is_there || git_mailmap_from_buffer(&there, map.bytes, map.len) == 0, "libgit2 can't read the map");
    long rounds = atol(words[4]);
    if (strcmp(words[1], "threads") == 0)
        return time_threads(here, given, rounds), 0;
    long long best = INT64_MAX;
    size_t sum = 0;
    for (long round = 0; round < rounds; round++) {
        long long start = now(CLOCK_MONOTONIC);
        sum = is_there ? look_up_there(there, given) : look_up_here(here, given);
        best = least(best, now(CLOCK_MONOTONIC) - start);
    }
    printf("bench-answer min_ns=%lld contacts=%zu %s=%zu\n", best, given.len, is_there ? "first_bytes" : "texts", sum);
    return 0;
}
