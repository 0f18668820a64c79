/* Threads that read one mailmap at a time, threads with a stream each, and a mailmap and a stream that are opened, used
 * and closed by different threads.
 *
 *     threads THREADS ROUNDS
 */
#include "gix_mailmap.h"
#include <pthread.h>
#include <stdio.h>
#include <stdlib.h>
#include <string.h>

enum { ENTRIES = 1000, MOST = 64 };

static void must(bool holds, const char *what)
{
    if (!holds) {
        fprintf(stderr, "threads: %s\n", what);
        exit(1);
    }
}

/* a mailmap and a stream, and how often a thread uses them */
typedef struct {
    gix_mailmap *map;
    gix_mailmap_stream *stream;
    long rounds;
} work;

static void look_up(const gix_mailmap *map, int number)
{
    char old[32], wanted[32], name[32], email[32];
    gix_mailmap_field new_name, new_email;
    int old_len = snprintf(old, sizeof old, "O%d@X", number);
    int wanted_len = snprintf(wanted, sizeof wanted, "n%d@x", number);
    must(gix_mailmap_lookup(map, "jd", 2, old, (size_t)old_len, name, sizeof name, &new_name, email, sizeof email,
                            &new_email) == GIX_MAILMAP_OK, "lookup");
    must(new_email.len == (size_t)wanted_len && memcmp(email, wanted, new_email.len) == 0, "another email");
    must(new_name.len == 2 && memcmp(name, "jd", 2) == 0, "another name");
}

static void *read_all(void *given)
{
    const work *w = given;
    char texts[ENTRIES * 16];
    gix_mailmap_listed entries[ENTRIES];
    size_t entries_len, texts_len, needed;
    for (long round = 0; round < w->rounds; round++) {
        for (int number = 0; number < ENTRIES; number++)
            look_up(w->map, number);
        gix_mailmap_len(w->map, &entries_len, &texts_len);
        must(entries_len == ENTRIES && texts_len <= sizeof texts, "other lengths");
        must(gix_mailmap_list(w->map, entries, ENTRIES, texts, texts_len) == GIX_MAILMAP_OK, "list");
        must(gix_mailmap_entry(w->map, 7, entries, texts, texts_len) == GIX_MAILMAP_OK, "entry");
        must(gix_mailmap_write(w->map, NULL, 0, &needed) == GIX_MAILMAP_TOO_SHORT, "write");
    }
    return NULL;
}

static void *open_one(void *given)
{
    work *w = given;
    must(gix_mailmap_open(&w->map, NULL, 0) == GIX_MAILMAP_OK, "open");
    return NULL;
}

static void *add_all(void *given)
{
    const work *w = given;
    for (int number = 0; number < ENTRIES; number++) {
        char line[64];
        int len = snprintf(line, sizeof line, "<n%d@x> <o%d@x>\n", number, number);
        must(gix_mailmap_add(w->map, line, (size_t)len) == GIX_MAILMAP_OK, "add");
    }
    return NULL;
}

static void *close_one(void *given)
{
    work *w = given;
    gix_mailmap_close(w->map);
    return NULL;
}

/* contacts, the last without a line feed, and their answers */
static const char CONTACTS[] = "jd <O1@X>\nplain\njd <O2@X>", ANSWERS[] = "jd <n1@x>\nplain\njd <n2@x>\n";

static void *open_stream(void *given)
{
    static const char text[] = "<n1@x> <o1@x>\n<n2@x> <o2@x>\n";
    work *w = given;
    must(gix_mailmap_stream_open(&w->stream, text, sizeof text - 1) == GIX_MAILMAP_OK, "stream_open");
    return NULL;
}

static void *push_contacts(void *given)
{
    const work *w = given;
    size_t taken;
    must(gix_mailmap_stream_push(w->stream, CONTACTS, sizeof CONTACTS - 1, &taken) == GIX_MAILMAP_OK
         && taken == sizeof CONTACTS - 1, "stream_push");
    return NULL;
}

static void *read_answers(void *given)
{
    const work *w = given;
    char out[64];
    must(gix_mailmap_stream_finish(w->stream) == GIX_MAILMAP_OK, "stream_finish");
    size_t count = gix_mailmap_stream_read(w->stream, out, sizeof out);
    must(count == sizeof ANSWERS - 1 && memcmp(out, ANSWERS, count) == 0, "other answers");
    return NULL;
}

static void *close_stream(void *given)
{
    work *w = given;
    gix_mailmap_stream_close(w->stream);
    return NULL;
}

static void *stream_all(void *given)
{
    const work *w = given;
    work own = {NULL, NULL, 0};
    for (long round = 0; round < w->rounds; round++) {
        open_stream(&own);
        for (int number = 0; number < 100; number++) {
            push_contacts(&own);
            read_answers(&own);
        }
        close_stream(&own);
    }
    return NULL;
}

static void run(int threads, void *(*each)(void *), work *w)
{
    pthread_t started[MOST];
    for (int i = 0; i < threads; i++)
        must(pthread_create(&started[i], NULL, each, w) == 0, "no thread");
    for (int i = 0; i < threads; i++)
        must(pthread_join(started[i], NULL) == 0, "a thread is lost");
}

int main(int count, char **words)
{
    must(count == 3, "the numbers of threads and of rounds are wanted");
    int threads = atoi(words[1]);
    must(threads > 0 && threads <= MOST, "1 to 64 threads");
    work w = {NULL, NULL, atol(words[2])};
    run(1, open_one, &w);
    run(1, add_all, &w);
    run(threads, read_all, &w);
    run(1, add_all, &w);
    run(threads, read_all, &w);
    run(1, close_one, &w);
    run(1, open_stream, &w);
    for (int i = 0; i < 10; i++) {
        run(1, push_contacts, &w);
        run(1, read_answers, &w);
    }
    run(1, close_stream, &w);
    run(threads, stream_all, &w);
    printf("threads: %d passed\n", threads);
    return 0;
}
