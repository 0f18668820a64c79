/* Calls every function of gix_mailmap.h so that it returns each of its statuses. malloc, realloc and free are wrapped
 * (-Wl,--wrap), so that each request for memory can fail in turn, and leaks are found. Only this shows the status of a
 * refused call from C, and that handles stay as they were. */
#include "gix_mailmap.h"
#include <malloc.h>
#include <stdio.h>
#include <stdlib.h>
#include <string.h>

static long failed_request = -1;
static long requests = 0;
/* how many blocks of memory are allocated, and how many bytes they have */
static long blocks = 0;
static size_t in_use = 0;

void *__real_malloc(size_t size);
void *__real_realloc(void *at, size_t size);
void __real_free(void *at);
void *__wrap_malloc(size_t size);
void *__wrap_realloc(void *at, size_t size);
void __wrap_free(void *at);

void *__wrap_malloc(size_t size)
{
    void *made = requests++ == failed_request || size > PTRDIFF_MAX ? NULL : __real_malloc(size);
    blocks += made != NULL;
    in_use += malloc_usable_size(made);
    return made;
}

void *__wrap_realloc(void *at, size_t size)
{
    size_t before = malloc_usable_size(at);
    void *made = requests++ == failed_request ? NULL : __real_realloc(at, size);
    blocks += at == NULL && made != NULL;
    in_use += made != NULL ? malloc_usable_size(made) - before : 0;
    return made;
}

void __wrap_free(void *at)
{
    blocks -= at != NULL;
    in_use -= malloc_usable_size(at);
    __real_free(at);
}

static int failures = 0;

#define WANT(holds) want((holds), #holds, __LINE__)

static void want(bool holds, const char *what, int line)
{
    if (!holds) {
        fprintf(stderr, "calls.c:%d: %s\n", line, what);
        failures++;
    }
}

#define TEXT(s) (s), sizeof(s) - 1

static const char MAP[] = "Jane Doe <jane@x> <jd@y>\nJoe <joe@x>\n";

/* A buffer between guards, filled with a pattern so that each written byte is noticed. */
typedef struct {
    char bytes[96];
} buffer;

static buffer filled(void)
{
    buffer made;
    memset(made.bytes, '#', sizeof made.bytes);
    return made;
}

/* the text is at the front, and nothing else is written */
static bool holds(const buffer *b, const char *text)
{
    size_t len = strlen(text);
    buffer clean = filled();
    return memcmp(b->bytes, text, len) == 0 && memcmp(b->bytes + len, clean.bytes, sizeof clean.bytes - len) == 0;
}

static bool is_field(gix_mailmap_field field, size_t len, bool is_given)
{
    return field.len == len && field.is_given == is_given;
}

static void check_and_compact(void)
{
    size_t needed = 99;
    buffer out = filled();
    WANT(gix_mailmap_check(TEXT(MAP), TEXT("jd <JD@y>\r\nplain"), out.bytes, 24, &needed) == GIX_MAILMAP_OK);
    WANT(needed == 24 && holds(&out, "Jane Doe <jane@x>\nplain\n"));
    out = filled();
    WANT(gix_mailmap_check(TEXT(MAP), TEXT("jd <JD@y>\r\nplain"), out.bytes, 23, &needed) == GIX_MAILMAP_TOO_SHORT);
    WANT(needed == 24 && holds(&out, ""));
    WANT(gix_mailmap_check(TEXT(""), TEXT(""), out.bytes, 0, &needed) == GIX_MAILMAP_OK);
    WANT(needed == 0 && holds(&out, ""));
    WANT(gix_mailmap_compact(TEXT("N <a@x>\nM <A@x>"), out.bytes, sizeof out.bytes, &needed) == GIX_MAILMAP_OK);
    WANT(needed == 9 && holds(&out, " M <a@x>\n"));
    out = filled();
    WANT(gix_mailmap_compact(TEXT("N <a@x>\nM <A@x>"), out.bytes, 8, &needed) == GIX_MAILMAP_TOO_SHORT);
    WANT(needed == 9 && holds(&out, ""));
}

static void prune(void)
{
    size_t needed = 99;
    buffer out = filled();
    WANT(gix_mailmap_prune(TEXT("N <a@x>\n# why\nM <a@x>\nplain"), out.bytes, 19, &needed) == GIX_MAILMAP_OK);
    WANT(needed == 19 && holds(&out, "# why\nM <a@x>\nplain"));
    out = filled();
    WANT(gix_mailmap_prune(TEXT("N <a@x>\n# why\nM <a@x>\nplain"), out.bytes, 18, &needed) == GIX_MAILMAP_TOO_SHORT);
    WANT(needed == 19 && holds(&out, ""));
    WANT(gix_mailmap_prune(TEXT(""), out.bytes, 0, &needed) == GIX_MAILMAP_OK);
    WANT(needed == 0 && holds(&out, ""));
}

/* a line of each kind, and two correct lines */
static const char FAULTY[] =
    "plain\n"
    "Jane <a@x\n"
    "Jane < > <b@x>\n"
    "<a@x>\n"
    "Jo <c@x> <d\n"
    "Joe <joe@x> joe\n"
    "N <e@x>\n"
    "M <e@x>\n"
    "Eve <eve@w> <eve@o>\n"
    "<eve@e> <eve@w>\n";

static bool is_finding(gix_mailmap_finding f, size_t line, int kind, size_t beside)
{
    return f.line == line && (int)f.kind == kind && f.beside == beside;
}

/* a finding that no call has written */
static const gix_mailmap_finding UNFOUND = {99, (gix_mailmap_kind)98, 97};

static void verify(void)
{
    size_t needed = 99;
    gix_mailmap_finding found[10];
    for (size_t i = 0; i < 10; i++)
        found[i] = UNFOUND;
    WANT(gix_mailmap_verify(TEXT(FAULTY), found, 8, &needed) == GIX_MAILMAP_TOO_SHORT && needed == 9);
    for (size_t i = 0; i < 10; i++)
        WANT(is_finding(found[i], 99, 98, 97));
    WANT(gix_mailmap_verify(TEXT(FAULTY), found, 9, &needed) == GIX_MAILMAP_OK && needed == 9);
    WANT(is_finding(found[0], 1, GIX_MAILMAP_NO_EMAIL, 0));
    WANT(is_finding(found[1], 2, GIX_MAILMAP_MISSING_CLOSING_BRACKET, 0));
    WANT(is_finding(found[2], 3, GIX_MAILMAP_EMPTY_EMAIL, 0));
    WANT(is_finding(found[3], 3, GIX_MAILMAP_GIT_READS, 0));
    WANT(is_finding(found[4], 4, GIX_MAILMAP_NOTHING_TO_MAP, 0));
    WANT(is_finding(found[5], 5, GIX_MAILMAP_UNCLOSED_SECOND, 0));
    WANT(is_finding(found[6], 6, GIX_MAILMAP_IGNORED_TEXT, 0));
    WANT(is_finding(found[7], 7, GIX_MAILMAP_NO_EFFECT, 8));
    WANT(is_finding(found[8], 9, GIX_MAILMAP_ITSELF_MAPPED, 0));
    WANT(is_finding(found[9], 99, 98, 97));
    found[0] = UNFOUND;
    WANT(gix_mailmap_verify(TEXT(MAP), found, 9, &needed) == GIX_MAILMAP_OK && needed == 0);
    WANT(gix_mailmap_verify(TEXT("\xef\xbb\xbf # J <j@x>"), found, 2, &needed) == GIX_MAILMAP_OK && needed == 2);
    WANT(is_finding(found[0], 1, GIX_MAILMAP_BYTE_ORDER_MARK, 0));
    WANT(is_finding(found[1], 1, GIX_MAILMAP_COMMENT_IN_LINE, 0));
    found[0] = UNFOUND;
    WANT(gix_mailmap_verify(TEXT(""), found, 0, &needed) == GIX_MAILMAP_OK && needed == 0);
    WANT(is_finding(found[0], 99, 98, 97));
}

/* two mailmaps with a finding of each kind, and a control byte */
static const char OWN[] = "N <e@x>\nplain\x1b\nI <i@x> \x1b";
static const gix_mailmap_named BOTH[2] = {{TEXT("team"), TEXT(FAULTY)}, {TEXT("own"), TEXT(OWN)}};
static const char REPORT[] =
    "team:1: error: no email in brackets [no-email]\n"
    "team:2: error: the first '<' has no '>' [unclosed-email]\n"
    "team:3: error: the first email is empty [empty-email]\n"
    "team:3: warning: git reads it as Jane < > <b@x> [git-reads]\n"
    "team:4: error: an email alone maps nothing [nothing-to-map]\n"
    "team:5: error: the second '<' has no '>' [unclosed-second-email]\n"
    "team:6: warning: ignored text: joe (an old name needs an email after it) [ignored-text]\n"
    "team:7: warning: no effect: own:1 says the same [no-effect]\n"
    "team:8: warning: no effect: own:1 says something else [no-effect]\n"
    "team:9: warning: Eve <eve@w> is itself mapped, to Eve <eve@e> by team:10 [itself-mapped]\n"
    "own:2: error: no email in brackets [no-email]\n"
    "own:3: warning: ignored text: \\x1b (an old name needs an email after it) [ignored-text]\n";

static gix_mailmap_status report_both(char *out, size_t room, size_t *needed)
{
    return gix_mailmap_report(BOTH, 2, out, room, needed);
}

/* whatever the length of the buffer, the call writes the whole text or nothing */
static void want_whole(gix_mailmap_status (*call)(char *, size_t, size_t *), const char *text, size_t len)
{
    char out[1024], clean[1024];
    memset(clean, '#', sizeof clean);
    WANT(len + 8 <= sizeof out);
    for (size_t room = 0; room <= len + 8; room++) {
        size_t needed = 99;
        memcpy(out, clean, sizeof out);
        gix_mailmap_status status = call(out, room, &needed);
        WANT(status == (room < len ? GIX_MAILMAP_TOO_SHORT : GIX_MAILMAP_OK) && needed == len);
        WANT(memcmp(out, room < len ? clean : text, len) == 0);
        WANT(memcmp(out + len, clean, sizeof out - len) == 0);
    }
}

static void report(void)
{
    want_whole(report_both, TEXT(REPORT));
    size_t needed = 99;
    gix_mailmap_named none = {NULL, 0, NULL, 0}, nameless = {NULL, 0, TEXT("plain")};
    buffer text = filled();
    WANT(gix_mailmap_report(NULL, 0, NULL, 0, &needed) == GIX_MAILMAP_OK && needed == 0);
    WANT(gix_mailmap_report(&none, 1, NULL, 0, &needed) == GIX_MAILMAP_OK && needed == 0);
    WANT(gix_mailmap_report(&nameless, 1, NULL, 0, &needed) == GIX_MAILMAP_TOO_SHORT && needed == 43);
    WANT(gix_mailmap_report(&nameless, 1, text.bytes, 64, &needed) == GIX_MAILMAP_OK && needed == 43);
    WANT(holds(&text, ":1: error: no email in brackets [no-email]\n"));
    /* lengths with too large a sum */
    gix_mailmap_named huge[2] = {{NULL, 0, "", SIZE_MAX}, {"", SIZE_MAX, "", 2}};
    WANT(gix_mailmap_report(huge, 1, NULL, 0, &needed) == GIX_MAILMAP_OUT_OF_MEMORY && needed == 0);
    WANT(gix_mailmap_report(huge, 2, NULL, 0, &needed) == GIX_MAILMAP_OUT_OF_MEMORY && needed == 0);
}

/* contacts with findings of each level, beside a mailmap with a line that none of them needs */
static const gix_mailmap_named BESIDE[1] = {{TEXT("own"), TEXT("Joe <joe@x>\nplain\n")}};
static const gix_mailmap_named HISTORY = {
    TEXT("his\x1btory"), TEXT("Jane <jane@x>\njane\xff <JANE@x>\n\nplain\nJane <jane@x>\nJane <q@x>")};
static const char BESIDE_LINES[] =
    "own:1: warning: no contact needs it [unneeded]\n"
    "own:2: error: no email in brackets [no-email]\n"
    "his\\x1btory:2: warning: jane\xff <JANE@x> (1) has the email of Jane <jane@x> (2) [same-email]\n"
    "his\\x1btory:4: error: no contact [no-contact]\n"
    "his\\x1btory:6: note: Jane <q@x> (1) has the name of Jane <jane@x> (2) [same-name]\n";
/* what the objects of these findings hold, among other members */
static const char *const MEMBERS[] = {
    "\"kind\":\"unneeded\"", "\"level\":\"warning\"", "\"line\":1", "\"text\":\"no contact needs it\"", "}\n",
    "\"kind\":\"no-email\"", "\"level\":\"error\"", "\"line\":2", "\"text\":\"no email in brackets\"", "}\n",
    "\"at\":{\"file\":{\"text\":\"his\\u001btory\"},\"line\":1}", "\"kind\":\"same-email\"", "\"line\":2",
    "\"bytes\":\"amFuZf8gPEpBTkVAeD4gKDEpIGhhcyB0aGUgZW1haWwgb2YgSmFuZSA8amFuZUB4PiAoMik=\"", "}\n",
    "\"kind\":\"no-contact\"", "\"line\":4", "}\n",
    "\"kind\":\"same-name\"", "\"level\":\"note\"", "\"text\":\"Jane <q@x> (1) has the name of Jane <jane@x> (2)\"", "}\n"};

static gix_mailmap_status lines_beside(char *out, size_t room, size_t *needed)
{
    return gix_mailmap_report_as(BESIDE, 1, &HISTORY, GIX_MAILMAP_FORMAT_GCC, out, room, needed);
}

static const char BESIDE_FOR_GITHUB[] =
    "::warning file=own,line=1,title=unneeded::no contact needs it\n"
    "::error file=own,line=2,title=no-email::no email in brackets\n"
    "::warning file=his\\x1btory,line=2,title=same-email::jane\xff <JANE@x> (1) has the email of Jane <jane@x> (2)\n"
    "::error file=his\\x1btory,line=4,title=no-contact::no contact\n"
    "::notice file=his\\x1btory,line=6,title=same-name::Jane <q@x> (1) has the name of Jane <jane@x> (2)\n";

static gix_mailmap_status annotations_beside(char *out, size_t room, size_t *needed)
{
    return gix_mailmap_report_as(BESIDE, 1, &HISTORY, GIX_MAILMAP_FORMAT_GITHUB, out, room, needed);
}

static gix_mailmap_status objects_beside(char *out, size_t room, size_t *needed)
{
    return gix_mailmap_report_as(BESIDE, 1, &HISTORY, GIX_MAILMAP_FORMAT_JSON, out, room, needed);
}

/* a finding in words as the report as lines has it, with the other line and what is named; escapes aside */
static bool is_notice(const gix_mailmap_notice *n, const char *texts, const char *words)
{
    char line[256];
#define PART(place) (int)place.len, texts + place.start
    snprintf(line, sizeof line, "%.*s:%zu: %.*s: %.*s [%.*s] %.*s:%zu %.*s <%.*s> %zu, %.*s <%.*s> %zu", PART(n->file),
             n->line, PART(n->level), PART(n->message), PART(n->kind), PART(n->other_file), n->other_line,
             PART(n->named.name), PART(n->named.email), n->named.count, PART(n->beside.name), PART(n->beside.email),
             n->beside.count);
    return strcmp(line, words) == 0;
}

#define UNNOTICED \
    {97, 98, {1, 2}, {3, 4}, {5, 6}, {7, 8}, {9, 10}, {{11, 12}, {13, 14}, 15}, {{16, 17}, {18, 19}, 20}}

static void notices(void)
{
    static const char *const WORDS[] = {
        "own:1: warning: no contact needs it [unneeded] :0  <> 0,  <> 0",
        "own:2: error: no email in brackets [no-email] :0  <> 0,  <> 0",
        "his\x1btory:2: warning: jane\xff <JANE@x> (1) has the email of Jane <jane@x> (2) [same-email] his\x1btory:1 "
        "jane\xff <JANE@x> 1, Jane <jane@x> 2",
        "his\x1btory:4: error: no contact [no-contact] :0  <> 0,  <> 0",
        "his\x1btory:6: note: Jane <q@x> (1) has the name of Jane <jane@x> (2) [same-name] his\x1btory:1 "
        "Jane <q@x> 1, Jane <jane@x> 2"};
    gix_mailmap_notice found[6], unfound = UNNOTICED;
    char texts[512], clean[512];
    size_t needed = 99, len = 99;
    memset(clean, '#', sizeof clean);
    WANT(gix_mailmap_notices(BESIDE, 1, &HISTORY, NULL, 0, NULL, 0, &needed, &len) == GIX_MAILMAP_TOO_SHORT);
    WANT(needed == 5 && len > 200 && len < sizeof texts);
    size_t all = len;
    for (size_t room = 4; room <= 6; room++) {
        for (size_t texts_room = all - 1; texts_room <= all + 1; texts_room++) {
            for (size_t i = 0; i < 6; i++)
                found[i] = unfound;
            memcpy(texts, clean, sizeof texts);
            gix_mailmap_status status = gix_mailmap_notices(BESIDE, 1, &HISTORY, found, room, texts, texts_room, &needed, &len);
            bool fits = room >= 5 && texts_room >= all;
            WANT(status == (fits ? GIX_MAILMAP_OK : GIX_MAILMAP_TOO_SHORT) && needed == 5 && len == all);
            for (size_t i = 0; i < 5; i++)
                WANT(fits ? is_notice(&found[i], texts, WORDS[i]) : memcmp(&found[i], &unfound, sizeof unfound) == 0);
            WANT(memcmp(&found[5], &unfound, sizeof unfound) == 0);
            WANT(memcmp(fits ? texts + all : texts, clean, sizeof texts - (fits ? all : 0)) == 0);
        }
    }
    /* without contacts, and without anything */
    gix_mailmap_named none = {NULL, 0, NULL, 0}, huge = {"", SIZE_MAX, "", 2};
    WANT(gix_mailmap_notices(BESIDE, 1, NULL, found, 6, texts, sizeof texts, &needed, &len) == GIX_MAILMAP_OK);
    WANT(needed == 1 && is_notice(&found[0], texts, WORDS[1]));
    WANT(gix_mailmap_notices(NULL, 0, &none, NULL, 0, NULL, 0, &needed, &len) == GIX_MAILMAP_OK && needed == 0 && len == 0);
    needed = len = 99;
    WANT(gix_mailmap_notices(&huge, 1, NULL, NULL, 0, NULL, 0, &needed, &len) == GIX_MAILMAP_OUT_OF_MEMORY);
    WANT(needed == 0 && len == 0);
}

static void report_as(void)
{
    want_whole(lines_beside, TEXT(BESIDE_LINES));
    want_whole(annotations_beside, TEXT(BESIDE_FOR_GITHUB));
    size_t needed = 99;
    char out[2048] = "";
    WANT(objects_beside(out, sizeof out - 1, &needed) == GIX_MAILMAP_OK && needed < sizeof out);
    out[needed] = 0;
    const char *at = out;
    for (size_t i = 0; i < sizeof MEMBERS / sizeof MEMBERS[0] && at != NULL; i++) {
        at = strstr(at, MEMBERS[i]);
        want(at != NULL, MEMBERS[i], __LINE__);
    }
    WANT(at != NULL && strcmp(at, "}\n") == 0);
    WANT(objects_beside(out, needed - 1, &needed) == GIX_MAILMAP_TOO_SHORT && needed == strlen(out));
    /* without contacts, and without anything */
    gix_mailmap_named none = {NULL, 0, NULL, 0}, huge = {"", SIZE_MAX, "", 2};
    WANT(gix_mailmap_report_as(BOTH, 2, NULL, GIX_MAILMAP_FORMAT_GCC, out, sizeof out, &needed) == GIX_MAILMAP_OK);
    WANT(needed == sizeof REPORT - 1 && memcmp(out, REPORT, needed) == 0);
    WANT(gix_mailmap_report_as(BESIDE, 1, NULL, GIX_MAILMAP_FORMAT_JSON, out, sizeof out, &needed) == GIX_MAILMAP_OK);
    out[needed] = 0;
    WANT(strstr(out, "no-email") != NULL && strstr(out, "unneeded") == NULL);
    WANT(gix_mailmap_report_as(NULL, 0, &none, GIX_MAILMAP_FORMAT_JSON, NULL, 0, &needed) == GIX_MAILMAP_OK);
    WANT(needed == 0);
    WANT(gix_mailmap_report_as(&huge, 1, &none, GIX_MAILMAP_FORMAT_GCC, NULL, 0, &needed) == GIX_MAILMAP_OUT_OF_MEMORY);
    WANT(needed == 0);
}

/* the place of an empty text may be anywhere */
static bool is_place(gix_mailmap_place place, size_t start, size_t len)
{
    return place.len == len && (len == 0 || place.start == start);
}

/* the number of a line, its kind, and the places of its texts */
typedef struct parsing {
    size_t line;
    int kind;
    gix_mailmap_place text, new_name, new_email, old_name, old_email;
} parsing;

static bool is_parsed(gix_mailmap_parsed p, parsing w)
{
    return p.line == w.line && (int)p.kind == w.kind && is_place(p.text, w.text.start, w.text.len)
           && is_place(p.new_name, w.new_name.start, w.new_name.len)
           && is_place(p.new_email, w.new_email.start, w.new_email.len)
           && is_place(p.old_name, w.old_name.start, w.old_name.len)
           && is_place(p.old_email, w.old_email.start, w.old_email.len);
}

/* Each form of an entry and each fault. The white space in front is of two, three and one bytes; bytes that are no UTF-8
 * stay, also one that ends white space. */
static const char PARSED[] =
    "# us\n"
    "\xc2\xa0Jane <\xe3\x80\x80jane@x> \t<jd@y >\r\n"
    "\n"
    " Joe<joe@x>\n"
    "<a@x> b <>c\n"
    "N <n@x> O\xe2\x80\x80\x80 <o@x>\n"
    "plain\n"
    "N <n@x\n"
    "N < > <n@x>\n"
    " \t\n"
    "<n@x> <o@x";
static const parsing PARSINGS[] = {
    {2, 0, {7, 25}, {7, 4}, {16, 6}, {0, 0}, {26, 4}},
    {4, 0, {36, 10}, {36, 3}, {0, 0}, {0, 0}, {40, 5}},
    {5, 0, {47, 11}, {0, 0}, {48, 3}, {53, 1}, {0, 0}},
    {6, 0, {59, 19}, {59, 1}, {62, 3}, {67, 5}, {74, 3}},
    {7, GIX_MAILMAP_NO_EMAIL, {79, 5}, {0, 0}, {0, 0}, {0, 0}, {0, 0}},
    {8, GIX_MAILMAP_MISSING_CLOSING_BRACKET, {85, 6}, {0, 0}, {0, 0}, {0, 0}, {0, 0}},
    {9, GIX_MAILMAP_EMPTY_EMAIL, {92, 11}, {0, 0}, {0, 0}, {0, 0}, {0, 0}},
    {11, GIX_MAILMAP_NOTHING_TO_MAP, {107, 10}, {0, 0}, {0, 0}, {0, 0}, {0, 0}},
};

static void parse(void)
{
    enum { COUNT = sizeof PARSINGS / sizeof PARSINGS[0] };
    long requests_before = requests;
    gix_mailmap_cursor cursor = {0, 0};
    gix_mailmap_parsed parsed;
    for (size_t i = 0; i < COUNT; i++) {
        WANT(gix_mailmap_parse(TEXT(PARSED), &cursor, &parsed) == GIX_MAILMAP_OK);
        if (!is_parsed(parsed, PARSINGS[i])) {
            fprintf(stderr, "line %zu: kind %d, text {%zu, %zu}, places {%zu, %zu} {%zu, %zu} {%zu, %zu} {%zu, %zu}\n",
                    parsed.line, (int)parsed.kind, parsed.text.start, parsed.text.len, parsed.new_name.start,
                    parsed.new_name.len, parsed.new_email.start, parsed.new_email.len, parsed.old_name.start,
                    parsed.old_name.len, parsed.old_email.start, parsed.old_email.len);
            failures++;
        }
    }
    gix_mailmap_cursor end = cursor;
    WANT(cursor.start == sizeof PARSED - 1 && cursor.lines == 11);
    WANT(gix_mailmap_parse(TEXT(PARSED), &cursor, &parsed) == GIX_MAILMAP_NO_ENTRY);
    WANT(cursor.start == end.start && cursor.lines == end.lines && is_parsed(parsed, PARSINGS[COUNT - 1]));
    /* from a place within a text, after its end, and with the largest number of a line */
    cursor = (gix_mailmap_cursor){35, SIZE_MAX};
    WANT(gix_mailmap_parse(TEXT(PARSED), &cursor, &parsed) == GIX_MAILMAP_OK);
    WANT(parsed.line == SIZE_MAX && is_place(parsed.text, 36, 10) && cursor.start == 47 && cursor.lines == SIZE_MAX);
    const size_t ends[] = {sizeof PARSED - 1, sizeof PARSED, SIZE_MAX};
    for (size_t i = 0; i < 3; i++) {
        cursor = (gix_mailmap_cursor){ends[i], 0};
        WANT(gix_mailmap_parse(TEXT(PARSED), &cursor, &parsed) == GIX_MAILMAP_NO_ENTRY && cursor.start == ends[i]);
    }
    cursor = (gix_mailmap_cursor){0, 0};
    WANT(gix_mailmap_parse(NULL, 0, &cursor, &parsed) == GIX_MAILMAP_NO_ENTRY);
    WANT(gix_mailmap_parse(TEXT("#\n\n# a <b>"), &cursor, &parsed) == GIX_MAILMAP_NO_ENTRY && cursor.start == 0);
    WANT(requests == requests_before);
}

/* two mailmaps that together map a contact, and contacts with each answer */
static const gix_mailmap_named GIVING[2] = {
    {TEXT("team"), TEXT("Jane Doe <jane@x>\n<jane@x> <jd@y>\n")}, {TEXT("own"), TEXT("Jane Doe <jd@y>\nI\x1b <i@x>")}};
static const char EXPLAINED[] = "jd <JD@y>\r\n\n  jane  <jane@x>\nbob <b@x>\nplain\ni <i@x>";
static const char EXPLANATION[] =
    "jd <JD@y> is Jane Doe <jane@x> by team:2, own:1\n"
    "jane <jane@x> is Jane Doe <jane@x> by team:1\n"
    "bob <b@x> is not mapped\n"
    "plain is no contact\n"
    "i <i@x> is I\\x1b <i@x> by own:2\n";

static gix_mailmap_status explain_giving(char *out, size_t room, size_t *needed)
{
    return gix_mailmap_explain(GIVING, 2, TEXT(EXPLAINED), out, room, needed);
}

static void explain(void)
{
    want_whole(explain_giving, TEXT(EXPLANATION));
    size_t needed = 99;
    buffer text = filled();
    gix_mailmap_named nameless = {NULL, 0, TEXT("N <a@x>")}, huge = {"", SIZE_MAX, "", 2};
    WANT(gix_mailmap_explain(NULL, 0, NULL, 0, NULL, 0, &needed) == GIX_MAILMAP_OK && needed == 0);
    WANT(gix_mailmap_explain(GIVING, 2, NULL, 0, NULL, 0, &needed) == GIX_MAILMAP_OK && needed == 0);
    WANT(gix_mailmap_explain(NULL, 0, TEXT("a <b>"), NULL, 0, &needed) == GIX_MAILMAP_TOO_SHORT && needed == 20);
    WANT(gix_mailmap_explain(NULL, 0, TEXT("a <b>"), text.bytes, 64, &needed) == GIX_MAILMAP_OK && needed == 20);
    WANT(holds(&text, "a <b> is not mapped\n"));
    text = filled();
    WANT(gix_mailmap_explain(&nameless, 1, TEXT("a <a@x>"), text.bytes, 64, &needed) == GIX_MAILMAP_OK && needed == 25);
    WANT(holds(&text, "a <a@x> is N <a@x> by :1\n"));
    WANT(gix_mailmap_explain(&huge, 1, TEXT("a <b>"), NULL, 0, &needed) == GIX_MAILMAP_OUT_OF_MEMORY && needed == 0);
}

/* two mailmaps, the second with a line without effect, and contacts, the first of which needs two lines */
static const gix_mailmap_named NEEDED[2] = {
    {TEXT("team"), TEXT("Joe <joe@x>\n<jane@x> <jd@y>\n")},
    {TEXT("own"), TEXT("Jane Doe <jd@y>\nBob <b@x>\n# Bob\nRobert <b@x>\nplain\nAl <al@x>")}};
static const char NEEDING[] = "jd <JD@y>\r\n\nplain\nbob <c@x>\n";

static bool is_position(gix_mailmap_position p, size_t mailmap, size_t line)
{
    return p.mailmap == mailmap && p.line == line;
}

static void unneeded(void)
{
    gix_mailmap_position listed[4];
    for (size_t room = 0; room <= 4; room++) {
        size_t needed = 99;
        for (size_t i = 0; i < 4; i++)
            listed[i] = (gix_mailmap_position){97, 98};
        gix_mailmap_status status = gix_mailmap_unneeded(NEEDED, 2, TEXT(NEEDING), listed, room, &needed);
        WANT(status == (room < 3 ? GIX_MAILMAP_TOO_SHORT : GIX_MAILMAP_OK) && needed == 3);
        WANT(room < 3 ? is_position(listed[0], 97, 98) : is_position(listed[0], 0, 1));
        WANT(room < 3 ? is_position(listed[1], 97, 98) : is_position(listed[1], 1, 4));
        WANT(room < 3 ? is_position(listed[2], 97, 98) : is_position(listed[2], 1, 6));
        WANT(is_position(listed[3], 97, 98));
    }
    size_t needed = 99;
    gix_mailmap_named nameless = {NULL, 0, TEXT("N <a@x>")}, huge = {NULL, 0, "", SIZE_MAX};
    gix_mailmap_named unread = {(const char *)1, SIZE_MAX, TEXT("N <a@x>")};
    WANT(gix_mailmap_unneeded(NULL, 0, NULL, 0, NULL, 0, &needed) == GIX_MAILMAP_OK && needed == 0);
    WANT(gix_mailmap_unneeded(NULL, 0, TEXT("a <b>"), NULL, 0, &needed) == GIX_MAILMAP_OK && needed == 0);
    WANT(gix_mailmap_unneeded(NEEDED, 2, NULL, 0, NULL, 0, &needed) == GIX_MAILMAP_TOO_SHORT && needed == 5);
    WANT(gix_mailmap_unneeded(&nameless, 1, TEXT("n <a@x>"), NULL, 0, &needed) == GIX_MAILMAP_OK && needed == 0);
    WANT(gix_mailmap_unneeded(&nameless, 1, TEXT("a <b>"), listed, 1, &needed) == GIX_MAILMAP_OK && needed == 1);
    WANT(is_position(listed[0], 0, 1));
    listed[0] = (gix_mailmap_position){97, 98};
    WANT(gix_mailmap_unneeded(&unread, 1, TEXT("a <b>"), listed, 1, &needed) == GIX_MAILMAP_OK && needed == 1);
    WANT(is_position(listed[0], 0, 1));
    WANT(gix_mailmap_unneeded(&huge, 1, TEXT("a <b>"), NULL, 0, &needed) == GIX_MAILMAP_OUT_OF_MEMORY && needed == 0);
}

/* pairs of mailmaps, contacts, and the lines that are suggested for these */
static const struct lacking {
    gix_mailmap_named mailmaps[2];
    const char *contacts, *suggested;
} LACKING[] = {
    /* answers that share an email, and then a name */
    {{{TEXT("team"), TEXT("ann <D@X> <q@x>\n")},
      {TEXT("own"), TEXT("Ann L <q@x> Ann <D@X>\nJane Doe <c@x>\n")}},
     "ann <A@x> 12 +0000\n\xff <b@x>\n\xff <b@x>\na>b <b@x> 12 +0000\na>b <b@x> 12 +0000\na>b <b@x> 12 +0000\nplain\n"
     "ann <A@x> 12 +0000\nplain\n#x <e<f@x>\nAnn <q@x>\nann <A@x> 12 +0000\n",
     "# 3 a>b <b@x>\n# 2 \xff <b@x>\na>b <b@x>\n\n# 3 ann <A@x>\n# 1 ann <D@X>\n#?ann <A@x> <q@x>\n\n"},
    /* an answer of git */
    {{{TEXT(""), TEXT("<A@x> <\xc3\xa9@x>\n<a@x>\n")}, {NULL, 0, TEXT("ann < d@x>\n")}},
     "Ann <d@x> 12 +0000\n",
     "# 1 ann <d@x>\n# 1 Ann <d@x> by git\nann <d@x>\n\n"},
    /* a name that begins as a comment does, and no mailmap */
    {{{NULL, 0, NULL, 0}, {NULL, 0, NULL, 0}},
     "#x <c@x>\n#x <e<f@x>\n#x <c@x>\n#x <c@x>\n",
     "# 3 #x <c@x>\n# 1 #x <e<f@x>\n#? #x <c@x> <e<f@x>\n\n"},
    /* a last mailmap without a line feed at its end */
    {{{NULL, 0, TEXT("1\n")}, {NULL, 0, TEXT("1")}},
     "j <a@x>\nJ <a@x>\n",
     "\n# 1 j <a@x>\n# 1 J <a@x>\nj <a@x>\n\n"},
    /* nothing to suggest */
    {{{TEXT("team"), TEXT("Jane Doe <jd@y>\n")}, {NULL, 0, NULL, 0}}, "jd <jd@y>\nJane <jd@y>\nplain", ""}};
static const struct lacking *lacking;

static gix_mailmap_status suggest_lacking(char *out, size_t room, size_t *needed)
{
    return gix_mailmap_suggest(lacking->mailmaps, 2, lacking->contacts, strlen(lacking->contacts), out, room, needed);
}

static void suggest(void)
{
    for (lacking = LACKING; lacking < LACKING + sizeof LACKING / sizeof LACKING[0]; lacking++)
        want_whole(suggest_lacking, lacking->suggested, strlen(lacking->suggested));
    size_t needed = 99;
    gix_mailmap_named unread = {(const char *)1, SIZE_MAX, TEXT("J <a@x>")}, huge = {NULL, 0, "", SIZE_MAX};
    WANT(gix_mailmap_suggest(NULL, 0, NULL, 0, NULL, 0, &needed) == GIX_MAILMAP_OK && needed == 0);
    WANT(gix_mailmap_suggest(NULL, 0, TEXT("j <a@x>\nJ <a@x>"), NULL, 0, &needed) == GIX_MAILMAP_TOO_SHORT);
    WANT(gix_mailmap_suggest(&unread, 1, TEXT("j <a@x>\nJ <a@x>"), NULL, 0, &needed) == GIX_MAILMAP_OK && needed == 0);
    WANT(gix_mailmap_suggest(&huge, 1, TEXT("a <b>"), NULL, 0, &needed) == GIX_MAILMAP_OUT_OF_MEMORY && needed == 0);
}

static void looked_up(const gix_mailmap *map)
{
    buffer name = filled(), email = filled();
    gix_mailmap_field new_name = {77, true}, new_email = {77, true};
    WANT(gix_mailmap_lookup(map, TEXT("jd"), TEXT("JD@Y"), name.bytes, 8, &new_name, email.bytes, 6, &new_email)
         == GIX_MAILMAP_OK);
    WANT(holds(&name, "Jane Doe") && is_field(new_name, 8, true));
    WANT(holds(&email, "jane@x") && is_field(new_email, 6, true));

    /* fields that the mailmap doesn't set are not marked as given */
    name = email = filled();
    WANT(gix_mailmap_lookup(map, TEXT("q"), TEXT("q@z"), name.bytes, 64, &new_name, email.bytes, 64, &new_email)
         == GIX_MAILMAP_OK);
    WANT(holds(&name, "q") && is_field(new_name, 1, false));
    WANT(holds(&email, "q@z") && is_field(new_email, 3, false));

    /* if one buffer is too short, both are unchanged */
    name = email = filled();
    WANT(gix_mailmap_lookup(map, TEXT("jd"), TEXT("jd@y"), name.bytes, 7, &new_name, email.bytes, 64, &new_email)
         == GIX_MAILMAP_TOO_SHORT);
    WANT(is_field(new_name, 8, true) && is_field(new_email, 6, true));
    WANT(gix_mailmap_lookup(map, TEXT("jd"), TEXT("jd@y"), name.bytes, 64, &new_name, email.bytes, 5, &new_email)
         == GIX_MAILMAP_TOO_SHORT);
    WANT(holds(&name, "") && holds(&email, ""));
}

/* the fields of an entry, by their lengths: -1 for one that isn't there */
static bool is_listed(gix_mailmap_listed e, size_t start, long new_name, long new_email, long old_name, long old_email)
{
    return e.start == start && is_field(e.new_name, new_name < 0 ? 0 : (size_t)new_name, new_name >= 0)
           && is_field(e.new_email, new_email < 0 ? 0 : (size_t)new_email, new_email >= 0)
           && is_field(e.old_name, old_name < 0 ? 0 : (size_t)old_name, old_name >= 0)
           && is_field(e.old_email, (size_t)old_email, true);
}

/* an entry that no call has written */
static const gix_mailmap_listed UNWRITTEN = {99, {98, true}, {97, false}, {96, true}, {95, false}};

static bool is_unwritten(gix_mailmap_listed e)
{
    return e.start == 99 && is_field(e.new_name, 98, true) && is_field(e.new_email, 97, false)
           && is_field(e.old_name, 96, true) && is_field(e.old_email, 95, false);
}

static void listed(const gix_mailmap *map)
{
    size_t entries_len = 77, texts_len = 78;
    gix_mailmap_len(map, &entries_len, &texts_len);
    WANT(entries_len == 2 && texts_len == 26);

    gix_mailmap_listed entries[3] = {UNWRITTEN, UNWRITTEN, UNWRITTEN};
    buffer texts = filled();
    WANT(gix_mailmap_list(map, entries, 2, texts.bytes, 26) == GIX_MAILMAP_OK);
    WANT(is_listed(entries[0], 0, 8, 6, -1, 4) && is_listed(entries[1], 18, 3, -1, -1, 5) && is_unwritten(entries[2]));
    WANT(holds(&texts, "Jane Doejane@xjd@yJoejoe@x"));

    /* if either buffer is too short, both are unchanged */
    entries[0] = entries[1] = UNWRITTEN;
    texts = filled();
    WANT(gix_mailmap_list(map, entries, 1, texts.bytes, 64) == GIX_MAILMAP_TOO_SHORT);
    WANT(gix_mailmap_list(map, entries, 3, texts.bytes, 25) == GIX_MAILMAP_TOO_SHORT);
    WANT(is_unwritten(entries[0]) && is_unwritten(entries[1]) && holds(&texts, ""));

    WANT(gix_mailmap_entry(map, 1, &entries[2], texts.bytes, 8) == GIX_MAILMAP_OK);
    WANT(is_listed(entries[2], 0, 3, -1, -1, 5) && holds(&texts, "Joejoe@x"));
    texts = filled();
    entries[2] = UNWRITTEN;
    WANT(gix_mailmap_entry(map, 0, &entries[2], texts.bytes, 17) == GIX_MAILMAP_TOO_SHORT);
    WANT(is_listed(entries[2], 0, 8, 6, -1, 4) && holds(&texts, ""));
    entries[2] = UNWRITTEN;
    WANT(gix_mailmap_entry(map, 2, &entries[2], texts.bytes, 64) == GIX_MAILMAP_NO_ENTRY);
    WANT(gix_mailmap_entry(map, SIZE_MAX, &entries[2], texts.bytes, 64) == GIX_MAILMAP_NO_ENTRY);
    WANT(is_unwritten(entries[2]) && holds(&texts, ""));
}

static void listing_of_an_empty_one(const gix_mailmap *map)
{
    size_t entries_len = 77, texts_len = 78;
    gix_mailmap_listed entry = UNWRITTEN;
    buffer texts = filled();
    gix_mailmap_len(map, &entries_len, &texts_len);
    WANT(entries_len == 0 && texts_len == 0);
    WANT(gix_mailmap_list(map, &entry, 0, texts.bytes, 0) == GIX_MAILMAP_OK);
    WANT(gix_mailmap_list(map, NULL, 0, NULL, 0) == GIX_MAILMAP_OK);
    WANT(gix_mailmap_entry(map, 0, &entry, texts.bytes, 64) == GIX_MAILMAP_NO_ENTRY);
    WANT(is_unwritten(entry) && holds(&texts, ""));
}

static void written(const gix_mailmap *map)
{
    size_t needed = 99;
    buffer out = filled();
    WANT(gix_mailmap_write(map, out.bytes, 39, &needed) == GIX_MAILMAP_OK && needed == 39);
    WANT(holds(&out, " Jane Doe <jane@x> <jd@y>\n Joe <joe@x>\n"));
    out = filled();
    WANT(gix_mailmap_write(map, out.bytes, 38, &needed) == GIX_MAILMAP_TOO_SHORT && needed == 39 && holds(&out, ""));
}

/* a lookup, with the expected answers */
static void maps(const gix_mailmap *map, const char *name, const char *email, const char *wanted)
{
    buffer new_name = filled(), new_email = filled();
    char found[132];
    gix_mailmap_field name_field, email_field;
    WANT(gix_mailmap_lookup(map, name, strlen(name), email, strlen(email), new_name.bytes, 64, &name_field,
                            new_email.bytes, 64, &email_field) == GIX_MAILMAP_OK);
    snprintf(found, sizeof found, "%.*s <%.*s>", (int)name_field.len, new_name.bytes, (int)email_field.len,
             new_email.bytes);
    want(strcmp(found, wanted) == 0, wanted, __LINE__);
}

static void changes(void)
{
    gix_mailmap *map;
    WANT(gix_mailmap_open(&map, TEXT(MAP)) == GIX_MAILMAP_OK);
    looked_up(map);
    listed(map);
    written(map);
    WANT(gix_mailmap_add(map, TEXT("JD <jd@y>\nnot an entry\n")) == GIX_MAILMAP_OK);
    maps(map, "jd", "jd@y", "JD <jane@x>");
    gix_mailmap_close(map);
    gix_mailmap_close(NULL);
    WANT(gix_mailmap_open(&map, TEXT("")) == GIX_MAILMAP_OK);
    listing_of_an_empty_one(map);
    gix_mailmap_close(map);
}

/* the four texts of an entry: NULL for none */
static gix_mailmap_status add_entry(gix_mailmap *map, const char *new_name, const char *new_email, const char *old_name,
                                    const char *old_email)
{
    return gix_mailmap_add_entry(map, new_name, new_name ? strlen(new_name) : 0, new_email,
                                 new_email ? strlen(new_email) : 0, old_name, old_name ? strlen(old_name) : 0,
                                 old_email, old_email ? strlen(old_email) : 0);
}

static void entries(void)
{
    gix_mailmap *map;
    size_t needed = 99;
    buffer out = filled();
    WANT(gix_mailmap_open(&map, NULL, 0) == GIX_MAILMAP_OK);
    /* nothing new, and an old name without a new email */
    WANT(add_entry(map, NULL, NULL, NULL, "a@x") == GIX_MAILMAP_NOT_AN_ENTRY);
    WANT(add_entry(map, "", "", "a", "a@x") == GIX_MAILMAP_NOT_AN_ENTRY);
    WANT(add_entry(map, "A", NULL, "a", "a@x") == GIX_MAILMAP_NOT_AN_ENTRY);
    listing_of_an_empty_one(map);
    WANT(add_entry(map, "B", NULL, NULL, "b@x") == GIX_MAILMAP_OK);
    WANT(add_entry(map, NULL, "c@y", NULL, "c@x") == GIX_MAILMAP_OK);
    WANT(add_entry(map, NULL, "d@y", "d", "d@x") == GIX_MAILMAP_OK);
    WANT(add_entry(map, "E", "e@y", NULL, "e@x") == GIX_MAILMAP_OK);
    WANT(add_entry(map, "F", "f@y", "f", "f@x") == GIX_MAILMAP_OK);
    WANT(add_entry(map, "None", NULL, NULL, NULL) == GIX_MAILMAP_OK);
    maps(map, "x", "B@X", "B <b@x>");
    maps(map, "x", "c@x", "x <c@y>");
    maps(map, "D", "d@x", "D <d@y>");
    maps(map, "x", "d@x", "x <d@x>");
    maps(map, "x", "e@x", "E <e@y>");
    maps(map, "f", "f@x", "F <f@y>");
    maps(map, "x", "", "None <>");
    /* the name of the empty email is the first entry, and no line can hold it */
    WANT(gix_mailmap_write(map, out.bytes, 64, &needed) == GIX_MAILMAP_UNWRITABLE && needed == 0 && holds(&out, ""));
    gix_mailmap_close(map);

    /* no text is parsed */
    WANT(gix_mailmap_open(&map, NULL, 0) == GIX_MAILMAP_OK);
    WANT(add_entry(map, "# J > <", " j@x\n", NULL, "jd@y> <z@z") == GIX_MAILMAP_OK);
    maps(map, "x", "jd@y> <z@z", "# J > < < j@x\n>");
    maps(map, "x", "jd@y", "x <jd@y>");
    WANT(gix_mailmap_write(map, NULL, 0, &needed) == GIX_MAILMAP_UNWRITABLE && needed == 0);
    WANT(gix_mailmap_add(map, TEXT("A <a@x>")) == GIX_MAILMAP_OK);
    WANT(gix_mailmap_write(map, NULL, 0, &needed) == GIX_MAILMAP_UNWRITABLE && needed == 1);
    gix_mailmap_close(map);
}

static void copies_and_merges(void)
{
    gix_mailmap *map, *other, *copy;
    WANT(gix_mailmap_open(&map, TEXT("Jane Doe <jane@x> <jd@y>")) == GIX_MAILMAP_OK);
    WANT(gix_mailmap_open(&other, TEXT("JD <JD@y>\nNew <new@x> old <q@z>")) == GIX_MAILMAP_OK);
    WANT(gix_mailmap_copy(&copy, map) == GIX_MAILMAP_OK);
    WANT(gix_mailmap_merge(map, other) == GIX_MAILMAP_OK);
    /* a later name replaces only the name, and the first spelling stays */
    maps(map, "jd", "jd@y", "JD <jane@x>");
    maps(map, "old", "q@z", "New <new@x>");
    WANT(gix_mailmap_merge(map, map) == GIX_MAILMAP_OK);
    maps(map, "jd", "jd@y", "JD <jane@x>");
    /* the others are as they were, and a copy outlives what it was made of */
    maps(other, "jd", "jd@y", "JD <JD@y>");
    gix_mailmap_close(map);
    maps(copy, "jd", "jd@y", "Jane Doe <jane@x>");
    maps(copy, "old", "q@z", "old <q@z>");
    WANT(gix_mailmap_merge(other, copy) == GIX_MAILMAP_OK);
    maps(other, "jd", "jd@y", "Jane Doe <jane@x>");
    gix_mailmap_close(copy);
    gix_mailmap_close(other);
}

/* Reads all unread answers of a stream, with buffers of this length, to `to`. Returns the number of bytes. */
static size_t read_all(gix_mailmap_stream *stream, size_t room, char *to)
{
    size_t len = 0, count;
    do {
        buffer out = filled(), clean = filled();
        count = gix_mailmap_stream_read(stream, out.bytes, room);
        WANT(count <= room && memcmp(out.bytes + count, clean.bytes, sizeof clean.bytes - count) == 0);
        memcpy(to + len, out.bytes, count);
        len += count;
    } while (count > 0);
    return len;
}

static const char CONTACTS[] = "jd <JD@y>\r\nplain\n\njoe <joe@x>\njane <jd@y>";
static const char ANSWERS[] = "Jane Doe <jane@x>\nplain\n\nJoe <joe@x>\nJane Doe <jane@x>\n";

/* contacts in parts of one length, and their answers read by buffers of another */
static void streamed(gix_mailmap_stream *stream, size_t step, size_t room)
{
    char all[sizeof ANSWERS];
    size_t len = 0, taken = 99;
    for (size_t at = 0; at < sizeof CONTACTS - 1; at += taken) {
        size_t left = sizeof CONTACTS - 1 - at, part = step < left ? step : left;
        WANT(gix_mailmap_stream_push(stream, CONTACTS + at, part, &taken) == GIX_MAILMAP_OK && taken == part);
        len += read_all(stream, room, all + len);
    }
    WANT(len == 37);
    WANT(gix_mailmap_stream_finish(stream) == GIX_MAILMAP_OK);
    len += read_all(stream, room, all + len);
    WANT(len == sizeof ANSWERS - 1 && memcmp(all, ANSWERS, len) == 0);
}

static void streams(void)
{
    gix_mailmap_stream *stream;
    size_t taken = 99;
    WANT(gix_mailmap_stream_open(&stream, TEXT(MAP)) == GIX_MAILMAP_OK);
    for (size_t step = 1; step < sizeof CONTACTS; step++)
        for (size_t room = 1; room < sizeof ANSWERS; room++)
            streamed(stream, step, room);
    /* no answer is left, and without contacts there are none */
    buffer out = filled();
    WANT(gix_mailmap_stream_finish(stream) == GIX_MAILMAP_OK);
    WANT(gix_mailmap_stream_push(stream, NULL, 0, &taken) == GIX_MAILMAP_OK && taken == 0);
    WANT(gix_mailmap_stream_read(stream, out.bytes, 64) == 0 && holds(&out, ""));
    /* a read without a buffer leaves the unread answers, and closing with unread answers is allowed */
    WANT(gix_mailmap_stream_push(stream, TEXT("a\nb"), &taken) == GIX_MAILMAP_OK && taken == 3);
    WANT(gix_mailmap_stream_read(stream, NULL, 0) == 0);
    WANT(gix_mailmap_stream_read(stream, out.bytes, 1) == 1 && holds(&out, "a"));
    gix_mailmap_stream_close(stream);
    gix_mailmap_stream_close(NULL);
    WANT(gix_mailmap_stream_open(&stream, NULL, 0) == GIX_MAILMAP_OK);
    WANT(gix_mailmap_stream_push(stream, TEXT("jd <jd@y>\n"), &taken) == GIX_MAILMAP_OK && taken == 10);
    out = filled();
    WANT(gix_mailmap_stream_read(stream, out.bytes, 64) == 10 && holds(&out, "jd <jd@y>\n"));
    gix_mailmap_stream_close(stream);
}

/* more answers than a stream buffers: a push takes only a part of its bytes, and the rest after these are read */
static void long_streams(void)
{
    enum { LINES = 40000 };
    gix_mailmap_stream *stream;
    char *contacts = malloc(2 * LINES), *all = malloc(2 * LINES);
    if (contacts == NULL || all == NULL)
        abort();
    for (size_t i = 0; i < LINES; i++)
        memcpy(contacts + 2 * i, i % 2 ? "a\n" : "b\n", 2);
    WANT(gix_mailmap_stream_open(&stream, TEXT(MAP)) == GIX_MAILMAP_OK);
    size_t taken = 0, at = 0, len = 0, pushes = 0;
    for (; at < 2 * LINES; at += taken, pushes++) {
        WANT(gix_mailmap_stream_push(stream, contacts + at, 2 * LINES - at, &taken) == GIX_MAILMAP_OK && taken > 0);
        for (size_t count; (count = gix_mailmap_stream_read(stream, all + len, 4096)) > 0; len += count)
            ;
    }
    WANT(pushes == 2 && len == 2 * LINES && memcmp(all, contacts, len) == 0);
    gix_mailmap_stream_close(stream);
    free(contacts);
    free(all);
}

/* the memory of a long answer is freed once it is read */
static void long_answers(void)
{
    enum { LEN = 4000000 };
    gix_mailmap_stream *stream;
    char *map = malloc(LEN + 6), out[4096];
    if (map == NULL)
        abort();
    memset(map, 'n', LEN);
    memcpy(map + LEN, " <a@x>", 6);
    WANT(gix_mailmap_stream_open(&stream, map, LEN + 6) == GIX_MAILMAP_OK);
    size_t before = in_use, taken = 0, len = 0, most = 0;
    for (int round = 0; round < 3; round++) {
        WANT(gix_mailmap_stream_push(stream, TEXT("a <a@x>\n"), &taken) == GIX_MAILMAP_OK && taken == 8);
        most = in_use > most ? in_use : most;
        for (size_t count; (count = gix_mailmap_stream_read(stream, out, sizeof out)) > 0; len += count)
            ;
        WANT(in_use <= before + 500000);
    }
    WANT(len == 3 * (LEN + 7) && most >= before + LEN);
    gix_mailmap_stream_close(stream);
    free(map);
}

/* NULL for each text, buffer and array of length 0, which also asks for a size */
static void nulls(void)
{
    gix_mailmap *map;
    size_t needed = 99;
    gix_mailmap_field new_name = {77, true}, new_email = {77, true};
    gix_mailmap_listed entry = UNWRITTEN;
    WANT(gix_mailmap_open(&map, NULL, 0) == GIX_MAILMAP_OK && gix_mailmap_add(map, NULL, 0) == GIX_MAILMAP_OK);
    WANT(gix_mailmap_lookup(map, NULL, 0, NULL, 0, NULL, 0, &new_name, NULL, 0, &new_email) == GIX_MAILMAP_OK);
    WANT(is_field(new_name, 0, false) && is_field(new_email, 0, false));
    WANT(gix_mailmap_write(map, NULL, 0, &needed) == GIX_MAILMAP_OK && needed == 0);
    WANT(gix_mailmap_add(map, TEXT(MAP)) == GIX_MAILMAP_OK);
    WANT(gix_mailmap_lookup(map, TEXT("jd"), TEXT("jd@y"), NULL, 0, &new_name, NULL, 0, &new_email)
         == GIX_MAILMAP_TOO_SHORT);
    WANT(is_field(new_name, 8, true) && is_field(new_email, 6, true));
    WANT(gix_mailmap_list(map, NULL, 0, NULL, 0) == GIX_MAILMAP_TOO_SHORT);
    WANT(gix_mailmap_entry(map, 1, &entry, NULL, 0) == GIX_MAILMAP_TOO_SHORT && is_listed(entry, 0, 3, -1, -1, 5));
    WANT(gix_mailmap_write(map, NULL, 0, &needed) == GIX_MAILMAP_TOO_SHORT && needed == 39);
    gix_mailmap_close(map);
    WANT(gix_mailmap_check(NULL, 0, NULL, 0, NULL, 0, &needed) == GIX_MAILMAP_OK && needed == 0);
    WANT(gix_mailmap_check(NULL, 0, TEXT("a"), NULL, 0, &needed) == GIX_MAILMAP_TOO_SHORT && needed == 2);
    WANT(gix_mailmap_compact(NULL, 0, NULL, 0, &needed) == GIX_MAILMAP_OK && needed == 0);
    WANT(gix_mailmap_compact(TEXT(MAP), NULL, 0, &needed) == GIX_MAILMAP_TOO_SHORT && needed == 39);
    WANT(gix_mailmap_prune(NULL, 0, NULL, 0, &needed) == GIX_MAILMAP_OK && needed == 0);
    WANT(gix_mailmap_prune(TEXT(MAP), NULL, 0, &needed) == GIX_MAILMAP_TOO_SHORT && needed == sizeof MAP - 1);
    WANT(gix_mailmap_verify(NULL, 0, NULL, 0, &needed) == GIX_MAILMAP_OK && needed == 0);
    WANT(gix_mailmap_verify(TEXT(FAULTY), NULL, 0, &needed) == GIX_MAILMAP_TOO_SHORT && needed == 9);
}

static void words(void)
{
    char version[32];
    snprintf(version, sizeof version, "%d.%d.%d", GIX_MAILMAP_VERSION_MAJOR, GIX_MAILMAP_VERSION_MINOR,
             GIX_MAILMAP_VERSION_PATCH);
    WANT(strcmp(version, GIX_MAILMAP_VERSION) == 0 && strcmp(version, gix_mailmap_version()) == 0);
    WANT(strcmp(gix_mailmap_status_text(GIX_MAILMAP_OUT_OF_MEMORY), "out of memory") == 0);
    for (int i = GIX_MAILMAP_OK; i <= GIX_MAILMAP_UNWRITABLE; i++) {
        const char *text = gix_mailmap_status_text((gix_mailmap_status)i);
        WANT(strcmp(text, gix_mailmap_status_text((gix_mailmap_status)(i + 1))) != 0);
        WANT(strcmp(text, gix_mailmap_status_text((gix_mailmap_status)-1)) != 0);
    }
}

/* whether a call succeeded, or ran out of memory with `needed` 0; counts the latter */
static bool is_done(gix_mailmap_status status, const size_t *needed, int *out_of_memory)
{
    *out_of_memory += status == GIX_MAILMAP_OUT_OF_MEMORY;
    return status == GIX_MAILMAP_OK || (status == GIX_MAILMAP_OUT_OF_MEMORY && (needed == NULL || *needed == 0));
}

/* Failed requests that are retried for less memory, and so aren't reported: three for the vector of findings, which
 * grows three times for the nine findings, one for each of the three lists of positions that gix_mailmap_unneeded makes,
 * and one for each of two such lists in each report with contacts. How many gix_mailmap_suggest retries depends on how
 * suggestions are made, so those aren't counted. */
static int made_again;
static long suggest_begins, suggest_ends;

/* The calls without a mailmap, each once: how many ran out of memory. */
static int texts_once(void)
{
    int out_of_memory = 0;
    size_t needed = 99;
    buffer out = filled();
    WANT(is_done(gix_mailmap_check(TEXT(MAP), TEXT("jd <jd@y>"), out.bytes, 64, &needed), &needed, &out_of_memory));
    WANT(holds(&out, needed ? "Jane Doe <jane@x>\n" : ""));
    out = filled();
    WANT(is_done(gix_mailmap_compact(TEXT(MAP), out.bytes, 64, &needed), &needed, &out_of_memory));
    WANT(holds(&out, needed ? " Jane Doe <jane@x> <jd@y>\n Joe <joe@x>\n" : ""));
    out = filled();
    WANT(is_done(gix_mailmap_prune(TEXT(MAP), out.bytes, 64, &needed), &needed, &out_of_memory));
    WANT(holds(&out, needed ? MAP : ""));
    gix_mailmap_finding found[9] = {UNFOUND};
    WANT(is_done(gix_mailmap_verify(TEXT(FAULTY), found, 9, &needed), &needed, &out_of_memory));
    WANT(needed ? needed == 9 && is_finding(found[0], 1, GIX_MAILMAP_NO_EMAIL, 0) : is_finding(found[0], 99, 98, 97));
    char all[sizeof REPORT] = "#";
    WANT(is_done(gix_mailmap_report(BOTH, 2, all, sizeof all, &needed), &needed, &out_of_memory));
    WANT(needed ? needed == sizeof REPORT - 1 && memcmp(all, REPORT, needed) == 0 : all[0] == '#');
    /* no contact, so that no suggestion is made */
    const gix_mailmap_named plain = {TEXT("h"), TEXT("plain")};
    gix_mailmap_notice notices[3] = {UNNOTICED};
    size_t texts_len = 99;
    all[0] = '#';
    WANT(is_done(gix_mailmap_notices(BESIDE, 1, &plain, notices, 3, all, sizeof all, &needed, &texts_len), &needed,
                 &out_of_memory));
    WANT(needed ? needed == 3 && notices[2].line == 1 : notices[0].line == 97 && texts_len == 0 && all[0] == '#');
    char objects[2048] = "#";
    WANT(is_done(gix_mailmap_report_as(BESIDE, 1, &plain, GIX_MAILMAP_FORMAT_JSON, objects, sizeof objects, &needed),
                 &needed, &out_of_memory));
    WANT(needed ? objects[0] == '{' && objects[needed - 1] == '\n' : objects[0] == '#');
    all[0] = '#';
    WANT(is_done(gix_mailmap_explain(GIVING, 2, TEXT(EXPLAINED), all, sizeof all, &needed), &needed, &out_of_memory));
    WANT(needed ? needed == sizeof EXPLANATION - 1 && memcmp(all, EXPLANATION, needed) == 0 : all[0] == '#');
    gix_mailmap_position listed[3] = {{97, 98}};
    WANT(is_done(gix_mailmap_unneeded(NEEDED, 2, TEXT(NEEDING), listed, 3, &needed), &needed, &out_of_memory));
    WANT(needed ? needed == 3 && is_position(listed[2], 1, 6) : is_position(listed[0], 97, 98));
    const char *suggested = LACKING[1].suggested;
    all[0] = '*';
    lacking = &LACKING[1];
    suggest_begins = requests;
    WANT(is_done(suggest_lacking(all, sizeof all, &needed), &needed, &out_of_memory));
    suggest_ends = requests;
    WANT(needed ? needed == strlen(suggested) && memcmp(all, suggested, needed) == 0 : all[0] == '*');
    return out_of_memory;
}

/* Those with one, each once, and open once more if it ran out of memory: how many ran out of memory. */
static int calls_once(void)
{
    int out_of_memory = 0;
    gix_mailmap *map;
    if (!is_done(gix_mailmap_open(&map, TEXT(MAP)), NULL, &out_of_memory) || out_of_memory)
        WANT(map == NULL && gix_mailmap_open(&map, TEXT(MAP)) == GIX_MAILMAP_OK);
    gix_mailmap_status added = gix_mailmap_add(map, TEXT("New <new@x> <q@z>"));
    gix_mailmap_status entry = gix_mailmap_add_entry(map, TEXT("Own"), NULL, 0, NULL, 0, TEXT("o@z"));
    WANT(is_done(added, NULL, &out_of_memory) && is_done(entry, NULL, &out_of_memory));
    size_t needed = 99;
    buffer out = filled();
    WANT(is_done(gix_mailmap_write(map, out.bytes, 96, &needed), &needed, &out_of_memory));
    WANT(needed != 0 || holds(&out, ""));
    gix_mailmap *copy;
    gix_mailmap_status copied = gix_mailmap_copy(&copy, map);
    WANT(is_done(copied, NULL, &out_of_memory) && (copy != NULL) == (copied == GIX_MAILMAP_OK));
    gix_mailmap_status merged = copy != NULL ? gix_mailmap_merge(copy, map) : GIX_MAILMAP_OK;
    WANT(is_done(merged, NULL, &out_of_memory));
    if (copy != NULL)
        maps(copy, "jd", "jd@y", "Jane Doe <jane@x>");
    gix_mailmap_close(copy);
    long requests_before = requests;
    WANT(gix_mailmap_add(map, TEXT("plain")) == GIX_MAILMAP_OK);
    WANT(gix_mailmap_add_entry(map, NULL, 0, NULL, 0, TEXT("o"), TEXT("o@z")) == GIX_MAILMAP_NOT_AN_ENTRY);
    maps(map, "q", "q@z", added == GIX_MAILMAP_OK ? "New <new@x>" : "q <q@z>");
    maps(map, "o", "o@z", entry == GIX_MAILMAP_OK ? "Own <o@z>" : "o <o@z>");
    size_t entries_len, texts_len;
    gix_mailmap_len(map, &entries_len, &texts_len);
    WANT(entries_len == 2 + (size_t)(added == GIX_MAILMAP_OK) + (size_t)(entry == GIX_MAILMAP_OK));
    gix_mailmap_listed listed[4];
    WANT(gix_mailmap_list(map, listed, 4, out.bytes, 64) == GIX_MAILMAP_OK);
    WANT(gix_mailmap_entry(map, 1, listed, out.bytes, 64) == GIX_MAILMAP_OK);
    gix_mailmap_close(map);
    WANT(requests == requests_before);
    return out_of_memory;
}

/* Those of a stream, each once, and once more if it ran out of memory: how many did. The answers are the same. */
static int stream_once(void)
{
    int out_of_memory = 0;
    gix_mailmap_stream *stream;
    if (!is_done(gix_mailmap_stream_open(&stream, TEXT(MAP)), NULL, &out_of_memory) || out_of_memory)
        WANT(stream == NULL && gix_mailmap_stream_open(&stream, TEXT(MAP)) == GIX_MAILMAP_OK);
    size_t taken = 99;
    for (size_t at = 0; at < sizeof CONTACTS - 1; at += taken) {
        size_t left = sizeof CONTACTS - 1 - at;
        gix_mailmap_status pushed = gix_mailmap_stream_push(stream, CONTACTS + at, left, &taken);
        WANT(is_done(pushed, &taken, &out_of_memory));
        /* out of memory after some lines */
        out_of_memory += pushed == GIX_MAILMAP_OK && taken < left;
    }
    char all[sizeof ANSWERS];
    int before = out_of_memory;
    if (!is_done(gix_mailmap_stream_finish(stream), NULL, &out_of_memory) || out_of_memory > before)
        WANT(gix_mailmap_stream_finish(stream) == GIX_MAILMAP_OK);
    long requests_before = requests;
    WANT(read_all(stream, 9, all) == sizeof ANSWERS - 1 && memcmp(all, ANSWERS, sizeof ANSWERS - 1) == 0);
    gix_mailmap_stream_close(stream);
    WANT(requests == requests_before);
    return out_of_memory;
}

/* One run in which one request fails: false once there is no request of that number. */
static bool fails(long number)
{
    requests = 0;
    failed_request = number;
    int out_of_memory = texts_once() + calls_once() + stream_once();
    bool is_of_suggest = suggest_begins <= number && number < suggest_ends;
    made_again += number < requests && !out_of_memory && !is_of_suggest;
    WANT(out_of_memory <= (number < requests));
    WANT(blocks == 0);
    failed_request = -1;
    return number < requests;
}

int main(void)
{
    void (*const parts[])(void) = {words,   check_and_compact, prune, verify,  report,       report_as, notices,
                                   explain, unneeded,          parse, suggest, changes,      entries,
                                   streams, long_streams,      nulls, copies_and_merges, long_answers};
    for (size_t i = 0; i < sizeof parts / sizeof parts[0]; i++) {
        parts[i]();
        WANT(blocks == 0);
    }
    long number = 0;
    while (fails(number))
        number++;
    WANT(number > 0 && made_again == 10);
    printf("calls from C: %s, %ld requests for memory failed in turn\n", failures ? "failed" : "passed", number);
    return failures ? 1 : 0;
}
