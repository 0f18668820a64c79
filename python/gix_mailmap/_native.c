/* The extension module gix_mailmap._native: the library for C as types and functions of Python, by the limited API of
 * CPython 3.11. Each call on a mailmap or a stream holds the interpreter's lock, which so protects both. The functions
 * that take only texts, and the reading of a new mailmap, release it. Steps that may run Python code, such as reading a
 * file, come first in each call, and only after them the call checks whether the mailmap is still open. */
#define PY_SSIZE_T_CLEAN
#include <Python.h>
#include <gix_mailmap.h>
#include <stdbool.h>
#include <string.h>

/* The classes and functions of FOR_NATIVE in _results.py, in its order, and the type of mailmaps. The errors of the
 * library have the numbers of its statuses. Each interpreter has a module with its own list. */
enum { CLOSED, NOT_A_LINE, OUT_OF_MEMORY, NO_ENTRY, NOT_AN_ENTRY, UNWRITABLE, ENCODED, ANSWER, ENTRY, MAILMAP };
static PyModuleDef definition;

/* One of these; NULL, with an error set, once the interpreter is shutting down. */
static PyObject *find(int name)
{
    PyObject *module = PyState_FindModule(&definition);
    return module != NULL ? PyList_GetItem(*(PyObject **)PyModule_GetState(module), name)
                          : PyErr_Format(PyExc_RuntimeError, "gix_mailmap is no longer loaded");
}

/* Raises an error, and returns NULL. */
static void *raise_error(int name, const char *words)
{
    PyObject *error = find(name);
    if (error != NULL)
        PyErr_SetString(error, words);
    return NULL;
}

/* Raises OutOfMemory in place of Python's own MemoryError, and leaves any other error. Returns NULL. */
static void *raise_no_memory(void)
{
    if (!PyErr_Occurred() || PyErr_ExceptionMatches(PyExc_MemoryError))
        raise_error(OUT_OF_MEMORY, gix_mailmap_status_text(GIX_MAILMAP_OUT_OF_MEMORY));
    return NULL;
}

static bool is_ok(gix_mailmap_status status)
{
    if (status != GIX_MAILMAP_OK)
        raise_error((int)status, gix_mailmap_status_text(status));
    return status == GIX_MAILMAP_OK;
}

/* The bytes of a text, which its owner keeps alive. */
typedef struct Text {
    const char *at;
    size_t len;
    PyObject *owner;
    bool is_str;
} Text;

/* The bytes of a `str` or a buffer. A buffer may change, so it is copied. */
static PyObject *new_bytes(PyObject *from)
{
    if (!PyUnicode_Check(from))
        return PyBytes_FromObject(from);
    PyObject *encoded = find(ENCODED);
    return encoded != NULL ? PyObject_CallFunctionObjArgs(encoded, from, NULL) : NULL;
}

/* Gets the text of an object, or the rest of an open file. The caller releases the owner by `release`; after an error
 * it is NULL. In a `str` that isn't UTF-8, lone surrogates stand for bytes. */
static bool get_text(PyObject *from, Text *text)
{
    Py_ssize_t len = 0;
    *text = (Text){.is_str = PyUnicode_Check(from)};
    if (text->is_str) {
        text->at = PyUnicode_AsUTF8AndSize(from, &len);
    } else if (PyBytes_CheckExact(from)) {
        text->at = PyBytes_AsString(from), len = PyBytes_Size(from);
    } else if (!PyObject_CheckBuffer(from)) {
        if (!PyObject_HasAttrString(from, "read"))
            return PyErr_Format(PyExc_TypeError, "expected str or bytes, not %R", (PyObject *)Py_TYPE(from));
        PyObject *rest = PyObject_CallMethod(from, "read", NULL);
        bool ok = rest != NULL && get_text(rest, text);
        Py_XDECREF(rest);
        return ok;
    }
    text->owner = text->at != NULL ? Py_NewRef(from) : NULL;
    if (text->at == NULL && (!PyErr_Occurred() || PyErr_ExceptionMatches(PyExc_UnicodeEncodeError))) {
        PyErr_Clear();
        text->owner = new_bytes(from);
        text->at = text->owner != NULL ? PyBytes_AsString(text->owner) : NULL;
        len = text->owner != NULL ? PyBytes_Size(text->owner) : 0;
    }
    text->len = (size_t)len;
    return text->owner != NULL || raise_no_memory();
}

static void release(Text *texts, size_t count)
{
    for (size_t i = 0; i < count; i++)
        Py_CLEAR(texts[i].owner);
}

static bool is_kind(bool is_str, const Text *text)
{
    if (is_str != text->is_str)
        PyErr_SetString(PyExc_TypeError, "str and bytes can't be mixed");
    return is_str == text->is_str;
}

static PyObject *new_text(bool is_str, const char *at, size_t len)
{
    PyObject *made = is_str ? PyUnicode_DecodeUTF8(at, (Py_ssize_t)len, "surrogateescape")
                            : PyBytes_FromStringAndSize(at, (Py_ssize_t)len);
    return made != NULL ? made : raise_no_memory();
}

/* The object that a text came from, if it has exactly these bytes and is immutable, or else a new object. */
static PyObject *same_or_new(const Text *text, PyObject *from, const char *at, size_t len)
{
    bool is_final = PyUnicode_CheckExact(from) || PyBytes_CheckExact(from);
    bool is_same = is_final && len == text->len && memcmp(at, text->at, len) == 0;
    return is_same ? Py_NewRef(from) : new_text(text->is_str, at, len);
}

/* A named tuple of four items, whose references it takes over. After an error some of them are NULL. If nothing else
 * refers to an earlier one, `*last`, it is used again, as `zip` does. From 3.14 on a tuple has a field for its hash,
 * which only tuple's own `__new__` initializes, and that takes longer. */
static PyObject *new_named_tuple(PyObject *class, PyObject *const items[4], PyObject **last)
{
    PyTypeObject *type = (PyTypeObject *)class;
    bool is_plain = Py_Version < 0x030E0000, is_complete = type && items[0] && items[1] && items[2] && items[3];
    bool is_old = is_complete && last != NULL && *last != NULL && Py_REFCNT(*last) == 1;
    PyObject *made = !is_complete ? NULL : is_old ? *last : is_plain ? PyType_GenericAlloc(type, 4) : PyTuple_New(4);
    for (Py_ssize_t i = 0; i < 4; i++)
        made != NULL ? (void)PyTuple_SetItem(made, i, items[i]) : Py_XDECREF(items[i]);
    if (made != NULL && !is_plain) {
        newfunc new = (newfunc)PyType_GetSlot(&PyTuple_Type, Py_tp_new);
        PyObject *tuple = made, *arguments = PyTuple_Pack(1, tuple);
        made = arguments != NULL ? new(type, arguments, NULL) : NULL;
        Py_XDECREF(arguments), Py_DECREF(tuple);
    } else if (made != NULL && last != NULL && !is_old) {
        Py_XDECREF(*last);
        *last = made;
    }
    return made == NULL ? raise_no_memory() : is_plain && last != NULL ? Py_NewRef(made) : made;
}

/* The functions of the library that write into a buffer. */
typedef enum Which { CHECK, COMPACT, PRUNE, VERIFY, REPORT, EXPLAIN, SUGGEST, UNNEEDED, WRITE } Which;

/* The arguments of such a function: texts, mailmaps with their names, or an open mailmap; for a report its format, and
 * contacts or NULL. */
typedef struct Given {
    const Text *texts;
    const gix_mailmap_named *named, *contacts;
    size_t count;
    const gix_mailmap *map;
    gix_mailmap_format format;
} Given;

static gix_mailmap_status write_into(Which which, const Given *given, void *out, size_t out_len, size_t *needed)
{
    const Text *a = &given->texts[0], *b = &given->texts[1];
    switch (which) {
    case CHECK: return gix_mailmap_check(a->at, a->len, b->at, b->len, out, out_len, needed);
    case COMPACT: return gix_mailmap_compact(a->at, a->len, out, out_len, needed);
    case PRUNE: return gix_mailmap_prune(a->at, a->len, out, out_len, needed);
    case VERIFY: return gix_mailmap_verify(a->at, a->len, out, out_len, needed);
    case REPORT: return gix_mailmap_report_as(given->named, given->count, given->contacts, given->format, out, out_len,
                                              needed);
    case EXPLAIN: return gix_mailmap_explain(given->named, given->count, a->at, a->len, out, out_len, needed);
    case SUGGEST: return gix_mailmap_suggest(given->named, given->count, a->at, a->len, out, out_len, needed);
    case UNNEEDED: return gix_mailmap_unneeded(given->named, given->count, a->at, a->len, out, out_len, needed);
    default: return gix_mailmap_write(given->map, out, out_len, needed);
    }
}

/* What such a function writes, to be freed by PyMem_Free: `len` elements of a size. At first `len` is a guess. */
static void *write_to_memory(Which which, const Given *given, size_t size, size_t *len)
{
    gix_mailmap_status status = GIX_MAILMAP_TOO_SHORT;
    void *out = NULL;
    while (status == GIX_MAILMAP_TOO_SHORT) {
        size_t room = *len;
        PyMem_Free(out);
        out = room <= SIZE_MAX / size ? PyMem_Malloc(room * size) : NULL;
        if (out == NULL)
            return raise_no_memory();
        PyThreadState *thread = which != WRITE ? PyEval_SaveThread() : NULL;
        status = write_into(which, given, out, room, len);
        if (thread != NULL)
            PyEval_RestoreThread(thread);
    }
    if (is_ok(status))
        return out;
    PyMem_Free(out);
    return NULL;
}

static PyObject *make_text(Which which, const Given *given, bool is_str, size_t guess)
{
    char *out = write_to_memory(which, given, 1, &guess);
    PyObject *made = out != NULL ? new_text(is_str, out, guess) : NULL;
    PyMem_Free(out);
    return made;
}

/* A list of tuples: line, kind and other line of each finding, or mailmap and line of each position. */
static PyObject *make_rows(Which which, const Given *given)
{
    size_t count = 64, size = which == VERIFY ? sizeof(gix_mailmap_finding) : sizeof(gix_mailmap_position);
    void *out = write_to_memory(which, given, size, &count);
    const gix_mailmap_finding *findings = out;
    const gix_mailmap_position *positions = out;
    PyObject *list = out != NULL ? PyList_New((Py_ssize_t)count) : NULL;
    for (size_t i = 0; list != NULL && i < count; i++) {
        PyObject *row = which == VERIFY
            ? Py_BuildValue("nin", findings[i].line, (int)findings[i].kind, findings[i].beside)
            : Py_BuildValue("nn", positions[i].mailmap, positions[i].line);
        if (row == NULL || PyList_SetItem(list, (Py_ssize_t)i, row) < 0)
            Py_CLEAR(list);
    }
    PyMem_Free(out);
    return list != NULL ? list : raise_no_memory();
}

/* The findings, and their messages in the report on a mailmap without a name. */
static PyObject *make_findings(const Given *given)
{
    const gix_mailmap_named named = {.text = given->texts->at, .text_len = given->texts->len};
    PyObject *rows = make_rows(VERIFY, given);
    PyObject *words = rows != NULL ? make_text(REPORT, &(Given){.named = &named, .count = 1}, true, 4096) : NULL;
    PyObject *both = Py_BuildValue("NN", rows, words);
    return both != NULL ? both : raise_no_memory();
}

/* Calls a function with texts: the contacts, if it takes any, for a report with their name, and then each mailmap's
 * name and its text. */
static PyObject *call(Which which, gix_mailmap_format format, bool has_contacts, PyObject *args)
{
    size_t count = (size_t)PyTuple_Size(args), first = has_contacts ? 1 : 0, guess = 4096;
    Text *texts = PyMem_Calloc(count + 2, sizeof *texts);
    gix_mailmap_named *named = PyMem_Calloc(count / 2 + 1, sizeof *named);
    bool ok = (texts != NULL && named != NULL) || raise_no_memory();
    for (size_t i = 0; ok && i < count; guess += 2 * texts[i++].len)
        ok = get_text(PyTuple_GetItem(args, (Py_ssize_t)i), &texts[i]) && is_kind(texts[0].is_str, &texts[i]);
    for (size_t i = count % 2; ok && i + 1 < count; i += 2)
        named[i / 2] = (gix_mailmap_named){texts[i].at, texts[i].len, texts[i + 1].at, texts[i + 1].len};
    const Given given = {.texts = texts, .named = named + first, .contacts = has_contacts ? named : NULL,
                         .count = count / 2 - first, .format = format};
    PyObject *made = !ok ? NULL
        : which == VERIFY ? make_findings(&given)
        : which == UNNEEDED ? make_rows(which, &given)
        : make_text(which, &given, texts[0].is_str, which != REPORT ? guess : 4096);
    release(texts, texts != NULL ? count : 0);
    PyMem_Free(texts), PyMem_Free(named);
    return made;
}

#define FUNCTIONS(each) each(check, CHECK) each(compact, COMPACT) each(prune, PRUNE) each(verify, VERIFY) \
    each(explain, EXPLAIN) each(suggest, SUGGEST) each(unneeded, UNNEEDED)
#define DEFINED(name, which) \
    static PyObject *name(PyObject *Py_UNUSED(module), PyObject *args) \
    { return call(which, GIX_MAILMAP_FORMAT_GCC, false, args); }
#define LISTED(name, which) {#name, name, METH_VARARGS, NULL},
FUNCTIONS(DEFINED)

/* A report: the number of its format, whether there are contacts, and the texts. */
static PyObject *report(PyObject *Py_UNUSED(module), PyObject *args)
{
    int format, has_contacts;
    PyObject *first = PyTuple_GetSlice(args, 0, 2), *texts = PyTuple_GetSlice(args, 2, PY_SSIZE_T_MAX), *made = NULL;
    bool ok = first != NULL && texts != NULL && PyArg_ParseTuple(first, "ip", &format, &has_contacts);
    if (ok && has_contacts && PyTuple_Size(texts) < 2)
        PyErr_SetString(PyExc_TypeError, "expected contacts with their name");
    else if (ok)
        made = call(REPORT, (gix_mailmap_format)format, has_contacts, texts);
    Py_XDECREF(first), Py_XDECREF(texts);
    return made;
}

/* The lines of a mailmap that give an entry or have a fault: the number of each, the kind of its fault or 0, and where
 * its texts begin and end, in bytes. */
static PyObject *parse(PyObject *Py_UNUSED(module), PyObject *from)
{
    Text text;
    gix_mailmap_cursor cursor = {0, 0};
    gix_mailmap_parsed line;
    PyObject *list = get_text(from, &text) ? PyList_New(0) : NULL;
    while (list != NULL && gix_mailmap_parse(text.at, text.len, &cursor, &line) == GIX_MAILMAP_OK) {
#define ENDS(place) place.start, place.start + place.len
        PyObject *row = Py_BuildValue("ni(nn)(nn)(nn)(nn)(nn)", line.line, (int)line.kind, ENDS(line.text),
                                      ENDS(line.new_name), ENDS(line.new_email), ENDS(line.old_name),
                                      ENDS(line.old_email));
        if (row == NULL || PyList_Append(list, row) < 0)
            Py_CLEAR(list);
        Py_XDECREF(row);
    }
    release(&text, 1);
    return list != NULL ? list : raise_no_memory();
}

/* An object of the type of mailmaps. */
typedef struct Mailmap {
    PyObject_HEAD
    gix_mailmap *map;           /* NULL if it is closed */
    size_t changes;             /* how often it was changed */
    bool is_str, turn;          /* `turn` is the place of the last answer */
    PyObject *answer, *last[2]; /* the type of its answers, and the last two of them */
} Mailmap;

static bool is_open(const Mailmap *mailmap)
{
    return mailmap->map != NULL || raise_error(CLOSED, "the mailmap is closed");
}

static PyObject *mailmap_close(PyObject *self, PyObject *Py_UNUSED(none))
{
    Mailmap *mailmap = (Mailmap *)self;
    gix_mailmap_close(mailmap->map);
    mailmap->map = NULL;
    return Py_NewRef(Py_None);
}

static PyObject *mailmap_closed(PyObject *self, void *Py_UNUSED(closure))
{
    return PyBool_FromLong(((Mailmap *)self)->map == NULL);
}

static PyObject *mailmap_new(PyTypeObject *type, PyObject *Py_UNUSED(args), PyObject *Py_UNUSED(keywords))
{
    PyObject *answer = find(ANSWER), *self = answer != NULL ? PyType_GenericAlloc(type, 0) : NULL;
    if (self != NULL)
        ((Mailmap *)self)->answer = Py_NewRef(answer);
    return self != NULL ? self : raise_no_memory();
}

static void mailmap_dealloc(PyObject *self)
{
    PyTypeObject *type = Py_TYPE(self);
    Mailmap *map = (Mailmap *)self;
    Py_XDECREF(map->answer), Py_XDECREF(map->last[0]), Py_XDECREF(map->last[1]), gix_mailmap_close(map->map);
    ((freefunc)PyType_GetSlot(type, Py_tp_free))(self);
    Py_DECREF(type);
}

/* Adds the entries of a text. The first text of a new mailmap decides whether the mailmap is of `str` or bytes. Nothing
 * else refers to a new mailmap yet, so other threads may run meanwhile. */
static bool add_text(Mailmap *mailmap, PyObject *from, bool is_new)
{
    Text text;
    bool ok = get_text(from, &text);
    mailmap->is_str = is_new && mailmap->changes == 0 ? text.is_str : mailmap->is_str;
    ok = ok && is_kind(mailmap->is_str, &text) && is_open(mailmap);
    if (ok) {
        PyThreadState *thread = is_new ? PyEval_SaveThread() : NULL;
        gix_mailmap_status status = gix_mailmap_add(mailmap->map, text.at, text.len);
        if (thread != NULL)
            PyEval_RestoreThread(thread);
        ok = is_ok(status);
    }
    release(&text, 1);
    mailmap->changes += ok;
    return ok;
}

static PyObject *mailmap_add(PyObject *self, PyObject *text)
{
    return add_text((Mailmap *)self, text, false) ? Py_NewRef(Py_None) : NULL;
}

static PyObject *mailmap_merge(PyObject *self, PyObject *from)
{
    Mailmap *mailmap = (Mailmap *)self, *other = (Mailmap *)from;
    PyObject *class = find(MAILMAP);
    /* An object may say by its `__class__` that it is an instance of any class. */
    bool is_mailmap = class != NULL && PyObject_TypeCheck(from, (PyTypeObject *)class);
    if (class != NULL && !is_mailmap)
        PyErr_Format(PyExc_TypeError, "expected a Mailmap, not %R", (PyObject *)Py_TYPE(from));
    bool ok = is_mailmap && is_kind(mailmap->is_str, &(Text){.is_str = other->is_str}) && is_open(mailmap) &&
              is_open(other) && is_ok(gix_mailmap_merge(mailmap->map, other->map));
    mailmap->changes += ok;
    return ok ? Py_NewRef(Py_None) : NULL;
}

static PyObject *mailmap_copy(PyObject *self, PyObject *Py_UNUSED(none_or_memo))
{
    const Mailmap *mailmap = (Mailmap *)self;
    PyObject *made = is_open(mailmap) ? mailmap_new(Py_TYPE(self), NULL, NULL) : NULL;
    if (made == NULL)
        return NULL;
    Mailmap *copy = (Mailmap *)made;
    copy->is_str = mailmap->is_str;
    if (!is_ok(gix_mailmap_copy(&copy->map, mailmap->map)))
        Py_CLEAR(made);
    return made;
}

static int mailmap_init(PyObject *self, PyObject *texts, PyObject *Py_UNUSED(keywords))
{
    Mailmap *mailmap = (Mailmap *)self, new = {.changes = 0};
    bool is_complete = is_ok(gix_mailmap_open(&new.map, NULL, 0));
    for (Py_ssize_t i = 0; is_complete && i < PyTuple_Size(texts); i++)
        is_complete = add_text(&new, PyTuple_GetItem(texts, i), true);
    gix_mailmap *unused = is_complete ? mailmap->map : new.map;
    if (is_complete)
        mailmap->map = new.map, mailmap->is_str = new.is_str, mailmap->changes++;
    gix_mailmap_close(unused);
    return is_complete ? 0 : -1;
}

/* Why texts make no entry. */
static const char *why_no_entry(const Text texts[4])
{
    return texts[3].owner == NULL ? "an entry has an old email"
        : texts[0].len + texts[1].len == 0 ? "an entry has a new name or a new email"
        : "an entry with an old name has a new email";
}

static PyObject *mailmap_add_entry(PyObject *self, PyObject *entry)
{
    Mailmap *mailmap = (Mailmap *)self;
    PyObject *class = find(ENTRY);
    Text t[4] = {{0}};
    int is_entry = class != NULL ? PyObject_IsInstance(entry, class) : -1;
    bool is_complete = is_entry > 0 && PyTuple_Size(entry) == 4;
    if (!is_complete && is_entry >= 0)
        PyErr_Format(PyExc_TypeError, "expected an Entry, not %R", (PyObject *)Py_TYPE(entry));
    for (Py_ssize_t i = 0; is_complete && i < 4; i++) {
        PyObject *item = PyTuple_GetItem(entry, i);
        if (item != Py_None)
            is_complete = get_text(item, &t[i]) && is_kind(mailmap->is_str, &t[i]);
    }
    is_complete = is_complete && is_open(mailmap);
    gix_mailmap_status status = GIX_MAILMAP_NOT_AN_ENTRY;
    if (is_complete && t[3].owner != NULL)
        status = gix_mailmap_add_entry(mailmap->map, t[0].at, t[0].len, t[1].at, t[1].len, t[2].at, t[2].len, t[3].at,
                                       t[3].len);
    if (is_complete && status == GIX_MAILMAP_NOT_AN_ENTRY)
        raise_error(NOT_AN_ENTRY, why_no_entry(t));
    is_complete = is_complete && status != GIX_MAILMAP_NOT_AN_ENTRY && is_ok(status);
    release(t, 4);
    mailmap->changes += is_complete;
    return is_complete ? Py_NewRef(Py_None) : NULL;
}

/* Looks a contact up, given as two objects and their texts. */
static PyObject *look_up(Mailmap *mailmap, const Text texts[2], PyObject *const from[2])
{
    char usual[512], *more = NULL, *at = usual, *email_at = usual + sizeof usual / 2;
    gix_mailmap_field name = {.len = sizeof usual / 2}, email = name;
    gix_mailmap_status status;
    while ((status = gix_mailmap_lookup(mailmap->map, texts[0].at, texts[0].len, texts[1].at, texts[1].len, at,
                                        name.len, &name, email_at, email.len, &email)) == GIX_MAILMAP_TOO_SHORT) {
        at = more = PyMem_Malloc(name.len + email.len);
        if (more == NULL)
            return raise_no_memory();
        email_at = more + name.len;
    }
    PyObject *new_name = is_ok(status) ? same_or_new(&texts[0], from[0], at, name.len) : NULL;
    PyObject *new_email = new_name != NULL ? same_or_new(&texts[1], from[1], email_at, email.len) : NULL;
    PyObject **last = more == NULL ? &mailmap->last[mailmap->turn ^= true] : NULL; /* which holds no long texts */
    PyMem_Free(more);
    return new_named_tuple(mailmap->answer, (PyObject *const[]){
        new_name, new_email, PyBool_FromLong(name.is_given), PyBool_FromLong(email.is_given)}, last);
}

/* The name and the email may be keyword arguments. These follow the positional ones, in the caller's order. */
static PyObject *mailmap_lookup(PyObject *self, PyObject *const *args, Py_ssize_t count, PyObject *keywords)
{
    static const char *const keyword[] = {"name", "email"};
    Py_ssize_t named = keywords != NULL ? PyTuple_Size(keywords) : 0;
    bool fits = count + named == 2;
    int swapped = named == 2 && PyUnicode_CompareWithASCIIString(PyTuple_GetItem(keywords, 0), "email") == 0;
    for (Py_ssize_t i = 0; fits && i < named; i++)
        fits = PyUnicode_CompareWithASCIIString(PyTuple_GetItem(keywords, i), keyword[(count + i) ^ swapped]) == 0;
    if (!fits)
        return PyErr_Format(PyExc_TypeError, "lookup() takes a name and an email");
    PyObject *const from[] = {args[swapped], args[!swapped]};
    Text texts[2] = {{0}};
    __builtin_prefetch((const char *)from[1] + 64); /* the email, while the name is looked at */
    bool ok = get_text(from[0], &texts[0]) && get_text(from[1], &texts[1]) && is_kind(texts[0].is_str, &texts[1]);
    PyObject *answer = ok && is_open((Mailmap *)self) ? look_up((Mailmap *)self, texts, from) : NULL;
    release(texts, 2);
    return answer;
}

/* The maximum length as a text: besides its texts, a line has two pairs of brackets, four spaces and a line feed. */
static size_t written_len(const Mailmap *mailmap)
{
    size_t entries, texts;
    gix_mailmap_len(mailmap->map, &entries, &texts);
    return texts + 9 * entries;
}

static PyObject *mailmap_write(PyObject *self, PyObject *Py_UNUSED(none))
{
    const Mailmap *map = (Mailmap *)self;
    return is_open(map) ? make_text(WRITE, &(Given){.map = map->map}, map->is_str, written_len(map)) : NULL;
}

static Py_ssize_t mailmap_len(PyObject *self)
{
    size_t entries, texts;
    if (!is_open((Mailmap *)self))
        return -1;
    gix_mailmap_len(((Mailmap *)self)->map, &entries, &texts);
    return (Py_ssize_t)entries;
}

/* An entry; its texts are stored one after another. */
static PyObject *new_entry(bool is_str, const gix_mailmap_listed *listed, const char *texts)
{
    const gix_mailmap_field fields[] = {listed->new_name, listed->new_email, listed->old_name, listed->old_email};
    PyObject *items[4] = {NULL};
    const char *at = texts + listed->start;
    for (int i = 0; i < 4 && (i == 0 || items[i - 1] != NULL); at += fields[i++].len)
        items[i] = fields[i].is_given || i == 3 ? new_text(is_str, at, fields[i].len) : Py_NewRef(Py_None);
    return new_named_tuple(find(ENTRY), items, NULL);
}

/* A list of all entries, or of the one at an index. */
static PyObject *list_entries(const Mailmap *mailmap, const size_t *index)
{
    size_t count, len;
    gix_mailmap_len(mailmap->map, &count, &len);
    count = index != NULL ? 1 : count;
    gix_mailmap_listed *listed = PyMem_Calloc(count, sizeof *listed);
    char *texts = PyMem_Malloc(len);
    PyObject *list = listed != NULL && texts != NULL ? PyList_New((Py_ssize_t)count) : NULL;
    bool is_complete = list != NULL && is_ok(index != NULL
        ? gix_mailmap_entry(mailmap->map, *index, listed, texts, len)
        : gix_mailmap_list(mailmap->map, listed, count, texts, len));
    for (size_t i = 0; is_complete && i < count; i++) {
        PyObject *entry = new_entry(mailmap->is_str, &listed[i], texts);
        is_complete = entry != NULL && PyList_SetItem(list, (Py_ssize_t)i, entry) == 0;
    }
    if (!is_complete)
        Py_CLEAR(list);
    PyMem_Free(listed), PyMem_Free(texts);
    return list != NULL ? list : raise_no_memory();
}

static PyObject *mailmap_entries(PyObject *self, PyObject *Py_UNUSED(none))
{
    return is_open((Mailmap *)self) ? list_entries((Mailmap *)self, NULL) : NULL;
}

static PyObject *mailmap_subscript(PyObject *self, PyObject *key)
{
    bool is_slice = PyObject_TypeCheck(key, &PySlice_Type);
    PyObject *error = find(NO_ENTRY);
    Py_ssize_t at = is_slice || error == NULL ? 0 : PyNumber_AsSsize_t(key, error);
    if (PyErr_Occurred() || !is_open((Mailmap *)self))
        return NULL;
    size_t index = (size_t)(at < 0 ? at + mailmap_len(self) : at);
    PyObject *list = is_slice ? mailmap_entries(self, NULL) : list_entries((Mailmap *)self, &index);
    PyObject *found = list == NULL ? NULL : is_slice ? PyObject_GetItem(list, key) : Py_NewRef(PyList_GetItem(list, 0));
    Py_XDECREF(list);
    return found != NULL ? found : raise_no_memory();
}

static PyMethodDef mailmap_methods[] = {
    {"lookup", (PyCFunction)(void (*)(void))mailmap_lookup, METH_FASTCALL | METH_KEYWORDS,
     "lookup($self, name, email)\n--\n\nThe new name and email of a contact. Raises OutOfMemory."},
    {"add", mailmap_add, METH_O,
     "add($self, text, /)\n--\n\nAdds the entries of a mailmap after the existing ones. Raises OutOfMemory."},
    {"add_entry", mailmap_add_entry, METH_O,
     "add_entry($self, entry, /)\n--\n\nAdds one entry. Its texts aren't parsed. An empty text counts as missing, "
     "except\nan old email. Raises NotAnEntry and OutOfMemory."},
    {"merge", mailmap_merge, METH_O,
     "merge($self, other, /)\n--\n\nAdds the entries of another Mailmap after the existing ones. Raises OutOfMemory."},
    {"copy", mailmap_copy, METH_NOARGS,
     "copy($self, /)\n--\n\nAn equal Mailmap, which is open until it is closed itself. Raises OutOfMemory."},
    {"__copy__", mailmap_copy, METH_NOARGS, NULL},
    {"__deepcopy__", mailmap_copy, METH_O, NULL},
    {"write", mailmap_write, METH_NOARGS,
     "write($self, /)\n--\n\nThe mailmap as a text, with a line for each entry. Raises Unwritable and OutOfMemory."},
    {"entries", mailmap_entries, METH_NOARGS, "entries($self, /)\n--\n\nAll entries as they are now."},
    {"close", mailmap_close, METH_NOARGS, "close($self, /)\n--\n\nFrees the memory. A closed mailmap stays closed."},
    {"__class_getitem__", Py_GenericAlias, METH_O | METH_CLASS, NULL},
    {0},
};
static PyGetSetDef attributes[] = {
    {.name = "closed", .get = mailmap_closed, .doc = "Whether the mailmap is closed."},
    {0},
};
static PyType_Slot mailmap_slots[] = {
    {Py_tp_new, mailmap_new},         {Py_tp_init, mailmap_init},           {Py_tp_dealloc, mailmap_dealloc},
    {Py_mp_length, mailmap_len},      {Py_mp_subscript, mailmap_subscript}, {Py_tp_getset, attributes},
    {Py_tp_methods, mailmap_methods}, {0},
};
static PyType_Spec mailmap_spec = {
    "gix_mailmap._native.Mailmap", sizeof(Mailmap), 0, Py_TPFLAGS_DEFAULT | Py_TPFLAGS_BASETYPE, mailmap_slots};

/* The cache holds this number of answers that are, with their lines, no longer than CACHED_LEN. When full, it is
 * emptied; if fewer lines than it holds were found in it, it isn't used any more, since the library takes less time. */
enum { CACHED = 65536, CACHED_LEN = 250 };

/* An iterator that answers one line after another. */
typedef struct Stream {
    PyObject_HEAD
    PyObject *mailmap, *lines, *cache;
    gix_mailmap_stream *stream; /* NULL until a line needs it */
    size_t changes;             /* those of the mailmap when `stream` was opened and `cache` was empty */
    bool is_complete;           /* whether `stream` has the entries of the mailmap */
    bool is_begun, is_str;      /* whether there was a line, and whether it was a `str` */
    bool caches_none;           /* whether the cache isn't used any more */
    size_t hits;                /* how many lines were found in the cache since it was last full */
    char *buffer;               /* for answers that are read from `stream` */
    size_t buffer_len;
} Stream;

static PyObject *stream_new(PyTypeObject *type, PyObject *args, PyObject *Py_UNUSED(keywords))
{
    PyObject *mailmap, *lines, *class = find(MAILMAP);
    if (class == NULL || !PyArg_ParseTuple(args, "O!O", class, &mailmap, &lines) || !is_open((Mailmap *)mailmap))
        return NULL;
    PyObject *iterator = PyObject_GetIter(lines), *cache = iterator != NULL ? PyDict_New() : NULL;
    Stream *stream = cache != NULL ? (Stream *)PyType_GenericAlloc(type, 0) : NULL;
    if (stream != NULL)
        stream->mailmap = Py_NewRef(mailmap), stream->lines = Py_NewRef(iterator), stream->cache = Py_NewRef(cache);
    Py_XDECREF(iterator), Py_XDECREF(cache);
    return stream != NULL ? (PyObject *)stream : raise_no_memory();
}

static int stream_traverse(PyObject *self, visitproc visit, void *arg)
{
    Py_VISIT(Py_TYPE(self));
    Py_VISIT(((Stream *)self)->mailmap);
    Py_VISIT(((Stream *)self)->lines);
    Py_VISIT(((Stream *)self)->cache);
    return 0;
}

static void stream_dealloc(PyObject *self)
{
    PyTypeObject *type = Py_TYPE(self);
    Stream *stream = (Stream *)self;
    PyObject_GC_UnTrack(self);
    Py_XDECREF(stream->mailmap), Py_XDECREF(stream->lines), Py_XDECREF(stream->cache);
    gix_mailmap_stream_close(stream->stream);
    PyMem_Free(stream->buffer);
    ((freefunc)PyType_GetSlot(type, Py_tp_free))(self);
    Py_DECREF(type);
}

/* Drops the library's stream and the cache, which are those of an older state of the mailmap. */
static void forget(Stream *stream)
{
    gix_mailmap_stream_close(stream->stream);
    stream->stream = NULL;
    stream->changes = ((Mailmap *)stream->mailmap)->changes;
    PyDict_Clear(stream->cache);
}

/* Opens the library's stream. If no line can hold some entry, the stream has no entries, and only trims contacts. */
static bool open_stream(Stream *stream)
{
    if (stream->stream != NULL)
        return true;
    const Mailmap *mailmap = (Mailmap *)stream->mailmap;
    size_t len = written_len(mailmap);
    char *text = write_to_memory(WRITE, &(Given){.map = mailmap->map}, 1, &len);
    PyObject *unwritable = text == NULL ? find(UNWRITABLE) : NULL;
    stream->is_complete = text != NULL;
    if (text == NULL && (unwritable == NULL || !PyErr_ExceptionMatches(unwritable)))
        return raise_no_memory();
    PyErr_Clear();
    gix_mailmap_status status = gix_mailmap_stream_open(&stream->stream, text, text != NULL ? len : 0);
    PyMem_Free(text);
    return is_ok(status);
}

/* Reads the pending answers into the buffer of the stream, which grows until it is longer than they are. */
static bool read_answers(Stream *stream, size_t *len)
{
    *len = gix_mailmap_stream_read(stream->stream, stream->buffer, stream->buffer_len);
    while (*len == stream->buffer_len) {
        char *longer = PyMem_Realloc(stream->buffer, 2 * *len + 4096);
        if (longer == NULL)
            return raise_no_memory();
        stream->buffer = longer, stream->buffer_len = 2 * *len + 4096;
        *len += gix_mailmap_stream_read(stream->stream, longer + *len, stream->buffer_len - *len);
    }
    return true;
}

/* The answer to a line that isn't in the cache. A carriage return that a line ends in is doubled, so that it stays. */
static PyObject *ask_stream(Stream *stream, const Text *text, PyObject *line)
{
    bool is_ended = text->len > 0 && text->at[text->len - 1] == '\n';
    size_t len = text->len - is_ended, answer_len, taken; /* all bytes, since no answers are pending */
    const char *end = is_ended ? "" : len > 0 && text->at[len - 1] == '\r' ? "\r\n" : "\n";
    if (memchr(text->at, '\n', len) != NULL)
        return raise_error(NOT_A_LINE, "a line has a line feed before its end");
    if (!open_stream(stream) || !is_ok(gix_mailmap_stream_push(stream->stream, text->at, text->len, &taken)) ||
        !is_ok(gix_mailmap_stream_push(stream->stream, end, strlen(end), &taken)) ||
        !read_answers(stream, &answer_len)) {
        forget(stream);
        return NULL;
    }
    PyObject *made = same_or_new(text, line, stream->buffer, answer_len - 1);
    if (made != NULL && !stream->is_complete) {
        PyObject *trimmed = made;
        made = PyObject_CallMethod(stream->mailmap, "_of_trimmed", "O", trimmed);
        Py_DECREF(trimmed);
    }
    return made != NULL ? made : raise_no_memory();
}

static bool cache_answer(Stream *stream, PyObject *line, PyObject *answer)
{
    if (PyObject_Size(line) + PyObject_Size(answer) > CACHED_LEN)
        return true;
    if (PyDict_Size(stream->cache) >= CACHED) {
        PyDict_Clear(stream->cache);
        stream->caches_none = stream->hits < CACHED, stream->hits = 0;
    }
    return PyDict_SetItem(stream->cache, line, answer) == 0 || raise_no_memory();
}

static PyObject *answer_line(Stream *stream, PyObject *line)
{
    bool caches = (PyUnicode_CheckExact(line) || PyBytes_CheckExact(line)) && !stream->caches_none;
    PyObject *answer = caches ? PyDict_GetItemWithError(stream->cache, line) : NULL;
    Text text;
    stream->hits += answer != NULL;
    if (answer != NULL || PyErr_Occurred())
        return Py_XNewRef(answer);
    bool ok = get_text(line, &text);
    stream->is_str = stream->is_begun ? stream->is_str : text.is_str, stream->is_begun |= ok;
    if (ok && is_kind(stream->is_str, &text) && is_open((Mailmap *)stream->mailmap))
        answer = ask_stream(stream, &text, line);
    release(&text, 1);
    if (caches && answer != NULL && !cache_answer(stream, line, answer))
        Py_CLEAR(answer);
    return answer;
}

static PyObject *stream_next(PyObject *self)
{
    Stream *stream = (Stream *)self;
    const Mailmap *mailmap = (Mailmap *)stream->mailmap;
    PyObject *line = PyIter_Next(stream->lines), *answer = NULL;
    if (line != NULL && is_open(mailmap)) {
        if (stream->changes != mailmap->changes)
            forget(stream);
        answer = answer_line(stream, line);
    }
    Py_XDECREF(line);
    return answer;
}

static PyType_Slot stream_slots[] = {
    {Py_tp_new, stream_new},         {Py_tp_dealloc, stream_dealloc}, {Py_tp_traverse, stream_traverse},
    {Py_tp_iter, PyObject_SelfIter}, {Py_tp_iternext, stream_next},   {0},
};
static PyType_Spec stream_spec = {
    "gix_mailmap._native.Stream", sizeof(Stream), 0, Py_TPFLAGS_DEFAULT | Py_TPFLAGS_HAVE_GC, stream_slots};

static int module_traverse(PyObject *module, visitproc visit, void *arg)
{
    Py_VISIT(*(PyObject **)PyModule_GetState(module));
    return 0;
}

static void module_free(void *module)
{
    Py_CLEAR(*(PyObject **)PyModule_GetState(module));
}

static PyMethodDef functions[] = {FUNCTIONS(LISTED) LISTED(report, REPORT) {"parse", parse, METH_O, NULL}, {0}};
static PyModuleDef definition = {
    .m_base = PyModuleDef_HEAD_INIT, .m_name = "gix_mailmap._native", .m_size = sizeof(PyObject *),
    .m_methods = functions, .m_traverse = module_traverse, .m_free = module_free,
};

static bool fill_module(PyObject *module)
{
    PyObject *results = PyImport_ImportModule("gix_mailmap._results"), *mailmap = NULL, *stream = NULL;
    PyObject *taken = results != NULL ? PyObject_GetAttrString(results, "FOR_NATIVE") : NULL;
    PyObject *list = *(PyObject **)PyModule_GetState(module) = taken != NULL ? PySequence_List(taken) : NULL;
    bool is_complete = list != NULL && (mailmap = PyType_FromSpec(&mailmap_spec)) != NULL &&
                       (stream = PyType_FromSpec(&stream_spec)) != NULL && PyList_Append(list, mailmap) == 0 &&
                       PyModule_AddObjectRef(module, "Mailmap", mailmap) == 0 &&
                       PyModule_AddObjectRef(module, "Stream", stream) == 0 &&
                       PyModule_AddStringConstant(module, "version", gix_mailmap_version()) == 0;
    Py_XDECREF(results), Py_XDECREF(taken), Py_XDECREF(mailmap), Py_XDECREF(stream);
    return is_complete;
}

PyMODINIT_FUNC PyInit__native(void)
{
    PyObject *module = PyModule_Create(&definition);
    if (module != NULL && !fill_module(module))
        Py_CLEAR(module);
    return module;
}
