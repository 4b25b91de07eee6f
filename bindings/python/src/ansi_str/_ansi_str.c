/* The calls of the package `ansi_str`, over the library for C: each is a function here that takes the `str` itself. __init__.py describes
   the calls, with their types and errors. */
/* (so one file works with each CPython from 3.6 on) */
#define Py_LIMITED_API 0x03060000
#include <Python.h>

#include "ansi_str.h"

/* References are counted by `Py_IncRef` and `Py_DecRef` alone. The macros for them of headers before Python 3.12 would also count
   those of objects that all interpreters share, such as `b""`, and interpreters with a lock of their own do so at the same time. */

/* other threads may run during a call on a text of this many bytes or more */
enum { LONG = 1 << 16 };

/* the largest number; larger ones become this one */
static const size_t LAST = PY_SSIZE_T_MAX;

/* ---- What a call is given ---- */

enum { MOST_WORDS = 4 };

/* a text in UTF-8, and the `bytes` that hold it, or NULL */
typedef struct {
    PyObject *owner;
    const uint8_t *bytes;
    size_t size;
} Text;

typedef struct Step Step;
typedef ansi_str_answer Writer(const Text *text, const Step *step, uint8_t *room, size_t size);
typedef ansi_str_answer Asker(const Text *text, const Step *step);

/* What is made of a text, or asked of it: numbers, a side, an alignment or a policy, a pattern, and another text, such as a tail, the codes
   of a style, or what is put in; ranges, replacements or edits; and how much longer than the text the result may well be. */
struct Step {
    Writer *write;
    uint32_t kind;
    uint32_t place;
    size_t first;
    size_t second;
    Text pattern;
    Text with;
    const void *list;
    size_t count;
    size_t more;
};

/* a call while it is made: its arguments, NULL for those that aren't given; and the `str` to return if its bytes are the result, or NULL */
typedef struct {
    PyObject *module;
    PyObject *words[MOST_WORDS];
    PyObject *unchanged;
    Text text;
    Step step;
} Call;

/* what Python gives a call */
typedef struct {
    PyObject *module;
    PyObject *const *words;
    Py_ssize_t count;
    PyObject *names;
} Given;

typedef struct Sort Sort;
/* Reads the arguments of an edit or of a question, NULL for those that aren't given. Returns false with an error. */
typedef bool Reader(PyObject *const *words, Step *step);

/* A call: its name; how many arguments it takes, how many of them must be given, and how many may be given without their names; their
   names. Then what its function wants to know: the kind of an edit, and what writes the text; what a question asks, how what follows the
   text is read, which argument is a pattern, if any is, whether a number that is read is a position, and what the library's return is
   for Python; the sort of edits; and the walk that a list is of. */
typedef struct Form Form;
struct Form {
    const char *name;
    unsigned char all, required, unnamed;
    const char *words[MOST_WORDS];
    uint32_t kind;
    Writer *write;
    Asker *ask;
    Reader *read;
    int pattern;
    bool has_position;
    PyObject *(*result)(const Call *call, ansi_str_answer answer);
    const Sort *sort;
    PyObject *(*walk)(const Form *form, const Given *given);
};

/* A call of Python, which a function makes by its form. */
typedef PyObject *Function(PyObject *module, PyObject *const *given, Py_ssize_t count, PyObject *names);
#define CALL(call, function, most, least, plain, ...)                                                                    \
    static PyObject *call_##call(PyObject *module, PyObject *const *words, Py_ssize_t count, PyObject *names) {           \
        static const Form form = {.name = #call, .all = most, .required = least, .unnamed = plain, .words = __VA_ARGS__}; \
        const Given given = {module, words, count, names};                                                                \
        return function(&form, &given);                                                                                   \
    }

/* Sets the error of a status, if it has one. */
static void set_error(uint32_t status) {
    if (status == ANSI_STR_OUT_OF_MEMORY) {
        PyErr_NoMemory();
    } else if (status == ANSI_STR_NOT_UTF8) {
        PyErr_SetString(PyExc_ValueError, "the bytes aren't UTF-8");
    }
}

static PyObject *none_or_error(uint32_t status) {
    set_error(status);
    return PyErr_Occurred() ? NULL : Py_BuildValue("");
}

/* Sets a TypeError: an argument isn't what it must be. */
static void refuse_type(const char *name, const char *wanted, PyObject *given) {
    PyObject *type = PyObject_GetAttrString((PyObject *)Py_TYPE(given), "__name__");
    if (type != NULL) {
        PyErr_Format(PyExc_TypeError, "%s must %s, not %S", name, wanted, type);
        Py_DecRef(type);
    }
}

/* Sets the TypeError of too many arguments, or of missing ones, in Python's words. Returns false. */
static bool refuse_count(const Form *form, Py_ssize_t count, PyObject *const *words) {
    char from[32] = "", named[80] = "";
    int at, by_name = 0;
    for (at = form->unnamed; at < form->all; at++) {
        by_name += words[at] != NULL;
    }
    if (form->required < form->unnamed) {
        PyOS_snprintf(from, sizeof from, "from %d to ", form->required);
    }
    if (by_name > 0) {
        PyOS_snprintf(named, sizeof named, " positional arguments (and %d keyword-only argument%s)", by_name, by_name == 1 ? "" : "s");
    }
    PyErr_Format(PyExc_TypeError, "%s() takes %s%d positional argument%s but %zd%s were given", form->name, from, form->unnamed,
                 from[0] == 0 && form->unnamed == 1 ? "" : "s", count, named);
    return false;
}

static bool refuse_missing(const Form *form, PyObject *const *words) {
    const char *missing[MOST_WORDS];
    char listed[128] = "";
    int count = 0, at;
    for (at = 0; at < form->required; at++) {
        if (words[at] == NULL) {
            missing[count++] = form->words[at];
        }
    }
    for (at = 0; at < count; at++) {
        const char *before = at == 0 ? "" : at < count - 1 ? ", " : count == 2 ? " and " : ", and ";
        size_t written = strlen(listed);
        PyOS_snprintf(listed + written, sizeof listed - written, "%s'%s'", before, missing[at]);
    }
    PyErr_Format(PyExc_TypeError, "%s() missing %d required positional argument%s: %s", form->name, count, count == 1 ? "" : "s", listed);
    return false;
}

/* Reads an argument that is given by its name. Returns false with an error. */
static bool read_named(const Form *form, PyObject *name, PyObject *given, PyObject **words) {
    int at;
    for (at = 0; at < form->all; at++) {
        if (PyUnicode_CompareWithASCIIString(name, form->words[at]) == 0) {
            if (words[at] != NULL) {
                PyErr_Format(PyExc_TypeError, "%s() got multiple values for argument '%S'", form->name, name);
                return false;
            }
            words[at] = given;
            return true;
        }
    }
    PyErr_Format(PyExc_TypeError, "%s() got an unexpected keyword argument '%S'", form->name, name);
    return false;
}

/* Reads the arguments of a call that are given by their names. Returns false with an error, also if some are missing or too many. (Inside
   `begin` it would cost each call something.) */
__attribute__((noinline)) static bool read_names(Call *call, const Form *form, const Given *given) {
    Py_ssize_t named = given->names == NULL ? 0 : PyTuple_Size(given->names), at;
    for (at = 0; at < named; at++) {
        if (!read_named(form, PyTuple_GetItem(given->names, at), given->words[given->count + at], call->words)) {
            return false;
        }
    }
    if (given->count > form->unnamed) {
        return refuse_count(form, given->count, call->words);
    }
    for (at = given->count; at < form->required; at++) {
        if (call->words[at] == NULL) {
            return refuse_missing(form, call->words);
        }
    }
    return true;
}

/* Begins a call, and reads its arguments. Returns false with an error. (The rest of its step is set when it is read.) */
static bool begin(Call *call, const Form *form, const Given *given) {
    Py_ssize_t unnamed = given->count < form->unnamed ? given->count : form->unnamed, at;
    memset(call->words, 0, sizeof call->words);
    for (at = 0; at < unnamed; at++) {
        call->words[at] = given->words[at];
    }
    call->module = given->module;
    call->unchanged = NULL;
    call->text.owner = NULL;
    call->step.pattern = call->step.with = (Text){NULL, NULL, 0};
    call->step.first = call->step.second = 0;
    call->step.write = form->write;
    call->step.kind = form->kind;
    call->step.more = 0;
    return (given->names == NULL && given->count == unnamed && unnamed >= form->required) || read_names(call, form, given);
}

static void let_go_of(const Text *text) {
    if (text->owner != NULL) {
        Py_DecRef(text->owner);
    }
}

/* Ends a call with its result. */
static PyObject *ended(Call *call, PyObject *result) {
    let_go_of(&call->text);
    let_go_of(&call->step.pattern);
    let_go_of(&call->step.with);
    return result;
}

/* Takes the bytes of an object, which may be NULL with an error. */
static bool take_bytes(PyObject *owner, Text *text) {
    if (owner == NULL) {
        return false;
    }
    text->owner = owner;
    text->bytes = (const uint8_t *)PyBytes_AsString(owner);
    text->size = (size_t)PyBytes_Size(owner);
    return true;
}

/* Says in the UnicodeEncodeError that is set which argument it is about. */
static void name_surrogate(const char *name) {
    PyObject *type, *error, *trace;
    char reason[64];
    PyErr_Fetch(&type, &error, &trace);
    PyErr_NormalizeException(&type, &error, &trace);
    PyOS_snprintf(reason, sizeof reason, "%s has a lone surrogate", name);
    if (PyErr_GivenExceptionMatches(type, PyExc_UnicodeEncodeError) && PyUnicodeEncodeError_SetReason(error, reason) < 0) {
        PyErr_Clear();
    }
    PyErr_Restore(type, error, trace);
}

/* Reads a text. Returns false with an error if it isn't a `str`, or has a lone surrogate. */
static bool read_text(const char *name, PyObject *given, Text *text) {
    if (!PyUnicode_CheckExact(given) && !PyUnicode_Check(given)) {
        refuse_type(name, "be a str", given);
        return false;
    }
    if (!take_bytes(PyUnicode_AsUTF8String(given), text)) {
        name_surrogate(name);
        return false;
    }
    return true;
}

/* Reads the text of a call, its first argument. */
static bool read_first(Call *call) {
    PyObject *given = call->words[0];
    call->unchanged = PyUnicode_CheckExact(given) ? given : NULL;
    return read_text("text", given, &call->text);
}

/* Reads a text that may be left out. */
static bool read_optional(const char *name, PyObject *given, Text *text) {
    if (given == NULL) {
        *text = (Text){NULL, (const uint8_t *)"", 0};
        return true;
    }
    return read_text(name, given, text);
}

/* Sets the error of a number that isn't one, or is below 0. Returns false. */
static bool refuse_number(const char *name, PyObject *given) {
    PyObject *index;
    if (PyErr_Occurred()) {
        if (PyErr_ExceptionMatches(PyExc_TypeError)) {
            PyErr_Clear();
            refuse_type(name, "be an int", given);
        }
        return false;
    }
    index = PyNumber_Index(given);
    if (index != NULL) {
        PyErr_Format(PyExc_ValueError, "%s is below 0: %S", name, index);
        Py_DecRef(index);
    }
    return false;
}

/* Reads a number. Returns false with an error. */
static bool read_number(const char *name, PyObject *given, size_t *number) {
    Py_ssize_t read = PyNumber_AsSsize_t(given, NULL);
    *number = (size_t)read;
    return read >= 0 || refuse_number(name, given);
}

/* Whether a number is below another, by what was given if both are too large. Returns -1 with an error. */
static int is_below(size_t first, PyObject *first_given, size_t second, PyObject *second_given) {
    PyObject *first_index, *second_index;
    int below = -1;
    if (first != LAST || second != LAST) {
        return first < second;
    }
    first_index = PyNumber_Index(first_given);
    second_index = first_index == NULL ? NULL : PyNumber_Index(second_given);
    if (second_index != NULL) {
        below = PyObject_RichCompareBool(first_index, second_index, Py_LT);
    }
    Py_DecRef(first_index);
    Py_DecRef(second_index);
    return below;
}

/* Sets a ValueError that names numbers. */
static void refuse_number_of(const char *words, PyObject *given) {
    PyObject *index = PyNumber_Index(given);
    if (index != NULL) {
        PyErr_Format(PyExc_ValueError, words, index);
        Py_DecRef(index);
    }
}

static void refuse_numbers(const char *words, PyObject *first, PyObject *second) {
    PyObject *first_index = PyNumber_Index(first), *second_index = first_index == NULL ? NULL : PyNumber_Index(second);
    if (second_index != NULL) {
        PyErr_Format(PyExc_ValueError, words, first_index, second_index);
    }
    Py_DecRef(first_index);
    Py_DecRef(second_index);
}

enum { PLACES = 3 };

/* Which of three words is given; PLACES if it is none. */
static uint32_t place_of(PyObject *given, const char *const *words) {
    uint32_t place = 0;
    while (place < PLACES && (!PyUnicode_Check(given) || PyUnicode_CompareWithASCIIString(given, words[place]) != 0)) {
        place++;
    }
    return place;
}

/* Reads which of three words is given; the first if there is none. Returns false with an error. */
static bool read_word(const char *name, PyObject *given, const char *const *words, uint32_t *place) {
    *place = given == NULL ? 0 : place_of(given, words);
    if (*place < PLACES) {
        return true;
    }
    PyErr_Format(PyExc_ValueError, "%s must be one of %s, %s, %s, not %R", name, words[0], words[1], words[2], given);
    return false;
}

/* (as the library numbers them) */
static const char *const ALIGNMENTS[] = {"left", "center", "right"};
static const char *const SIDES[] = {"end", "start", "middle"};

/* Reads whether an argument is true; false if it isn't given. Returns false with an error. */
static bool read_truth(PyObject *given, size_t *number) {
    int truth = given == NULL ? 0 : PyObject_IsTrue(given);
    *number = truth > 0;
    return truth >= 0;
}

/* ---- What a call returns ---- */

/* Room for what the library writes: at hand, or allocated if that is too small. */
typedef struct {
    void *at;
    size_t size;
    union {
        uint8_t bytes[1024];
        size_t ends[1];
        ansi_str_range ranges[1];
        ansi_str_replacement replacements[1];
        ansi_str_link_entry links[1];
        ansi_str_edit_step edits[1];
        ansi_str_column_step column_edits[1];
        Step steps[1];
    } near;
} Room;

static void open_room(Room *room) {
    room->at = &room->near;
    room->size = sizeof room->near;
}

static void close_room(Room *room) {
    if (room->at != &room->near) {
        PyMem_Free(room->at);
    }
}

/* Makes room for this many bytes; those in it are lost. Returns false if there is no memory. */
static bool has_room(Room *room, size_t size) {
    if (size > room->size) {
        close_room(room);
        room->at = PyMem_Malloc(size);
        room->size = room->at == NULL ? 0 : size;
    }
    return room->at != NULL;
}

static PyObject *decoded(const void *bytes, size_t size) {
    return PyUnicode_DecodeUTF8(bytes, (Py_ssize_t)size, NULL);
}

static PyThreadState *let_others_run(size_t size) {
    return size < LONG ? NULL : PyEval_SaveThread();
}

static void run_alone(PyThreadState *thread) {
    if (thread != NULL) {
        PyEval_RestoreThread(thread);
    }
}

/* Writes what a step makes of a text. */
static ansi_str_answer written(const Text *text, const Step *step, Room *room) {
    ansi_str_answer answer = {ANSI_STR_TOO_SMALL, text->size + step->more + ANSI_STR_LONGEST_START_AND_CLOSE};
    while (answer.status == ANSI_STR_TOO_SMALL) {
        PyThreadState *thread;
        if (!has_room(room, answer.len)) {
            return (ansi_str_answer){ANSI_STR_OUT_OF_MEMORY, 0};
        }
        thread = let_others_run(text->size);
        answer = step->write(text, step, room->at, room->size);
        run_alone(thread);
    }
    return answer;
}

/* What was written of a call's text: the text itself if it is the same, None if there is nothing, or NULL with an error. */
static PyObject *text_of(const Call *call, ansi_str_answer answer, const void *bytes) {
    if (answer.status != ANSI_STR_OK) {
        return none_or_error(answer.status);
    }
    if (call->unchanged != NULL && answer.len == call->text.size && memcmp(bytes, call->text.bytes, answer.len) == 0) {
        Py_IncRef(call->unchanged);
        return call->unchanged;
    }
    return decoded(bytes, answer.len);
}

/* What a step makes of a call's text. */
static PyObject *made_by(const Call *call, const Step *step) {
    Room room;
    ansi_str_answer answer;
    PyObject *result;
    open_room(&room);
    answer = written(&call->text, step, &room);
    result = text_of(call, answer, room.at);
    close_room(&room);
    return result;
}

static PyObject *made(const Call *call) {
    return made_by(call, &call->step);
}

static PyObject *yes_or_no(const Call *call, ansi_str_answer answer) {
    (void)call;
    if (answer.status > ANSI_STR_NO) {
        return none_or_error(answer.status);
    }
    return PyBool_FromLong(answer.status == ANSI_STR_OK);
}

/* ---- Positions, which count characters here and bytes in the library ---- */

/* Whether all characters of a call's text are ASCII, so that a position counts both. */
static bool is_ascii(const Call *call) {
    return PyUnicode_GetLength(call->words[0]) == (Py_ssize_t)call->text.size;
}

static ansi_str_answer write_strip(const Text *text, const Step *step, uint8_t *room, size_t size) {
    (void)step;
    return ansi_str_raw_strip_unchecked(text->bytes, text->size, room, size);
}

static bool has_escape(const Text *text) {
    return memchr(text->bytes, 0x1B, text->size) != NULL;
}

/* The plain text, in the text or in a room. Returns false with an error. */
static bool make_plain(const Text *text, Room *room, Text *plain) {
    const Step step = {.write = write_strip};
    ansi_str_answer answer;
    *plain = *text;
    if (!has_escape(text)) {
        return true;
    }
    answer = written(text, &step, room);
    *plain = (Text){NULL, room->at, answer.len};
    set_error(answer.status);
    return answer.status == ANSI_STR_OK;
}

static bool begins_character(uint8_t byte) {
    return (byte & 0xC0) != 0x80;
}

/* The place in a plain text that is `characters` characters after another place, and as many places past its end as are lacking. */
static size_t place_after(const Text *plain, size_t place, size_t characters) {
    for (; place < plain->size; place++) {
        if (begins_character(plain->bytes[place]) && characters-- == 0) {
            return place;
        }
    }
    return place + characters;
}

/* How many characters of a plain text are between two places. If there is no plain text, a character is a byte. */
static Py_ssize_t characters_between(const Text *plain, size_t place, size_t end) {
    Py_ssize_t count = 0;
    if (plain == NULL) {
        return (Py_ssize_t)(end - place);
    }
    for (; place < end; place++) {
        count += begins_character(plain->bytes[place]);
    }
    return count;
}

/* Makes places of the two positions of a step, unless the second is below the first. Returns false with an error. */
static bool find_places(const Text *text, Step *step) {
    Room room;
    Text plain;
    bool is_made;
    if (step->second < step->first) {
        return true;
    }
    open_room(&room);
    is_made = make_plain(text, &room, &plain);
    if (is_made) {
        size_t more = step->second - step->first;
        step->first = place_after(&plain, 0, step->first);
        step->second = place_after(&plain, step->first, more);
    }
    close_room(&room);
    return is_made;
}

static bool read_places(Call *call) {
    return is_ascii(call) || find_places(&call->text, &call->step);
}

/* The position of a place, or None if there is none. */
static PyObject *position_of(const Call *call, ansi_str_answer answer) {
    Room room;
    Text plain;
    PyObject *position = NULL;
    if (answer.status != ANSI_STR_OK) {
        return none_or_error(answer.status);
    }
    if (is_ascii(call)) {
        return PyLong_FromSize_t(answer.len);
    }
    open_room(&room);
    if (make_plain(&call->text, &room, &plain)) {
        position = PyLong_FromSsize_t(characters_between(&plain, 0, answer.len));
    }
    close_room(&room);
    return position;
}

static PyObject *number_of(const Call *call, ansi_str_answer answer) {
    (void)call;
    return answer.status == ANSI_STR_OK ? PyLong_FromSize_t(answer.len) : none_or_error(answer.status);
}

/* ---- Edits ---- */

static bool read_interval(PyObject *const *words, Step *step) {
    step->first = 0;
    step->second = LAST;
    return (words[0] == NULL || read_number("start", words[0], &step->first)) &&
           (words[1] == NULL || words[1] == Py_None || read_number("end", words[1], &step->second));
}

/* (one whose end is below its start is refused) */
static bool read_cut(PyObject *const *words, Step *step) {
    int below;
    if (!read_interval(words, step)) {
        return false;
    }
    below = words[1] == NULL || words[1] == Py_None ? 0 : is_below(step->second, words[1], step->first, words[0]);
    if (below > 0) {
        step->first = 1;
        step->second = 0;
    }
    return below >= 0;
}

static bool read_at(const char *name, PyObject *given, Step *step) {
    bool is_read = read_number(name, given, &step->first);
    step->second = step->first;
    return is_read;
}

static bool read_side(PyObject *const *words, Step *step) {
    return read_at("mid", words[0], step);
}

static bool read_pattern(PyObject *const *words, Step *step) {
    return read_text("pattern", words[0], &step->pattern);
}

static bool read_part(PyObject *const *words, Step *step) {
    return read_number("index", words[1], &step->first) && read_pattern(words, step);
}

static bool read_nothing(PyObject *const *words, Step *step) {
    (void)words;
    (void)step;
    return true;
}

static bool read_expansion(PyObject *const *words, Step *step) {
    step->first = 8;
    return words[0] == NULL || read_number("stop", words[0], &step->first);
}

/* Reads a width, up to which blanks may follow a text. */
static bool read_width(PyObject *given, Step *step) {
    bool is_read = read_number("width", given, &step->first);
    step->more = step->first < LONG ? step->first : 0;
    return is_read;
}

static bool read_truncation(PyObject *const *words, Step *step) {
    return read_number("width", words[0], &step->first) && read_word("side", words[2], SIDES, &step->place) &&
           read_optional("tail", words[1], &step->with);
}

static bool read_padding(PyObject *const *words, Step *step) {
    return read_width(words[0], step) && read_word("alignment", words[1], ALIGNMENTS, &step->place);
}

static bool read_fit(PyObject *const *words, Step *step) {
    return read_width(words[0], step) && read_word("alignment", words[2], ALIGNMENTS, &step->place) &&
           read_optional("tail", words[1], &step->with);
}

/* (in the order that it had) */
static bool read_old_fit(PyObject *const *words, Step *step) {
    PyObject *const in_order[] = {words[0], words[2], words[1]};
    return read_fit(in_order, step);
}

/* an edit: how it is read, and how many arguments it has */
typedef struct {
    Reader *read;
    Py_ssize_t words;
} EditKind;

/* (by their numbers in the library) */
static const EditKind EDITS[] = {{read_cut, 2},     {read_side, 1},    {read_side, 1},   {read_part, 2},
                                 {read_pattern, 1}, {read_pattern, 1}, {read_nothing, 0}};
static const EditKind COLUMN_EDITS[] = {{read_expansion, 1}, {read_interval, 2}, {read_truncation, 3}, {read_padding, 2}, {read_fit, 3}};
enum { EDIT_KINDS = sizeof EDITS / sizeof EDITS[0], COLUMN_KINDS = sizeof COLUMN_EDITS / sizeof COLUMN_EDITS[0] };

static ansi_str_edit_step edit_of(const Step *step) {
    return ansi_str_edit_of(step->kind, step->first, step->second, (const char *)step->pattern.bytes, step->pattern.size);
}

static ansi_str_column_step column_edit_of(const Step *step) {
    return ansi_str_column_edit_of(step->kind, step->place, step->first, step->second, (const char *)step->with.bytes, step->with.size);
}

static ansi_str_answer write_edit(const Text *text, const Step *step, uint8_t *room, size_t size) {
    ansi_str_edit_step edit = edit_of(step);
    return ansi_str_raw_edit(text->bytes, text->size, &edit, 1, room, size);
}

static ansi_str_answer write_edits(const Text *text, const Step *step, uint8_t *room, size_t size) {
    return ansi_str_raw_edit(text->bytes, text->size, step->list, step->count, room, size);
}

static ansi_str_answer write_columns(const Text *text, const Step *step, uint8_t *room, size_t size) {
    switch (step->kind) {
    case ANSI_STR_COLUMNS_EXPAND:
        return ansi_str_raw_expand_tabs(text->bytes, text->size, step->first, room, size);
    case ANSI_STR_COLUMNS_SLICE:
        return ansi_str_raw_slice(text->bytes, text->size, step->first, step->second, room, size);
    case ANSI_STR_COLUMNS_TRUNCATE:
        return ansi_str_raw_truncate_with(text->bytes, text->size, step->first, step->with.bytes, step->with.size, step->place, room, size);
    case ANSI_STR_COLUMNS_PAD:
        return ansi_str_raw_pad(text->bytes, text->size, step->first, step->place, room, size);
    default:
        return ansi_str_raw_fit(text->bytes, text->size, step->first, step->place, step->with.bytes, step->with.size, room, size);
    }
}

static ansi_str_answer write_column_edits(const Text *text, const Step *step, uint8_t *room, size_t size) {
    return ansi_str_raw_edit_columns(text->bytes, text->size, step->list, step->count, room, size);
}

/* Whether an edit has positions. */
static bool has_positions(uint32_t kind) {
    return kind <= ANSI_STR_EDIT_RIGHT;
}

/* A call that makes one edit, whose arguments follow the text. */
static PyObject *edited(const Form *form, const Given *given) {
    Call call;
    PyObject *result = NULL;
    if (begin(&call, form, given) && EDITS[form->kind].read(call.words + 1, &call.step) && read_first(&call) &&
        (!has_positions(form->kind) || read_places(&call))) {
        result = made(&call);
    }
    if (result == Py_None && form->kind == ANSI_STR_EDIT_CUT) {
        PyErr_Format(PyExc_ValueError, "the end lies before the start: %S is below %S", call.words[2], call.words[1]);
        Py_DecRef(result);
        result = NULL;
    }
    return ended(&call, result);
}

CALL(cut, edited, 3, 1, 3, {"text", "start", "end"}, .kind = ANSI_STR_EDIT_CUT, .write = write_edit)
CALL(left, edited, 2, 2, 2, {"text", "mid"}, .kind = ANSI_STR_EDIT_LEFT, .write = write_edit)
CALL(right, edited, 2, 2, 2, {"text", "mid"}, .kind = ANSI_STR_EDIT_RIGHT, .write = write_edit)
CALL(part, edited, 3, 3, 3, {"text", "pattern", "index"}, .kind = ANSI_STR_EDIT_PART, .write = write_edit)
CALL(strip_prefix, edited, 2, 2, 2, {"text", "pattern"}, .kind = ANSI_STR_EDIT_PREFIX, .write = write_edit)
CALL(strip_suffix, edited, 2, 2, 2, {"text", "pattern"}, .kind = ANSI_STR_EDIT_SUFFIX, .write = write_edit)
CALL(trim, edited, 1, 1, 1, {"text"}, .kind = ANSI_STR_EDIT_TRIM, .write = write_edit)

/* A call that makes one edit by columns, whose arguments follow the text. */
static PyObject *edited_by_columns(const Form *form, const Given *given) {
    Call call;
    PyObject *result = NULL;
    Reader *read = form->read == NULL ? COLUMN_EDITS[form->kind].read : form->read;
    if (begin(&call, form, given) && read(call.words + 1, &call.step) && read_first(&call)) {
        result = made(&call);
    }
    return ended(&call, result);
}

CALL(expand_tabs, edited_by_columns, 2, 1, 2, {"text", "stop"}, .kind = ANSI_STR_COLUMNS_EXPAND, .write = write_columns)
CALL(slice_columns, edited_by_columns, 3, 1, 3, {"text", "start", "end"}, .kind = ANSI_STR_COLUMNS_SLICE, .write = write_columns)
CALL(truncate, edited_by_columns, 4, 2, 4, {"text", "width", "tail", "side"}, .kind = ANSI_STR_COLUMNS_TRUNCATE, .write = write_columns)
CALL(pad, edited_by_columns, 3, 2, 3, {"text", "width", "alignment"}, .kind = ANSI_STR_COLUMNS_PAD, .write = write_columns)

/* Whether a call of `fit` has an alignment in the place of the tail, as it had before. */
static bool is_old_fit(const Given *given) {
    Py_ssize_t at, named = given->names == NULL ? 0 : PyTuple_Size(given->names);
    for (at = 0; at < named; at++) {
        if (PyUnicode_CompareWithASCIIString(PyTuple_GetItem(given->names, at), "alignment") == 0) {
            return false;
        }
    }
    return given->count > 2 && place_of(given->words[2], ALIGNMENTS) < PLACES;
}

static PyObject *fitted(const Form *form, const Given *given) {
    static const Form OLD = {.name = "fit", .all = 4, .required = 2, .unnamed = 4, .words = {"text", "width", "alignment", "tail"},
                             .kind = ANSI_STR_COLUMNS_FIT, .read = read_old_fit, .write = write_columns};
    if (!is_old_fit(given)) {
        return edited_by_columns(form, given);
    }
    if (PyErr_WarnEx(PyExc_DeprecationWarning, "fit(text, width, tail) takes the alignment by its name", 1) < 0) {
        return NULL;
    }
    return edited_by_columns(&OLD, given);
}

CALL(fit, fitted, 4, 2, 3, {"text", "width", "tail", "alignment"}, .kind = ANSI_STR_COLUMNS_FIT, .write = write_columns)

/* ---- Other calls that make a text ---- */

static PyObject *stripped(const Form *form, const Given *given) {
    Call call;
    PyObject *result = NULL;
    if (begin(&call, form, given) && read_first(&call)) {
        if (has_escape(&call.text)) {
            result = made(&call);
        } else {
            result = call.words[0];
            Py_IncRef(result);
        }
    }
    return ended(&call, result);
}

CALL(strip, stripped, 1, 1, 1, {"text"}, .write = write_strip)

static ansi_str_answer write_unlink(const Text *text, const Step *step, uint8_t *room, size_t size) {
    (void)step;
    return ansi_str_raw_unlink(text->bytes, text->size, room, size);
}

static PyObject *unlinked(const Form *form, const Given *given) {
    Call call;
    return ended(&call, begin(&call, form, given) && read_first(&call) ? made(&call) : NULL);
}

CALL(unlink, unlinked, 1, 1, 1, {"text"}, .write = write_unlink)

static ansi_str_answer write_sanitize(const Text *text, const Step *step, uint8_t *room, size_t size) {
    return ansi_str_raw_sanitize_bytes(text->bytes, text->size, (uint32_t)step->first, (uint32_t)step->second, room, size);
}

/* Reads the bytes of a text: those of `bytes`, or of a `str` whose surrogates may be bytes of a file's name. */
static bool read_any_bytes(PyObject *given, Text *text) {
    if (PyBytes_Check(given)) {
        Py_IncRef(given);
        return take_bytes(given, text);
    }
    if (!PyUnicode_Check(given)) {
        refuse_type("text", "be a str", given);
        return false;
    }
    if (!take_bytes(PyUnicode_AsEncodedString(given, "utf-8", "surrogateescape"), text)) {
        name_surrogate("text");
        return false;
    }
    return true;
}

static PyObject *sanitized(const Form *form, const Given *given) {
    Call call;
    bool is_read = begin(&call, form, given) && read_any_bytes(call.words[0], &call.text) &&
                   read_truth(call.words[1], &call.step.first) && read_truth(call.words[2], &call.step.second);
    return ended(&call, is_read ? made(&call) : NULL);
}

CALL(sanitize, sanitized, 3, 1, 1, {"text", "show", "links"}, .write = write_sanitize)

static ansi_str_answer write_link_at(const Text *text, const Step *step, uint8_t *room, size_t size) {
    return ansi_str_raw_link_at(text->bytes, text->size, step->first, room, size);
}

static PyObject *link_found(const Form *form, const Given *given) {
    Call call;
    bool is_read = begin(&call, form, given) && read_at("position", call.words[1], &call.step) &&
                   read_first(&call) && read_places(&call);
    return ended(&call, is_read ? made(&call) : NULL);
}

CALL(link_at, link_found, 2, 2, 2, {"text", "position"}, .write = write_link_at)

static ansi_str_answer write_remove(const Text *text, const Step *step, uint8_t *room, size_t size) {
    return ansi_str_raw_remove(text->bytes, text->size, step->first, step->second, room, size);
}

static ansi_str_answer write_replace(const Text *text, const Step *step, uint8_t *room, size_t size) {
    return ansi_str_raw_replace(text->bytes, text->size, step->first, step->second, step->with.bytes, step->with.size, room, size);
}

static ansi_str_answer write_link(const Text *text, const Step *step, uint8_t *room, size_t size) {
    return ansi_str_raw_link(text->bytes, text->size, step->first, step->second, step->with.bytes, step->with.size, room, size);
}

static bool read_range(Call *call) {
    return read_number("start", call->words[1], &call->step.first) && read_number("end", call->words[2], &call->step.second);
}

/* The text that a call makes whose range has been read. */
static PyObject *ranged(Call *call) {
    PyObject *result = NULL;
    call->step.more = call->step.with.size;
    if (read_first(call) && read_places(call)) {
        result = made(call);
    }
    if (result == Py_None) {
        refuse_numbers("no range of the plain text: %S up to %S", call->words[1], call->words[2]);
        Py_DecRef(result);
        result = NULL;
    }
    return result;
}

static PyObject *removed(const Form *form, const Given *given) {
    Call call;
    return ended(&call, begin(&call, form, given) && read_range(&call) ? ranged(&call) : NULL);
}

CALL(remove, removed, 3, 3, 3, {"text", "start", "end"}, .write = write_remove)

static PyObject *replaced(const Form *form, const Given *given) {
    Call call;
    bool is_read = begin(&call, form, given) && read_range(&call) &&
                   read_text("new", call.words[3], &call.step.with);
    return ended(&call, is_read ? ranged(&call) : NULL);
}

CALL(replace, replaced, 4, 4, 4, {"text", "start", "end", "new"}, .write = write_replace)

static bool is_address(const Text *text) {
    size_t at;
    for (at = 0; at < text->size; at++) {
        if (text->bytes[at] < 0x20 || text->bytes[at] > 0x7E) {
            return false;
        }
    }
    return text->size > 0;
}

static PyObject *linked(const Form *form, const Given *given) {
    Call call;
    bool is_read = begin(&call, form, given) && read_text("address", call.words[3], &call.step.with);
    if (is_read && !is_address(&call.step.with)) {
        PyErr_Format(PyExc_ValueError, "address must be printable ASCII, and not empty, not %R", call.words[3]);
        is_read = false;
    } else if (is_read && call.step.with.size > ANSI_STR_LONGEST_ADDRESS) {
        PyErr_Format(PyExc_ValueError, "address must have at most %d characters, not %zd", ANSI_STR_LONGEST_ADDRESS,
                     (Py_ssize_t)call.step.with.size);
        is_read = false;
    }
    return ended(&call, is_read && read_range(&call) ? ranged(&call) : NULL);
}

CALL(link, linked, 4, 4, 4, {"text", "start", "end", "address"}, .write = write_link)

static PyObject *inserted(const Form *form, const Given *given) {
    Call call;
    PyObject *result = NULL;
    if (begin(&call, form, given) && read_at("position", call.words[1], &call.step) &&
        read_text("new", call.words[2], &call.step.with) && read_first(&call) && read_places(&call)) {
        call.step.more = call.step.with.size;
        result = made(&call);
    }
    if (result == Py_None) {
        PyErr_Format(PyExc_ValueError, "the position lies past the end of the plain text: %S", call.words[1]);
        Py_DecRef(result);
        result = NULL;
    }
    return ended(&call, result);
}

CALL(insert, inserted, 3, 3, 3, {"text", "position", "new"}, .write = write_replace)

static ansi_str_answer write_replace_all(const Text *text, const Step *step, uint8_t *room, size_t size) {
    return ansi_str_raw_replace_all(text->bytes, text->size, step->pattern.bytes, step->pattern.size, step->with.bytes, step->with.size,
                                    room, size);
}

static bool read_text_and_pattern(Call *call) {
    return read_first(call) && read_text("pattern", call->words[1], &call->step.pattern);
}

/* (what is written for all matches is most often shorter than the text) */
static PyObject *changed(Call *call) {
    call->step.more = call->text.size + call->step.with.size;
    return made(call);
}

static PyObject *replaced_all(const Form *form, const Given *given) {
    Call call;
    bool is_read = begin(&call, form, given) && read_text_and_pattern(&call) &&
                   read_text("new", call.words[2], &call.step.with);
    return ended(&call, is_read ? changed(&call) : NULL);
}

CALL(replace_all, replaced_all, 3, 3, 3, {"text", "pattern", "new"}, .write = write_replace_all)

/* ---- What the module keeps ---- */

/* What __init__.py gives the module: what makes a style, the classes of what calls return, of iterators, and of edits. */
enum { MAKE_STYLE, STYLE, BLOCK, PEN, LINK, ITERATOR, FIRST_EDIT, FIRST_COLUMN_EDIT = FIRST_EDIT + EDIT_KINDS,
       USED = FIRST_COLUMN_EDIT + COLUMN_KINDS };

/* a style of a block, and the `Style` that it is, or NULL */
typedef struct {
    ansi_str_style style;
    PyObject *object;
} SeenStyle;

enum { SEEN_STYLES = 64, MOST_CALLS = 64 };

/* what each copy of the module has: one copy is in each interpreter */
typedef struct {
    PyTypeObject *walk_type;
    /* a tuple without a class of its own, and what makes one of it */
    PyTypeObject *record_type;
    newfunc make_record;
    PyObject *used[USED];
    SeenStyle styles[SEEN_STYLES];
    /* the calls with their docstrings */
    PyMethodDef calls[MOST_CALLS];
    PyObject *docs[MOST_CALLS];
} State;

/* Lets go of an object that is kept at a place. */
static void let_go(PyObject **kept) {
    PyObject *object = *kept;
    *kept = NULL;
    Py_DecRef(object);
}

/* What __init__.py gave the module, or NULL with an error. */
static PyObject *used(PyObject *module, int which) {
    State *state = PyModule_GetState(module);
    if (state == NULL || state->used[which] == NULL) {
        PyErr_SetString(PyExc_RuntimeError, "the module hasn't started");
        return NULL;
    }
    return state->used[which];
}

/* A tuple of objects, which it takes; NULL with an error if one of them is. */
static PyObject *tuple_of(Py_ssize_t count, PyObject *const *members) {
    PyObject *tuple = NULL;
    Py_ssize_t at = 0;
    while (at < count && members[at] != NULL) {
        at++;
    }
    if (at == count) {
        tuple = PyTuple_New(count);
    }
    for (at = 0; at < count; at++) {
        if (tuple != NULL) {
            PyTuple_SetItem(tuple, at, members[at]);
        } else {
            Py_DecRef(members[at]);
        }
    }
    return tuple;
}

/* The same as a record of a class. */
static PyObject *record_of(PyObject *module, int which, Py_ssize_t count, PyObject *const *members) {
    State *state = PyModule_GetState(module);
    PyObject *tuple = tuple_of(count, members), *given = tuple_of(1, &tuple), *type = given == NULL ? NULL : used(module, which);
    PyObject *record = type == NULL ? NULL : state->make_record((PyTypeObject *)type, given, NULL);
    Py_DecRef(given);
    return record;
}

/* the bytes of a style, without padding at the end */
enum { STYLE_SIZE = offsetof(ansi_str_style, font) + sizeof(ansi_str_font) };

static ansi_str_answer write_style_start(const Text *text, const Step *step, uint8_t *room, size_t size) {
    (void)text;
    return ansi_str_raw_style_start(step->list, room, size);
}

static ansi_str_answer write_style_end(const Text *text, const Step *step, uint8_t *room, size_t size) {
    (void)text;
    return ansi_str_raw_style_end(step->list, room, size);
}

/* The sequences that set a style, or that close it. */
static PyObject *sequences_of(const ansi_str_style *style, Writer *write) {
    Call call = {.step = {.write = write, .list = style}};
    return made(&call);
}

/* The `Style` that a style is. */
static PyObject *make_style(PyObject *module, const ansi_str_style *style) {
    PyObject *make = used(module, MAKE_STYLE), *start, *end, *data, *result = NULL;
    start = make == NULL ? NULL : sequences_of(style, write_style_start);
    end = start == NULL ? NULL : sequences_of(style, write_style_end);
    data = end == NULL ? NULL : PyBytes_FromStringAndSize((const char *)style, STYLE_SIZE);
    if (data != NULL) {
        result = PyObject_CallFunctionObjArgs(make, data, start, end, NULL);
    }
    Py_DecRef(start);
    Py_DecRef(end);
    Py_DecRef(data);
    return result;
}

/* The same, which is made once for each of the last styles. */
static PyObject *style_of(PyObject *module, const ansi_str_style *style) {
    State *state = PyModule_GetState(module);
    uint32_t parts[4], mixed;
    SeenStyle *seen;
    PyObject *made;
    memcpy(parts, style, sizeof parts);
    mixed = parts[0] + 5 * parts[1] + 9 * parts[2] + 17 * parts[3];
    seen = &state->styles[(mixed ^ mixed >> 8 ^ mixed >> 16 ^ mixed >> 24) % SEEN_STYLES];
    if (seen->object == NULL || memcmp(&seen->style, style, STYLE_SIZE) != 0) {
        PyObject *before;
        made = make_style(module, style);
        if (made == NULL) {
            return NULL;
        }
        before = seen->object;
        seen->style = *style;
        seen->object = made;
        Py_DecRef(before);
    }
    Py_IncRef(seen->object);
    return seen->object;
}

/* Reads the codes of a style, which may be a `Style`. Returns false with an error. */
static bool read_codes(PyObject *module, PyObject *given, Text *codes) {
    PyObject *type = used(module, STYLE), *named = NULL;
    int is_style = type == NULL ? -1 : PyUnicode_CheckExact(given) ? 0 : PyObject_IsInstance(given, type);
    size_t at;
    bool is_read;
    if (is_style < 0 || (is_style > 0 && (named = PyObject_GetAttrString(given, "codes")) == NULL)) {
        return false;
    }
    is_read = read_text("style", named == NULL ? given : named, codes);
    Py_DecRef(named);
    for (at = 0; is_read && at < codes->size; at++) {
        if (codes->bytes[at] < '0' || codes->bytes[at] > ';') {
            PyErr_Format(PyExc_ValueError, "style must have only digits, ';' and ':', not %R", given);
            return false;
        }
    }
    return is_read;
}

static ansi_str_answer write_mark(const Text *text, const Step *step, uint8_t *room, size_t size) {
    return ansi_str_raw_mark(text->bytes, text->size, step->pattern.bytes, step->pattern.size, step->with.bytes, step->with.size, room,
                             size);
}

static PyObject *marked(const Form *form, const Given *given) {
    Call call;
    bool is_read = begin(&call, form, given) && read_text_and_pattern(&call) &&
                   read_codes(given->module, call.words[2], &call.step.with);
    return ended(&call, is_read ? changed(&call) : NULL);
}

CALL(mark, marked, 3, 3, 3, {"text", "pattern", "style"}, .write = write_mark)

/* ---- Ranges and replacements ---- */

/* The members of what is given, as a tuple of that many, or NULL with an error as of `a, b = given`. */
static PyObject *members_of(PyObject *given, Py_ssize_t wanted) {
    PyObject *iterator, *members;
    if (PyTuple_CheckExact(given) && PyTuple_Size(given) == wanted) {
        Py_IncRef(given);
        return given;
    }
    iterator = PyObject_GetIter(given);
    if (iterator == NULL) {
        PyObject *type = NULL;
        if (PyErr_ExceptionMatches(PyExc_TypeError)) {
            PyErr_Clear();
            type = PyObject_GetAttrString((PyObject *)Py_TYPE(given), "__name__");
        }
        if (type != NULL) {
            PyErr_Format(PyExc_TypeError, "cannot unpack non-iterable %S object", type);
            Py_DecRef(type);
        }
        return NULL;
    }
    members = PySequence_Tuple(iterator);
    Py_DecRef(iterator);
    if (members != NULL && PyTuple_Size(members) != wanted) {
        if (PyTuple_Size(members) < wanted) {
            PyErr_Format(PyExc_ValueError, "not enough values to unpack (expected %zd, got %zd)", wanted, PyTuple_Size(members));
        } else {
            PyErr_Format(PyExc_ValueError, "too many values to unpack (expected %zd)", wanted);
        }
        Py_DecRef(members);
        return NULL;
    }
    return members;
}

/* a number of characters, and what was given for it */
typedef struct {
    size_t characters;
    PyObject *given;
} Number;

/* Whether a number isn't below another. If it is, an error of both is set. */
static bool in_order(const char *refusal, Number number, Number before) {
    int below = is_below(number.characters, number.given, before.characters, before.given);
    if (below > 0) {
        refuse_numbers(refusal, number.given, before.given);
    }
    return below == 0;
}

/* Reads a range by the first two members of a tuple, in characters after the end of the last one, as places of a plain text; if there is
   none, a character is a byte. `last` and `place` are that end. Returns false with an error. */
static bool read_next_range(PyObject *members, const Text *plain, Number *last, size_t *place, ansi_str_range *range) {
    Number start = {0, PyTuple_GetItem(members, 0)}, end = {0, PyTuple_GetItem(members, 1)};
    if (!read_number("start", start.given, &start.characters) || !read_number("end", end.given, &end.characters) ||
        !in_order("a range begins before the one before it ends: %S is below %S", start, *last) ||
        !in_order("the end lies before the start: %S is below %S", end, start)) {
        return false;
    }
    range->start = plain == NULL ? start.characters : place_after(plain, *place, start.characters - last->characters);
    range->end = plain == NULL ? end.characters : place_after(plain, range->start, end.characters - start.characters);
    *place = range->end;
    Py_IncRef(end.given);
    Py_DecRef(last->given);
    *last = end;
    return true;
}

/* Reads the new text of a replacement, which a list keeps. Returns false with an error. */
static bool read_new(PyObject *given, PyObject *kept, const ansi_str_range *range, ansi_str_replacement *replacement) {
    Text new;
    bool is_kept;
    if (!read_text("new", given, &new)) {
        return false;
    }
    is_kept = PyList_Append(kept, new.owner) == 0;
    Py_DecRef(new.owner);
    *replacement = (ansi_str_replacement){range->start, range->end, new.bytes, new.size};
    return is_kept;
}

/* The text that a call makes by ranges, which have two members, or by replacements, which have three. */
static PyObject *made_by_ranges(Call *call, PyObject *given, Py_ssize_t members) {
    bool have_texts = members == 3, are_read;
    PyObject *items = PySequence_Tuple(given), *kept = have_texts ? PyList_New(0) : NULL, *result = NULL;
    Py_ssize_t count = items == NULL ? 0 : PyTuple_Size(items), at;
    Step *step = &call->step;
    Number last = {0, NULL};
    size_t place = 0;
    Room room, plain_room;
    Text plain, *counted = is_ascii(call) ? NULL : &plain;
    open_room(&room);
    open_room(&plain_room);
    are_read = items != NULL && (kept != NULL || !have_texts) && (counted == NULL || make_plain(&call->text, &plain_room, &plain));
    if (are_read && !has_room(&room, (size_t)count * sizeof(ansi_str_replacement))) {
        PyErr_NoMemory();
        are_read = false;
    }
    step->more = 48 * (size_t)count;
    for (at = 0; are_read && at < count; at++) {
        PyObject *item = members_of(PyTuple_GetItem(items, at), members);
        ansi_str_range range;
        are_read = item != NULL && read_next_range(item, counted, &last, &place, &range);
        if (are_read && have_texts) {
            ansi_str_replacement *replacement = (ansi_str_replacement *)room.at + at;
            are_read = read_new(PyTuple_GetItem(item, 2), kept, &range, replacement);
            step->more += are_read ? replacement->with_len : 0;
        } else if (are_read) {
            ((ansi_str_range *)room.at)[at] = range;
        }
        Py_DecRef(item);
    }
    if (are_read) {
        step->list = room.at;
        step->count = (size_t)count;
        result = made(call);
    }
    if (result == Py_None) {
        refuse_number_of("a range ends past the end of the plain text: %S", last.given);
        Py_DecRef(result);
        result = NULL;
    }
    close_room(&room);
    close_room(&plain_room);
    Py_DecRef(last.given);
    Py_DecRef(kept);
    Py_DecRef(items);
    return result;
}

static ansi_str_answer write_restyle(const Text *text, const Step *step, uint8_t *room, size_t size) {
    return ansi_str_raw_restyle(text->bytes, text->size, step->list, step->count, step->with.bytes, step->with.size, room, size);
}

static ansi_str_answer write_replace_each(const Text *text, const Step *step, uint8_t *room, size_t size) {
    return ansi_str_raw_replace_each(text->bytes, text->size, step->list, step->count, room, size);
}

static PyObject *restyled(const Form *form, const Given *given) {
    Call call;
    bool is_read = begin(&call, form, given) && read_first(&call) &&
                   read_codes(given->module, call.words[2], &call.step.with);
    return ended(&call, is_read ? made_by_ranges(&call, call.words[1], 2) : NULL);
}

CALL(restyle, restyled, 3, 3, 3, {"text", "ranges", "style"}, .write = write_restyle)

static PyObject *replaced_each(const Form *form, const Given *given) {
    Call call;
    bool is_read = begin(&call, form, given) && read_first(&call);
    return ended(&call, is_read ? made_by_ranges(&call, call.words[1], 3) : NULL);
}

CALL(replace_each, replaced_each, 2, 2, 2, {"text", "replacements"}, .write = write_replace_each)

/* ---- Questions ---- */

static ansi_str_answer ask_starts_with(const Text *text, const Step *step) {
    return ansi_str_raw_starts_with_unchecked(text->bytes, text->size, step->pattern.bytes, step->pattern.size);
}

static ansi_str_answer ask_ends_with(const Text *text, const Step *step) {
    return ansi_str_raw_ends_with_unchecked(text->bytes, text->size, step->pattern.bytes, step->pattern.size);
}

static ansi_str_answer ask_has_any(const Text *text, const Step *step) {
    (void)step;
    return ansi_str_raw_has_any(text->bytes, text->size);
}

static ansi_str_answer ask_is_whole(const Text *text, const Step *step) {
    (void)step;
    return ansi_str_raw_is_whole(text->bytes, text->size);
}

static ansi_str_answer ask_is_safe(const Text *text, const Step *step) {
    return ansi_str_raw_is_safe(text->bytes, text->size, (uint32_t)step->first);
}

static ansi_str_answer ask_find(const Text *text, const Step *step) {
    return ansi_str_raw_find_unchecked(text->bytes, text->size, step->pattern.bytes, step->pattern.size);
}

static ansi_str_answer ask_find_from(const Text *text, const Step *step) {
    return ansi_str_raw_find_from(text->bytes, text->size, step->first, step->pattern.bytes, step->pattern.size);
}

static ansi_str_answer ask_fitting(const Text *text, const Step *step) {
    return ansi_str_raw_fitting(text->bytes, text->size, step->first);
}

static ansi_str_answer ask_width(const Text *text, const Step *step) {
    (void)step;
    return ansi_str_raw_width(text->bytes, text->size);
}

static ansi_str_answer ask_column_of(const Text *text, const Step *step) {
    return ansi_str_raw_column_of(text->bytes, text->size, step->first);
}

static bool read_position(PyObject *const *words, Step *step) {
    return read_at("position", words[0], step);
}

static bool read_columns(PyObject *const *words, Step *step) {
    return read_number("width", words[0], &step->first);
}

static bool read_keeps_links(PyObject *const *words, Step *step) {
    return read_truth(words[0], &step->first);
}

static PyObject *told(const Form *form, const Given *given) {
    Call call;
    PyObject *result = NULL;
    if (begin(&call, form, given) && (form->read == NULL || form->read(call.words + 1, &call.step)) && read_first(&call) &&
        (form->pattern == 0 || read_text("pattern", call.words[form->pattern], &call.step.pattern)) &&
        (!form->has_position || read_places(&call))) {
        PyThreadState *thread = let_others_run(call.text.size);
        ansi_str_answer answer = form->ask(&call.text, &call.step);
        run_alone(thread);
        result = form->result(&call, answer);
    }
    return ended(&call, result);
}

CALL(starts_with, told, 2, 2, 2, {"text", "pattern"}, .ask = ask_starts_with, .result = yes_or_no, .pattern = 1)
CALL(ends_with, told, 2, 2, 2, {"text", "pattern"}, .ask = ask_ends_with, .result = yes_or_no, .pattern = 1)
CALL(has_any, told, 1, 1, 1, {"text"}, .ask = ask_has_any, .result = yes_or_no)
CALL(is_whole, told, 1, 1, 1, {"text"}, .ask = ask_is_whole, .result = yes_or_no)
CALL(is_safe, told, 2, 1, 1, {"text", "links"}, .ask = ask_is_safe, .result = yes_or_no, .read = read_keeps_links)
CALL(find, told, 2, 2, 2, {"text", "pattern"}, .ask = ask_find, .result = position_of, .pattern = 1)
CALL(find_from, told, 3, 3, 3, {"text", "position", "pattern"}, .ask = ask_find_from, .result = position_of, .read = read_position,
     .pattern = 2, .has_position = true)
CALL(fitting, told, 2, 2, 2, {"text", "width"}, .ask = ask_fitting, .result = position_of, .read = read_columns)
CALL(width, told, 1, 1, 1, {"text"}, .ask = ask_width, .result = number_of)
CALL(column_of, told, 2, 2, 2, {"text", "position"}, .ask = ask_column_of, .result = number_of, .read = read_position, .has_position = true)

/* ---- Lists ---- */

/* The list of as many items, each made by `item`, which returns NULL with an error. */
static PyObject *list_of(size_t count, PyObject *(*item)(size_t at, void *of), void *of) {
    PyObject *list = PyList_New((Py_ssize_t)count);
    size_t at;
    for (at = 0; list != NULL && at < count; at++) {
        PyObject *made = item(at, of);
        if (made == NULL) {
            Py_DecRef(list);
            return NULL;
        }
        PyList_SetItem(list, (Py_ssize_t)at, made);
    }
    return list;
}

/* ranges or links, whose places are counted from a last one on; and the addresses of links */
typedef struct {
    PyObject *module;
    const Text *plain;
    size_t place;
    Py_ssize_t characters;
    const ansi_str_range *ranges;
    const ansi_str_link_entry *links;
    const uint8_t *addresses;
} Counted;

/* The position of a place, which isn't before that of the last call. */
static Py_ssize_t count_up_to(Counted *counted, size_t place) {
    counted->characters += characters_between(counted->plain, counted->place, place);
    counted->place = place;
    return counted->characters;
}

static PyObject *range_item(size_t at, void *of) {
    Counted *counted = of;
    Py_ssize_t start = count_up_to(counted, counted->ranges[at].start);
    PyObject *ends[] = {PyLong_FromSsize_t(start), PyLong_FromSsize_t(count_up_to(counted, counted->ranges[at].end))};
    return tuple_of(2, ends);
}

static PyObject *link_item(size_t at, void *of) {
    Counted *counted = of;
    const ansi_str_link_entry *link = &counted->links[at];
    size_t address = at == 0 ? 0 : link[-1].address_end;
    Py_ssize_t start = count_up_to(counted, link->start), end = count_up_to(counted, link->end);
    PyObject *members[] = {PyLong_FromSsize_t(start), PyLong_FromSsize_t(end),
                           decoded(counted->addresses + address, link->address_end - address)};
    return record_of(counted->module, LINK, 3, members);
}

/* The list of what was found in a call's text, or NULL with an error. */
static PyObject *list_counted(const Call *call, ansi_str_answers answer, PyObject *(*item)(size_t at, void *of), Counted *counted) {
    Room room;
    Text plain;
    PyObject *list = NULL;
    if (answer.status != ANSI_STR_OK) {
        return none_or_error(answer.status);
    }
    counted->module = call->module;
    open_room(&room);
    if (is_ascii(call) || make_plain(&call->text, &room, &plain)) {
        counted->plain = is_ascii(call) ? NULL : &plain;
        list = list_of(answer.count, item, counted);
    }
    close_room(&room);
    return list;
}

static PyObject *matches_found(const Form *form, const Given *given) {
    Call call;
    const Text *text = &call.text, *pattern = &call.step.pattern;
    PyObject *list = NULL;
    if (begin(&call, form, given) && read_text_and_pattern(&call)) {
        ansi_str_answers answer = {ANSI_STR_TOO_SMALL, 0, 0};
        Counted counted = {.place = 0};
        Room room;
        open_room(&room);
        while (answer.status == ANSI_STR_TOO_SMALL) {
            PyThreadState *thread;
            if (!has_room(&room, answer.count * sizeof(ansi_str_range))) {
                answer.status = ANSI_STR_OUT_OF_MEMORY;
                break;
            }
            thread = let_others_run(text->size);
            answer = ansi_str_raw_matches(text->bytes, text->size, pattern->bytes, pattern->size, room.at,
                                          room.size / sizeof(ansi_str_range));
            run_alone(thread);
        }
        counted.ranges = room.at;
        list = list_counted(&call, answer, range_item, &counted);
        close_room(&room);
    }
    return ended(&call, list);
}

CALL(matches, matches_found, 2, 2, 2, {"text", "pattern"})

static PyObject *links_found(const Form *form, const Given *given) {
    Call call;
    const Text *text = &call.text;
    PyObject *list = NULL;
    if (begin(&call, form, given) && read_first(&call)) {
        ansi_str_answers answer = {ANSI_STR_TOO_SMALL, 0, 0};
        Counted counted = {.place = 0};
        Room entries, addresses;
        open_room(&entries);
        open_room(&addresses);
        while (answer.status == ANSI_STR_TOO_SMALL) {
            PyThreadState *thread;
            if (!has_room(&entries, answer.count * sizeof(ansi_str_link_entry)) || !has_room(&addresses, answer.len)) {
                answer.status = ANSI_STR_OUT_OF_MEMORY;
                break;
            }
            thread = let_others_run(text->size);
            answer = ansi_str_raw_links(text->bytes, text->size, addresses.at, addresses.size, entries.at,
                                        entries.size / sizeof(ansi_str_link_entry));
            run_alone(thread);
        }
        counted.links = entries.at;
        counted.addresses = addresses.at;
        list = list_counted(&call, answer, link_item, &counted);
        close_room(&entries);
        close_room(&addresses);
    }
    return ended(&call, list);
}

CALL(links, links_found, 1, 1, 1, {"text"})

/* lines, one after the other, and where each ends */
typedef struct {
    const uint8_t *lines;
    const size_t *ends;
} Wrapped;

static PyObject *line_item(size_t at, void *of) {
    const Wrapped *wrapped = of;
    size_t start = at == 0 ? 0 : wrapped->ends[at - 1];
    return decoded(wrapped->lines + start, wrapped->ends[at] - start);
}

static PyObject *wrapped_lines(const Form *form, const Given *given) {
    Call call;
    const Text *text = &call.text, *first = &call.step.pattern, *later = &call.step.with;
    PyObject *list = NULL;
    if (begin(&call, form, given) && read_first(&call) && read_number("width", call.words[1], &call.step.first) &&
        read_optional("first_indent", call.words[2], &call.step.pattern) && read_optional("indent", call.words[3], &call.step.with)) {
        ansi_str_answers answer = {ANSI_STR_TOO_SMALL, 0, text->size + ANSI_STR_LONGEST_START_AND_CLOSE};
        Room lines, ends;
        open_room(&lines);
        open_room(&ends);
        while (answer.status == ANSI_STR_TOO_SMALL) {
            PyThreadState *thread;
            /* (there is at most one line more than the text has bytes) */
            if (!has_room(&lines, answer.len) || !has_room(&ends, (text->size + 1) * sizeof(size_t))) {
                answer.status = ANSI_STR_OUT_OF_MEMORY;
                break;
            }
            thread = let_others_run(text->size);
            answer = first->size + later->size == 0
                         ? ansi_str_raw_wrap(text->bytes, text->size, call.step.first, lines.at, lines.size, ends.at, text->size + 1)
                         : ansi_str_raw_wrap_with(text->bytes, text->size, call.step.first, first->bytes, first->size, later->bytes,
                                                  later->size, lines.at, lines.size, ends.at, text->size + 1);
            run_alone(thread);
        }
        if (answer.status == ANSI_STR_OK) {
            Wrapped wrapped = {lines.at, ends.at};
            list = list_of(answer.count, line_item, &wrapped);
        } else {
            set_error(answer.status);
        }
        close_room(&lines);
        close_room(&ends);
    }
    return ended(&call, list);
}

CALL(wrap, wrapped_lines, 4, 2, 4, {"text", "width", "first_indent", "indent"})

/* ---- Walks: parts, blocks and lines one by one ---- */

typedef struct Walk Walk;

/* A walk over the parts of a text, its blocks or its lines. */
struct Walk {
    PyObject_HEAD
    PyObject *module;
    Text text;
    Text pattern;
    /* the next item, or NULL, with an error or at the end */
    PyObject *(*next)(Walk *walk);
    union {
        ansi_str_part_walk parts;
        ansi_str_block_walk blocks;
        ansi_str_line_walk lines;
    } state;
    /* the plain text of lines, unless all of it is ASCII, and the place up to which its characters are counted */
    Text plain;
    Counted counted;
    /* the address of the link of the last block, or NULL */
    PyObject *link;
    /* room for what the library writes */
    void *room;
    size_t size;
};

/* (walks are made by calls alone) */
static PyObject *refuse_walk(PyTypeObject *type, PyObject *words, PyObject *names) {
    (void)type;
    (void)words;
    (void)names;
    PyErr_SetString(PyExc_TypeError, "a walk is made by a call");
    return NULL;
}

static void free_walk(PyObject *self) {
    Walk *walk = (Walk *)self;
    PyTypeObject *type = Py_TYPE(self);
    Py_DecRef(walk->module);
    Py_DecRef(walk->text.owner);
    Py_DecRef(walk->pattern.owner);
    Py_DecRef(walk->plain.owner);
    Py_DecRef(walk->link);
    PyMem_Free(walk->room);
    PyObject_Free(self);
    Py_DecRef((PyObject *)type);
}

/* A walk over a call's text, of which it takes the bytes and the pattern. NULL with an error. */
static Walk *make_walk(Call *call, PyObject *(*next)(Walk *walk)) {
    State *state = PyModule_GetState(call->module);
    Walk *walk = (Walk *)PyType_GenericAlloc(state->walk_type, 0);
    if (walk != NULL) {
        Py_IncRef(call->module);
        walk->module = call->module;
        walk->next = next;
        walk->text = call->text;
        walk->pattern = call->step.pattern;
        call->text.owner = call->step.pattern.owner = NULL;
    }
    return walk;
}

typedef ansi_str_answer Next(Walk *walk, void *item, uint8_t *room, size_t size);

/* Calls the library with the walk's room, or with that at hand, and again with more until it is enough. Returns where it wrote, and how
   much; or NULL with an error, or without one at the end. */
static const uint8_t *next_written(Walk *walk, Next *next, void *item, uint8_t *near, size_t near_size, size_t *size) {
    for (;;) {
        uint8_t *room = walk->room == NULL ? near : walk->room;
        ansi_str_answer answer = next(walk, item, room, walk->room == NULL ? near_size : walk->size);
        if (answer.status == ANSI_STR_OK) {
            *size = answer.len;
            return room;
        }
        if (answer.status == ANSI_STR_NO) {
            return NULL;
        }
        /* (the walk is unchanged, so the step can be made again) */
        room = answer.status == ANSI_STR_TOO_SMALL ? PyMem_Realloc(walk->room, 2 * answer.len) : NULL;
        if (room == NULL) {
            PyErr_NoMemory();
            return NULL;
        }
        walk->room = room;
        walk->size = 2 * answer.len;
    }
}

static ansi_str_answer write_part_of_walk(Walk *walk, void *item, uint8_t *room, size_t size) {
    return ansi_str_parts_next(&walk->state.parts, item, (char *)room, size);
}

static ansi_str_answer write_block_of_walk(Walk *walk, void *item, uint8_t *room, size_t size) {
    return ansi_str_blocks_next(&walk->state.blocks, item, (char *)room, size);
}

enum { NEAR = 512 };

static PyObject *next_part(Walk *walk) {
    uint8_t near[NEAR];
    ansi_str_next_part part;
    size_t size;
    const uint8_t *room = next_written(walk, write_part_of_walk, &part, near, sizeof near, &size);
    if (room == NULL) {
        return NULL;
    }
    /* (the other of both is empty) */
    return size > 0 ? decoded(room, size) : decoded(part.text, part.text_len);
}

/* The address of the link that is open after sequences, or NULL. */
static const uint8_t *link_after(const Text *sequences, size_t *size) {
    ansi_str_pen pen = ansi_str_no_pen();
    ansi_str_raw_pen_after(sequences->bytes, sequences->size, &pen);
    *size = pen.link_len;
    return pen.link_len == 0 ? NULL : pen.link;
}

/* Follows the link of a walk's blocks over the sequences before a block. Returns false with an error. */
static bool follow_link(Walk *walk, const Text *sequences) {
    static const char OPENS[] = "\x1b]8;;-\x1b\\";
    size_t size;
    const uint8_t *link = link_after(sequences, &size);
    if (link != NULL) {
        PyObject *before = walk->link;
        walk->link = decoded(link, size);
        Py_DecRef(before);
        return walk->link != NULL;
    }
    if (walk->link != NULL) {
        /* (they close each link, or have none) */
        Text after = {NULL, NULL, sizeof OPENS - 1 + sequences->size};
        Room room;
        open_room(&room);
        if (!has_room(&room, after.size)) {
            PyErr_NoMemory();
            return false;
        }
        memcpy(room.at, OPENS, sizeof OPENS - 1);
        memcpy((char *)room.at + sizeof OPENS - 1, sequences->bytes, sequences->size);
        after.bytes = room.at;
        if (link_after(&after, &size) == NULL) {
            Py_DecRef(walk->link);
            walk->link = NULL;
        }
        close_room(&room);
    }
    return true;
}

static PyObject *next_block(Walk *walk) {
    uint8_t near[NEAR];
    ansi_str_next_block block;
    Text sequences = {NULL, NULL, 0};
    PyObject *members[4];
    sequences.bytes = next_written(walk, write_block_of_walk, &block, near, sizeof near, &sequences.size);
    if (sequences.bytes == NULL || (sequences.size > 0 && !follow_link(walk, &sequences))) {
        return NULL;
    }
    members[0] = decoded(block.text, block.text_len);
    members[1] = members[0] == NULL ? NULL : style_of(walk->module, &block.style);
    members[2] = walk->link == NULL ? Py_None : walk->link;
    Py_IncRef(members[2]);
    members[3] = members[1] == NULL ? NULL : decoded(sequences.bytes, sequences.size);
    return record_of(walk->module, BLOCK, 4, members);
}

static PyObject *next_line(Walk *walk) {
    ansi_str_range line;
    ansi_str_line_entry entry;
    if (ansi_str_lines_next(&walk->state.lines, &entry).status != ANSI_STR_OK) {
        return NULL;
    }
    line = (ansi_str_range){entry.start, entry.end};
    walk->counted.ranges = &line;
    return range_item(0, &walk->counted);
}

static PyObject *next_of_walk(PyObject *self) {
    Walk *walk = (Walk *)self;
    return walk->next(walk);
}

static PyType_Slot walk_slots[] = {
    {Py_tp_new, (void *)refuse_walk},
    {Py_tp_dealloc, (void *)free_walk},
    {Py_tp_iter, (void *)PyObject_SelfIter},
    {Py_tp_iternext, (void *)next_of_walk},
    {0, NULL},
};

static PyType_Spec walk_spec = {"ansi_str.Walk", sizeof(Walk), 0, Py_TPFLAGS_DEFAULT, walk_slots};

/* The list of what a walk returns. */
static PyObject *listed(const Form *form, const Given *given) {
    PyObject *walk = form->walk(form, given), *list = walk == NULL ? NULL : PyList_New(0), *item;
    while (list != NULL && (item = next_of_walk(walk)) != NULL) {
        int appended = PyList_Append(list, item);
        Py_DecRef(item);
        if (appended < 0) {
            break;
        }
    }
    Py_DecRef(walk);
    if (list != NULL && PyErr_Occurred()) {
        Py_DecRef(list);
        return NULL;
    }
    return list;
}

static PyObject *walk_parts(const Form *form, const Given *given) {
    Call call;
    Walk *walk = NULL;
    if (begin(&call, form, given) && read_text_and_pattern(&call) && (walk = make_walk(&call, next_part)) != NULL) {
        walk->state.parts = ansi_str_no_part_walk();
        ansi_str_raw_parts_begin_unchecked(walk->text.bytes, walk->text.size, walk->pattern.bytes, walk->pattern.size, &walk->state.parts);
    }
    return ended(&call, (PyObject *)walk);
}

CALL(iter_split, walk_parts, 2, 2, 2, {"text", "pattern"})
CALL(split, listed, 2, 2, 2, {"text", "pattern"}, .walk = walk_parts)

static PyObject *walk_blocks(const Form *form, const Given *given) {
    Call call;
    Walk *walk = NULL;
    if (begin(&call, form, given) && read_first(&call) && (walk = make_walk(&call, next_block)) != NULL) {
        walk->state.blocks = ansi_str_no_walk();
        ansi_str_raw_blocks_begin_unchecked(walk->text.bytes, walk->text.size, &walk->state.blocks);
    }
    return ended(&call, (PyObject *)walk);
}

CALL(iter_blocks, walk_blocks, 1, 1, 1, {"text"})
CALL(blocks, listed, 1, 1, 1, {"text"}, .walk = walk_blocks)

/* Counts the characters of a walk's lines. Returns false with an error. */
static bool count_lines(Walk *walk) {
    Room room;
    Text plain;
    bool is_made;
    open_room(&room);
    is_made = make_plain(&walk->text, &room, &plain) &&
              take_bytes(PyBytes_FromStringAndSize((const char *)plain.bytes, (Py_ssize_t)plain.size), &walk->plain);
    close_room(&room);
    walk->counted.plain = &walk->plain;
    return is_made;
}

static PyObject *walk_lines(const Form *form, const Given *given) {
    Call call;
    Walk *walk = NULL;
    if (begin(&call, form, given) && read_first(&call) && read_number("width", call.words[1], &call.step.first) &&
        (walk = make_walk(&call, next_line)) != NULL) {
        ansi_str_answer answer = ansi_str_lines_begin((const char *)walk->text.bytes, walk->text.size, call.step.first, &walk->state.lines);
        set_error(answer.status);
        if (answer.status != ANSI_STR_OK || (!is_ascii(&call) && !count_lines(walk))) {
            Py_DecRef((PyObject *)walk);
            walk = NULL;
        }
    }
    return ended(&call, (PyObject *)walk);
}

CALL(iter_lines, walk_lines, 2, 2, 2, {"text", "width"})
CALL(lines, listed, 2, 2, 2, {"text", "width"}, .walk = walk_lines)

/* ---- Pens and styles ---- */

static ansi_str_answer write_pen_start(const Text *text, const Step *step, uint8_t *room, size_t size) {
    (void)step;
    return ansi_str_raw_pen_start(text->bytes, text->size, room, size);
}

static ansi_str_answer write_pen_end(const Text *text, const Step *step, uint8_t *room, size_t size) {
    (void)step;
    return ansi_str_raw_pen_end(text->bytes, text->size, room, size);
}

/* What is open at the end of a call's text. Returns false with an error. */
static bool find_pen(const Call *call, ansi_str_pen *pen) {
    PyThreadState *thread = let_others_run(call->text.size);
    ansi_str_answer answer = ansi_str_pen_after((const char *)call->text.bytes, call->text.size, pen);
    run_alone(thread);
    set_error(answer.status);
    return answer.status == ANSI_STR_OK;
}

/* The sequences of a pen: those of its style, unless a link is open or an unknown code has set something. */
static PyObject *pen_sequences(Call *call, const ansi_str_pen *pen, Writer *write, PyObject *style, Py_ssize_t member) {
    PyObject *sequences = PyTuple_GetItem(style, member);
    if (pen->link_len > 0 || (pen->style.attributes & ANSI_STR_UNKNOWN) != 0) {
        call->step.write = write;
        return made(call);
    }
    Py_IncRef(sequences);
    return sequences;
}

/* where a `Style` has the sequences that set it, and those that close it */
enum { STYLE_START = 4, STYLE_END = 5 };

static PyObject *pen_found(const Form *form, const Given *given) {
    Call call;
    ansi_str_pen pen;
    PyObject *result = NULL, *style;
    if (begin(&call, form, given) && read_first(&call) && find_pen(&call, &pen) &&
        (style = style_of(given->module, &pen.style)) != NULL) {
        PyObject *members[4] = {style};
        members[1] = pen.link_len == 0 ? none_or_error(ANSI_STR_NO) : decoded(pen.link, pen.link_len);
        members[2] = members[1] == NULL ? NULL : pen_sequences(&call, &pen, write_pen_start, style, STYLE_START);
        members[3] = members[2] == NULL ? NULL : pen_sequences(&call, &pen, write_pen_end, style, STYLE_END);
        result = record_of(given->module, PEN, 4, members);
    }
    return ended(&call, result);
}

CALL(pen_after, pen_found, 1, 1, 1, {"text"})

/* (the style after an SGR of the codes) */
static PyObject *style_found(const Form *form, const Given *given) {
    Call call;
    PyObject *result = NULL;
    if (begin(&call, form, given) && read_codes(given->module, call.words[0], &call.step.with)) {
        const Text *codes = &call.step.with;
        ansi_str_pen pen;
        Room room;
        open_room(&room);
        call.text.size = codes->size + 3;
        if (!has_room(&room, call.text.size)) {
            PyErr_NoMemory();
        } else {
            char *sequence = room.at;
            memcpy(sequence, "\x1b[", 2);
            memcpy(sequence + 2, codes->bytes, codes->size);
            sequence[codes->size + 2] = 'm';
            call.text.bytes = room.at;
            result = find_pen(&call, &pen) ? style_of(given->module, &pen.style) : NULL;
        }
        close_room(&room);
    }
    return ended(&call, result);
}

CALL(of, style_found, 1, 1, 1, {"style"})

/* ---- Edits in turn ---- */

/* The kind of an edit by its class, among those from `first` on, or -1 with none. */
static int kind_of(PyObject *module, PyObject *edit, int first, int kinds) {
    int kind;
    for (kind = 0; kind < kinds; kind++) {
        PyObject *type = used(module, first + kind);
        if (type == NULL || PyObject_TypeCheck(edit, (PyTypeObject *)type)) {
            return type == NULL ? -1 : kind;
        }
    }
    return -1;
}

/* edits of one sort: their classes, how they are read, and what errors say that they must be */
struct Sort {
    int first, kinds;
    const EditKind *read;
    const char *some, *one;
};

/* Reads an edit. Returns false with an error. */
static bool read_edit(PyObject *module, const Sort *sort, PyObject *edit, Step *step) {
    PyObject *words[MOST_WORDS] = {NULL};
    int kind = kind_of(module, edit, sort->first, sort->kinds);
    Py_ssize_t at, count = kind < 0 ? 0 : sort->read[kind].words;
    if (kind < 0) {
        if (!PyErr_Occurred()) {
            refuse_type("edits", sort->one, edit);
        }
        return false;
    }
    if (PyTuple_Size(edit) != count) {
        PyErr_Format(PyExc_TypeError, "this edit must have %zd members, not %zd", count, PyTuple_Size(edit));
        return false;
    }
    for (at = 0; at < count; at++) {
        words[at] = PyTuple_GetItem(edit, at);
    }
    step->kind = (uint32_t)kind;
    return sort->read[kind].read(words, step);
}

/* The edits that are given, one or several, as a tuple. NULL with an error. */
static PyObject *edits_of(PyObject *module, const Sort *sort, PyObject *given) {
    int is_some = PyList_Check(given) || PyTuple_Check(given);
    if (kind_of(module, given, sort->first, sort->kinds) >= 0) {
        return PyTuple_Pack(1, given);
    }
    if (!PyErr_Occurred() && !is_some) {
        PyObject *iterator = used(module, ITERATOR);
        is_some = iterator == NULL ? -1 : PyObject_IsInstance(given, iterator);
    }
    if (PyErr_Occurred()) {
        return NULL;
    }
    if (!is_some) {
        refuse_type("edits", sort->some, given);
        return NULL;
    }
    return PySequence_Tuple(given);
}

/* The text after edits by columns. */
static PyObject *made_by_columns(const Call *call, const Step *steps, size_t count) {
    Step all = {.write = write_column_edits, .count = count};
    ansi_str_column_step *list;
    PyObject *result = NULL;
    Room room;
    size_t at;
    if (count == 1 && steps->kind != ANSI_STR_COLUMNS_EXPAND) {
        return made_by(call, steps);
    }
    open_room(&room);
    if (!has_room(&room, count * sizeof *list)) {
        return PyErr_NoMemory();
    }
    list = room.at;
    for (at = 0; at < count; at++) {
        list[at] = column_edit_of(&steps[at]);
        all.more += steps[at].more + steps[at].with.size;
    }
    all.list = list;
    result = made_by(call, &all);
    close_room(&room);
    return result;
}

/* The text after edits whose positions count bytes. */
static PyObject *made_by_edits(const Call *call, const Step *steps, size_t count) {
    Step all = {.write = write_edits, .count = count};
    ansi_str_edit_step *list;
    PyObject *result = NULL;
    Room room;
    size_t at;
    open_room(&room);
    if (!has_room(&room, count * sizeof *list)) {
        return PyErr_NoMemory();
    }
    list = room.at;
    for (at = 0; at < count; at++) {
        list[at] = edit_of(&steps[at]);
    }
    all.list = list;
    result = made_by(call, &all);
    close_room(&room);
    return result;
}

/* The text after edits whose positions count characters of what the edit before made. */
static PyObject *made_in_turn(const Call *call, Step *steps, size_t count) {
    ansi_str_answer answer = {ANSI_STR_OK, call->text.size};
    Text text = call->text;
    PyObject *result = NULL;
    bool is_made = true;
    Room rooms[2];
    size_t at;
    open_room(&rooms[0]);
    open_room(&rooms[1]);
    for (at = 0; is_made && answer.status == ANSI_STR_OK && at < count; at++) {
        Room *room = &rooms[at % 2];
        is_made = !has_positions(steps[at].kind) || find_places(&text, &steps[at]);
        if (is_made) {
            answer = written(&text, &steps[at], room);
            text = (Text){NULL, room->at, answer.len};
        }
    }
    if (is_made) {
        result = text_of(call, answer, text.bytes);
    }
    close_room(&rooms[0]);
    close_room(&rooms[1]);
    return result;
}

static PyObject *edited_each(const Form *form, const Given *given) {
    const Sort *sort = form->sort;
    Call call;
    PyObject *edits = NULL, *result = NULL;
    Step *steps = NULL;
    Room room;
    Py_ssize_t many = 0, read = 0;
    bool are_read = begin(&call, form, given) && (edits = edits_of(given->module, sort, call.words[1])) != NULL;
    open_room(&room);
    if (are_read) {
        many = PyTuple_Size(edits);
        if (!has_room(&room, (size_t)many * sizeof *steps)) {
            PyErr_NoMemory();
            are_read = false;
        }
        steps = room.at;
    }
    while (are_read && read < many) {
        steps[read] = (Step){.write = form->write};
        are_read = read_edit(given->module, sort, PyTuple_GetItem(edits, read), &steps[read]);
        read++;
    }
    if (are_read && read_first(&call)) {
        result = sort->read == COLUMN_EDITS ? made_by_columns(&call, steps, (size_t)many)
                 : is_ascii(&call)          ? made_by_edits(&call, steps, (size_t)many)
                                            : made_in_turn(&call, steps, (size_t)many);
    }
    while (read > 0) {
        read--;
        Py_DecRef(steps[read].pattern.owner);
        Py_DecRef(steps[read].with.owner);
    }
    close_room(&room);
    Py_DecRef(edits);
    return ended(&call, result);
}

static const Sort EDIT_SORT = {FIRST_EDIT, EDIT_KINDS, EDITS, "be an edit or a list of edits", "hold edits"};
CALL(edit, edited_each, 2, 2, 2, {"text", "edits"}, .sort = &EDIT_SORT, .write = write_edit)

static const Sort EDIT_COLUMNS_SORT = {FIRST_COLUMN_EDIT, COLUMN_KINDS, COLUMN_EDITS, "be an edit by columns or a list of them",
                              "hold edits by columns"};
CALL(edit_columns, edited_each, 2, 2, 2, {"text", "edits"}, .sort = &EDIT_COLUMNS_SORT, .write = write_columns)

/* ---- The module ---- */

static const struct {
    const char *name;
    Function *call;
} FUNCTIONS[] = {
    {"strip", call_strip}, {"cut", call_cut}, {"left", call_left}, {"right", call_right}, {"part", call_part},
    {"strip_prefix", call_strip_prefix}, {"strip_suffix", call_strip_suffix}, {"trim", call_trim}, {"width", call_width},
    {"fitting", call_fitting}, {"column_of", call_column_of}, {"truncate", call_truncate}, {"pad", call_pad}, {"fit", call_fit},
    {"slice_columns", call_slice_columns}, {"expand_tabs", call_expand_tabs}, {"wrap", call_wrap}, {"lines", call_lines},
    {"iter_lines", call_iter_lines}, {"link_at", call_link_at}, {"find", call_find}, {"find_from", call_find_from},
    {"matches", call_matches}, {"starts_with", call_starts_with}, {"ends_with", call_ends_with}, {"has_any", call_has_any},
    {"is_whole", call_is_whole}, {"mark", call_mark}, {"restyle", call_restyle}, {"remove", call_remove}, {"replace", call_replace},
    {"insert", call_insert}, {"replace_all", call_replace_all}, {"replace_each", call_replace_each}, {"link", call_link},
    {"unlink", call_unlink}, {"links", call_links}, {"sanitize", call_sanitize}, {"is_safe", call_is_safe}, {"split", call_split},
    {"iter_split", call_iter_split}, {"blocks", call_blocks}, {"iter_blocks", call_iter_blocks}, {"pen_after", call_pen_after},
    {"of", call_of}, {"edit", call_edit}, {"edit_columns", call_edit_columns},
};
enum { CALLS = sizeof FUNCTIONS / sizeof FUNCTIONS[0] };

/* METH_FASTCALL, which Python has from 3.6 on, and METH_KEYWORDS, with which it is to be joined from 3.7 on */
enum { FAST_CALL = 0x0080, KEYWORDS = 0x0002 };

static long version_of_python(void) {
    PyObject *version = PySys_GetObject("hexversion");
    return version == NULL ? 0 : PyLong_AsLong(version);
}

/* (name, docstring, module): the call of that name. The docstring begins with its signature, in the form that `inspect` reads. */
static PyObject *described(PyObject *module, PyObject *words) {
    State *state = PyModule_GetState(module);
    PyObject *name, *doc, *of;
    int at;
    if (!PyArg_ParseTuple(words, "UUU", &name, &doc, &of)) {
        return NULL;
    }
    for (at = 0; at < CALLS; at++) {
        if (state != NULL && state->docs[at] == NULL && PyUnicode_CompareWithASCIIString(name, FUNCTIONS[at].name) == 0) {
            state->docs[at] = PyUnicode_AsUTF8String(doc);
            if (state->docs[at] == NULL) {
                return NULL;
            }
            /* (they live as long as the module, and a function holds its module) */
            state->calls[at] = (PyMethodDef){FUNCTIONS[at].name, (PyCFunction)(void (*)(void))FUNCTIONS[at].call,
                                             version_of_python() < 0x03070000 ? FAST_CALL : FAST_CALL | KEYWORDS,
                                             PyBytes_AsString(state->docs[at])};
            return PyCFunction_NewEx(&state->calls[at], module, of);
        }
    }
    PyErr_Format(PyExc_ValueError, "there is no such call, or it is there already: %S", name);
    return NULL;
}

/* (what makes a style, the classes of what calls return, of iterators, and of edits): the module uses them from then on. */
static PyObject *use(PyObject *module, PyObject *words) {
    State *state = PyModule_GetState(module);
    int at;
    bool are_good = state != NULL && PyTuple_Size(words) == USED;
    for (at = STYLE; are_good && at < USED; at++) {
        PyObject *type = PyTuple_GetItem(words, at);
        are_good = PyType_Check(type) && (at == ITERATOR || PyType_IsSubtype((PyTypeObject *)type, &PyTuple_Type));
    }
    if (!are_good) {
        PyErr_Format(PyExc_TypeError, "the module uses %d objects, of which all but two are classes of tuples", USED);
        return NULL;
    }
    for (at = 0; at < USED; at++) {
        PyObject *before = state->used[at];
        state->used[at] = PyTuple_GetItem(words, at);
        Py_IncRef(state->used[at]);
        Py_DecRef(before);
    }
    for (at = 0; at < SEEN_STYLES; at++) {
        let_go(&state->styles[at].object);
    }
    return Py_BuildValue("");
}

static PyMethodDef private_calls[] = {
    {"described", described, METH_VARARGS, NULL},
    {"use", use, METH_VARARGS, NULL},
    {NULL, NULL, 0, NULL},
};

/* A tuple without a class of its own: it has the function that makes a tuple of any class from its members. */
static PyType_Slot record_slots[] = {{0, NULL}};
static PyType_Spec record_spec = {"ansi_str.Record", 0, 0, Py_TPFLAGS_DEFAULT, record_slots};

static int start(PyObject *module) {
    State *state = PyModule_GetState(module);
    PyObject *bases = PyTuple_Pack(1, &PyTuple_Type);
    state->walk_type = (PyTypeObject *)PyType_FromSpec(&walk_spec);
    state->record_type = bases == NULL ? NULL : (PyTypeObject *)PyType_FromSpecWithBases(&record_spec, bases);
    Py_DecRef(bases);
    if (state->walk_type == NULL || state->record_type == NULL) {
        return -1;
    }
    state->make_record = (newfunc)PyType_GetSlot(state->record_type, Py_tp_new);
    return state->make_record == NULL ? -1 : 0;
}

/* (a module that hasn't started has no state) */
static int visit_state(PyObject *module, visitproc visit, void *arg) {
    State *state = PyModule_GetState(module);
    int at;
    if (state == NULL) {
        return 0;
    }
    Py_VISIT(state->walk_type);
    Py_VISIT(state->record_type);
    for (at = 0; at < USED; at++) {
        Py_VISIT(state->used[at]);
    }
    for (at = 0; at < SEEN_STYLES; at++) {
        Py_VISIT(state->styles[at].object);
    }
    return 0;
}

static int clear_state(PyObject *module) {
    State *state = PyModule_GetState(module);
    int at;
    if (state == NULL) {
        return 0;
    }
    for (at = 0; at < USED; at++) {
        let_go(&state->used[at]);
    }
    for (at = 0; at < SEEN_STYLES; at++) {
        let_go(&state->styles[at].object);
    }
    return 0;
}

/* (the functions of the calls are gone now, so nothing reads their docstrings) */
static void free_state(void *module) {
    State *state = PyModule_GetState(module);
    int at;
    clear_state(module);
    if (state != NULL) {
        for (at = 0; at < CALLS; at++) {
            let_go(&state->docs[at]);
        }
        let_go((PyObject **)&state->walk_type);
        let_go((PyObject **)&state->record_type);
    }
}

/* The slot Py_mod_multiple_interpreters and its value Py_MOD_PER_INTERPRETER_GIL_SUPPORTED, which Python has from 3.12 on: the
   module may be imported by interpreters that don't share a lock. An older Python refuses the slot. */
enum { MULTIPLE_INTERPRETERS = 3, OWN_LOCK = 2 };

static PyModuleDef_Slot slots[] = {
    {MULTIPLE_INTERPRETERS, (void *)OWN_LOCK},
    {Py_mod_exec, (void *)start},
    {0, NULL},
};

#define DEFINITION(slots) \
    {PyModuleDef_HEAD_INIT, "_ansi_str", NULL, sizeof(State), private_calls, slots, visit_state, clear_state, free_state}

static struct PyModuleDef definition = DEFINITION(slots);
static struct PyModuleDef older_definition = DEFINITION(slots + 1);

PyMODINIT_FUNC PyInit__ansi_str(void) {
    return PyModuleDef_Init(version_of_python() < 0x030C0000 ? &older_definition : &definition);
}
