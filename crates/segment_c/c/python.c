/* The calls of zaluxhoni_rows.h for the package for Python. They are of CPython's stable functions, which are there
   where Python loaded the library: elsewhere their addresses are null, and nothing here asks for them. */
#include "zaluxhoni_rows.h"

#include <stdlib.h>

#define PYTHON extern __attribute__((weak))

/* How CPython is told of a method (PyMethodDef), of a part of a class (PyType_Slot) and of a class (PyType_Spec). */
struct method {
    const char *name;
    void *(*call)(void *self, void *const *passed, intptr_t count);
    int flags;
    const char *words;
};

struct slot {
    int number;
    void *part;
};

struct class {
    const char *name;
    int size, item_size;
    unsigned flags;
    struct slot *slots;
};

PYTHON char PyLong_Type[], PyBool_Type[], _Py_NoneStruct[], _Py_TrueStruct[];
PYTHON void Py_IncRef(void *object);
PYTHON void Py_DecRef(void *object);
PYTHON void *PyBool_FromLong(long truth);
PYTHON void *PyLong_FromLongLong(long long number);
PYTHON void *PyLong_FromUnsignedLongLong(unsigned long long natural);
PYTHON long long PyLong_AsLongLongAndOverflow(void *object, int *overflow);
PYTHON unsigned long long PyLong_AsUnsignedLongLong(void *object);
PYTHON void *PyList_GetItem(void *list, intptr_t index);
PYTHON void *PyErr_Occurred(void);
PYTHON void PyErr_Clear(void);
PYTHON void PyErr_Fetch(void **type, void **value, void **trace);
PYTHON void PyErr_Restore(void *type, void *value, void *trace);
PYTHON void *PyObject_GetAttrString(void *object, const char *name);
PYTHON void *PyObject_CallMethod(void *object, const char *name, const char *form, ...);
PYTHON void *PyType_FromSpec(struct class *class);
PYTHON void *PyType_GetSlot(void *type, int number);

/* ---- numbers and truths */

/* Whether the type of an object, which is its second word, is this one. */
static bool is_of(void *object, const char *type) { return ((char *const *)object)[1] == type; }

/* Whether there is a CPython, and objects lie in memory so: those of one without a lock of its own do not. */
static bool is_there(void) {
    void *number = PyLong_FromLongLong ? PyLong_FromLongLong(7) : NULL;
    bool is_so = number && is_of(number, PyLong_Type);
    if (number) Py_DecRef(number);
    return is_so;
}

static bool natural_in(void *object, zx_value *value) {
    unsigned long long natural = PyLong_AsUnsignedLongLong(object);
    *value = zx_u64(natural);
    if (natural != (unsigned long long)-1 || !PyErr_Occurred()) return true;
    PyErr_Clear();
    return false;
}

/* The value that an object is, if it is one of the kind. */
static bool value_in(void *object, uint32_t kind, zx_value *value) {
    int overflow = 0;
    if (kind == ZX_BOOL) {
        *value = zx_bool(object == _Py_TrueStruct);
        return is_of(object, PyBool_Type);
    }
    if (!is_of(object, PyLong_Type)) return false;
    if (kind == ZX_U64) return natural_in(object, value);
    long long number = PyLong_AsLongLongAndOverflow(object, &overflow);
    if (kind == ZX_U8) {
        *value = zx_u8((uint8_t)number);
        return !overflow && 0 <= number && number <= UINT8_MAX;
    }
    *value = zx_number(kind, number);
    return !overflow && (kind == ZX_I64 || (kind == ZX_I32 && INT32_MIN <= number && number <= INT32_MAX));
}

static void *object_of(const zx_value *value) {
    switch (value->kind) {
    case ZX_BOOL: return PyBool_FromLong((long)value->natural);
    case ZX_I32:
    case ZX_I64: return PyLong_FromLongLong(value->number);
    default: return PyLong_FromUnsignedLongLong(value->natural);
    }
}

/* A row of ZX_I64, of which programs have most: half as many instructions for an element as the one below. */
static bool numbers_of(void *list, int64_t *row, size_t count) {
    int overflow;
    for (size_t i = 0; i < count; i++) {
        void *object = PyList_GetItem(list, (intptr_t)i);
        if (!object || !is_of(object, PyLong_Type)) return false;
        row[i] = PyLong_AsLongLongAndOverflow(object, &overflow);
        if (overflow) return false;
    }
    return true;
}

static bool values_of(void *list, uint32_t kind, void *row, size_t count) {
    zx_value value;
    for (size_t i = 0; i < count; i++) {
        void *object = PyList_GetItem(list, (intptr_t)i);
        if (!object || !value_in(object, kind, &value)) return false;
        switch (kind) {
        case ZX_BOOL: ((bool *)row)[i] = value.natural != 0; break;
        case ZX_U8: ((uint8_t *)row)[i] = (uint8_t)value.natural; break;
        case ZX_I32: ((int32_t *)row)[i] = (int32_t)value.number; break;
        default: ((uint64_t *)row)[i] = value.natural;
        }
    }
    return true;
}

bool zx_python_row(void *list, uint32_t kind, void *row, size_t count) {
    if (!is_there()) return false;
    bool is_row = kind == ZX_I64 ? numbers_of(list, row, count) : values_of(list, kind, row, count);
    if (!is_row) PyErr_Clear();
    return is_row;
}

/* ---- places */

/* An object of the class. */
struct place {
    void *count, *type; /* as each object begins */
    zx_segment *segment; /* null before zx_python_place */
    const uint64_t *thread;
    zx_key key;
    uint32_t kind;
    void *owner;
};

static void *shared(void *object) {
    Py_IncRef(object);
    return object;
}

static void *answered(zx_code code) { return shared(code == ZX_DONE ? _Py_TrueStruct : _Py_NoneStruct); }

static void *value_or_none(zx_code code, const zx_value *value) {
    return code == ZX_DONE ? object_of(value) : shared(_Py_NoneStruct);
}

static void *at_key(const struct place *place, void *const *passed, bool is_put) {
    zx_value key, value;
    bool is_new;
    if (!value_in(passed[0], place->kind >> 8 & 255, &key)) return shared(_Py_NoneStruct);
    if (!is_put) return value_or_none(zx_map_get(place->segment, &place->key, &key, &value), &value);
    if (!value_in(passed[1], place->kind & 255, &value)) return shared(_Py_NoneStruct);
    return answered(zx_map_put(place->segment, &place->key, &key, &value, &is_new));
}

static void *at_index(const struct place *place, void *const *passed, bool is_put) {
    zx_value index, value;
    if (!value_in(passed[0], ZX_I64, &index) || index.number < (is_put ? -1 : 0)) return shared(_Py_NoneStruct);
    uint64_t at = (uint64_t)index.number;
    if (!is_put) return value_or_none(zx_get(place->segment, &place->key, at, &value), &value);
    uint32_t kind = place->kind == ZX_STRING ? (uint32_t)ZX_U8 : place->kind & 255;
    if (!value_in(passed[1], kind, &value)) return shared(_Py_NoneStruct);
    return answered(index.number < 0 ? zx_push(place->segment, &place->key, &value)
                                     : zx_set(place->segment, &place->key, at, &value));
}

static void *at(void *self, void *const *passed, intptr_t count) {
    const struct place *place = self;
    if (!place->segment) {
        void *none = PyObject_CallMethod(self, "_start", NULL);
        if (!none) return NULL;
        Py_DecRef(none);
    }
    bool is_here = place->segment && (!*place->thread || *place->thread == zx_thread());
    if (!is_here || place->kind >= ZX_STRINGS || count < 1 || count > 2) return shared(_Py_NoneStruct);
    bool is_map = place->kind >= ZX_MAP(0, 0);
    return (is_map ? at_key : at_index)(place, passed, count == 2);
}

static void *item(void *self, void *key) {
    void *value = at(self, &key, 1);
    if (value != _Py_NoneStruct) return value;
    Py_DecRef(value);
    return PyObject_CallMethod(self, "_item", "(O)", key);
}

enum { FASTCALL = 0x80, MP_SUBSCRIPT = 5, TP_DEALLOC = 52, TP_METHODS = 64, TP_FREE = 74, TP_FINALIZE = 80,
       HAVE_FINALIZE = 1, BASETYPE = 1 << 10, HAVE_VERSION_TAG = 1 << 18 };

static void end(void *self) {
    const struct place *place = self;
    void *type = place->type;
    void (*release)(void *) = (void (*)(void *))PyType_GetSlot(type, TP_FREE);
    if (place->owner) Py_DecRef(place->owner);
    release(self);
    Py_DecRef(type);
}

void *zx_python_class(void) {
    static struct method methods[] = { { "_at", at, FASTCALL, "A value at a key or an index; or puts one there." },
                                       { NULL, NULL, 0, NULL } };
    static struct slot slots[] = { { MP_SUBSCRIPT, (void *)item }, { TP_DEALLOC, (void *)end }, { TP_METHODS, methods },
                                   { 0, NULL } };
    static struct class class = { "zaluxhoni._library.Place", sizeof(struct place), 0, BASETYPE | HAVE_VERSION_TAG,
                                  slots };
    return is_there() ? PyType_FromSpec(&class) : NULL;
}

bool zx_python_place(void *object, zx_segment *segment, const zx_key *key, uint32_t kind, const uint64_t *thread,
                     void *owner) {
    struct place *place = object;
    if (!is_there() || place->segment) return false;
    place->thread = thread;
    place->key = *key;
    place->kind = kind;
    place->owner = shared(owner);
    place->segment = segment;
    return true;
}

/* ---- blocks */

/* An object of the class of blocks. */
struct block {
    void *count, *type;
    uint64_t depth; /* how often it is entered */
};

/* What is raised and not caught yet, or three nulls. */
struct raised {
    void *type, *value, *trace;
};

/* Takes the error that is set, unless there is an earlier one. */
static void keep_first(struct raised *first) {
    struct raised now;
    PyErr_Fetch(&now.type, &now.value, &now.trace);
    if (!first->type) {
        *first = now;
        return;
    }
    if (now.type) Py_DecRef(now.type);
    if (now.value) Py_DecRef(now.value);
    if (now.trace) Py_DecRef(now.trace);
}

/* Calls a method of the lock of a block. */
static bool ask_lock(void *self, const char *method) {
    void *lock = PyObject_GetAttrString(self, "_held");
    void *answer = lock ? PyObject_CallMethod(lock, method, NULL) : NULL;
    if (lock) Py_DecRef(lock);
    if (answer) Py_DecRef(answer);
    return answer != NULL;
}

/* How often the end of a block is tried, if handlers of signals interrupt it. */
enum { TRIES = 100000 };

/* Ends a block and releases its lock. A handler of a signal runs where Python code begins, and may raise: then the same
   call of _end continues. The first error stays set. */
static void end_block(struct block *block, void *raised) {
    struct raised first = { NULL, NULL, NULL };
    void *ended = NULL;
    keep_first(&first);
    for (int tries = 0; !ended && tries < TRIES; tries++) {
        ended = PyObject_CallMethod(block, "_end", "(KO)", (unsigned long long)block->depth, raised);
        if (!ended) keep_first(&first);
    }
    if (ended) Py_DecRef(ended);
    block->depth--;
    if (!ask_lock(block, "release")) keep_first(&first);
    if (first.type) PyErr_Restore(first.type, first.value, first.trace);
}

static void *enter(void *self, void *const *passed, intptr_t count) {
    (void)passed;
    (void)count;
    struct block *block = self;
    if (!ask_lock(self, "acquire")) return NULL;
    block->depth++;
    void *within = PyObject_CallMethod(self, "_begin", NULL);
    if (!within) end_block(block, _Py_TrueStruct);
    return within;
}

static void *leave(void *self, void *const *passed, intptr_t count) {
    struct block *block = self;
    if (block->depth) end_block(block, count > 1 && passed[0] != _Py_NoneStruct ? passed[1] : _Py_NoneStruct);
    return PyErr_Occurred() ? NULL : shared(_Py_NoneStruct);
}

/* Before 3.11 Python also runs handlers of signals between a `with` and its block, so that nobody calls __exit__. Then
   the object ends at once, since nothing else refers to it. */
static void finalize(void *self) {
    struct block *block = self;
    struct raised before;
    PyErr_Fetch(&before.type, &before.value, &before.trace);
    while (block->depth) {
        end_block(block, _Py_TrueStruct);
        PyErr_Clear();
    }
    PyErr_Restore(before.type, before.value, before.trace);
}

void *zx_python_block(void) {
    static struct method methods[] = { { "__enter__", enter, FASTCALL, "Begins a block." },
                                       { "__exit__", leave, FASTCALL, "Ends a block." },
                                       { NULL, NULL, 0, NULL } };
    static struct slot slots[] = { { TP_METHODS, methods }, { TP_FINALIZE, (void *)finalize }, { 0, NULL } };
    static struct class class = { "zaluxhoni._library.Block", sizeof(struct block), 0,
                                  BASETYPE | HAVE_VERSION_TAG | HAVE_FINALIZE, slots };
    return is_there() ? PyType_FromSpec(&class) : NULL;
}
