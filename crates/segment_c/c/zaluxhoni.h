/* Zaluxhoni for C and C++: typed objects under names in one run of bytes, which a program saves and opens again. Its
   calls are proved, and the inline functions of this header are tested. docs/C.md is the guide. In short:

   - A zx_segment starts as ZX_CLOSED_HANDLE. Only these calls change it, nobody copies it, and zx_close frees it.
   - Make one call at a time on a handle, and all of them on one thread.
   - No pointer to a handle, key, value or result is null. The call may read what it points to, and write it if it is
     not const. What a call writes through one pointer overlaps nothing else that it is given.
   - A slice that is passed to a call which changes the segment lies outside the segment: copy what zx_view tells of
     first.
   - A slice is a pointer and a number of elements. A null slice returns ZX_NULL_SLICE, even an empty one, and so does
     a null text in a list. The calls that take a slice are inline functions of this header, which check it.
   - Names and texts are bytes: UTF-8 in names, anything in texts. No byte 0 ends them.

   Each call returns a code, and 0 means done. Any other code leaves the segment and every result as they were, unless
   the call says otherwise; after ZX_NO_SPACE the bytes of gaps may differ. */
#ifndef ZALUXHONI_H
#define ZALUXHONI_H

#include <stdbool.h>
#include <stddef.h>
#include <stdint.h>
#include <string.h>

/* Sets the name that the linker uses for a function. */
#define ZX_NAMED(name) __asm__(#name)

/* Begins a function that this header defines. A program in C++ has one such function, so that an inline function of C++
   may call it. */
#ifdef __cplusplus
#define ZX_INLINE inline __attribute__((visibility("hidden")))
#else
#define ZX_INLINE static inline
#endif

#ifdef __cplusplus
extern "C" {
#endif

/* ---- the version: 10000 for each major version, 100 for each minor one, and 1 for each patch */

#define ZX_VERSION 900

/* Returns the version of the library; ZX_VERSION is that of this header. */
uint32_t zx_version(void);

/* Returns the state of the crates that was proved, and the logic of the prover: `state S, logic L`, with 16 hexadecimal
   digits each. A library that is not from a package has dashes for both. */
const char *zx_state(void);

/* ---- codes */

typedef uint32_t zx_code;

enum {
    ZX_DONE = 0,

    /* Refused by the segment: the numbers that the program prints after `error`. */
    ZX_READ_ONLY = 4,    /* the call may change the segment, which is open for reading */
    ZX_EXISTS = 5,       /* an object has the name, or is the unique one of its kind */
    ZX_NOT_FOUND = 6,    /* no object has the key */
    ZX_WRONG_KIND = 7,   /* the call is not for the kind of this object or value */
    ZX_OUT_OF_RANGE = 8, /* an index is past the end, or a number outside the range of the element */
    ZX_NO_SPACE = 9,     /* no gap is long enough */

    /* Not a refusal: nothing was found. */
    ZX_ABSENT = 10,

    /* Wrong arguments, or no memory. */
    ZX_CLOSED = 16,       /* the handle has no segment */
    ZX_BAD_KEY = 17,      /* the key's `how` is unknown, or the call does not take it */
    ZX_BAD_NAME = 18,     /* a name is 1 to 255 bytes of UTF-8 without control characters */
    ZX_BAD_KIND = 19,     /* no kind has the code, or the unique key names another kind */
    ZX_BAD_VALUE = 20,    /* the value's kind is no scalar kind, or its number is outside that kind */
    ZX_BAD_COUNT = 21,    /* an object of scalars has 1 to 1048576 of them */
    ZX_BAD_SIZE = 22,     /* a segment has 144 bytes, or a multiple of 16 from 176 to 1073741824 */
    ZX_BAD_MODE = 23,     /* the mode is unknown */
    ZX_SHORT_BUFFER = 24, /* the buffer is too short */
    ZX_NULL_SLICE = 25,   /* a slice is null */
    ZX_NO_MEMORY = 26,    /* the C library gave no memory */
    ZX_SHORT_REGION = 27, /* the region is too short */
    ZX_BAD_GROWTH = 28,   /* a segment grows by a multiple of 16, at least 32 */
    ZX_TOO_LARGE = 29,    /* it would have more than 1073741824 bytes */

    /* The bytes are no image of a segment: 100 plus the number of the first class that holds. */
    ZX_TRUNCATED = 101,
    ZX_BAD_MAGIC = 102,
    ZX_UNSUPPORTED_VERSION = 103,
    ZX_BAD_IMAGE_SIZE = 104,
    ZX_BAD_RESERVED = 105,
    ZX_BAD_TAG = 106,
    ZX_BAD_FREE_TREE = 107,
    ZX_BAD_INDEX = 108,
    ZX_BAD_OBJECT = 109,
    ZX_SHARED_BLOCK = 110,
    ZX_BAD_CONTAINER = 111,
    ZX_ORPHAN_BLOCK = 112
};

/* ---- what is passed */

/* A segment, or none, and what the library notes about it. */
typedef struct {
    void *at;
    uint64_t changes; /* differs after each call that may have changed the segment */
    bool lent;        /* whether it lies in memory that zx_attach borrowed */
    bool shared;      /* whether zx_view_mut gave a view since the last change */
} zx_segment;

/* No segment. In C, a static handle without an initializer is closed. */
#ifdef __cplusplus
#define ZX_CLOSED_HANDLE (zx_segment{})
#else
#define ZX_CLOSED_HANDLE ((zx_segment){ 0, 0, false, false })
#endif

/* Memory for a segment: `len` bytes from `at` on. */
typedef struct {
    uint8_t *at;
    uint64_t len;
} zx_memory;

/* How a segment is open. */
enum { ZX_WRITE = 0, ZX_READ = 1, ZX_COPY_ON_WRITE = 2 };

/* Kinds of scalars and of objects. An object of a scalar kind is one scalar or an array. */
enum { ZX_BOOL = 1, ZX_U8 = 2, ZX_I32 = 3, ZX_I64 = 4, ZX_U64 = 5, ZX_STRING = 65536, ZX_STRINGS = 262144 };
#define ZX_VECTOR(scalar) (131072u + (scalar))
#define ZX_MAP(key, value) (196608u + 256u * (key) + (value))

/* How an object is found again. */
enum { ZX_IS_ANONYMOUS = 0, ZX_IS_NAMED = 1, ZX_IS_UNIQUE = 2 };

/* Which object: the one with a name, the unique one of a kind, or the one with a handle. ZX_NO_KEY makes a new object
   without a key. */
enum { ZX_BY_NAME = 0, ZX_BY_KIND = 1, ZX_BY_HANDLE = 2, ZX_NO_KEY = 3, ZX_NULL_NAME = 4 };

typedef struct {
    uint32_t how;
    uint32_t kind;       /* with ZX_BY_KIND */
    uint64_t handle;     /* with ZX_BY_HANDLE */
    const uint8_t *name; /* with ZX_BY_NAME; otherwise not null, with len 0 */
    size_t len;
} zx_key;

/* A scalar with its kind. ZX_I32 and ZX_I64 use `number`; the other kinds use `natural`, where 0 is false. A value that
   a call stores takes the element's kind: the number must be in its range, and only a bool takes a bool. */
typedef struct {
    uint32_t kind;
    int64_t number;
    uint64_t natural;
} zx_value;

/* The elements of a vector or an array: the slice of their kind. The other slices are empty and not null. Kind 0 means
   a null slice. */
typedef struct {
    uint32_t kind;
    const bool *truths;
    size_t truth_count;
    const uint8_t *bytes;
    size_t byte_count;
    const int32_t *i32s;
    size_t i32_count;
    const int64_t *i64s;
    size_t i64_count;
    const uint64_t *u64s;
    size_t u64_count;
} zx_values;

/* A text of a vector of strings; `at` is not null. */
typedef struct {
    const uint8_t *at;
    size_t len;
} zx_text;

/* Elements where they are, one after another, each as the bytes that spell it: a number little-endian, a bool 0 or
   1. */
typedef struct {
    const void *at;   /* the address of the first */
    uint64_t offset;  /* from the start of the segment: a multiple of 8 */
    uint64_t count;
    uint64_t changes; /* of the handle */
    uint32_t kind;    /* a scalar kind; the elements of a string are ZX_U8 */
} zx_elements;

/* What a call tells about an object. */
typedef struct {
    uint32_t found_by; /* ZX_IS_.. */
    uint32_t kind;
    uint32_t count;    /* the number of scalars; 1 for a container */
    uint64_t name_len; /* 0 for an object without a name */
    uint64_t handle;
} zx_info;

/* What a tile is: a gap, or a block by its role. */
enum { ZX_GAP = 0, ZX_OBJECT = 1, ZX_INDEX = 2, ZX_STORAGE = 3, ZX_NODE = 4 };

typedef struct {
    uint64_t offset;
    uint64_t len;
    uint32_t use;
} zx_tile;

/* ---- making what is passed */

/* Returns a pointer to no bytes, so that an empty slice is not null. */
ZX_INLINE const uint8_t *zx_no_bytes(void) {
    static const uint8_t none[1] = { 0 };
    return none;
}

ZX_INLINE zx_key zx_key_of(uint32_t how, uint32_t kind, uint64_t handle) {
    zx_key key = { how, kind, handle, zx_no_bytes(), 0 };
    return key;
}

ZX_INLINE zx_key zx_name_of(const void *name, size_t len) {
    zx_key key = zx_key_of(name ? ZX_BY_NAME : ZX_NULL_NAME, 0, 0);
    if (!name) return key;
#ifdef __cplusplus
    key.name = static_cast<const uint8_t *>(name);
#else
    key.name = name;
#endif
    key.len = len;
    return key;
}

ZX_INLINE zx_key zx_name(const char *name) { return zx_name_of(name, name ? strlen(name) : 0); }

ZX_INLINE zx_key zx_unique(uint32_t kind) { return zx_key_of(ZX_BY_KIND, kind, 0); }
ZX_INLINE zx_key zx_handle(uint64_t handle) { return zx_key_of(ZX_BY_HANDLE, 0, handle); }
ZX_INLINE zx_key zx_anonymous(void) { return zx_key_of(ZX_NO_KEY, 0, 0); }

ZX_INLINE zx_value zx_natural(uint32_t kind, uint64_t natural) {
    zx_value value = { kind, 0, natural };
    return value;
}

ZX_INLINE zx_value zx_number(uint32_t kind, int64_t number) {
    zx_value value = { kind, number, 0 };
    return value;
}

ZX_INLINE zx_value zx_bool(bool truth) { return zx_natural(ZX_BOOL, truth ? 1 : 0); }
ZX_INLINE zx_value zx_u8(uint8_t number) { return zx_natural(ZX_U8, number); }
ZX_INLINE zx_value zx_i32(int32_t number) { return zx_number(ZX_I32, number); }
ZX_INLINE zx_value zx_i64(int64_t number) { return zx_number(ZX_I64, number); }
ZX_INLINE zx_value zx_u64(uint64_t number) { return zx_natural(ZX_U64, number); }

ZX_INLINE zx_values zx_no_values(void) {
    static const bool truths[1] = { false };
    static const int32_t i32s[1] = { 0 };
    static const int64_t i64s[1] = { 0 };
    static const uint64_t u64s[1] = { 0 };
    zx_values values = { 0, truths, 0, zx_no_bytes(), 0, i32s, 0, i64s, 0, u64s, 0 };
    return values;
}

ZX_INLINE zx_values zx_bools(const bool *at, size_t count) {
    zx_values values = zx_no_values();
    if (at) { values.kind = ZX_BOOL; values.truths = at; values.truth_count = count; }
    return values;
}

ZX_INLINE zx_values zx_u8s(const uint8_t *at, size_t count) {
    zx_values values = zx_no_values();
    if (at) { values.kind = ZX_U8; values.bytes = at; values.byte_count = count; }
    return values;
}

ZX_INLINE zx_values zx_i32s(const int32_t *at, size_t count) {
    zx_values values = zx_no_values();
    if (at) { values.kind = ZX_I32; values.i32s = at; values.i32_count = count; }
    return values;
}

ZX_INLINE zx_values zx_i64s(const int64_t *at, size_t count) {
    zx_values values = zx_no_values();
    if (at) { values.kind = ZX_I64; values.i64s = at; values.i64_count = count; }
    return values;
}

ZX_INLINE zx_values zx_u64s(const uint64_t *at, size_t count) {
    zx_values values = zx_no_values();
    if (at) { values.kind = ZX_U64; values.u64s = at; values.u64_count = count; }
    return values;
}

/* ---- a segment made, opened, saved and closed */

/* Creates an empty segment of `size` bytes, open for writing. Closes what the handle had. Errors: ZX_BAD_SIZE,
   ZX_NO_MEMORY. */
zx_code zx_create(zx_segment *segment, uint64_t size);

/* Opens a copy of the image, in a region of `capacity` bytes: a multiple of 16 from 16 to 1099511627776. Closes what
   the handle had. Errors: ZX_NULL_SLICE, ZX_BAD_SIZE (the capacity), ZX_BAD_MODE, ZX_NO_MEMORY, ZX_SHORT_REGION,
   ZX_TRUNCATED to ZX_ORPHAN_BLOCK. */
ZX_INLINE zx_code zx_open(zx_segment *segment, const uint8_t *image, size_t len, uint64_t capacity,
                          uint32_t mode) ZX_NAMED(zx_open_or_null);

/* Opens as zx_open does, and says where a refused image is wrong. With ZX_TRUNCATED to ZX_ORPHAN_BLOCK, `place` is the
   offset of a byte that shows the class, as zx_explain stores it, and the bytes are checked once. With any other code
   `place` is unchanged. */
ZX_INLINE zx_code zx_open_explained(zx_segment *segment, const uint8_t *image, size_t len, uint64_t capacity,
                                    uint32_t mode, uint64_t *place) ZX_NAMED(zx_open_explained_or_null);

/* Checks whether the bytes are the image of a segment. It allocates a region of the size that the image states; if
   fewer bytes are there, it allocates none. Errors: ZX_NULL_SLICE, ZX_NO_MEMORY, ZX_TRUNCATED to ZX_ORPHAN_BLOCK. */
ZX_INLINE zx_code zx_check(const uint8_t *image, size_t len) ZX_NAMED(zx_check_or_null);

/* Checks as zx_check does, and says where the image is wrong. With ZX_TRUNCATED to ZX_ORPHAN_BLOCK, `place` is the
   offset of a byte that shows the class; docs/C.md lists them. With any other code `place` is unchanged. */
ZX_INLINE zx_code zx_explain(const uint8_t *image, size_t len, uint64_t *place) ZX_NAMED(zx_explain_or_null);

/* Copies the image to the start of the buffer: as many bytes as zx_size says. Errors: ZX_NULL_SLICE, ZX_CLOSED,
   ZX_SHORT_BUFFER. */
ZX_INLINE zx_code zx_save(zx_segment *segment, uint8_t *image, size_t room) ZX_NAMED(zx_save_or_null);

/* Opens the image of `len` bytes at the start of the memory, without a copy. No byte is written before the first call
   that changes the segment, and with ZX_READ none ever. The memory has a multiple of 16 bytes, as a region of zx_open;
   the bytes after the image are room to grow. Closes what the handle had. On success `memory` is empty, and the segment
   owns the bytes until zx_detach gives them back. Until then nobody else writes, frees or unmaps them, or makes a file
   that is mapped there shorter, and others read them only between calls. On failure `memory` is unchanged. Errors:
   ZX_NULL_SLICE; ZX_BAD_SIZE, also if `len` exceeds the memory; ZX_BAD_MODE; and those of zx_open. */
ZX_INLINE zx_code zx_attach(zx_segment *segment, zx_memory *memory, uint64_t len,
                            uint32_t mode) ZX_NAMED(zx_attach_or_null);

/* Opens as zx_attach does, and says where a refused image is wrong, as zx_open_explained. The code and the place are of
   one check, so they agree even if another process changes a mapped file meanwhile. */
ZX_INLINE zx_code zx_attach_explained(zx_segment *segment, zx_memory *memory, uint64_t len, uint32_t mode,
                                      uint64_t *place) ZX_NAMED(zx_attach_explained_or_null);

/* Closes the segment, and gives back the memory in which it lies, with its bytes. The caller free()s it if the library
   allocated it. zx_close, or another segment in the handle, frees no borrowed memory. Errors: ZX_CLOSED. */
zx_code zx_detach(zx_segment *segment, zx_memory *memory);

/* Makes the segment longer by `extra` bytes, which are free. It allocates a larger region if its own has no room; in
   borrowed memory it returns ZX_SHORT_REGION instead. Errors: ZX_CLOSED, ZX_READ_ONLY, ZX_BAD_GROWTH, ZX_TOO_LARGE,
   ZX_NO_MEMORY. */
zx_code zx_grow(zx_segment *segment, uint64_t extra);

/* Cuts the free bytes off the end of the segment. Errors: ZX_CLOSED, ZX_READ_ONLY. */
zx_code zx_shrink(zx_segment *segment);

/* Moves the segment into a region of `capacity` bytes, as for zx_open. Keys and handles stay valid. Errors:
   ZX_BAD_SIZE, ZX_CLOSED, ZX_NO_MEMORY, ZX_SHORT_REGION. A segment in borrowed memory does not leave it, and returns
   ZX_SHORT_REGION. */
zx_code zx_relocate(zx_segment *segment, uint64_t capacity);

/* Frees the segment. A closed handle stays closed. */
void zx_close(zx_segment *segment);

/* Groups several calls into one step. zx_begin copies the segment to the handle `before`, and closes what that had.
   After the calls, zx_commit closes the copy, and zx_rollback restores the segment, where it is now, and closes the
   copy. Meanwhile `before` may be read like any segment. Errors: ZX_CLOSED (of zx_rollback also for a closed copy),
   ZX_READ_ONLY; of zx_begin alone ZX_NO_MEMORY; of zx_rollback alone ZX_SHORT_REGION, if zx_relocate left too little
   room: relocate again, and repeat it. */
zx_code zx_begin(zx_segment *segment, zx_segment *before);
zx_code zx_rollback(zx_segment *segment, zx_segment *before);
ZX_INLINE void zx_commit(zx_segment *before) { zx_close(before); }

/* Tell how the segment is open; its bytes; the bytes of all gaps; the bytes of its region after it. Errors:
   ZX_CLOSED. */
zx_code zx_mode(zx_segment *segment, uint32_t *mode);
zx_code zx_size(zx_segment *segment, uint64_t *size);
zx_code zx_free_bytes(zx_segment *segment, uint64_t *free_bytes);
zx_code zx_region_left(zx_segment *segment, uint64_t *left);

/* ---- objects

   Calls that take a key check it first: ZX_NULL_SLICE (a null name), ZX_BAD_KEY, ZX_BAD_NAME, ZX_BAD_KIND; then
   ZX_CLOSED; then the errors that each call names. The construct calls take a name, a kind or no key, and the
   find_or_construct calls a name or a kind. */

/* Makes an object of `count` scalars, each with the value. Errors: ZX_BAD_VALUE, ZX_BAD_COUNT; ZX_READ_ONLY, ZX_EXISTS,
   ZX_NO_SPACE. */
zx_code zx_construct(zx_segment *segment, const zx_key *key, uint32_t count, const zx_value *value, uint64_t *handle);
/* Makes an array of these values. Errors: ZX_NULL_SLICE, ZX_BAD_KIND, ZX_BAD_COUNT; ZX_READ_ONLY, ZX_EXISTS,
   ZX_NO_SPACE. */
zx_code zx_construct_array(zx_segment *segment, const zx_key *key, const zx_values *values, uint64_t *handle);
/* Makes a vector of these values. Errors: ZX_NULL_SLICE, ZX_BAD_KIND; ZX_READ_ONLY, ZX_EXISTS, ZX_NO_SPACE. */
zx_code zx_construct_vector(zx_segment *segment, const zx_key *key, const zx_values *values, uint64_t *handle);
/* Make a string; a vector of strings; an empty map from keys of one kind to values of another. Errors: ZX_NULL_SLICE or
   ZX_BAD_KIND; ZX_READ_ONLY, ZX_EXISTS, ZX_NO_SPACE. */
ZX_INLINE zx_code zx_construct_string(zx_segment *segment, const zx_key *key, const uint8_t *text, size_t len,
                                      uint64_t *handle) ZX_NAMED(zx_construct_string_or_null);
ZX_INLINE zx_code zx_construct_strings(zx_segment *segment, const zx_key *key, const zx_text *texts, size_t count,
                                       uint64_t *handle) ZX_NAMED(zx_construct_strings_or_null);
zx_code zx_construct_map(zx_segment *segment, const zx_key *key, uint32_t keys, uint32_t values, uint64_t *handle);

/* Finds the object of the key, which stays unchanged, or makes it. `found` is the number of its scalars, and 1 for a
   container. Errors: those of the construct call except ZX_EXISTS; ZX_WRONG_KIND, if an object of another kind has the
   key. */
zx_code zx_find_or_construct(zx_segment *segment, const zx_key *key, uint32_t count, const zx_value *value,
                             uint64_t *handle, uint32_t *found);
zx_code zx_find_or_construct_vector(zx_segment *segment, const zx_key *key, const zx_values *values, uint64_t *handle,
                                    uint32_t *found);
ZX_INLINE zx_code zx_find_or_construct_string(zx_segment *segment, const zx_key *key, const uint8_t *text,
                                              size_t len, uint64_t *handle,
                                              uint32_t *found) ZX_NAMED(zx_find_or_construct_string_or_null);
ZX_INLINE zx_code zx_find_or_construct_strings(zx_segment *segment, const zx_key *key, const zx_text *texts,
                                               size_t count, uint64_t *handle,
                                               uint32_t *found) ZX_NAMED(zx_find_or_construct_strings_or_null);
zx_code zx_find_or_construct_map(zx_segment *segment, const zx_key *key, uint32_t keys, uint32_t values,
                                 uint64_t *handle, uint32_t *found);

/* Finds the object of a kind by a name, a kind or a handle. ZX_ABSENT: no object has the key. Errors: ZX_WRONG_KIND,
   also if the key names another kind. */
zx_code zx_find(zx_segment *segment, const zx_key *key, uint32_t kind, uint64_t *handle, uint32_t *count);
/* Destroys the object of a name or kind, and says whether it existed; if not, no byte changes. Or destroys the object
   of a handle; ZX_NOT_FOUND if none has it. Errors: ZX_READ_ONLY. */
zx_code zx_destroy(zx_segment *segment, const zx_key *key, bool *was_there);
/* Tells about an object, and copies its name to the start of `name`; 255 bytes are always enough. Errors:
   ZX_NULL_SLICE, ZX_NOT_FOUND, ZX_SHORT_BUFFER. */
ZX_INLINE zx_code zx_tell(zx_segment *segment, const zx_key *key, zx_info *info, uint8_t *name,
                          size_t room) ZX_NAMED(zx_tell_or_null);

/* ---- elements: of objects of scalars, of vectors, and of strings, whose elements are bytes

   Errors: ZX_BAD_VALUE; ZX_READ_ONLY if the call would change something; ZX_NOT_FOUND, ZX_WRONG_KIND,
   ZX_OUT_OF_RANGE, ZX_NO_SPACE. */

zx_code zx_get(zx_segment *segment, const zx_key *key, uint64_t index, zx_value *value);
zx_code zx_set(zx_segment *segment, const zx_key *key, uint64_t index, const zx_value *value);
/* For vectors only. zx_extend appends the values: all of them or none. */
zx_code zx_push(zx_segment *segment, const zx_key *key, const zx_value *value);
/* Does what zx_push does with zx_handle(handle) and zx_i64(number), in fewer instructions. */
zx_code zx_push_i64(zx_segment *segment, uint64_t handle, int64_t number);
zx_code zx_pop(zx_segment *segment, const zx_key *key, zx_value *value);
zx_code zx_insert(zx_segment *segment, const zx_key *key, uint64_t index, const zx_value *value);
zx_code zx_extend(zx_segment *segment, const zx_key *key, const zx_values *values);
zx_code zx_assign(zx_segment *segment, const zx_key *key, const zx_values *values);
/* For vectors and vectors of strings. */
zx_code zx_erase(zx_segment *segment, const zx_key *key, uint64_t index);
/* For vectors, strings and vectors of strings. zx_measure tells length and capacity; of a map, the number of pairs and
   0. zx_reserve makes the capacity at least `places`, zx_trim makes it the length, and zx_clear makes the length 0. */
zx_code zx_measure(zx_segment *segment, const zx_key *key, uint64_t *len, uint64_t *places);
zx_code zx_reserve(zx_segment *segment, const zx_key *key, uint64_t places);
zx_code zx_trim(zx_segment *segment, const zx_key *key);
zx_code zx_clear(zx_segment *segment, const zx_key *key);

/* Copy `count` elements of an array or a vector to `row`, from `first` on: all of them or none. The name of the call
   says their kind. Each byte of a row of bools is 0 or 1 before the call too. Errors: ZX_NULL_SLICE; ZX_NOT_FOUND,
   ZX_WRONG_KIND, ZX_OUT_OF_RANGE. */
ZX_INLINE zx_code zx_read_bools(zx_segment *segment, const zx_key *key, uint64_t first, bool *row,
                                size_t count) ZX_NAMED(zx_read_bools_or_null);
ZX_INLINE zx_code zx_read_u8s(zx_segment *segment, const zx_key *key, uint64_t first, uint8_t *row,
                              size_t count) ZX_NAMED(zx_read_u8s_or_null);
ZX_INLINE zx_code zx_read_i32s(zx_segment *segment, const zx_key *key, uint64_t first, int32_t *row,
                               size_t count) ZX_NAMED(zx_read_i32s_or_null);
ZX_INLINE zx_code zx_read_i64s(zx_segment *segment, const zx_key *key, uint64_t first, int64_t *row,
                               size_t count) ZX_NAMED(zx_read_i64s_or_null);
ZX_INLINE zx_code zx_read_u64s(zx_segment *segment, const zx_key *key, uint64_t first, uint64_t *row,
                               size_t count) ZX_NAMED(zx_read_u64s_or_null);
/* Writes values of the elements' kind, from `first` on: all of them or none. Errors: ZX_NULL_SLICE, ZX_BAD_KIND;
   ZX_READ_ONLY, ZX_NOT_FOUND, ZX_WRONG_KIND, ZX_OUT_OF_RANGE. */
zx_code zx_write_elements(zx_segment *segment, const zx_key *key, uint64_t first, const zx_values *values);

/* Tells where the elements of an array, a vector of scalars or a string are. Between calls the program may read them
   there, as long as zx_is_current holds. Errors: ZX_NOT_FOUND, ZX_WRONG_KIND. */
zx_code zx_view(zx_segment *segment, const zx_key *key, zx_elements *elements);
/* Does what zx_view does with zx_handle(handle), in fewer instructions. */
zx_code zx_view_of(zx_segment *segment, uint64_t handle, zx_elements *elements);
/* Tells where the elements are, as zx_view does, for a program that also writes them. It writes nothing else there, and
   each element as the bytes of a value of its kind. Other views stay current. Errors: ZX_READ_ONLY, ZX_NOT_FOUND,
   ZX_WRONG_KIND. */
zx_code zx_view_mut(zx_segment *segment, const zx_key *key, zx_elements *elements);
/* Tells whether the elements are still there: no call has changed the segment since the view. */
ZX_INLINE bool zx_is_current(const zx_segment *segment, const zx_elements *elements) {
    return segment->changes == elements->changes && segment->at;
}
/* Returns the address of the first element of a zx_view_mut view, or null if the view is no longer current. */
ZX_INLINE void *zx_elements_mut(const zx_segment *segment, const zx_elements *elements) {
    if (!zx_is_current(segment, elements) || !segment->shared) return NULL;
#ifdef __cplusplus
    return const_cast<void *>(elements->at);
#else
    return (void *)(uintptr_t)elements->at;
#endif
}

/* An array, a vector of scalars or a string that was looked up: its handle, and where its elements are. Reading an
   element costs four comparisons and a load. Only the first read after a call that changed the segment looks the elements
   up again. */
typedef struct {
    uint64_t handle;
    zx_elements there;
} zx_object;

/* Looks up the object of a key. Errors: ZX_NOT_FOUND, ZX_WRONG_KIND. */
ZX_INLINE zx_code zx_look_up(zx_segment *segment, const zx_key *key, zx_object *object);
/* Returns ZX_DONE if an element of a kind is at `index`. Looks the elements up again if a call has changed the segment.
   Errors: ZX_NOT_FOUND if the object was destroyed, ZX_WRONG_KIND, ZX_OUT_OF_RANGE. */
ZX_INLINE zx_code zx_is_at(zx_segment *segment, zx_object *object, uint64_t index, uint32_t kind);
/* Reads the element at `index`. The name of the call says the kind. Errors: ZX_NOT_FOUND if the object was destroyed,
   ZX_WRONG_KIND, ZX_OUT_OF_RANGE. */
ZX_INLINE zx_code zx_bool_at(zx_segment *segment, zx_object *object, uint64_t index, bool *element);
ZX_INLINE zx_code zx_u8_at(zx_segment *segment, zx_object *object, uint64_t index, uint8_t *element);
ZX_INLINE zx_code zx_i32_at(zx_segment *segment, zx_object *object, uint64_t index, int32_t *element);
ZX_INLINE zx_code zx_i64_at(zx_segment *segment, zx_object *object, uint64_t index, int64_t *element);
ZX_INLINE zx_code zx_u64_at(zx_segment *segment, zx_object *object, uint64_t index, uint64_t *element);

/* ---- strings

   A read copies the bytes to the start of the buffer. With ZX_SHORT_BUFFER `len` is the room that it needs. */

ZX_INLINE zx_code zx_read_string(zx_segment *segment, const zx_key *key, uint8_t *text, size_t room,
                                 uint64_t *len) ZX_NAMED(zx_read_string_or_null);
ZX_INLINE zx_code zx_assign_string(zx_segment *segment, const zx_key *key, const uint8_t *text,
                                   size_t len) ZX_NAMED(zx_assign_string_or_null);
ZX_INLINE zx_code zx_append(zx_segment *segment, const zx_key *key, const uint8_t *text,
                            size_t len) ZX_NAMED(zx_append_or_null);

/* ---- vectors of strings */

ZX_INLINE zx_code zx_read_text(zx_segment *segment, const zx_key *key, uint64_t index, uint8_t *text, size_t room,
                               uint64_t *len) ZX_NAMED(zx_read_text_or_null);
ZX_INLINE zx_code zx_set_text(zx_segment *segment, const zx_key *key, uint64_t index, const uint8_t *text,
                              size_t len) ZX_NAMED(zx_set_text_or_null);
ZX_INLINE zx_code zx_push_text(zx_segment *segment, const zx_key *key, const uint8_t *text,
                               size_t len) ZX_NAMED(zx_push_text_or_null);
zx_code zx_pop_text(zx_segment *segment, const zx_key *key);
ZX_INLINE zx_code zx_insert_text(zx_segment *segment, const zx_key *key, uint64_t index, const uint8_t *text,
                                 size_t len) ZX_NAMED(zx_insert_text_or_null);
ZX_INLINE zx_code zx_assign_texts(zx_segment *segment, const zx_key *key, const zx_text *texts,
                                  size_t count) ZX_NAMED(zx_assign_texts_or_null);

/* ---- maps

   Keys and values take the kinds of the map, as elements do. */

/* Gets the value of a map key. ZX_ABSENT: the map has no such key. */
zx_code zx_map_get(zx_segment *segment, const zx_key *key, const zx_value *at, zx_value *value);
zx_code zx_map_put(zx_segment *segment, const zx_key *key, const zx_value *at, const zx_value *value, bool *is_new);
/* Removes a map key, and says whether it existed; if not, no byte changes. */
zx_code zx_map_erase(zx_segment *segment, const zx_key *key, const zx_value *at, bool *was_there);
/* Find the pair with the least map key; the pair with the least one above `after`. ZX_ABSENT: there is none. */
zx_code zx_map_first(zx_segment *segment, const zx_key *key, zx_value *at, zx_value *value);
zx_code zx_map_next(zx_segment *segment, const zx_key *key, const zx_value *after, zx_value *at, zx_value *value);

/* ---- lists: the entry with `index` others before it, or ZX_OUT_OF_RANGE */

zx_code zx_num_named(zx_segment *segment, uint64_t *count);
zx_code zx_num_unique(zx_segment *segment, uint64_t *count);
/* Tells about the named objects, in the order of the bytes of their names, and copies the name as zx_tell does. */
ZX_INLINE zx_code zx_named_at(zx_segment *segment, uint64_t index, zx_info *info, uint8_t *name,
                              size_t room) ZX_NAMED(zx_named_at_or_null);
/* Counts the names below a text of any bytes: the index, for zx_named_at, of the first name that is not below it.
   Errors: ZX_NULL_SLICE. */
ZX_INLINE zx_code zx_named_from(zx_segment *segment, const uint8_t *text, size_t len,
                                uint64_t *index) ZX_NAMED(zx_named_from_or_null);
/* Tells about the unique objects, by kind code. */
zx_code zx_unique_at(zx_segment *segment, uint64_t index, zx_info *info);
/* Tells about blocks and gaps, by offset. Each call walks from the first one. */
zx_code zx_tile_at(zx_segment *segment, uint64_t index, zx_tile *tile);

/* ---- the two indexes, and the whole segment. Errors: ZX_READ_ONLY if the call would change something; ZX_NO_SPACE. */

zx_code zx_reserve_named(zx_segment *segment, uint64_t places);
zx_code zx_reserve_unique(zx_segment *segment, uint64_t places);
zx_code zx_shrink_indexes(zx_segment *segment);
zx_code zx_zero_free(zx_segment *segment);
zx_code zx_sanity(zx_segment *segment, bool *is_whole);
zx_code zx_all_deallocated(zx_segment *segment, bool *is_empty);

/* ---- words */

/* Gives the words for a code: they last as long as the program, and no byte 0 ends them. For an unknown code they are
   empty. */
void zx_words(zx_code code, zx_text *words);

/* ---- null slices: the calls that take a slice are inline functions, which check it and then call what is proved */

ZX_INLINE bool zx_are_there(const zx_text *texts, size_t count) {
    if (!texts) return false;
    for (size_t i = 0; i < count; i++)
        if (!texts[i].at) return false;
    return true;
}

zx_code zx_open_proved(zx_segment *segment, const uint8_t *image, size_t len, uint64_t capacity,
                       uint32_t mode) ZX_NAMED(zx_open);
ZX_INLINE zx_code zx_open(zx_segment *segment, const uint8_t *image, size_t len, uint64_t capacity, uint32_t mode) {
    if (!image) return ZX_NULL_SLICE;
    return zx_open_proved(segment, image, len, capacity, mode);
}
zx_code zx_open_explained_proved(zx_segment *segment, const uint8_t *image, size_t len, uint64_t capacity,
                                 uint32_t mode, uint64_t *place) ZX_NAMED(zx_open_explained);
ZX_INLINE zx_code zx_open_explained(zx_segment *segment, const uint8_t *image, size_t len, uint64_t capacity,
                                    uint32_t mode, uint64_t *place) {
    if (!image) return ZX_NULL_SLICE;
    return zx_open_explained_proved(segment, image, len, capacity, mode, place);
}
zx_code zx_check_proved(const uint8_t *image, size_t len) ZX_NAMED(zx_check);
ZX_INLINE zx_code zx_check(const uint8_t *image, size_t len) {
    if (!image) return ZX_NULL_SLICE;
    return zx_check_proved(image, len);
}
zx_code zx_explain_proved(const uint8_t *image, size_t len, uint64_t *place) ZX_NAMED(zx_explain);
ZX_INLINE zx_code zx_explain(const uint8_t *image, size_t len, uint64_t *place) {
    if (!image) return ZX_NULL_SLICE;
    return zx_explain_proved(image, len, place);
}
zx_code zx_save_proved(zx_segment *segment, uint8_t *image, size_t room) ZX_NAMED(zx_save);
ZX_INLINE zx_code zx_save(zx_segment *segment, uint8_t *image, size_t room) {
    if (!image) return ZX_NULL_SLICE;
    return zx_save_proved(segment, image, room);
}
zx_code zx_attach_proved(zx_segment *segment, zx_memory *memory, uint64_t len, uint32_t mode) ZX_NAMED(zx_attach);
ZX_INLINE zx_code zx_attach(zx_segment *segment, zx_memory *memory, uint64_t len, uint32_t mode) {
    if (!memory->at) return ZX_NULL_SLICE;
    return zx_attach_proved(segment, memory, len, mode);
}
zx_code zx_attach_explained_proved(zx_segment *segment, zx_memory *memory, uint64_t len, uint32_t mode,
                                   uint64_t *place) ZX_NAMED(zx_attach_explained);
ZX_INLINE zx_code zx_attach_explained(zx_segment *segment, zx_memory *memory, uint64_t len, uint32_t mode,
                                      uint64_t *place) {
    if (!memory->at) return ZX_NULL_SLICE;
    return zx_attach_explained_proved(segment, memory, len, mode, place);
}
zx_code zx_construct_string_proved(zx_segment *segment, const zx_key *key, const uint8_t *text, size_t len,
                                   uint64_t *handle) ZX_NAMED(zx_construct_string);
ZX_INLINE zx_code zx_construct_string(zx_segment *segment, const zx_key *key, const uint8_t *text, size_t len,
                                      uint64_t *handle) {
    if (!text) return ZX_NULL_SLICE;
    return zx_construct_string_proved(segment, key, text, len, handle);
}
zx_code zx_construct_strings_proved(zx_segment *segment, const zx_key *key, const zx_text *texts, size_t count,
                                    uint64_t *handle) ZX_NAMED(zx_construct_strings);
ZX_INLINE zx_code zx_construct_strings(zx_segment *segment, const zx_key *key, const zx_text *texts, size_t count,
                                       uint64_t *handle) {
    if (!zx_are_there(texts, count)) return ZX_NULL_SLICE;
    return zx_construct_strings_proved(segment, key, texts, count, handle);
}
zx_code zx_find_or_construct_string_proved(zx_segment *segment, const zx_key *key, const uint8_t *text, size_t len,
                                           uint64_t *handle, uint32_t *found) ZX_NAMED(zx_find_or_construct_string);
ZX_INLINE zx_code zx_find_or_construct_string(zx_segment *segment, const zx_key *key, const uint8_t *text,
                                              size_t len, uint64_t *handle, uint32_t *found) {
    if (!text) return ZX_NULL_SLICE;
    return zx_find_or_construct_string_proved(segment, key, text, len, handle, found);
}
zx_code zx_find_or_construct_strings_proved(zx_segment *segment, const zx_key *key, const zx_text *texts, size_t count,
                                            uint64_t *handle, uint32_t *found) ZX_NAMED(zx_find_or_construct_strings);
ZX_INLINE zx_code zx_find_or_construct_strings(zx_segment *segment, const zx_key *key, const zx_text *texts,
                                               size_t count, uint64_t *handle, uint32_t *found) {
    if (!zx_are_there(texts, count)) return ZX_NULL_SLICE;
    return zx_find_or_construct_strings_proved(segment, key, texts, count, handle, found);
}
zx_code zx_tell_proved(zx_segment *segment, const zx_key *key, zx_info *info, uint8_t *name,
                       size_t room) ZX_NAMED(zx_tell);
ZX_INLINE zx_code zx_tell(zx_segment *segment, const zx_key *key, zx_info *info, uint8_t *name, size_t room) {
    if (!name) return ZX_NULL_SLICE;
    return zx_tell_proved(segment, key, info, name, room);
}
zx_code zx_read_string_proved(zx_segment *segment, const zx_key *key, uint8_t *text, size_t room,
                              uint64_t *len) ZX_NAMED(zx_read_string);
ZX_INLINE zx_code zx_read_string(zx_segment *segment, const zx_key *key, uint8_t *text, size_t room,
                                 uint64_t *len) {
    if (!text) return ZX_NULL_SLICE;
    return zx_read_string_proved(segment, key, text, room, len);
}
zx_code zx_assign_string_proved(zx_segment *segment, const zx_key *key, const uint8_t *text,
                                size_t len) ZX_NAMED(zx_assign_string);
ZX_INLINE zx_code zx_assign_string(zx_segment *segment, const zx_key *key, const uint8_t *text, size_t len) {
    if (!text) return ZX_NULL_SLICE;
    return zx_assign_string_proved(segment, key, text, len);
}
zx_code zx_append_proved(zx_segment *segment, const zx_key *key, const uint8_t *text, size_t len) ZX_NAMED(zx_append);
ZX_INLINE zx_code zx_append(zx_segment *segment, const zx_key *key, const uint8_t *text, size_t len) {
    if (!text) return ZX_NULL_SLICE;
    return zx_append_proved(segment, key, text, len);
}
zx_code zx_read_bools_proved(zx_segment *segment, const zx_key *key, uint64_t first, bool *row,
                             size_t count) ZX_NAMED(zx_read_bools);
ZX_INLINE zx_code zx_read_bools(zx_segment *segment, const zx_key *key, uint64_t first, bool *row, size_t count) {
    if (!row) return ZX_NULL_SLICE;
    return zx_read_bools_proved(segment, key, first, row, count);
}
zx_code zx_read_u8s_proved(zx_segment *segment, const zx_key *key, uint64_t first, uint8_t *row,
                           size_t count) ZX_NAMED(zx_read_u8s);
ZX_INLINE zx_code zx_read_u8s(zx_segment *segment, const zx_key *key, uint64_t first, uint8_t *row, size_t count) {
    if (!row) return ZX_NULL_SLICE;
    return zx_read_u8s_proved(segment, key, first, row, count);
}
zx_code zx_read_i32s_proved(zx_segment *segment, const zx_key *key, uint64_t first, int32_t *row,
                            size_t count) ZX_NAMED(zx_read_i32s);
ZX_INLINE zx_code zx_read_i32s(zx_segment *segment, const zx_key *key, uint64_t first, int32_t *row, size_t count) {
    if (!row) return ZX_NULL_SLICE;
    return zx_read_i32s_proved(segment, key, first, row, count);
}
zx_code zx_read_i64s_proved(zx_segment *segment, const zx_key *key, uint64_t first, int64_t *row,
                            size_t count) ZX_NAMED(zx_read_i64s);
ZX_INLINE zx_code zx_read_i64s(zx_segment *segment, const zx_key *key, uint64_t first, int64_t *row, size_t count) {
    if (!row) return ZX_NULL_SLICE;
    return zx_read_i64s_proved(segment, key, first, row, count);
}
zx_code zx_read_u64s_proved(zx_segment *segment, const zx_key *key, uint64_t first, uint64_t *row,
                            size_t count) ZX_NAMED(zx_read_u64s);
ZX_INLINE zx_code zx_read_u64s(zx_segment *segment, const zx_key *key, uint64_t first, uint64_t *row,
                               size_t count) {
    if (!row) return ZX_NULL_SLICE;
    return zx_read_u64s_proved(segment, key, first, row, count);
}
zx_code zx_read_text_proved(zx_segment *segment, const zx_key *key, uint64_t index, uint8_t *text, size_t room,
                            uint64_t *len) ZX_NAMED(zx_read_text);
ZX_INLINE zx_code zx_read_text(zx_segment *segment, const zx_key *key, uint64_t index, uint8_t *text, size_t room,
                               uint64_t *len) {
    if (!text) return ZX_NULL_SLICE;
    return zx_read_text_proved(segment, key, index, text, room, len);
}
zx_code zx_set_text_proved(zx_segment *segment, const zx_key *key, uint64_t index, const uint8_t *text,
                           size_t len) ZX_NAMED(zx_set_text);
ZX_INLINE zx_code zx_set_text(zx_segment *segment, const zx_key *key, uint64_t index, const uint8_t *text,
                              size_t len) {
    if (!text) return ZX_NULL_SLICE;
    return zx_set_text_proved(segment, key, index, text, len);
}
zx_code zx_push_text_proved(zx_segment *segment, const zx_key *key, const uint8_t *text,
                            size_t len) ZX_NAMED(zx_push_text);
ZX_INLINE zx_code zx_push_text(zx_segment *segment, const zx_key *key, const uint8_t *text, size_t len) {
    if (!text) return ZX_NULL_SLICE;
    return zx_push_text_proved(segment, key, text, len);
}
zx_code zx_insert_text_proved(zx_segment *segment, const zx_key *key, uint64_t index, const uint8_t *text,
                              size_t len) ZX_NAMED(zx_insert_text);
ZX_INLINE zx_code zx_insert_text(zx_segment *segment, const zx_key *key, uint64_t index, const uint8_t *text,
                                 size_t len) {
    if (!text) return ZX_NULL_SLICE;
    return zx_insert_text_proved(segment, key, index, text, len);
}
zx_code zx_assign_texts_proved(zx_segment *segment, const zx_key *key, const zx_text *texts,
                               size_t count) ZX_NAMED(zx_assign_texts);
ZX_INLINE zx_code zx_assign_texts(zx_segment *segment, const zx_key *key, const zx_text *texts, size_t count) {
    if (!zx_are_there(texts, count)) return ZX_NULL_SLICE;
    return zx_assign_texts_proved(segment, key, texts, count);
}
zx_code zx_named_at_proved(zx_segment *segment, uint64_t index, zx_info *info, uint8_t *name,
                           size_t room) ZX_NAMED(zx_named_at);
ZX_INLINE zx_code zx_named_at(zx_segment *segment, uint64_t index, zx_info *info, uint8_t *name, size_t room) {
    if (!name) return ZX_NULL_SLICE;
    return zx_named_at_proved(segment, index, info, name, room);
}
zx_code zx_named_from_proved(zx_segment *segment, const uint8_t *text, size_t len,
                             uint64_t *index) ZX_NAMED(zx_named_from);
ZX_INLINE zx_code zx_named_from(zx_segment *segment, const uint8_t *text, size_t len, uint64_t *index) {
    if (!text) return ZX_NULL_SLICE;
    return zx_named_from_proved(segment, text, len, index);
}

ZX_INLINE zx_code zx_look_up(zx_segment *segment, const zx_key *key, zx_object *object) {
    uint8_t name[255];
    zx_info info;
    const zx_code code = zx_tell(segment, key, &info, name, sizeof name);
    if (code != ZX_DONE) return code;
    object->handle = info.handle;
    return zx_view(segment, key, &object->there);
}
#ifdef __cplusplus
#define ZX_AS(type, at) static_cast<type>(at)
#else
#define ZX_AS(type, at) ((type)(at))
#endif
ZX_INLINE zx_code zx_is_at(zx_segment *segment, zx_object *object, uint64_t index, uint32_t kind) {
    if (!zx_is_current(segment, &object->there)) {
        const zx_code code = zx_view_of(segment, object->handle, &object->there);
        if (code != ZX_DONE) return code;
    }
    if (object->there.kind != kind) return ZX_WRONG_KIND;
    return index < object->there.count ? ZX_DONE : ZX_OUT_OF_RANGE;
}
ZX_INLINE zx_code zx_bool_at(zx_segment *segment, zx_object *object, uint64_t index, bool *element) {
    const zx_code code = zx_is_at(segment, object, index, ZX_BOOL);
    if (code == ZX_DONE) *element = ZX_AS(const bool *, object->there.at)[index];
    return code;
}
ZX_INLINE zx_code zx_u8_at(zx_segment *segment, zx_object *object, uint64_t index, uint8_t *element) {
    const zx_code code = zx_is_at(segment, object, index, ZX_U8);
    if (code == ZX_DONE) *element = ZX_AS(const uint8_t *, object->there.at)[index];
    return code;
}
ZX_INLINE zx_code zx_i32_at(zx_segment *segment, zx_object *object, uint64_t index, int32_t *element) {
    const zx_code code = zx_is_at(segment, object, index, ZX_I32);
    if (code == ZX_DONE) *element = ZX_AS(const int32_t *, object->there.at)[index];
    return code;
}
ZX_INLINE zx_code zx_i64_at(zx_segment *segment, zx_object *object, uint64_t index, int64_t *element) {
    const zx_code code = zx_is_at(segment, object, index, ZX_I64);
    if (code == ZX_DONE) *element = ZX_AS(const int64_t *, object->there.at)[index];
    return code;
}
ZX_INLINE zx_code zx_u64_at(zx_segment *segment, zx_object *object, uint64_t index, uint64_t *element) {
    const zx_code code = zx_is_at(segment, object, index, ZX_U64);
    if (code == ZX_DONE) *element = ZX_AS(const uint64_t *, object->there.at)[index];
    return code;
}
#undef ZX_AS

#ifdef __cplusplus
}
#endif

#endif
