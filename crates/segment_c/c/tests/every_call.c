/* Every call of zaluxhoni.h, zaluxhoni_files.h and zaluxhoni_rows.h, on the worked examples of docs/LANGUAGE.md, section 11, and on what a call refuses. The
   images that it makes are saved in the folder that is its one argument. */
#include "zaluxhoni_files.h"
#include "zaluxhoni_rows.h"

#include <inttypes.h>
#include <stdio.h>
#include <stdlib.h>
#include <string.h>
#include <sys/mman.h>

static const char *folder;
static int checks, wrong;

static void is_number(int line, const char *what, int64_t got, int64_t wanted) {
    checks++;
    if (got == wanted) return;
    wrong++;
    printf("every_call.c:%d: WRONG %s: %" PRId64 ", not %" PRId64 "\n", line, what, got, wanted);
}

static void is_text(int line, const char *what, const void *got, size_t len, const char *wanted) {
    checks++;
    if (len == strlen(wanted) && memcmp(got, wanted, len) == 0) return;
    wrong++;
    printf("every_call.c:%d: WRONG %s: '%.*s', not '%s'\n", line, what, (int)len, (const char *)got, wanted);
}

#define IS(got, wanted) is_number(__LINE__, #got, (int64_t)(got), (int64_t)(wanted))
#define DONE(call) IS(call, ZX_DONE)
#define TEXT(got, len, wanted) is_text(__LINE__, #got, got, len, wanted)

static const uint8_t *bytes(const char *text) { return (const uint8_t *)text; }
static zx_text text_of(const char *text) {
    zx_text passed = { bytes(text), strlen(text) };
    return passed;
}

/* ---- answers of one call, or -1000 and the code behind it */

static int64_t refused(zx_code code) { return -1000 - (int64_t)code; }
#define REFUSED(code) refused(code)

static int64_t made(zx_segment *s, zx_key key, uint32_t count, zx_value value) {
    uint64_t handle = 0;
    zx_code code = zx_construct(s, &key, count, &value, &handle);
    return code ? refused(code) : (int64_t)handle;
}

static int64_t made_vector(zx_segment *s, zx_key key, zx_values values) {
    uint64_t handle = 0;
    zx_code code = zx_construct_vector(s, &key, &values, &handle);
    return code ? refused(code) : (int64_t)handle;
}

static int64_t made_string(zx_segment *s, zx_key key, const char *text) {
    uint64_t handle = 0;
    zx_code code = zx_construct_string(s, &key, bytes(text), strlen(text), &handle);
    return code ? refused(code) : (int64_t)handle;
}

static int64_t made_map(zx_segment *s, zx_key key, uint32_t keys, uint32_t values) {
    uint64_t handle = 0;
    zx_code code = zx_construct_map(s, &key, keys, values, &handle);
    return code ? refused(code) : (int64_t)handle;
}

static int64_t found(zx_segment *s, zx_key key, uint32_t kind, uint32_t count_wanted) {
    uint64_t handle = 0;
    uint32_t count = 0;
    zx_code code = zx_find(s, &key, kind, &handle, &count);
    if (!code) IS(count, count_wanted);
    return code ? refused(code) : (int64_t)handle;
}

static int64_t free_bytes(zx_segment *s) {
    uint64_t bytes = 0;
    zx_code code = zx_free_bytes(s, &bytes);
    return code ? refused(code) : (int64_t)bytes;
}

static int64_t number_at(zx_segment *s, zx_key key, uint64_t index, uint32_t kind) {
    zx_value value = { 0, 0, 0 };
    zx_code code = zx_get(s, &key, index, &value);
    if (code) return refused(code);
    IS(value.kind, kind);
    return kind == ZX_I32 || kind == ZX_I64 ? value.number : (int64_t)value.natural;
}

static int64_t places(zx_segment *s, zx_key key, uint64_t len_wanted) {
    uint64_t len = 0, count = 0;
    zx_code code = zx_measure(s, &key, &len, &count);
    if (!code) IS(len, len_wanted);
    return code ? refused(code) : (int64_t)count;
}

static zx_code set(zx_segment *s, zx_key key, uint64_t index, zx_value value) { return zx_set(s, &key, index, &value); }
static zx_code push(zx_segment *s, zx_key key, zx_value value) { return zx_push(s, &key, &value); }

static int64_t destroyed(zx_segment *s, zx_key key) {
    bool was_there = false;
    zx_code code = zx_destroy(s, &key, &was_there);
    return code ? refused(code) : was_there;
}

static int64_t put(zx_segment *s, zx_key key, int64_t at, int64_t value) {
    bool is_new = false;
    zx_value k = zx_i64(at), v = zx_i64(value);
    zx_code code = zx_map_put(s, &key, &k, &v, &is_new);
    return code ? refused(code) : is_new;
}

static int64_t looked_up(zx_segment *s, zx_key key, int64_t at) {
    zx_value k = zx_i64(at), value = { 0, 0, 0 };
    zx_code code = zx_map_get(s, &key, &k, &value);
    return code ? refused(code) : value.number;
}

static void is_string(int line, zx_segment *s, zx_key key, const char *wanted) {
    uint8_t text[256];
    uint64_t len = 0;
    is_number(line, "zx_read_string", zx_read_string(s, &key, text, sizeof text, &len), ZX_DONE);
    is_text(line, "the string", text, len, wanted);
}

static void is_text_at(int line, zx_segment *s, zx_key key, uint64_t index, const char *wanted) {
    uint8_t text[256];
    uint64_t len = 0;
    is_number(line, "zx_read_text", zx_read_text(s, &key, index, text, sizeof text, &len), ZX_DONE);
    is_text(line, "the text", text, len, wanted);
}
#define STRING(key, wanted) is_string(__LINE__, &s, key, wanted)
#define TEXT_AT(key, index, wanted) is_text_at(__LINE__, &s, key, index, wanted)

/* Saves the segment in the folder, checks the image, and opens it in its place. */
static void reopen(zx_segment *s, const char *name, uint32_t mode) {
    uint64_t size = 0;
    DONE(zx_size(s, &size));
    uint8_t *image = malloc(size);
    char path[4096];
    if (!image) exit(2);
    IS(zx_save(s, image, size - 1), ZX_SHORT_BUFFER);
    DONE(zx_save(s, image, size));
    DONE(zx_check(image, size));
    snprintf(path, sizeof path, "%s/c-%s.seg", folder, name);
    FILE *file = fopen(path, "wb");
    if (!file || fwrite(image, 1, size, file) != size || fclose(file)) exit(2);
    DONE(zx_open(s, image, size, size + 1024, mode));
    free(image);
}

/* ---- worked examples */

static void an_anonymous_object(void) {
    zx_segment s = ZX_CLOSED_HANDLE;
    DONE(zx_create(&s, 1024));
    IS(made(&s, zx_anonymous(), 1, zx_i64(5)), 144);
    IS(number_at(&s, zx_handle(144), 0, ZX_I64), 5);
    IS(free_bytes(&s), 832);
    zx_close(&s);
}

static void names(void) {
    zx_segment s = ZX_CLOSED_HANDLE;
    zx_key a = zx_name("a");
    zx_value nine = zx_i64(9);
    zx_info info;
    uint8_t name[255];
    uint64_t handle = 0;
    uint32_t count = 0;
    DONE(zx_create(&s, 1024));
    IS(made(&s, a, 1, zx_i64(5)), 192);
    IS(free_bytes(&s), 784);
    DONE(zx_tell(&s, &a, &info, name, sizeof name));
    IS(info.found_by, ZX_IS_NAMED);
    IS(info.kind, ZX_I64);
    IS(info.count, 1);
    IS(info.handle, 192);
    TEXT(name, info.name_len, "a");
    IS(zx_tell(&s, &a, &info, name, 0), ZX_SHORT_BUFFER);
    IS(found(&s, a, ZX_I64, 1), 192);
    IS(found(&s, a, ZX_U8, 1), REFUSED(ZX_WRONG_KIND));
    IS(found(&s, zx_name("b"), ZX_I64, 1), REFUSED(ZX_ABSENT));
    IS(made(&s, a, 1, zx_u8(1)), REFUSED(ZX_EXISTS));
    DONE(zx_find_or_construct(&s, &a, 3, &nine, &handle, &count));
    IS(handle, 192);
    IS(count, 1);
    IS(number_at(&s, a, 0, ZX_I64), 5);
    reopen(&s, "names", ZX_WRITE);
    IS(number_at(&s, a, 0, ZX_I64), 5);
    IS(destroyed(&s, a), true);
    IS(destroyed(&s, a), false);
    IS(free_bytes(&s), 832);
    zx_close(&s);
}

static void index_and_object_do_not_both_fit(void) {
    zx_segment s = ZX_CLOSED_HANDLE;
    DONE(zx_create(&s, 224));
    IS(made(&s, zx_name("a"), 1, zx_i64(5)), REFUSED(ZX_NO_SPACE));
    IS(free_bytes(&s), 80);
    IS(made(&s, zx_anonymous(), 1, zx_i64(5)), 144);
    IS(free_bytes(&s), 32);
    zx_close(&s);
}

static void arrays(void) {
    zx_segment s = ZX_CLOSED_HANDLE;
    zx_key v = zx_name("v"), w = zx_name("w");
    zx_values two = zx_i32s((const int32_t[]){ 1, -2 }, 2);
    uint64_t handle = 0;
    DONE(zx_create(&s, 1024));
    IS(made(&s, v, 3, zx_i64(7)), 192);
    for (uint64_t i = 0; i < 3; i++) IS(number_at(&s, v, i, ZX_I64), 7);
    IS(free_bytes(&s), 768);
    IS(made(&s, zx_name("x"), 1, zx_natural(ZX_U8, 300)), REFUSED(ZX_BAD_VALUE));
    DONE(set(&s, v, 1, zx_i64(300)));
    IS(number_at(&s, v, 1, ZX_I64), 300);
    IS(number_at(&s, v, 3, ZX_I64), REFUSED(ZX_OUT_OF_RANGE));
    IS(set(&s, v, 0, zx_bool(true)), ZX_WRONG_KIND);
    IS(found(&s, v, ZX_I64, 3), 192);
    DONE(zx_construct_array(&s, &w, &two, &handle));
    reopen(&s, "arrays", ZX_WRITE);
    IS(number_at(&s, v, 1, ZX_I64), 300);
    zx_close(&s);
}

static void the_only_object_of_its_kind(void) {
    zx_segment s = ZX_CLOSED_HANDLE;
    zx_key only = zx_unique(ZX_U64);
    zx_info info;
    uint64_t count = 9;
    bool is_empty = false;
    uint8_t name[255];
    DONE(zx_create(&s, 1024));
    IS(made(&s, only, 1, zx_u64(9)), 192);
    IS(made(&s, only, 1, zx_u64(1)), REFUSED(ZX_EXISTS));
    IS(found(&s, only, ZX_U8, 1), REFUSED(ZX_WRONG_KIND));
    DONE(zx_tell(&s, &only, &info, name, sizeof name));
    IS(info.found_by, ZX_IS_UNIQUE);
    IS(info.kind, ZX_U64);
    IS(info.count, 1);
    IS(info.name_len, 0);
    IS(info.handle, 192);
    DONE(zx_unique_at(&s, 0, &info));
    IS(info.handle, 192);
    IS(zx_unique_at(&s, 1, &info), ZX_OUT_OF_RANGE);
    IS(destroyed(&s, only), true);
    DONE(zx_num_unique(&s, &count));
    IS(count, 0);
    DONE(zx_all_deallocated(&s, &is_empty));
    IS(is_empty, false);
    DONE(zx_shrink_indexes(&s));
    DONE(zx_all_deallocated(&s, &is_empty));
    IS(is_empty, true);
    zx_close(&s);
}

static void places_reserved_in_the_indexes(void) {
    static const char *const listed[] = { "a", "b", "c", "d" };
    zx_segment s = ZX_CLOSED_HANDLE;
    uint64_t count = 0;
    zx_info info;
    uint8_t name[255];
    DONE(zx_create(&s, 1024));
    DONE(zx_reserve_named(&s, 5));
    DONE(zx_reserve_unique(&s, 1));
    for (uint64_t i = 0; i < 4; i++) IS(made(&s, zx_name(listed[i]), 1, zx_i64(1)), 240 + 48 * i);
    DONE(zx_num_named(&s, &count));
    IS(count, 4);
    for (uint64_t i = 0; i < 4; i++) {
        DONE(zx_named_at(&s, i, &info, name, sizeof name));
        TEXT(name, info.name_len, listed[i]);
        IS(info.kind, ZX_I64);
        IS(info.count, 1);
        IS(info.handle, 240 + 48 * i);
    }
    IS(zx_named_at(&s, 4, &info, name, sizeof name), ZX_OUT_OF_RANGE);
    DONE(zx_shrink_indexes(&s));
    IS(free_bytes(&s), 624);
    DONE(zx_shrink_indexes(&s));
    IS(free_bytes(&s), 640);
    zx_close(&s);
}

static void best_fit(void) {
    zx_segment s = ZX_CLOSED_HANDLE;
    DONE(zx_create(&s, 1024));
    for (int64_t i = 0; i < 4; i++) IS(made(&s, zx_anonymous(), 1, zx_i64(1)), 144 + 48 * i);
    IS(destroyed(&s, zx_handle(144)), true);
    IS(destroyed(&s, zx_handle(240)), true);
    IS(made(&s, zx_anonymous(), 1, zx_i64(2)), 144);
    IS(destroyed(&s, zx_handle(240)), REFUSED(ZX_NOT_FOUND));
    zx_close(&s);
}

static void storage_is_lengthened_then_replaced(void) {
    static const zx_tile wanted[] = { { 128, 48, ZX_INDEX },  { 176, 64, ZX_OBJECT },   { 240, 80, ZX_GAP },
                                      { 320, 48, ZX_OBJECT }, { 368, 144, ZX_STORAGE }, { 512, 496, ZX_GAP } };
    zx_segment s = ZX_CLOSED_HANDLE;
    zx_key v = zx_name("v");
    zx_tile tile;
    DONE(zx_create(&s, 1024));
    IS(made_vector(&s, v, zx_i64s((const int64_t[]){ 0 }, 0)), 192);
    for (int64_t i = 1; i <= 5; i++) DONE(push(&s, v, zx_i64(i)));
    IS(free_bytes(&s), 688);
    IS(places(&s, v, 5), 8);
    IS(made(&s, zx_anonymous(), 1, zx_i64(9)), 336);
    for (int64_t i = 6; i <= 9; i++) DONE(push(&s, v, zx_i64(i)));
    for (uint64_t i = 0; i < 6; i++) {
        DONE(zx_tile_at(&s, i, &tile));
        IS(tile.offset, wanted[i].offset);
        IS(tile.len, wanted[i].len);
        IS(tile.use, wanted[i].use);
    }
    IS(zx_tile_at(&s, 6, &tile), ZX_OUT_OF_RANGE);
    reopen(&s, "storage", ZX_WRITE);
    for (uint64_t i = 0; i < 9; i++) IS(number_at(&s, v, i, ZX_I64), i + 1);
    zx_close(&s);
}

static void a_string_grows_and_shrinks(void) {
    zx_segment s = ZX_CLOSED_HANDLE;
    zx_key k = zx_name("s");
    uint8_t text[17];
    uint64_t len = 0;
    DONE(zx_create(&s, 1024));
    IS(made_string(&s, k, "ab"), 192);
    DONE(zx_append(&s, &k, bytes("cdefg"), 5));
    IS(places(&s, k, 7), 16);
    IS(free_bytes(&s), 736);
    DONE(zx_trim(&s, &k));
    DONE(zx_append(&s, &k, bytes("0123456789"), 10));
    IS(places(&s, k, 17), 17);
    IS(free_bytes(&s), 720);
    IS(number_at(&s, k, 0, ZX_U8), 97);
    DONE(set(&s, k, 0, zx_u8(65)));
    IS(number_at(&s, k, 17, ZX_U8), REFUSED(ZX_OUT_OF_RANGE));
    IS(push(&s, k, zx_u8(97)), ZX_WRONG_KIND);
    STRING(k, "Abcdefg0123456789");
    IS(zx_read_string(&s, &k, text, 16, &len), ZX_SHORT_BUFFER);
    IS(len, 17);
    DONE(zx_read_string(&s, &k, text, 17, &len));
    reopen(&s, "string", ZX_WRITE);
    DONE(zx_assign_string(&s, &k, bytes("a\0b"), 3));
    DONE(zx_read_string(&s, &k, text, 17, &len));
    IS(len, 3);
    IS(memcmp(text, "a\0b", 3), 0);
    DONE(zx_clear(&s, &k));
    STRING(k, "");
    DONE(zx_trim(&s, &k));
    IS(free_bytes(&s), 768);
    zx_close(&s);
}

static void a_map(void) {
    static const int64_t rising[] = { 1, 2, 3, 5, 6, 7 };
    zx_segment s = ZX_CLOSED_HANDLE;
    zx_key m = zx_name("m");
    zx_value four = zx_i64(4), at = { 0, 0, 0 }, value = { 0, 0, 0 };
    bool was_there = false;
    DONE(zx_create(&s, 1024));
    IS(made_map(&s, m, ZX_I64, ZX_I64), 192);
    IS(zx_map_first(&s, &m, &at, &value), ZX_ABSENT);
    for (int64_t i = 0, keys[] = { 4, 2, 6, 1, 3, 5, 7 }; i < 7; i++) IS(put(&s, m, keys[i], 10 * keys[i]), true);
    DONE(zx_map_erase(&s, &m, &four, &was_there));
    IS(was_there, true);
    DONE(zx_map_erase(&s, &m, &four, &was_there));
    IS(was_there, false);
    IS(places(&s, m, 6), 0);
    reopen(&s, "map", ZX_WRITE);
    DONE(zx_map_first(&s, &m, &at, &value));
    for (int i = 0; i < 6; i++) {
        IS(at.kind, ZX_I64);
        IS(at.number, rising[i]);
        IS(value.number, 10 * rising[i]);
        zx_value after = at;
        IS(zx_map_next(&s, &m, &after, &at, &value), i < 5 ? ZX_DONE : ZX_ABSENT);
    }
    IS(free_bytes(&s), 480);
    IS(put(&s, m, 1, 11), false);
    IS(looked_up(&s, m, 1), 11);
    IS(looked_up(&s, m, 4), REFUSED(ZX_ABSENT));
    zx_close(&s);
}

static void refusals_of_a_vector(void) {
    zx_segment s = ZX_CLOSED_HANDLE;
    zx_key w = zx_name("w");
    zx_value nine = zx_i32(9), last = { 0, 0, 0 };
    zx_values two = zx_i32s((const int32_t[]){ 5, -6 }, 2);
    DONE(zx_create(&s, 1024));
    IS(made_vector(&s, w, zx_i32s((const int32_t[]){ 1, 2, 3 }, 3)), 192);
    DONE(zx_insert(&s, &w, 1, &nine));
    IS(places(&s, w, 4), 6);
    DONE(zx_erase(&s, &w, 0));
    DONE(zx_pop(&s, &w, &last));
    IS(last.kind, ZX_I32);
    IS(last.number, 3);
    IS(number_at(&s, w, 5, ZX_I32), REFUSED(ZX_OUT_OF_RANGE));
    IS(set(&s, w, 7, zx_bool(true)), ZX_WRONG_KIND);
    IS(set(&s, w, 0, zx_i64(3000000000)), ZX_OUT_OF_RANGE);
    IS(zx_append(&s, &w, bytes("x"), 1), ZX_WRONG_KIND);
    IS(zx_reserve(&s, &w, 1000), ZX_NO_SPACE);
    IS(places(&s, w, 2), 6);
    IS(number_at(&s, w, 0, ZX_I32), 9);
    IS(number_at(&s, w, 1, ZX_I32), 2);
    DONE(zx_assign(&s, &w, &two));
    IS(number_at(&s, w, 1, ZX_I32), -6);
    DONE(zx_reserve(&s, &w, 8));
    IS(places(&s, w, 2), 8);
    DONE(zx_clear(&s, &w));
    IS(places(&s, w, 0), 8);
    IS(zx_pop(&s, &w, &last), ZX_OUT_OF_RANGE);
    IS(zx_erase(&s, &w, 0), ZX_OUT_OF_RANGE);
    zx_close(&s);
}

static void a_vector_of_strings(void) {
    zx_segment s = ZX_CLOSED_HANDLE;
    zx_key v = zx_name("v");
    zx_text two[2] = { text_of("a"), text_of("bc") }, three[3] = { text_of("x"), text_of(""), text_of("z") };
    zx_value five = zx_i64(5);
    uint64_t handle = 0, len = 0;
    uint8_t text[4];
    DONE(zx_create(&s, 1024));
    DONE(zx_construct_strings(&s, &v, two, 2, &handle));
    IS(handle, 192);
    IS(free_bytes(&s), 656);
    DONE(zx_push_text(&s, &v, bytes("def"), 3));
    IS(free_bytes(&s), 592);
    TEXT_AT(v, 2, "def");
    IS(zx_read_text(&s, &v, 2, text, 2, &len), ZX_SHORT_BUFFER);
    IS(len, 3);
    DONE(zx_pop_text(&s, &v));
    IS(free_bytes(&s), 624);
    DONE(zx_set_text(&s, &v, 0, bytes(""), 0));
    IS(zx_set(&s, &v, 0, &five), ZX_WRONG_KIND);
    TEXT_AT(v, 0, "");
    TEXT_AT(v, 1, "bc");
    IS(zx_read_text(&s, &v, 2, text, 4, &len), ZX_OUT_OF_RANGE);
    reopen(&s, "texts", ZX_WRITE);
    DONE(zx_insert_text(&s, &v, 0, bytes("first"), 5));
    TEXT_AT(v, 0, "first");
    TEXT_AT(v, 2, "bc");
    DONE(zx_assign_texts(&s, &v, three, 3));
    IS(places(&s, v, 3), 3);
    TEXT_AT(v, 2, "z");
    DONE(zx_assign_texts(&s, &v, three, 0));
    IS(places(&s, v, 0), 3);
    IS(zx_pop_text(&s, &v), ZX_OUT_OF_RANGE);
    zx_close(&s);
}

/* ---- what the examples leave out */

static void objects_found_or_made(void) {
    zx_segment s = ZX_CLOSED_HANDLE;
    zx_key v = zx_name("v"), t = zx_name("t"), l = zx_name("l"), m = zx_name("m");
    zx_values one = zx_u8s((const uint8_t[]){ 200 }, 1), other = zx_u8s((const uint8_t[]){ 7, 8 }, 2);
    zx_text texts[1] = { text_of("only") };
    uint64_t first = 0, again = 0;
    uint32_t count = 0;
    DONE(zx_create(&s, 4096));
    DONE(zx_find_or_construct_vector(&s, &v, &one, &first, &count));
    DONE(zx_find_or_construct_vector(&s, &v, &other, &again, &count));
    IS(again, first);
    IS(count, 1);
    IS(number_at(&s, v, 0, ZX_U8), 200);
    DONE(zx_find_or_construct_string(&s, &t, bytes("text"), 4, &first, &count));
    DONE(zx_find_or_construct_string(&s, &t, bytes("other"), 5, &again, &count));
    IS(again, first);
    STRING(t, "text");
    DONE(zx_find_or_construct_strings(&s, &l, texts, 1, &first, &count));
    DONE(zx_find_or_construct_strings(&s, &l, texts, 0, &again, &count));
    IS(again, first);
    TEXT_AT(l, 0, "only");
    DONE(zx_find_or_construct_map(&s, &m, ZX_I64, ZX_I64, &first, &count));
    IS(put(&s, m, 7, 70), true);
    DONE(zx_find_or_construct_map(&s, &m, ZX_I64, ZX_I64, &again, &count));
    IS(again, first);
    IS(looked_up(&s, m, 7), 70);
    IS(zx_find_or_construct_map(&s, &v, ZX_I64, ZX_I64, &again, &count), ZX_WRONG_KIND);
    reopen(&s, "found", ZX_WRITE);
    zx_close(&s);
}

static void every_kind_of_scalar(void) {
    zx_segment s = ZX_CLOSED_HANDLE;
    zx_key of[5] = { zx_name("b"), zx_name("u8"), zx_name("i32"), zx_name("i64"), zx_name("u64") };
    zx_value most[5] = { zx_bool(true), zx_u8(255), zx_i32(INT32_MIN), zx_i64(INT64_MIN), zx_u64(UINT64_MAX) };
    zx_value value = { 0, 0, 0 };
    DONE(zx_create(&s, 4096));
    for (uint32_t i = 0; i < 5; i++) {
        IS(made(&s, of[i], 1, most[i]) > 0, true);
        DONE(zx_get(&s, &of[i], 0, &value));
        IS(value.kind, ZX_BOOL + i);
        IS(value.number, most[i].number);
        IS(value.natural == most[i].natural, true);
    }
    IS(set(&s, of[0], 0, zx_i64(1)), ZX_WRONG_KIND);
    IS(set(&s, of[1], 0, zx_i64(256)), ZX_OUT_OF_RANGE);
    IS(set(&s, of[1], 0, zx_i64(-1)), ZX_OUT_OF_RANGE);
    IS(set(&s, of[4], 0, zx_i64(-1)), ZX_OUT_OF_RANGE);
    IS(set(&s, of[3], 0, zx_u64(UINT64_MAX)), ZX_OUT_OF_RANGE);
    DONE(set(&s, of[4], 0, zx_i64(5)));
    IS(number_at(&s, of[4], 0, ZX_U64), 5);
    IS(made_vector(&s, zx_name("v1"), zx_bools((const bool[]){ true, false }, 2)) > 0, true);
    IS(number_at(&s, zx_name("v1"), 1, ZX_BOOL), 0);
    IS(made_vector(&s, zx_name("v5"), zx_u64s((const uint64_t[]){ 1, 2 }, 2)) > 0, true);
    IS(number_at(&s, zx_name("v5"), 1, ZX_U64), 2);
    DONE(push(&s, zx_name("v1"), zx_bool(true)));
    reopen(&s, "scalars", ZX_WRITE);
    zx_close(&s);
}

static void many_at_once(void) {
    static const int64_t three[] = { 7, -8, 9 };
    zx_segment s = ZX_CLOSED_HANDLE;
    zx_key a = zx_name("a"), v = zx_name("v"), t = zx_name("t"), none = zx_name("none"), b = zx_name("b");
    zx_values values = zx_i64s(three, 3), two = zx_i64s((const int64_t[]){ 20, 30 }, 2), nothing = zx_no_values();
    zx_values empty = zx_i64s(three, 0), bytes_of = zx_u8s((const uint8_t[]){ 255 }, 1);
    zx_values truths = zx_bools((const bool[]){ true, false, true }, 3), halves = zx_i32s((const int32_t[]){ INT32_MIN, 5 }, 2);
    zx_values large = zx_u64s((const uint64_t[]){ UINT64_MAX }, 1);
    int64_t row[4] = { 1, 1, 1, 1 };
    int32_t half[2] = { 1, 1 };
    uint64_t handle = 0, natural[1] = { 1 };
    uint8_t byte[1] = { 1 };
    bool truth[3] = { false, false, false };
    DONE(zx_create(&s, 4096));
    DONE(zx_construct_array(&s, &a, &values, &handle));
    IS(found(&s, a, ZX_I64, 3), handle);
    IS(zx_construct_array(&s, &a, &values, &handle), ZX_EXISTS);
    IS(zx_construct_array(&s, &v, &empty, &handle), ZX_BAD_COUNT);
    IS(zx_construct_array(&s, &v, &nothing, &handle), ZX_NULL_SLICE);
    DONE(zx_read_i64s(&s, &a, 0, row, 3));
    for (int i = 0; i < 3; i++) IS(row[i], three[i]);
    IS(row[3], 1);
    DONE(zx_read_i64s(&s, &a, 2, row, 1));
    IS(row[0], 9);
    DONE(zx_read_i64s(&s, &a, 3, row, 0));
    IS(zx_read_i64s(&s, &a, 1, row, 3), ZX_OUT_OF_RANGE);
    IS(zx_read_i64s(&s, &a, UINT64_MAX, row, 2), ZX_OUT_OF_RANGE);
    IS(row[0], 9);
    IS(row[1], -8);
    IS(zx_read_u64s(&s, &a, 0, natural, 1), ZX_WRONG_KIND);
    IS(zx_read_i64s(&s, &none, 0, row, 1), ZX_NOT_FOUND);
    IS(zx_read_i64s(&s, &a, 0, NULL, 0), ZX_NULL_SLICE);
    DONE(zx_write_elements(&s, &a, 1, &two));
    DONE(zx_read_i64s(&s, &a, 0, row, 3));
    IS(row[0], 7);
    IS(row[1], 20);
    IS(row[2], 30);
    IS(zx_write_elements(&s, &a, 2, &values), ZX_OUT_OF_RANGE);
    IS(zx_write_elements(&s, &a, 0, &halves), ZX_WRONG_KIND);
    IS(zx_write_elements(&s, &none, 0, &two), ZX_NOT_FOUND);
    IS(zx_write_elements(&s, &a, 0, &nothing), ZX_NULL_SLICE);
    IS(number_at(&s, a, 2, ZX_I64), 30);
    /* vectors, and the other kinds */
    IS(made_vector(&s, v, zx_i32s((const int32_t[]){ 1, 2, 3 }, 3)) > 0, true);
    DONE(zx_write_elements(&s, &v, 1, &halves));
    DONE(zx_read_i32s(&s, &v, 1, half, 2));
    IS(half[0], INT32_MIN);
    IS(half[1], 5);
    IS(number_at(&s, v, 0, ZX_I32), 1);
    IS(places(&s, v, 3), 3);
    DONE(zx_construct_array(&s, &b, &truths, &handle));
    DONE(zx_read_bools(&s, &b, 0, truth, 3));
    for (int i = 0; i < 3; i++) IS(truth[i], i != 1);
    IS(made(&s, zx_unique(ZX_U8), 1, zx_u8(1)) > 0, true);
    zx_key byte_key = zx_unique(ZX_U8), natural_key = zx_unique(ZX_U64);
    DONE(zx_write_elements(&s, &byte_key, 0, &bytes_of));
    DONE(zx_read_u8s(&s, &byte_key, 0, byte, 1));
    IS(byte[0], 255);
    DONE(zx_construct_array(&s, &natural_key, &large, &handle));
    DONE(zx_read_u64s(&s, &natural_key, 0, natural, 1));
    IS(natural[0] == UINT64_MAX, true);
    IS(made_string(&s, t, "text") > 0, true);
    IS(zx_read_u8s(&s, &t, 0, byte, 1), ZX_WRONG_KIND);
    IS(zx_write_elements(&s, &t, 0, &bytes_of), ZX_WRONG_KIND);
    reopen(&s, "many", ZX_READ);
    IS(zx_write_elements(&s, &a, 0, &two), ZX_READ_ONLY);
    IS(zx_construct_array(&s, &none, &two, &handle), ZX_READ_ONLY);
    DONE(zx_read_i64s(&s, &a, 0, row, 3));
    IS(row[1], 20);
    zx_close(&s);
    IS(zx_read_i64s(&s, &a, 0, row, 1), ZX_CLOSED);
    IS(zx_write_elements(&s, &a, 0, &two), ZX_CLOSED);
}

/* One object of each kind. every_call.cpp and every_call.py make the same calls, so that all three save the same bytes. */
static void one_of_each(void) {
    zx_segment s = ZX_CLOSED_HANDLE;
    zx_key none = zx_anonymous(), a = zx_name("a"), largest = zx_name("largest"), truths = zx_name("truths");
    zx_key texts = zx_name("two words"), numbers = zx_name("numbers"), gone = zx_name("gone");
    zx_key byte = zx_unique(ZX_U8), map = zx_unique(ZX_MAP(ZX_I32, ZX_BOOL));
    zx_values bytes_of = zx_u8s((const uint8_t[]){ 1, 2, 255 }, 3), limits = zx_i32s((const int32_t[]){ INT32_MIN, INT32_MAX }, 2);
    zx_values two = zx_i64s((const int64_t[]){ 7, -2 }, 2), three = zx_i64s((const int64_t[]){ 1, 2, 3 }, 3);
    zx_values are = zx_bools((const bool[]){ true, false, true }, 3), others = zx_bools((const bool[]){ true, false }, 2);
    zx_text three_texts[3] = { text_of("hello"), text_of(""), text_of("gr\xc3\xb6\xc3\x9f" "er") };
    zx_value zero = zx_i32(0), nine = zx_i64(9);
    uint64_t string = 0, handle = 0;
    bool was_there = false;
    DONE(zx_create(&s, 4096));
    DONE(zx_construct_string(&s, &none, bytes("a\0\"b"), 4, &string));
    DONE(zx_construct_vector(&s, &none, &bytes_of, &handle));
    DONE(zx_construct_array(&s, &none, &limits, &handle));
    DONE(zx_construct_array(&s, &a, &two, &handle));
    IS(made(&s, largest, 1, zx_u64(UINT64_MAX)) > 0, true);
    DONE(zx_construct_array(&s, &truths, &are, &handle));
    DONE(zx_construct_strings(&s, &texts, three_texts, 3, &handle));
    DONE(zx_construct_vector(&s, &numbers, &three, &handle));
    IS(made(&s, byte, 1, zx_u8(200)) > 0, true);
    DONE(zx_construct_map(&s, &map, ZX_I32, ZX_BOOL, &handle));
    static const int64_t of[] = { 7, -7, 0 };
    for (int i = 0; i < 3; i++) {
        zx_value at = zx_i32((int32_t)of[i]), value = zx_bool(i != 1);
        DONE(zx_map_put(&s, &map, &at, &value, &was_there));
    }
    IS(made(&s, gone, 5, nine) > 0, true);
    /* and changes */
    DONE(set(&s, a, 1, zx_i64(300)));
    DONE(push(&s, numbers, zx_i64(4)));
    DONE(zx_insert(&s, &numbers, 0, &nine));
    DONE(zx_erase(&s, &numbers, 1));
    DONE(zx_write_elements(&s, &truths, 1, &others));
    DONE(zx_push_text(&s, &texts, bytes("last"), 4));
    DONE(zx_set_text(&s, &texts, 0, bytes("first"), 5));
    zx_value seven = zx_i32(7), is_not = zx_bool(false);
    DONE(zx_map_put(&s, &map, &seven, &is_not, &was_there));
    DONE(zx_map_erase(&s, &map, &zero, &was_there));
    zx_key string_key = zx_handle(string);
    DONE(zx_append(&s, &string_key, bytes("!"), 1));
    IS(destroyed(&s, gone), true);
    reopen(&s, "each", ZX_READ);
    zx_close(&s);
}

static void size_and_region(void) {
    zx_segment s = ZX_CLOSED_HANDLE;
    uint64_t size = 0, left = 1;
    bool is_whole = false;
    DONE(zx_create(&s, 208));
    IS(made(&s, zx_name("numbers"), 100, zx_i64(0)), REFUSED(ZX_NO_SPACE));
    IS(zx_grow(&s, 0), ZX_BAD_GROWTH);
    IS(zx_grow(&s, 16), ZX_BAD_GROWTH);
    IS(zx_grow(&s, 33), ZX_BAD_GROWTH);
    IS(zx_grow(&s, 1073741824), ZX_TOO_LARGE);
    DONE(zx_grow(&s, 1024));
    IS(made(&s, zx_name("numbers"), 100, zx_i64(0)) > 0, true);
    DONE(zx_shrink(&s));
    DONE(zx_size(&s, &size));
    IS(size, 1040);
    IS(zx_relocate(&s, 1024), ZX_SHORT_REGION);
    IS(zx_relocate(&s, 1030), ZX_BAD_SIZE);
    DONE(zx_relocate(&s, 2048));
    DONE(zx_region_left(&s, &left));
    IS(left, 1008);
    IS(number_at(&s, zx_name("numbers"), 99, ZX_I64), 0);
    DONE(zx_zero_free(&s));
    DONE(zx_sanity(&s, &is_whole));
    IS(is_whole, true);
    reopen(&s, "grown", ZX_WRITE);
    zx_close(&s);
}

static void modes(void) {
    zx_segment s = ZX_CLOSED_HANDLE;
    zx_key a = zx_name("a");
    uint32_t mode = 9;
    DONE(zx_create(&s, 1024));
    DONE(zx_mode(&s, &mode));
    IS(mode, ZX_WRITE);
    IS(made(&s, a, 1, zx_i64(5)), 192);
    reopen(&s, "modes", ZX_READ);
    DONE(zx_mode(&s, &mode));
    IS(mode, ZX_READ);
    IS(set(&s, a, 0, zx_i64(6)), ZX_READ_ONLY);
    IS(made(&s, zx_name("b"), 1, zx_i64(5)), REFUSED(ZX_READ_ONLY));
    IS(destroyed(&s, a), REFUSED(ZX_READ_ONLY));
    IS(zx_grow(&s, 32), ZX_READ_ONLY);
    IS(zx_shrink(&s), ZX_READ_ONLY);
    IS(zx_zero_free(&s), ZX_READ_ONLY);
    IS(number_at(&s, a, 0, ZX_I64), 5);
    reopen(&s, "modes", ZX_COPY_ON_WRITE);
    DONE(set(&s, a, 0, zx_i64(6)));
    IS(number_at(&s, a, 0, ZX_I64), 6);
    zx_close(&s);
}

/* A segment in memory of this program's: it stands there, and is read and changed there. */
static void in_lent_memory(void) {
    static uint64_t words_of[1024];
    uint8_t *const bytes_of = (uint8_t *)words_of;
    const size_t room = sizeof words_of;
    zx_segment s = ZX_CLOSED_HANDLE;
    zx_key a = zx_name("a"), b = zx_name("b");
    zx_value five = zx_i64(5), seven = zx_i64(7), got;
    DONE(zx_create(&s, 4096));
    IS(made(&s, a, 1, five) > 0, true);
    DONE(zx_save(&s, bytes_of, room));

    /* what is no memory, no size or no mode leaves both as they were */
    zx_memory none = { NULL, 4096 }, odd = { bytes_of, 4095 }, memory = { bytes_of, 8192 };
    IS(zx_attach(&s, &none, 4096, ZX_WRITE), ZX_NULL_SLICE);
    IS(zx_attach(&s, &odd, 4095, ZX_WRITE), ZX_BAD_SIZE);
    IS(zx_attach(&s, &memory, 8193, ZX_WRITE), ZX_BAD_SIZE);
    IS(zx_attach(&s, &memory, 4096, 9), ZX_BAD_MODE);
    IS(zx_attach(&s, &memory, 4080, ZX_WRITE), ZX_TRUNCATED);
    bytes_of[0] ^= 1;
    IS(zx_attach(&s, &memory, 4096, ZX_WRITE), ZX_BAD_MAGIC);
    bytes_of[0] ^= 1;
    IS(memory.at == bytes_of, true);
    IS(memory.len, 8192);
    IS(s.lent, false);

    /* it is opened where it stands; what the handle had is freed */
    uint64_t changes = s.changes;
    DONE(zx_attach(&s, &memory, 4096, ZX_WRITE));
    IS(memory.at == NULL, true);
    IS(memory.len, 0);
    IS(s.lent, true);
    IS(s.changes != changes, true);
    DONE(zx_get(&s, &a, 0, &got));
    IS(got.number, 5);
    DONE(zx_set(&s, &a, 0, &seven));
    zx_elements there;
    DONE(zx_view(&s, &a, &there));
    IS(there.at == bytes_of + there.offset, true);
    IS(*(const int64_t *)there.at, 7);

    /* it stays in its memory: it grows there, and no further */
    uint64_t left;
    DONE(zx_region_left(&s, &left));
    IS(left, 4096);
    IS(zx_relocate(&s, 65536), ZX_SHORT_REGION);
    DONE(zx_grow(&s, 4096));
    IS(zx_grow(&s, 32), ZX_SHORT_REGION);
    IS(zx_grow(&s, 31), ZX_BAD_GROWTH);
    DONE(zx_size(&s, &left));
    IS(left, 8192);
    IS(made(&s, b, 500, five) > 0, true);
    DONE(zx_detach(&s, &memory));
    IS(memory.at == bytes_of, true);
    IS(memory.len, 8192);
    IS(s.lent, false);
    IS(zx_detach(&s, &memory), ZX_CLOSED);
    IS(memory.len, 8192);
    DONE(zx_check(bytes_of, 8192));

    /* open for reading, and closed: nothing of it is freed */
    static uint8_t before[8192];
    memcpy(before, bytes_of, room);
    DONE(zx_attach(&s, &memory, 8192, ZX_READ));
    IS(zx_set(&s, &a, 0, &five), ZX_READ_ONLY);
    DONE(zx_get(&s, &b, 499, &got));
    IS(got.number, 5);
    zx_close(&s);
    IS(s.lent, false);
    IS(memcmp(before, bytes_of, room), 0);

    /* memory that the library took is this program's then */
    DONE(zx_create(&s, 1024));
    IS(made(&s, a, 1, five) > 0, true);
    DONE(zx_detach(&s, &memory));
    IS(memory.len, 1024);
    DONE(zx_check(memory.at, 1024));
    uint8_t *own = memory.at;
    DONE(zx_attach(&s, &memory, 1024, ZX_WRITE));
    DONE(zx_get(&s, &a, 0, &got));
    IS(got.number, 5);
    DONE(zx_create(&s, 1024));
    IS(s.lent, false);
    zx_close(&s);
    free(own);
}

/* Where elements stand, and when they stand elsewhere. */
static void views(void) {
    zx_segment s = ZX_CLOSED_HANDLE;
    zx_key array = zx_name("array"), vector = zx_name("vector"), string = zx_name("string"), map = zx_name("map"),
           truths = zx_name("truths"), none = zx_name("none"), wrong_key = { 9, 0, 0, bytes(""), 0 };
    zx_elements there = { NULL, 1, 2, 3, 4 };
    uint64_t handle, changes;
    IS(zx_view(&s, &array, &there), ZX_CLOSED);
    DONE(zx_create(&s, 4096));
    int64_t numbers[] = { -1, 2, -3 };
    zx_values row = zx_i64s(numbers, 3);
    DONE(zx_construct_array(&s, &array, &row, &handle));
    const bool two[] = { true, false };
    zx_values of_truths = zx_bools(two, 2);
    DONE(zx_construct_array(&s, &truths, &of_truths, &handle));
    row = zx_i64s(numbers, 0);
    DONE(zx_construct_vector(&s, &vector, &row, &handle));
    DONE(zx_construct_string(&s, &string, bytes("red"), 3, &handle));
    DONE(zx_construct_map(&s, &map, ZX_I64, ZX_I64, &handle));
    IS(zx_view(&s, &none, &there), ZX_NOT_FOUND);
    IS(zx_view(&s, &map, &there), ZX_WRONG_KIND);
    IS(zx_view(&s, &wrong_key, &there), ZX_BAD_KEY);
    IS(zx_view_mut(&s, &wrong_key, &there), ZX_BAD_KEY);
    IS(zx_view_mut(&s, &none, &there), ZX_NOT_FOUND);
    IS(there.offset * 1000 + there.count * 100 + there.changes * 10 + there.kind, 1234);
    IS(there.at == NULL, true);
    IS(s.shared, false);

    DONE(zx_view(&s, &array, &there));
    IS(there.count, 3);
    IS(there.kind, ZX_I64);
    IS(there.changes, s.changes);
    IS(memcmp(there.at, numbers, sizeof numbers), 0);
    static uint8_t image[4096];
    DONE(zx_save(&s, image, sizeof image));
    IS(memcmp(image + there.offset, numbers, sizeof numbers), 0);
    DONE(zx_view(&s, &truths, &there));
    IS(there.count, 2);
    IS(there.kind, ZX_BOOL);
    IS(memcmp(there.at, "\1\0", 2), 0);
    DONE(zx_view(&s, &string, &there));
    IS(there.kind, ZX_U8);
    TEXT(there.at, there.count, "red");
    DONE(zx_view(&s, &vector, &there));
    IS(there.count, 0);

    /* written where they stand */
    zx_elements read_only = there;
    zx_value read;
    DONE(zx_view(&s, &array, &read_only));
    IS(s.shared, false);
    IS(zx_elements_mut(&s, &read_only) == NULL, true);
    DONE(zx_view_mut(&s, &array, &there));
    IS(s.shared, true);
    IS(there.at == read_only.at, true);
    IS(zx_is_current(&s, &read_only), true);
    ((int64_t *)zx_elements_mut(&s, &there))[2] = 77;
    IS(((const int64_t *)read_only.at)[2], 77);
    DONE(zx_get(&s, &array, 2, &read));
    IS(read.number, 77);
    zx_segment opened = ZX_CLOSED_HANDLE;
    DONE(zx_save(&s, image, sizeof image));
    DONE(zx_open(&opened, image, sizeof image, sizeof image, ZX_READ));
    DONE(zx_view(&opened, &array, &read_only));
    IS(((const int64_t *)read_only.at)[2], 77);
    IS(zx_view_mut(&opened, &array, &read_only), ZX_READ_ONLY);
    IS(zx_view_mut(&opened, &none, &read_only), ZX_READ_ONLY);
    IS(opened.shared, false);
    zx_close(&opened);
    IS(zx_view_mut(&opened, &array, &read_only), ZX_CLOSED);

    /* reading leaves the counter, and each call that may move elements raises it */
    changes = s.changes;
    IS(zx_view(&s, &none, &there), ZX_NOT_FOUND);
    zx_value got, six = zx_i64(6);
    DONE(zx_get(&s, &array, 0, &got));
    IS(s.changes, changes);
    for (int i = 0; i < 9; i++) {
        changes = s.changes;
        IS(zx_is_current(&s, &there), i == 0);
        DONE(zx_push(&s, &vector, &six));
        IS(s.changes != changes, true);
        IS(s.shared, false);
        IS(zx_is_current(&s, &there), false);
        IS(zx_elements_mut(&s, &there) == NULL, true);
    }
    DONE(zx_view(&s, &vector, &there));
    IS(there.count, 9);
    IS(((const int64_t *)there.at)[8], 6);
    changes = s.changes;
    zx_close(&s);
    IS(s.changes != changes, true);
    IS(zx_is_current(&s, &there), false);
}

/* Objects that were looked up once. */
static void looked_up_once(void) {
    static int64_t big[200];
    zx_segment s = ZX_CLOSED_HANDLE;
    zx_key vector = zx_name("vector"), string = zx_name("string"), map = zx_name("map"), none = zx_name("none");
    zx_value six = zx_i64(6);
    zx_object object, text, truths, small, natural;
    int64_t number = 5;
    uint64_t handle, unsigned_number = 0;
    int32_t short_number = 0;
    uint8_t byte = 0;
    bool truth = false, was_there;
    IS(zx_look_up(&s, &vector, &object), ZX_CLOSED);
    DONE(zx_create(&s, 65536));
    zx_values row = zx_i64s(big, 3);
    big[0] = -1, big[1] = 2, big[2] = -3;
    DONE(zx_construct_vector(&s, &vector, &row, &handle));
    DONE(zx_construct_string(&s, &string, bytes("red"), 3, &handle));
    DONE(zx_construct_map(&s, &map, ZX_I64, ZX_I64, &handle));
    IS(zx_look_up(&s, &none, &object), ZX_NOT_FOUND);
    IS(zx_look_up(&s, &map, &object), ZX_WRONG_KIND);
    DONE(zx_look_up(&s, &vector, &object));
    DONE(zx_look_up(&s, &string, &text));
    DONE(zx_i64_at(&s, &object, 2, &number));
    IS(number, -3);
    IS(zx_i64_at(&s, &object, 3, &number), ZX_OUT_OF_RANGE);
    IS(zx_i64_at(&s, &object, UINT64_MAX, &number), ZX_OUT_OF_RANGE);
    IS(zx_i32_at(&s, &object, 0, &short_number), ZX_WRONG_KIND);
    IS(number, -3);
    DONE(zx_u8_at(&s, &text, 1, &byte));
    IS(byte, 'e');

    /* a vector that moves is found again */
    for (int i = 0; i < 200; i++) DONE(zx_push(&s, &vector, &six));
    DONE(zx_i64_at(&s, &object, 202, &number));
    IS(number, 6);
    DONE(zx_i64_at(&s, &object, 1, &number));
    IS(number, 2);
    DONE(zx_relocate(&s, 131072));
    DONE(zx_u8_at(&s, &text, 2, &byte));
    IS(byte, 'd');

    /* an object that is gone, and another one with its handle */
    DONE(zx_destroy(&s, &string, &was_there));
    IS(zx_u8_at(&s, &text, 0, &byte), ZX_NOT_FOUND);
    const bool two[] = { true, false };
    const int32_t shorts[] = { -7 };
    const uint64_t naturals[] = { UINT64_MAX };
    zx_values rows[] = { zx_bools(two, 2), zx_i32s(shorts, 1), zx_u64s(naturals, 1) };
    zx_key keys[] = { zx_name("truths"), zx_name("shorts"), zx_name("naturals") };
    for (int i = 0; i < 3; i++) DONE(zx_construct_array(&s, &keys[i], &rows[i], &handle));
    DONE(zx_look_up(&s, &keys[0], &truths));
    DONE(zx_look_up(&s, &keys[1], &small));
    DONE(zx_look_up(&s, &keys[2], &natural));
    DONE(zx_bool_at(&s, &truths, 0, &truth));
    IS(truth, true);
    DONE(zx_i32_at(&s, &small, 0, &short_number));
    IS(short_number, -7);
    DONE(zx_u64_at(&s, &natural, 0, &unsigned_number));
    IS(unsigned_number == UINT64_MAX, true);
    IS(zx_u8_at(&s, &truths, 0, &byte), ZX_WRONG_KIND);
    zx_close(&s);
    IS(zx_bool_at(&s, &truths, 0, &truth), ZX_CLOSED);
}

/* Pushes the number into the one segment by its handle alone, and into the other one by a key and a value. */
static void push_into_both(zx_segment *s, zx_segment *twin, uint64_t handle, int64_t number) {
    const zx_key key = zx_handle(handle);
    const zx_value value = zx_i64(number);
    const uint64_t changes = s->changes;
    IS(zx_push_i64(s, handle, number), zx_push(twin, &key, &value));
    IS(s->changes - changes, 1);
    IS(s->shared, false);
}

/* Asks where the elements of an object are, by its handle alone and by a key. */
static void view_both(zx_segment *s, uint64_t handle) {
    const zx_key key = zx_handle(handle);
    zx_elements own, other;
    memset(&own, 7, sizeof own);
    memset(&other, 7, sizeof other);
    IS(zx_view_of(s, handle, &own), zx_view(s, &key, &other));
    IS(memcmp(&own, &other, sizeof own), 0);
}

/* Any number can be the handle of a push and of a view, and they do what the calls by a key do. */
static void by_handle_alone(void) {
    static uint8_t image[4096], own[4096], other[4096];
    const int64_t numbers[] = { 5, 300, -1, INT64_MIN, INT64_MAX };
    const zx_key vector = zx_name("vector");
    zx_segment s = ZX_CLOSED_HANDLE, twin = ZX_CLOSED_HANDLE;
    zx_elements there;
    IS(zx_push_i64(&s, 48, 5), ZX_CLOSED);
    IS(zx_view_of(&s, 48, &there), ZX_CLOSED);
    IS(s.changes, 0);
    DONE(zx_create(&s, sizeof image));
    const int64_t of_i64 = made_vector(&s, vector, zx_i64s(numbers, 3));
    IS(made_vector(&s, zx_name("bytes"), zx_u8s(bytes("ab"), 2)) > 0, true);
    IS(made_string(&s, zx_name("text"), "red") > 0, true);
    IS(made_map(&s, zx_name("map"), ZX_I64, ZX_I64) > 0, true);
    IS(made(&s, zx_name("one"), 1, zx_i64(1)) > 0, true);
    DONE(zx_save(&s, image, sizeof image));
    for (uint32_t mode = ZX_WRITE; mode <= ZX_COPY_ON_WRITE; mode++) {
        DONE(zx_open(&s, image, sizeof image, sizeof image, mode));
        DONE(zx_open(&twin, image, sizeof image, sizeof image, mode));
        for (uint64_t handle = 0; handle <= sizeof image; handle++) {
            view_both(&s, handle);
            for (int i = 0; i < 10; i++) push_into_both(&s, &twin, handle, numbers[i % 5]);
            view_both(&s, handle);
        }
        push_into_both(&s, &twin, UINT64_MAX, 5);
        view_both(&s, UINT64_MAX);
        push_into_both(&s, &twin, (uint64_t)of_i64 + ((uint64_t)1 << 32), 5);
        if (mode != ZX_READ) {
            DONE(zx_view_mut(&s, &vector, &there));
            IS(s.shared, true);
            push_into_both(&s, &twin, (uint64_t)of_i64, 6);
            IS(number_at(&s, vector, 13, ZX_I64), 6);
            for (int i = 0; i < 600; i++) push_into_both(&s, &twin, (uint64_t)of_i64, i);
            IS(zx_push_i64(&s, (uint64_t)of_i64, 1), ZX_NO_SPACE);
        }
        DONE(zx_save(&s, own, sizeof own));
        DONE(zx_save(&twin, other, sizeof other));
        IS(memcmp(own, other, sizeof own), 0);
        zx_close(&twin);
    }
    zx_close(&s);
}

/* What was looked up is found again after each kind of change, or the read says why not. */
static void looked_up_again(void) {
    static uint8_t image[1024];
    const int64_t first[] = { 1, 2, 3 }, second[] = { -1, -2, -3 };
    const int32_t third[] = { 1, 2, 3, 4, 5, 6 };
    zx_segment s = ZX_CLOSED_HANDLE, before = ZX_CLOSED_HANDLE;
    zx_key a = zx_name("a"), b = zx_name("b"), other = zx_name("v");
    zx_value five = zx_i64(5), six = zx_i64(6);
    zx_values row = zx_i64s(first, 3), none = zx_i64s(first, 0);
    zx_object object;
    int64_t number = 0;
    bool was_there;
    uint64_t handle, again;
    DONE(zx_create(&s, 1024));
    DONE(zx_construct_vector(&s, &other, &none, &handle));
    DONE(zx_construct_array(&s, &a, &row, &handle));
    DONE(zx_look_up(&s, &a, &object));

    /* a save changes nothing */
    DONE(zx_save(&s, image, sizeof image));
    IS(zx_is_current(&s, &object.there), true);
    DONE(zx_i64_at(&s, &object, 0, &number));
    IS(number, 1);

    /* a change of the element, of another object, and of the segment's length */
    DONE(zx_set(&s, &a, 0, &five));
    IS(zx_is_current(&s, &object.there), false);
    DONE(zx_i64_at(&s, &object, 0, &number));
    IS(number, 5);
    DONE(zx_push(&s, &other, &six));
    IS(zx_is_current(&s, &object.there), false);
    DONE(zx_i64_at(&s, &object, 2, &number));
    IS(number, 3);
    DONE(zx_grow(&s, 4096));
    IS(zx_is_current(&s, &object.there), false);
    DONE(zx_i64_at(&s, &object, 0, &number));
    IS(number, 5);

    /* what a transaction changed and destroyed is back after it */
    DONE(zx_begin(&s, &before));
    DONE(zx_set(&s, &a, 0, &six));
    DONE(zx_i64_at(&s, &object, 0, &number));
    IS(number, 6);
    DONE(zx_destroy(&s, &a, &was_there));
    number = 0;
    IS(zx_i64_at(&s, &object, 0, &number), ZX_NOT_FOUND);
    IS(number, 0);
    DONE(zx_rollback(&s, &before));
    DONE(zx_i64_at(&s, &object, 0, &number));
    IS(number, 5);

    /* another object with the handle: of the kind, and of another one */
    DONE(zx_destroy(&s, &a, &was_there));
    row = zx_i64s(second, 3);
    DONE(zx_construct_array(&s, &b, &row, &again));
    IS(again, handle);
    DONE(zx_i64_at(&s, &object, 0, &number));
    IS(number, -1);
    DONE(zx_destroy(&s, &b, &was_there));
    row = zx_i32s(third, 6);
    DONE(zx_construct_array(&s, &b, &row, &again));
    IS(again, handle);
    IS(zx_i64_at(&s, &object, 0, &number), ZX_WRONG_KIND);
    IS(number, -1);

    /* a closed handle, and another segment in it */
    zx_close(&s);
    IS(zx_i64_at(&s, &object, 0, &number), ZX_CLOSED);
    DONE(zx_open(&s, image, sizeof image, sizeof image, ZX_READ));
    DONE(zx_i64_at(&s, &object, 0, &number));
    IS(number, 1);
    zx_close(&s);
}

/* Several calls as one. */
static void transactions(void) {
    static uint8_t image[1024], again[1024];
    zx_segment s = ZX_CLOSED_HANDLE, before = ZX_CLOSED_HANDLE, other = ZX_CLOSED_HANDLE;
    zx_key a = zx_name("a"), b = zx_name("b");
    zx_value five = zx_i64(5), six = zx_i64(6), got;
    bool was_there;
    uint64_t size;
    IS(zx_begin(&s, &before), ZX_CLOSED);
    IS(zx_rollback(&s, &before), ZX_CLOSED);
    DONE(zx_create(&s, 1024));
    IS(made(&s, a, 1, five) > 0, true);
    IS(zx_rollback(&s, &before), ZX_CLOSED);
    DONE(zx_save(&s, image, sizeof image));

    /* taken back, where the segment lies now */
    uint64_t changes = s.changes;
    DONE(zx_begin(&s, &before));
    IS(s.changes, changes);
    DONE(zx_get(&before, &a, 0, &got));
    IS(got.number, 5);
    DONE(zx_set(&s, &a, 0, &six));
    IS(made(&s, b, 1, six) > 0, true);
    DONE(zx_grow(&s, 4096));
    changes = s.changes;
    DONE(zx_rollback(&s, &before));
    IS(s.changes != changes, true);
    IS(before.at == NULL, true);
    DONE(zx_size(&s, &size));
    IS(size, 1024);
    DONE(zx_save(&s, again, sizeof again));
    IS(memcmp(image, again, sizeof image), 0);
    DONE(zx_region_left(&s, &size));
    IS(size, 4096);

    /* done, one within the other */
    DONE(zx_begin(&s, &before));
    DONE(zx_set(&s, &a, 0, &six));
    DONE(zx_begin(&s, &other));
    DONE(zx_destroy(&s, &a, &was_there));
    DONE(zx_rollback(&s, &other));
    zx_commit(&before);
    DONE(zx_get(&s, &a, 0, &got));
    IS(got.number, 6);

    /* where the region became too short, nothing changes */
    DONE(zx_begin(&s, &before));
    DONE(zx_shrink(&s));
    DONE(zx_relocate(&s, 512));
    IS(zx_rollback(&s, &before), ZX_SHORT_REGION);
    DONE(zx_get(&before, &a, 0, &got));
    DONE(zx_relocate(&s, 1024));
    DONE(zx_rollback(&s, &before));
    DONE(zx_size(&s, &size));
    IS(size, 1024);

    /* in lent memory it stays there */
    zx_memory memory = { image, sizeof image };
    DONE(zx_attach(&s, &memory, sizeof image, ZX_WRITE));
    DONE(zx_begin(&s, &before));
    DONE(zx_set(&s, &a, 0, &six));
    IS(memcmp(image, again, sizeof image) != 0, true);
    DONE(zx_rollback(&s, &before));
    IS(s.lent, true);
    IS(memcmp(image, again, sizeof image), 0);

    /* not of one that is read alone */
    DONE(zx_begin(&s, &before));
    DONE(zx_detach(&s, &memory));
    DONE(zx_attach(&s, &memory, sizeof image, ZX_READ));
    IS(zx_begin(&s, &other), ZX_READ_ONLY);
    IS(zx_rollback(&s, &before), ZX_READ_ONLY);
    DONE(zx_get(&before, &a, 0, &got));
    zx_commit(&before);
    zx_close(&s);
}

/* The names from a text on. */
static void names_from(void) {
    static const char *const of[] = { "ant", "bee/1", "bee/2", "cow" };
    zx_segment s = ZX_CLOSED_HANDLE;
    uint64_t index = 77;
    zx_info info;
    uint8_t name[255];
    IS(zx_named_from(&s, bytes("a"), 1, &index), ZX_CLOSED);
    IS(index, 77);
    DONE(zx_create(&s, 4096));
    DONE(zx_named_from(&s, bytes("a"), 1, &index));
    IS(index, 0);
    for (int i = 3; i >= 0; i--) IS(made(&s, zx_name(of[i]), 1, zx_bool(true)) > 0, true);
    IS(zx_named_from(&s, NULL, 0, &index), ZX_NULL_SLICE);
    DONE(zx_named_from(&s, bytes(""), 0, &index));
    IS(index, 0);
    DONE(zx_named_from(&s, bytes("bee/"), 4, &index));
    IS(index, 1);
    DONE(zx_named_at(&s, index, &info, name, sizeof name));
    TEXT(name, info.name_len, "bee/1");
    DONE(zx_named_from(&s, bytes("bee/2"), 5, &index));
    IS(index, 2);
    DONE(zx_named_from(&s, bytes("bee/2\0"), 6, &index));
    IS(index, 3);
    DONE(zx_named_from(&s, bytes("d\377"), 2, &index));
    IS(index, 4);
    IS(zx_named_at(&s, index, &info, name, sizeof name), ZX_OUT_OF_RANGE);
    zx_close(&s);
}

static void what_is_no_image(void) {
    zx_segment s = ZX_CLOSED_HANDLE;
    uint8_t image[1024];
    DONE(zx_create(&s, 1024));
    DONE(zx_save(&s, image, sizeof image));
    IS(zx_check(bytes("this is no image"), 16), ZX_TRUNCATED);
    IS(zx_open(&s, bytes("this is no image"), 16, 1024, ZX_WRITE), ZX_TRUNCATED);
    IS(zx_open(&s, image, sizeof image, 1008, ZX_WRITE), ZX_SHORT_REGION);
    IS(zx_open(&s, image, sizeof image, 1025, ZX_WRITE), ZX_BAD_SIZE);
    IS(zx_open(&s, image, sizeof image, 1024, 3), ZX_BAD_MODE);
    DONE(zx_open(&s, image, sizeof image, 1024, ZX_WRITE));
    image[0] ^= 1;
    IS(zx_check(image, sizeof image), ZX_BAD_MAGIC);
    IS(zx_create(&s, 160), ZX_BAD_SIZE);
    IS(zx_create(&s, 1073741840), ZX_BAD_SIZE);
    zx_close(&s);
}

static uint64_t word_of(const uint8_t *image, uint64_t at) {
    uint64_t word;
    memcpy(&word, image + at, sizeof word);
    return word;
}

static void is_shown(int line, const uint8_t *image, size_t len, zx_code code, uint64_t wanted) {
    uint64_t place = 7;
    is_number(line, "zx_explain", zx_explain(image, len, &place), code);
    is_number(line, "the place", place, wanted);
    is_number(line, "zx_check", zx_check(image, len), code);
    zx_segment s = ZX_CLOSED_HANDLE;
    place = 7;
    is_number(line, "zx_open_explained", zx_open_explained(&s, image, len, 2048, ZX_READ, &place), code);
    is_number(line, "the place of an opening", place, wanted);
    static uint64_t words_of[256];
    memcpy(words_of, image, len);
    zx_memory memory = { (uint8_t *)words_of, sizeof words_of };
    place = 7;
    is_number(line, "zx_attach_explained", zx_attach_explained(&s, &memory, len, ZX_READ, &place), code);
    is_number(line, "the place in lent memory", place, wanted);
    zx_close(&s);
}
#define SHOWN(code, place) is_shown(__LINE__, image, sizeof image, code, place)
#define SHOWN_BY(word, at, code, place) \
    do { \
        const uint64_t old_word = word_of(image, at), new_word = (word); \
        memcpy(image + (at), &new_word, sizeof new_word); \
        SHOWN(code, place); \
        memcpy(image + (at), &old_word, sizeof old_word); \
    } while (0)

/* The byte that shows each class, in the image of two vectors. */
static void what_shows_a_class(void) {
    zx_segment s = ZX_CLOSED_HANDLE;
    zx_key a = zx_name("a"), b = zx_name("b");
    uint8_t image[1024], longer[1040] = { 0 };
    uint64_t place = 7;
    zx_elements first, second;
    const int64_t three[] = { 1, 2, 3 };
    DONE(zx_create(&s, sizeof image));
    const uint64_t at = (uint64_t)made_vector(&s, a, zx_i64s(three, 3));
    const uint64_t other = (uint64_t)made_vector(&s, b, zx_i64s(three, 1));
    DONE(zx_view(&s, &a, &first));
    DONE(zx_view(&s, &b, &second));
    DONE(zx_save(&s, image, sizeof image));
    zx_close(&s);
    memcpy(longer, image, sizeof image);
    SHOWN(ZX_DONE, 7);
    IS(zx_explain(NULL, 0, &place), ZX_NULL_SLICE);
    IS(place, 7);
    is_shown(__LINE__, image, 100, ZX_TRUNCATED, 100);
    is_shown(__LINE__, image, 1008, ZX_TRUNCATED, 1008);
    is_shown(__LINE__, longer, sizeof longer, ZX_BAD_IMAGE_SIZE, 1024);
    SHOWN_BY(word_of(image, 0) ^ 1u << 24, 0, ZX_BAD_MAGIC, 3);
    SHOWN_BY(9, 8, ZX_UNSUPPORTED_VERSION, 8);
    SHOWN_BY(1025, 16, ZX_BAD_IMAGE_SIZE, 16);
    SHOWN_BY((uint64_t)1 << 32 | 2, 8, ZX_BAD_RESERVED, 12);
    SHOWN_BY(1, 88, ZX_BAD_RESERVED, 88);
    SHOWN_BY(16, 128, ZX_BAD_TAG, 128);
    SHOWN_BY(1, sizeof image - 16, ZX_BAD_TAG, sizeof image - 16);
    SHOWN_BY(1, 24, ZX_BAD_FREE_TREE, 24);
    SHOWN_BY(99, 40, ZX_BAD_INDEX, 40);
    SHOWN_BY(1, 32, ZX_BAD_INDEX, 32);
    SHOWN_BY(99, at, ZX_BAD_OBJECT, at);
    SHOWN_BY(99, other, ZX_BAD_OBJECT, other);
    SHOWN_BY(first.offset - (other + 24), other + 24, ZX_SHARED_BLOCK, other + 24);
    SHOWN_BY(99, at + 32, ZX_BAD_CONTAINER, at);
    SHOWN_BY(99, other + 32, ZX_BAD_CONTAINER, other);
    const uint64_t none[] = { 1, 0, 0 };
    memcpy(image + other + 24, none, sizeof none);
    SHOWN(ZX_ORPHAN_BLOCK, second.offset);
}

static void what_is_passed_wrongly(void) {
    zx_segment s = ZX_CLOSED_HANDLE;
    zx_key a = zx_name("a"), none = zx_anonymous();
    zx_values no_values = zx_i64s(NULL, 2);
    zx_value value = zx_i64(1);
    zx_info info;
    uint64_t handle = 0, size = 77;
    uint32_t count = 0;
    uint8_t name[255];
    zx_text texts[2] = { text_of("a"), text_of("b") };
    char longest[257];
    memset(longest, 'n', 256);
    longest[256] = 0;
    IS(zx_size(&s, &size), ZX_CLOSED);
    IS(size, 77);
    IS(made(&s, a, 1, value), REFUSED(ZX_CLOSED));
    IS(zx_open(&s, NULL, 1024, 1024, ZX_WRITE), ZX_NULL_SLICE);
    IS(zx_open_explained(&s, NULL, 1024, 1024, ZX_WRITE, &size), ZX_NULL_SLICE);
    zx_close(&s);
    DONE(zx_create(&s, 4096));
    IS(made(&s, zx_name(NULL), 1, value), REFUSED(ZX_NULL_SLICE));
    IS(made(&s, zx_name(""), 1, value), REFUSED(ZX_BAD_NAME));
    IS(made(&s, zx_name("\xff"), 1, value), REFUSED(ZX_BAD_NAME));
    IS(made(&s, zx_name("a\n"), 1, value), REFUSED(ZX_BAD_NAME));
    IS(made(&s, zx_name(longest), 1, value), REFUSED(ZX_BAD_NAME));
    IS(made(&s, zx_name(longest + 1), 1, value) > 0, true);
    IS(made(&s, zx_handle(144), 1, value), REFUSED(ZX_BAD_KEY));
    IS(made(&s, zx_unique(99), 1, value), REFUSED(ZX_BAD_KIND));
    IS(made(&s, zx_unique(ZX_U8), 1, value), REFUSED(ZX_BAD_KIND));
    IS(made(&s, a, 0, value), REFUSED(ZX_BAD_COUNT));
    IS(made(&s, a, 1048577, value), REFUSED(ZX_BAD_COUNT));
    IS(made(&s, a, 1, zx_number(ZX_STRING, 1)), REFUSED(ZX_BAD_VALUE));
    IS(made(&s, a, 1, zx_natural(ZX_BOOL, 2)), REFUSED(ZX_BAD_VALUE));
    IS(made_vector(&s, a, no_values), REFUSED(ZX_NULL_SLICE));
    IS(made_map(&s, a, ZX_I64, ZX_STRING), REFUSED(ZX_BAD_KIND));
    IS(zx_find_or_construct(&s, &none, 1, &value, &handle, &count), ZX_BAD_KEY);
    IS(zx_tell(&s, &none, &info, name, sizeof name), ZX_BAD_KEY);
    IS(zx_tell(&s, &a, &info, name, sizeof name), ZX_NOT_FOUND);
    IS(zx_construct_string(&s, &a, NULL, 1, &handle), ZX_NULL_SLICE);
    IS(zx_construct_strings(&s, &a, NULL, 0, &handle), ZX_NULL_SLICE);
    IS(zx_find_or_construct_string(&s, &a, NULL, 0, &handle, &count), ZX_NULL_SLICE);
    IS(zx_find_or_construct_strings(&s, &a, NULL, 0, &handle, &count), ZX_NULL_SLICE);
    IS(zx_check(NULL, 0), ZX_NULL_SLICE);
    IS(zx_save(&s, NULL, 4096), ZX_NULL_SLICE);
    IS(zx_tell(&s, &a, &info, NULL, 0), ZX_NULL_SLICE);
    IS(zx_named_at(&s, 0, &info, NULL, 0), ZX_NULL_SLICE);
    IS(zx_read_string(&s, &a, NULL, 0, &handle), ZX_NULL_SLICE);
    IS(zx_assign_string(&s, &a, NULL, 0), ZX_NULL_SLICE);
    IS(zx_append(&s, &a, NULL, 0), ZX_NULL_SLICE);
    IS(zx_read_text(&s, &a, 0, NULL, 0, &handle), ZX_NULL_SLICE);
    IS(zx_set_text(&s, &a, 0, NULL, 0), ZX_NULL_SLICE);
    IS(zx_push_text(&s, &a, NULL, 0), ZX_NULL_SLICE);
    IS(zx_insert_text(&s, &a, 0, NULL, 0), ZX_NULL_SLICE);
    IS(zx_assign_texts(&s, &a, NULL, 0), ZX_NULL_SLICE);
    texts[1].at = NULL;
    IS(zx_construct_strings(&s, &a, texts, 2, &handle), ZX_NULL_SLICE);
    IS(zx_assign_texts(&s, &a, texts, 2), ZX_NULL_SLICE);
    zx_close(&s);
    zx_close(&s);
}

static void words(void) {
    static const char *const of[] = { "read only", "already exists", "not found", "wrong kind", "out of range", "no space" };
    zx_text text;
    for (zx_code code = ZX_READ_ONLY; code <= ZX_NO_SPACE; code++) {
        zx_words(code, &text);
        TEXT(text.at, text.len, of[code - ZX_READ_ONLY]);
    }
    for (zx_code code = ZX_TRUNCATED; code <= ZX_ORPHAN_BLOCK; code++) {
        zx_words(code, &text);
        IS(text.len > 0, true);
    }
    zx_words(1000, &text);
    IS(text.len, 0);
    IS(strcmp(zx_message(ZX_NO_SPACE), "no space"), 0);
    IS(strcmp(zx_message(ZX_FILE_FOLDER), "is a folder"), 0);
    IS(strcmp(zx_message(1000), ""), 0);
    for (zx_code code = 0; code <= ZX_ORPHAN_BLOCK; code++) {
        zx_file_words(code, &text);
        IS(strlen(zx_message(code)), text.len);
        IS(memcmp(zx_message(code), text.at, text.len), 0);
    }
    IS(zx_version(), ZX_VERSION);
    IS(strncmp(zx_state(), "state ", 6), 0);
}

/* The calls for files, which tests/files.c and others try for themselves. */
static void files(void) {
    char path[500], other[500];
    zx_file file = ZX_CLOSED_FILE;
    zx_key a = zx_name("a");
    zx_value got, six = zx_i64(6);
    zx_text text;
    snprintf(path, sizeof path, "%s/c-file.seg", folder);
    snprintf(other, sizeof other, "%s/c-other.seg", folder);
    remove(path);
    remove(other);
    DONE(zx_file_open(&file, path, ZX_CREATE_ONLY, 1024));
    IS(made(&file.segment, a, 1, zx_i64(5)), 192);
    DONE(zx_file_save(&file));
    DONE(zx_file_save_as(&file, other, ZX_CREATE_ONLY));
    DONE(zx_set(&file.segment, &a, 0, &six));
    DONE(zx_file_close(&file));
    DONE(zx_file_open(&file, path, ZX_OPEN_READ_ONLY, 0));
    DONE(zx_get(&file.segment, &a, 0, &got));
    IS(got.number, 6);
    IS(zx_file_open(&file, other, ZX_OPEN_ONLY, 0), ZX_FILE_IS_OPEN);
    zx_file_discard(&file);
    DONE(zx_file_open(&file, other, ZX_OPEN_ONLY, 0));
    DONE(zx_get(&file.segment, &a, 0, &got));
    IS(got.number, 5);
    zx_file_discard(&file);
    DONE(zx_file_open(&file, other, ZX_OPEN_ONLY | ZX_MAPPED, 0));
    DONE(zx_file_grow(&file, 1024));
    DONE(zx_get(&file.segment, &a, 0, &got));
    IS(got.number, 5);
    DONE(zx_file_shrink(&file));
    zx_segment before = ZX_CLOSED_HANDLE;
    DONE(zx_begin(&file.segment, &before));
    DONE(zx_set(&file.segment, &a, 0, &six));
    DONE(zx_file_rollback(&file, &before));
    DONE(zx_get(&file.segment, &a, 0, &got));
    IS(got.number, 5);
    DONE(zx_file_flush(&file));
    DONE(zx_file_close(&file));
    IS(zx_file_open(&file, folder, ZX_OPEN_ONLY, 0), ZX_FILE_FOLDER);
    zx_file_words(ZX_FILE_FOLDER, &text);
    TEXT(text.at, text.len, "is a folder");
}

static int64_t first_number(zx_file *file, zx_key key) {
    zx_value got = zx_i64(-1);
    DONE(zx_get(&file->segment, &key, 0, &got));
    return got.number;
}

/* A view of the vector of a key: where its numbers are. */
static zx_memory numbers_of(zx_file *file, zx_key key) {
    zx_elements found;
    DONE(zx_view_mut(&file->segment, &key, &found));
    zx_memory view = { zx_elements_mut(&file->segment, &found), found.count * 8 };
    return view;
}

/* Views of a mapped or durable file stay behind a transaction that is undone, and behind the file. */
static void views_that_stay(uint32_t way) {
    char path[1024];
    zx_file file = ZX_CLOSED_FILE;
    zx_key v = zx_name("v"), w = zx_name("w");
    zx_step before = ZX_NO_STEP;
    zx_memory left = { NULL, 0 }, none = { NULL, 0 };
    int64_t numbers[2] = { 1, 2 }, *at;
    snprintf(path, sizeof path, "%s/c-views.seg", folder);
    remove(path);
    IS(zx_file_undo_beside(&file, &before, &none, 1, &left), ZX_CLOSED);
    IS(zx_file_close_beside(&file, true, &none, 1, &left), ZX_CLOSED);
    DONE(zx_file_open(&file, path, ZX_CREATE_ONLY | way, 4096));
    IS(made_vector(&file.segment, v, zx_i64s(numbers, 2)), 192);
    IS(zx_file_undo_beside(&file, &before, &none, 1, &left), ZX_CLOSED);
    for (int round = 0; round < 3; round++) {
        zx_step outer = ZX_NO_STEP;
        if (round == 2) DONE(zx_file_begin(&file, &outer));
        DONE(zx_file_begin(&file, &before));
        if (round == 1) DONE(zx_file_grow(&file, 65536));
        IS(made_vector(&file.segment, w, zx_i64s(numbers, 1)) > 0, true);
        zx_memory views[2] = { numbers_of(&file, v), numbers_of(&file, w) };
        at = (void *)views[0].at;
        at[0] = 7;
        DONE(zx_file_undo_beside(&file, &before, views, 2, &left));
        IS(at[0], 7);
        IS(*(int64_t *)(void *)views[1].at, 1);
        IS(first_number(&file, v), 1);
        at[0] = 8;
        IS(first_number(&file, v), 1);
        munmap(left.at, left.len);
        if (round == 2) IS(zx_file_close_beside(&file, true, views, 2, &left), ZX_FILE_IN_STEP);
        if (round == 2) DONE(zx_file_keep(&file, &outer));
    }
    for (int is_kept = 1; is_kept >= 0; is_kept--) {
        zx_memory view = numbers_of(&file, v);
        at = (void *)view.at;
        if (!is_kept) DONE(zx_file_flush(&file));
        at[0] = 10 + is_kept;
        DONE(zx_file_close_beside(&file, is_kept, &view, 1, &left));
        IS(at[0], 10 + is_kept);
        at[0] = 12;
        munmap(left.at, left.len);
        DONE(zx_file_open(&file, path, ZX_OPEN_ONLY | way, 0));
        // what a mapping changed is in the file, and nothing discards it
        IS(first_number(&file, v), is_kept || way == ZX_DURABLE ? 11 : 10);
    }
    zx_file_discard(&file);
}

/* A transaction of a segment in memory that keeps pages, or, of a short one, a copy. */
static void steps_in_memory(uint64_t size) {
    zx_file file = ZX_CLOSED_FILE;
    zx_key a = zx_name("a");
    zx_value six = zx_i64(6);
    zx_step before = ZX_NO_STEP;
    uint64_t len = 0;
    uint8_t *image = malloc(size), *now = malloc(size);
    if (!image || !now) exit(1);
    IS(zx_step_image(&before, image, size, &len), ZX_CLOSED);
    DONE(zx_create(&file.segment, size));
    IS(made(&file.segment, a, 1, zx_i64(5)), 192);
    DONE(zx_save(&file.segment, image, size));
    for (int i = 0; i < 3; i++) {
        DONE(zx_file_begin(&file, &before));
        DONE(zx_set(&file.segment, &a, 0, &six));
        DONE(zx_file_grow(&file, 65536));
        IS(zx_step_image(&before, now, size - 1, &len), ZX_SHORT_BUFFER);
        DONE(zx_step_image(&before, now, size, &len));
        IS(len, size);
        IS(memcmp(now, image, size), 0);
        DONE(zx_file_undo(&file, &before));
        IS(first_number(&file, a), 5);
        DONE(zx_save(&file.segment, now, size));
        IS(memcmp(now, image, size), 0);
        if (i == 1) DONE(zx_relocate(&file.segment, size));
    }
    zx_file_discard(&file);
    free(image);
    free(now);
}

/* Commits, and transactions that keep pages. */
static void durable_files(void) {
    zx_file file = ZX_CLOSED_FILE;
    zx_key a = zx_name("a");
    zx_value six = zx_i64(6), seven = zx_i64(7), eight = zx_i64(8);
    zx_step before = ZX_NO_STEP, inner = ZX_NO_STEP;
    char path[400], log[410];
    snprintf(path, sizeof path, "%s/committed.seg", folder);
    snprintf(log, sizeof log, "%s-log", path);
    remove(path), remove(log);
    IS(zx_file_open(&file, path, ZX_OPEN_READ_ONLY | ZX_DURABLE, 0), ZX_BAD_MODE);
    DONE(zx_file_open(&file, path, ZX_CREATE_ONLY | ZX_DURABLE, 8192));
    IS(made(&file.segment, a, 1, zx_i64(5)), 192);
    DONE(zx_file_commit(&file));
    DONE(zx_set(&file.segment, &a, 0, &six));
    zx_file_discard(&file);
    DONE(zx_file_open(&file, path, ZX_OPEN_ONLY | ZX_DURABLE, 0));
    IS(first_number(&file, a), 5);
    DONE(zx_file_begin(&file, &before));
    DONE(zx_set(&file.segment, &a, 0, &six));
    IS(zx_file_commit(&file), ZX_FILE_IN_STEP);
    IS(zx_file_save(&file), ZX_FILE_IN_STEP);
    IS(zx_file_close(&file), ZX_FILE_IN_STEP);
    DONE(zx_file_begin(&file, &inner));
    DONE(zx_set(&file.segment, &a, 0, &seven));
    DONE(zx_file_grow(&file, 8192));
    DONE(zx_file_undo(&file, &inner));
    IS(first_number(&file, a), 6);
    DONE(zx_file_keep(&file, &before));
    DONE(zx_file_begin(&file, &before));
    DONE(zx_set(&file.segment, &a, 0, &eight));
    zx_file_leave(&file, &before);
    IS(first_number(&file, a), 8);
    zx_file_discard(&file);
    DONE(zx_file_open(&file, path, ZX_OPEN_READ_ONLY, 0));
    IS(first_number(&file, a), 6);
    DONE(zx_file_close(&file));
    DONE(zx_file_open(&file, path, ZX_OPEN_ONLY | ZX_MAPPED, 0));
    IS(first_number(&file, a), 6);
    IS(remove(log), -1);
    DONE(zx_file_begin(&file, &before));
    DONE(zx_set(&file.segment, &a, 0, &seven));
    DONE(zx_file_undo(&file, &before));
    IS(first_number(&file, a), 6);
    DONE(zx_file_close(&file));
}

/* The bytes of logs, as docs/FORMAT.md has them. */
static void bytes_of_logs(void) {
    static uint8_t log[4096 + 8 + 60 + 4096], image[64], base[32], page[9] = { 1, 0, 0, 0, 2, 0, 0, 0, 3 };
    const uint64_t f = 1442695040888963407u, m = 6364136223846793005u;
    IS(zx_log_page_mark(1, page, 9) == (((9 * m + f + 2) * m) + 3 * f) * 3, true);
    IS(zx_log_fingerprint(page, 9) == (((9 * m + f + 2) * m) + 3 * f), true);
    IS(zx_log_gate(true, log, 4095), ZX_SHORT_BUFFER);
    DONE(zx_log_gate(true, log, 4096));
    IS(log[0], 1);
    uint8_t payload[60];
    base[0] = 7;
    memcpy(image, base, 32);
    image[20] = 9;
    DONE(zx_log_front(32, zx_log_fingerprint(base, 32), zx_log_fingerprint(image, 32), payload, 60));
    IS(payload[0], 32);
    IS(payload[8] == 255 && payload[15] == 255, true);
    IS(payload[16], 16);
    IS(zx_log_edit(20, image + 20, 4, payload + 40, 19), ZX_SHORT_BUFFER);
    DONE(zx_log_edit(20, image + 20, 4, payload + 40, 20));
    IS(payload[40] == 20 && payload[48] == 4 && payload[56] == 9, true);
    DONE(zx_log_body(payload, 60, log + 4096, sizeof log - 4096));
    IS(log[4096], 60);
    IS(zx_log_kind(log, 4144, 12288), 2);
    IS(zx_log_kind((const uint8_t *)"my notes", 8, 8), 0);
    IS(zx_log_counts(1, 2, 0644, 1, 2, 0644, 1, 2, 01777, 3), 1);
    IS(zx_log_counts(1, 2, 0644, 4, 2, 0644, 1, 2, 01777, 3), 0);
    uint8_t found[64] = { 0 };
    uint64_t len = 0, end = 0, mark = 0, after = 0;
    memcpy(found, base, 32);
    IS(zx_log_most(32, log, sizeof log) == 32 && zx_log_most(40, log, sizeof log) == 40, true);
    DONE(zx_log_recover(base, 32, log, sizeof log, found, 64, &len, &end, &mark, &after));
    IS(len == 32 && end == 4096 + 8 + 60 && mark == zx_log_fingerprint(base, 32), true);
    IS(after == zx_log_fingerprint(image, 32) && memcmp(found, image, 32) == 0, true);
    IS(zx_log_recover(base, 32, log, sizeof log, found, 31, &len, &end, &mark, &after), ZX_SHORT_BUFFER);
    base[1] = 1;
    memcpy(found, base, 32);
    IS(zx_log_recover(base, 32, log, sizeof log, found, 64, &len, &end, &mark, &after), ZX_FILE_LOG_FOREIGN);
    IS(memcmp(found, base, 32), 0);
    log[0] = 0;
    IS(zx_log_kind(log, 4144, 12288), 1);
    DONE(zx_log_recover(base, 32, log, sizeof log, found, 64, &len, &end, &mark, &after));
    IS(end == 0 && memcmp(found, base, 32) == 0, true);
}

/* Values behind the last element: all of them or none. */
static void extended(void) {
    zx_segment s = ZX_CLOSED_HANDLE;
    zx_key v = zx_name("v"), t = zx_name("t"), none = zx_name("none");
    int32_t few[5] = { 7, -8, 9, 10, 11 }, row[5];
    static const int64_t many[200] = { 0 };
    bool truth = true;
    zx_values three = zx_i32s(few, 3), null = zx_i32s(0, 0);
    DONE(zx_create(&s, 1024));
    IS(made_vector(&s, v, zx_i32s(few, 0)), 192);
    DONE(zx_extend(&s, &v, &three));
    IS(places(&s, v, 3), 4);
    zx_values one = zx_i32s(few, 1), empty = zx_i32s(few, 0);
    DONE(zx_extend(&s, &v, &one));
    IS(places(&s, v, 4), 4);
    DONE(zx_extend(&s, &v, &one));
    IS(places(&s, v, 5), 8);
    DONE(zx_extend(&s, &v, &empty));
    IS(places(&s, v, 5), 8);
    DONE(zx_read_i32s(&s, &v, 0, row, 5));
    IS(row[0] == 7 && row[1] == -8 && row[2] == 9 && row[3] == 7 && row[4] == 7, true);
    zx_values truths = zx_bools(&truth, 1), wide = zx_i64s(many, 200), spare = zx_i32s((const int32_t *)many, 400);
    IS(zx_extend(&s, &v, &truths), ZX_WRONG_KIND);
    IS(zx_extend(&s, &v, &wide), ZX_WRONG_KIND);
    IS(zx_extend(&s, &v, &spare), ZX_NO_SPACE);
    IS(zx_extend(&s, &v, &null), ZX_NULL_SLICE);
    IS(zx_extend(&s, &none, &three), ZX_NOT_FOUND);
    three.kind = 9;
    IS(zx_extend(&s, &v, &three), ZX_BAD_KIND);
    IS(places(&s, v, 5), 8);
    zx_text text = text_of("a");
    uint64_t handle;
    DONE(zx_construct_strings(&s, &t, &text, 1, &handle));
    IS(zx_extend(&s, &t, &one), ZX_WRONG_KIND);
    reopen(&s, "extended", ZX_READ);
    IS(zx_extend(&s, &v, &one), ZX_READ_ONLY);
    IS(places(&s, v, 5), 8);
    zx_close(&s);
    IS(zx_extend(&s, &v, &one), ZX_CLOSED);
}

/* Rows of pairs of a map of each two kinds, of its least and its greatest numbers, beside single steps. */
static void rows_of_kinds(zx_segment *s) {
    const uint64_t most[] = { 1, 255, INT32_MAX, INT64_MAX, UINT64_MAX };
    for (uint32_t k = ZX_BOOL; k <= ZX_U64; k++) {
        for (uint32_t v = ZX_BOOL; v <= ZX_U64; v++) {
            const bool has_sign = v == ZX_I32 || v == ZX_I64, below_0 = k == ZX_I32 || k == ZX_I64;
            zx_key m = zx_name("kinds");
            uint64_t handle;
            int64_t keys[3] = { 0, 0, 7 }, numbers[3] = { 0, 0, 7 };
            size_t read;
            bool is_new, existed;
            zx_value least = below_0 ? zx_number(k, -(int64_t)most[k - 1] - 1) : zx_natural(k, 0);
            zx_value greatest = below_0 ? zx_number(k, (int64_t)most[k - 1]) : zx_natural(k, most[k - 1]);
            zx_value low = has_sign ? zx_number(v, -(int64_t)most[v - 1] - 1) : zx_natural(v, 0);
            zx_value high = has_sign ? zx_number(v, (int64_t)most[v - 1]) : zx_natural(v, most[v - 1]);
            DONE(zx_construct_map(s, &m, k, v, &handle));
            DONE(zx_map_put(s, &m, &greatest, &low, &is_new));
            DONE(zx_map_put(s, &m, &least, &high, &is_new));
            DONE(zx_read_pairs(s, &m, 0, keys, numbers, 3, &read));
            IS(read == 2 && keys[2] == 7 && numbers[2] == 7, true);
            IS(keys[0] == (below_0 ? least.number : 0), true);
            IS(keys[1] == (int64_t)most[k - 1], true);
            IS(numbers[0] == (int64_t)most[v - 1], true);
            IS(numbers[1] == (has_sign ? low.number : 0), true);
            DONE(zx_read_pairs(s, &m, &least, keys, numbers, 3, &read));
            IS(read == 1 && keys[0] == (int64_t)most[k - 1], true);
            DONE(zx_read_pairs(s, &m, &greatest, keys, numbers, 3, &read));
            IS(read, 0);
            DONE(zx_destroy(s, &m, &existed));
        }
    }
}

/* Rows of pairs. */
static void rows_of_numbers(void) {
    zx_segment s = ZX_CLOSED_HANDLE;
    zx_key v = zx_name("v"), m = zx_name("m"), none = zx_name("none");
    int32_t few[2] = { 7, -8 };
    int64_t keys[4] = { 3, 1, -2, 3 }, numbers[4] = { 30, 10, 20, 31 };
    zx_value after = zx_i64(1);
    uint64_t handle, len, places;
    size_t read;
    DONE(zx_create(&s, 1024));
    IS(made_vector(&s, v, zx_i32s(few, 2)), 192);
    DONE(zx_construct_map(&s, &m, ZX_I32, ZX_U64, &handle));
    DONE(zx_put_pairs(&s, &m, ZX_I32, ZX_U64, keys, numbers, 4));
    IS(zx_put_pairs(&s, &m, ZX_I32, ZX_U64, 0, numbers, 4), ZX_NULL_SLICE);
    IS(zx_put_pairs(&s, &m, ZX_BOOL, ZX_U64, keys + 1, numbers, 1), ZX_WRONG_KIND);
    DONE(zx_read_pairs(&s, &m, 0, keys, numbers, 4, &read));
    IS(read, 3);
    IS(keys[0] == -2 && keys[1] == 1 && keys[2] == 3 && numbers[0] == 20 && numbers[2] == 31, true);
    DONE(zx_read_pairs(&s, &m, 0, keys, numbers, 2, &read));
    IS(read, 2);
    DONE(zx_read_pairs(&s, &m, &after, keys, numbers, 4, &read));
    IS(read == 1 && keys[0] == 3 && numbers[0] == 31, true);
    IS(zx_read_pairs(&s, &m, 0, keys, 0, 4, &read), ZX_NULL_SLICE);
    IS(zx_read_pairs(&s, &m, 0, 0, numbers, 4, &read), ZX_NULL_SLICE);
    IS(zx_read_pairs(&s, &v, 0, keys, numbers, 4, &read), ZX_WRONG_KIND);
    IS(zx_read_pairs(&s, &v, &after, keys, numbers, 4, &read), ZX_WRONG_KIND);
    IS(zx_read_pairs(&s, &none, &after, keys, numbers, 4, &read), ZX_NOT_FOUND);
    IS(zx_read_pairs(&s, &none, 0, keys, numbers, 4, &read), ZX_NOT_FOUND);
    after = zx_i64(INT64_MAX);
    IS(zx_read_pairs(&s, &m, &after, keys, numbers, 4, &read), ZX_OUT_OF_RANGE);
    after.kind = 6;
    IS(zx_read_pairs(&s, &m, &after, keys, numbers, 4, &read), ZX_BAD_VALUE);
    IS(read, 0);
    // the pairs from a key on, into rows of two lengths; the other places keep what they had
    after = zx_i32(1);
    keys[2] = numbers[1] = numbers[2] = 5;
    DONE(zx_read_pairs_proved(&s, &m, &after, false, keys, 3, numbers, 1, &read));
    IS(read == 1 && keys[0] == 1 && numbers[0] == 10 && keys[2] == 5 && numbers[1] == 5, true);
    DONE(zx_read_pairs_proved(&s, &m, &after, false, keys, 3, numbers, 4, &read));
    IS(read == 2 && keys[1] == 3 && numbers[1] == 31 && keys[2] == 5 && numbers[2] == 5, true);
    DONE(zx_read_pairs(&s, &m, &after, keys, numbers, 0, &read));
    IS(read, 0);
    rows_of_kinds(&s);
    IS(zx_clear_map(&s, &v), ZX_WRONG_KIND);
    DONE(zx_clear_map(&s, &m));
    DONE(zx_measure(&s, &m, &len, &places));
    IS(len, 0);
    zx_close(&s);
}

/* Rows of texts and of names. */
static void rows_of_texts(void) {
    zx_segment s = ZX_CLOSED_HANDLE;
    zx_key t = zx_name("t");
    zx_text texts[3] = { text_of("one"), text_of(""), text_of("three") };
    uint8_t read_texts[100];
    uint64_t handle, ends[4];
    zx_info infos[4];
    zx_value values[4];
    size_t read;
    DONE(zx_create(&s, 1024));
    DONE(zx_construct_strings(&s, &t, texts, 1, &handle));
    DONE(zx_push_texts(&s, &t, 1, texts + 1, 2));
    DONE(zx_push_texts(&s, &t, 1, texts + 1, 2));
    IS(zx_push_texts(&s, &t, 3, 0, 2), ZX_NULL_SLICE);
    DONE(zx_read_texts(&s, &t, 0, read_texts, 100, ends, 3, &read));
    IS(read == 3 && ends[0] == 3 && ends[1] == 3 && ends[2] == 8, true);
    TEXT(read_texts, 8, "onethree");
    DONE(zx_read_texts(&s, &t, 0, read_texts, 4, ends, 3, &read));
    IS(read, 2);
    IS(zx_read_texts(&s, &t, 2, read_texts, 4, ends, 1, &read), ZX_SHORT_BUFFER);
    IS(zx_read_texts(&s, &t, 3, read_texts, 4, ends, 1, &read), ZX_OUT_OF_RANGE);
    IS(zx_read_texts(&s, &t, 0, 0, 4, ends, 1, &read), ZX_NULL_SLICE);
    IS(made(&s, zx_name("aa"), 1, zx_u8(200)) > 0, true);
    DONE(zx_read_names(&s, 0, infos, values, read_texts, 100, 4, &read));
    IS(read, 2);
    IS(infos[0].name_len == 2 && infos[1].name_len == 1 && infos[1].kind == ZX_STRINGS, true);
    IS(values[0].kind == ZX_U8 && values[0].natural == 200 && values[1].kind == 0, true);
    TEXT(read_texts, 3, "aat");
    DONE(zx_read_names(&s, 0, infos, values, read_texts, 2, 4, &read));
    IS(read, 1);
    IS(zx_read_names(&s, 0, infos, values, read_texts, 1, 4, &read), ZX_SHORT_BUFFER);
    DONE(zx_read_names(&s, 2, infos, values, read_texts, 1, 4, &read));
    IS(read, 0);
    IS(zx_read_names(&s, 0, infos, 0, read_texts, 1, 4, &read), ZX_NULL_SLICE);
    zx_close(&s);
    IS(zx_read_names(&s, 0, infos, values, read_texts, 1, 4, &read), ZX_CLOSED);
}

/* What is there for Python has nothing to call here. */
static void without_python(void) {
    zx_segment s = ZX_CLOSED_HANDLE;
    zx_key v = zx_name("v");
    uint8_t row[1] = { 7 };
    uint64_t here = zx_thread();
    IS(here > 0 && here == zx_thread(), true);
    IS(zx_python_class() == NULL, true);
    IS(zx_python_place(&s, &s, &v, ZX_VECTOR(ZX_I64), &here, &s), false);
    IS(zx_python_block() == NULL, true);
    IS(zx_python_row(&s, ZX_U8, row, 1), false);
    IS(row[0], 7);
}

int main(int count, char **arguments) {
    if (count != 2) return 2;
    folder = arguments[1];
    an_anonymous_object();
    names();
    index_and_object_do_not_both_fit();
    arrays();
    the_only_object_of_its_kind();
    places_reserved_in_the_indexes();
    best_fit();
    storage_is_lengthened_then_replaced();
    a_string_grows_and_shrinks();
    a_map();
    refusals_of_a_vector();
    a_vector_of_strings();
    objects_found_or_made();
    every_kind_of_scalar();
    many_at_once();
    one_of_each();
    size_and_region();
    modes();
    in_lent_memory();
    views();
    looked_up_once();
    by_handle_alone();
    looked_up_again();
    transactions();
    names_from();
    what_is_no_image();
    what_shows_a_class();
    what_is_passed_wrongly();
    words();
    files();
    durable_files();
    steps_in_memory(4096);
    steps_in_memory(1 << 20);
    views_that_stay(ZX_MAPPED);
    views_that_stay(ZX_DURABLE);
    bytes_of_logs();
    extended();
    rows_of_numbers();
    rows_of_texts();
    without_python();
    printf("every_call.c: %d checks, %d wrong\n", checks, wrong);
    return wrong != 0;
}
