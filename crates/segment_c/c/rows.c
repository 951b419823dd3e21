/* The calls of zaluxhoni_rows.h, over those of zaluxhoni.h. */
#include "zaluxhoni_rows.h"

#include <stdatomic.h>

static zx_value word_of(uint32_t kind, int64_t word) {
    return kind == ZX_I32 || kind == ZX_I64 ? zx_number(kind, word) : zx_natural(kind, (uint64_t)word);
}

/* ---- rows */

zx_code zx_read_pairs(zx_segment *segment, const zx_key *key, const zx_value *after, int64_t *keys, int64_t *values,
                      size_t count, size_t *read) {
    zx_value least, value;
    *read = 0;
    if (!keys || !values) return ZX_NULL_SLICE;
    if (!count) return ZX_DONE;
    if (after) return zx_read_pairs_proved(segment, key, after, true, keys, count, values, count, read);
    zx_code code = zx_map_first(segment, key, &least, &value);
    if (code) return code == ZX_ABSENT ? (zx_code)ZX_DONE : code;
    return zx_read_pairs_proved(segment, key, &least, false, keys, count, values, count, read);
}

zx_code zx_put_pairs(zx_segment *segment, const zx_key *key, uint32_t key_kind, uint32_t value_kind,
                     const int64_t *keys, const int64_t *values, size_t count) {
    zx_code code = ZX_DONE;
    bool is_new;
    if (!keys || !values) return ZX_NULL_SLICE;
    for (size_t i = 0; !code && i < count; i++) {
        zx_value at = word_of(key_kind, keys[i]), value = word_of(value_kind, values[i]);
        code = zx_map_put(segment, key, &at, &value, &is_new);
    }
    return code;
}

zx_code zx_clear_map(zx_segment *segment, const zx_key *key) {
    zx_value at, value;
    bool was_there;
    zx_code code;
    while (!(code = zx_map_first(segment, key, &at, &value))) {
        code = zx_map_erase(segment, key, &at, &was_there);
        if (code) return code;
    }
    return code == ZX_ABSENT ? (zx_code)ZX_DONE : code;
}

zx_code zx_read_texts(zx_segment *segment, const zx_key *key, uint64_t first, uint8_t *texts, size_t room,
                      uint64_t *ends, size_t count, size_t *read) {
    uint64_t end = 0, len;
    *read = 0;
    if (!texts || !ends) return ZX_NULL_SLICE;
    for (; *read < count; ++*read) {
        zx_code code = zx_read_text(segment, key, first + *read, texts + end, room - end, &len);
        if (code) return *read && code == ZX_SHORT_BUFFER ? (zx_code)ZX_DONE : code;
        ends[*read] = end += len;
    }
    return ZX_DONE;
}

zx_code zx_push_texts(zx_segment *segment, const zx_key *key, uint64_t first, const zx_text *texts, size_t count) {
    uint64_t len, places;
    if (!texts) return ZX_NULL_SLICE;
    zx_code code = zx_measure(segment, key, &len, &places);
    for (; !code && len - first < count; len++)
        code = zx_push_text(segment, key, texts[len - first].at, texts[len - first].len);
    return code;
}

zx_code zx_read_names(zx_segment *segment, uint64_t first, zx_info *infos, zx_value *values, uint8_t *names,
                      size_t room, size_t count, size_t *read) {
    size_t end = 0;
    *read = 0;
    if (!infos || !values || !names) return ZX_NULL_SLICE;
    for (; *read < count; ++*read) {
        zx_info *info = infos + *read;
        zx_code code = zx_named_at(segment, first + *read, info, names + end, room - end);
        if (code == ZX_OUT_OF_RANGE || (*read && code == ZX_SHORT_BUFFER)) return ZX_DONE;
        if (code) return code;
        end += info->name_len;
        values[*read].kind = 0;
        if (info->kind <= ZX_U64 && info->count == 1) {
            zx_key key = zx_handle(info->handle);
            code = zx_get(segment, &key, 0, values + *read);
            if (code) return code;
        }
    }
    return ZX_DONE;
}

uint64_t zx_thread(void) {
    static atomic_uint_fast64_t threads;
    static _Thread_local uint64_t own;
    if (!own) own = atomic_fetch_add(&threads, 1) + 1;
    return own;
}
