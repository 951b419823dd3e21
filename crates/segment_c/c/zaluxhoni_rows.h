/* Rows: many texts, pairs or names by one call. They are C over the calls of zaluxhoni.h: tested, not proved.
   zx_read_pairs is some lines over a call of its own that is proved. Python uses rows, since a single call of C costs it
   much; they save C its loops, and the iterator of C++ reads pairs ahead.

   Each takes its parameters as the calls of zaluxhoni.h do, and returns their codes. A call that fails may have done
   the first part of its row; the same call continues from there. */
#ifndef ZALUXHONI_ROWS_H
#define ZALUXHONI_ROWS_H

#include "zaluxhoni_files.h"

#ifdef __cplusplus
extern "C" {
#endif

/* Reads at most `count` pairs of a map, in the order of their keys: those above `after`, or from the least key on if
   that is null. Keys and values are 64 bits each; a ZX_U64 keeps its bits. `read` is the number of pairs: below `count`
   at the end of the map. The other places of the two rows keep what they had. Errors: ZX_NULL_SLICE, and those of
   zx_map_next. */
zx_code zx_read_pairs(zx_segment *segment, const zx_key *key, const zx_value *after, int64_t *keys, int64_t *values,
                      size_t count, size_t *read);

zx_code zx_read_pairs_proved(zx_segment *segment, const zx_key *key, const zx_value *from, bool past, int64_t *keys,
                             size_t key_places, int64_t *values, size_t value_places,
                             size_t *read) ZX_NAMED(zx_read_pairs_from);

/* Puts values at keys: numbers of two kinds, 64 bits each. Errors: ZX_NULL_SLICE, and those of zx_map_put. */
zx_code zx_put_pairs(zx_segment *segment, const zx_key *key, uint32_t key_kind, uint32_t value_kind,
                     const int64_t *keys, const int64_t *values, size_t count);
/* Removes all pairs. Errors: those of zx_map_erase. */
zx_code zx_clear_map(zx_segment *segment, const zx_key *key);

/* Reads texts of a vector of strings from `first` on, one after another: at most `count`, and as many as fit. `ends`
   says where each ends, and `read` how many there are. Errors: ZX_NULL_SLICE; ZX_SHORT_BUFFER, if the first does not
   fit; and those of zx_read_text. */
zx_code zx_read_texts(zx_segment *segment, const zx_key *key, uint64_t first, uint8_t *texts, size_t room,
                      uint64_t *ends, size_t count, size_t *read);
/* Appends texts after the first `first` ones of a vector of strings, which has exactly these, or some of the new texts
   already. Errors: ZX_NULL_SLICE, and those of zx_push_text. */
zx_code zx_push_texts(zx_segment *segment, const zx_key *key, uint64_t first, const zx_text *texts, size_t count);

/* Tells about named objects from the index `first` on: at most `count`, and as many as their names fit. The names are
   one after another. `values` has the value of each single scalar; for any other object its kind there is 0. `read` is
   the number of objects: 0 after the last one. Errors: ZX_NULL_SLICE, ZX_SHORT_BUFFER, ZX_CLOSED. */
zx_code zx_read_names(zx_segment *segment, uint64_t first, zx_info *infos, zx_value *values, uint8_t *names,
                      size_t room, size_t count, size_t *read);

/* Copies the image that zx_file_undo would restore to the start of the buffer. Errors: ZX_SHORT_BUFFER, where `len` is
   its length; ZX_CLOSED, if the step keeps none, or is that of a mapped or a durable file. */
zx_code zx_step_image(zx_step *before, uint8_t *image, size_t room, uint64_t *len);

/* ---- views that outlast a file that is mapped, for the Python package */

/* Undoes a step of a mapped or durable file as zx_file_undo does, if views of its elements stay: the segment moves to
   other addresses, and at the old ones the views find a copy of the bytes that they showed. `views` has the address and
   the bytes of each. `left` gets the memory with the copy, which the caller unmaps (munmap) when the last view is gone;
   it is unchanged if the mapping stays. Errors: those of zx_file_undo; ZX_NO_MEMORY; ZX_CLOSED, also if the step is not
   of a mapped file. */
zx_code zx_file_undo_beside(zx_file *file, zx_step *before, const zx_memory *views, size_t count, zx_memory *left);

/* Closes a mapped or durable file as zx_file_close does, or as zx_file_discard does if not `is_kept`, and leaves views a
   copy of their bytes, as zx_file_undo_beside. Errors: those of zx_file_close; ZX_NO_MEMORY; ZX_CLOSED, also if the file
   is not mapped. After each of them except ZX_FILE_UNSYNCED the file is open, and `left` is unchanged. */
zx_code zx_file_close_beside(zx_file *file, bool is_kept, const zx_memory *views, size_t count, zx_memory *left);

/* ---- objects of CPython, for the Python package */

/* Returns a number of this thread: 1 or more, and never that of another thread, even after this one ends. */
uint64_t zx_thread(void);

/* Returns a Python class whose instances stand for objects of a segment, for others to derive from; null without
   CPython. object._at(place) gets the value of a map key or the element at an index. object._at(place, value) sets it
   and gives True; object._at(-1, value) appends to a vector. They take an int, or a bool for a bool. If the call of
   zaluxhoni.h would fail, or on another thread, they give None, and nothing changes. object[place] is
   object._at(place), or object._item(place) if that is None. The first of them calls object._start(), which calls
   zx_python_place. */
void *zx_python_class(void);
/* Says, once, which object of which segment such an instance stands for. The instance keeps `owner`, so segment, name
   and `thread` must live as long as `owner`. `kind` is the kind of the object. `thread` is the zx_thread of the thread
   that may ask, 0 for any, or UINT64_MAX for none; it is read again in each call. False if it was said before, and
   without CPython. */
bool zx_python_place(void *object, zx_segment *segment, const zx_key *key, uint32_t kind, const uint64_t *thread,
                     void *owner);

/* Returns a Python class for others to derive from, whose instances are blocks of `with`; null without CPython. To
   enter one calls object._held.acquire(), then object._begin(), whose answer is that of the block. To leave one calls
   object._end(depth, raised), then object._held.release(); `depth` is how often the object is entered, and `raised` the
   exception that leaves the block, None, or True if _begin raised. If the handler of a signal raises in _begin or _end,
   _end is called until it returns, so that no lock and no half of a block stays behind; then that error is raised. An
   object that ends while it is entered is left as if _begin had raised. */
void *zx_python_block(void);

/* Copies the first `count` values of a Python list into a row of a scalar kind, and tells whether each was of the kind:
   an int, or a bool for a bool. False without CPython. */
bool zx_python_row(void *list, uint32_t kind, void *row, size_t count);

#ifdef __cplusplus
}
#endif

#endif
