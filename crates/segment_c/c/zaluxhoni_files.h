/* Files of segments: opened, locked, saved and closed. C++ and Python use these calls too. They are written in C, and
   make the calls of zaluxhoni.h. They are tested, not proved. docs/C.md is the guide. In short:

   - A zx_file starts as ZX_CLOSED_FILE. Nobody copies it, and zx_file_close or zx_file_discard ends it. The calls of
     zaluxhoni.h take the address of its `segment`. zx_close ends only the segment, and then the file is not saved.
   - Make one call at a time on a zx_file, and all of them on one thread. Two threads may have one each.
   - A file that is open for writing belongs to its zx_file until that is closed: nobody else opens it for writing, in
     this process, in another one, or by the program `segment`. The right to write is a lock of the system (flock),
     which ends with the process. A forked child has no part in its parent's files, and saves none.
   - A save replaces the old file by a new one that is wholly on the disk. Whatever fails, and whenever the process is
     killed, the name leads to the whole old image or the whole new one.

   Each call returns a code, and 0 means done. Any other code leaves segment and file as they were, unless the call says
   otherwise. With ZX_FILE_IN_USE to ZX_FILE_LOG_LEFT, `error` holds an errno; otherwise it is 0. */
#ifndef ZALUXHONI_FILES_H
#define ZALUXHONI_FILES_H

#include "zaluxhoni.h"

#ifdef __cplusplus
extern "C" {
#endif

enum {
    ZX_FILE_NONE = 40,      /* the segment has no file */
    ZX_FILE_IS_OPEN = 41,   /* the zx_file has a segment */
    ZX_FILE_IN_USE = 42,    /* another program or zx_file holds the lock of the file */
    ZX_FILE_EXISTS = 43,    /* something exists at the path */
    ZX_FILE_MISSING = 44,   /* nothing exists at the path, or its folder does not exist */
    ZX_FILE_DANGLES = 45,   /* the path is a link that leads to nothing */
    ZX_FILE_FOLDER = 46,    /* the path leads to a folder */
    ZX_FILE_DEVICE = 47,    /* the path leads to a device */
    ZX_FILE_PIPE = 48,      /* the path leads to a pipe or a socket */
    ZX_FILE_TOO_LARGE = 49, /* the file has more than 1073741824 bytes */
    ZX_FILE_FAULT = 50,     /* the system refused, for the reason in `error` */
    ZX_FILE_REPLACED = 51,  /* the name, or that of the log, leads to no file now, or to another file, which is left alone */
    ZX_FILE_UNSYNCED = 52,  /* saved, but the folder is not synced: a power failure may restore the old file */
    ZX_FILE_FORKED = 53,    /* the file belongs to the parent of this forked process */
    ZX_FILE_LOG_FOREIGN = 54, /* the log beside the file belongs to another file, or is damaged */
    ZX_FILE_UNSURE = 55,    /* a commit failed, and may be in the log or not: commits fail until a save is done */
    ZX_FILE_IN_STEP = 56,   /* a transaction is open */
    ZX_FILE_LOG_IN_THE_WAY = 57, /* a file that is no log has the name FILE-log, so nothing can be committed */
    ZX_FILE_LOG_LEFT = 58   /* FILE-log has commits of a file that is gone, so none is created beside it */
};

/* How zx_file_open opens a file: the modes of the program `segment`. */
enum {
    ZX_CREATE_ONLY = 16,       /* the file must not exist, and is created */
    ZX_OPEN_ONLY = 17,         /* the file must exist */
    ZX_OPEN_OR_CREATE = 18,    /* the file is created if it does not exist */
    ZX_OPEN_READ_ONLY = 19,    /* the file must exist, and is only read */
    ZX_OPEN_COPY_ON_WRITE = 20, /* the file must exist; changes are private, and never saved */

    /* Added to a mode: the file is mapped, and the segment lies in it. Opening copies nothing. In the modes that save,
       each change is in the file at once, and there is no old image: a killed process leaves its changes so far, and a
       power failure may leave bytes that are no image. While one process maps a file for writing, no other opens it.
       While one maps it read-only or copy-on-write, none opens it for writing. Whoever writes the file without the lock
       breaks the segment of this process, so map only your own files. */
    ZX_MAPPED = 256,

    /* Added to a mode that saves: the file is mapped, and changes are private until zx_file_commit or zx_file_keep puts
       them into the log beside the file, FILE-log. A commit writes only the pages that changed. Whenever the process is
       killed or the power fails, the next opening finds the last commit that was done, or the one under way, whole. The
       file itself is a whole image at each moment: zx_file_save replaces it, and so does a commit after which the
       log is long. */
    ZX_DURABLE = 512
};

struct zx_held_file;

typedef struct {
    zx_segment segment;        /* open or closed; the calls of zaluxhoni.h take its address */
    int32_t error;             /* an errno of the last call of this header, or 0 */
    struct zx_held_file *held; /* the file that is open for writing, or null */
    uint64_t place;            /* after ZX_TRUNCATED to ZX_ORPHAN_BLOCK, the offset of a byte that shows it */
} zx_file;

/* No file. In C, a static zx_file without an initializer is closed. */
#ifdef __cplusplus
#define ZX_CLOSED_FILE (zx_file{})
#else
#define ZX_CLOSED_FILE ((zx_file){ { 0, 0, false, false }, 0, 0, 0 })
#endif

/* Opens a segment's file, or creates one with an empty segment of `size` bytes. A new file has its name when the call
   returns. The call follows a link once; later calls keep that file, even if the process changes its folder. Modes that
   save need a writable file, and lock it before they read a byte. Errors: ZX_NULL_SLICE, ZX_BAD_MODE; ZX_FILE_IS_OPEN;
   ZX_FILE_IN_USE to ZX_FILE_FAULT; ZX_FILE_LOG_FOREIGN; ZX_BAD_SIZE and ZX_FILE_LOG_LEFT (if it creates); ZX_NO_MEMORY;
   ZX_TRUNCATED to ZX_ORPHAN_BLOCK. */
zx_code zx_file_open(zx_file *file, const char *path, uint32_t mode, uint64_t size);

/* Saves the segment in its file, unless the file has these bytes already. It does not compare the bytes if no call and
   no view can have changed them since the file was opened or last saved. For a mapped file it is zx_file_flush. For a
   file that was opened with ZX_DURABLE it commits the changes and empties the log. The new file gets the rights, the
   access control list and the user attributes of the old one, and its owner and group if the process may set them.
   Other names of the old file (hard links) keep the old image. Errors: ZX_CLOSED, ZX_READ_ONLY (opened read-only or
   copy-on-write), ZX_FILE_NONE, ZX_NO_MEMORY, ZX_FILE_FORKED, ZX_FILE_REPLACED, ZX_FILE_FAULT, ZX_FILE_IN_STEP, and for a
   durable file ZX_FILE_LOG_IN_THE_WAY; after ZX_FILE_UNSYNCED it is saved. After ZX_FILE_FAULT a durable file may be
   committed, and not replaced, as on a full disk. */
zx_code zx_file_save(zx_file *file);

/* Commits the changes of a file that was opened with ZX_DURABLE. For any other file it is zx_file_flush. When it is
   done, the changes are on the disk. Errors: those of zx_file_save; ZX_FILE_UNSURE, if the system failed
   while it synced: then the next opening finds this commit or the one before, and each further zx_file_commit returns
   ZX_FILE_UNSURE, until zx_file_save is done. After any other error nothing is committed. */
zx_code zx_file_commit(zx_file *file);

/* Saves the image to the file at another path, and closes that file. ZX_CREATE_ONLY creates it, ZX_OPEN_ONLY replaces
   an existing file, whatever its bytes, and ZX_OPEN_OR_CREATE does either. With the last two, if `path` leads to the
   segment's own file by its own name, the call is zx_file_save. If it leads to another name of that file
   (a hard link), that name gets a new file, and the own name keeps the old one; for a mapped file this too is
   zx_file_save. The segment needs no file, and may be open in any mode. Errors: ZX_NULL_SLICE, ZX_BAD_MODE, ZX_CLOSED,
   ZX_NO_MEMORY; ZX_FILE_IN_USE to ZX_FILE_REPLACED, ZX_FILE_FORKED, ZX_FILE_LOG_FOREIGN, ZX_FILE_LOG_LEFT; after
   ZX_FILE_UNSYNCED it is saved. */
zx_code zx_file_save_as(zx_file *file, const char *path, uint32_t mode);

/* Saves as zx_file_save does, if the file is open for writing, and closes it. A mapped file is cut to the length of its
   image instead. A durable file whose changes are committed is closed also if it cannot be replaced: the next opening
   finds them in the log. Returns the code of the save. After ZX_FILE_UNSYNCED the file is saved and closed; after any
   other error it is still open. */
zx_code zx_file_close(zx_file *file);

/* Closes without saving. Removes a file that zx_file_open created and nobody saved. A mapped file stays, with all
   changes. */
void zx_file_discard(zx_file *file);

/* Make the segment longer or shorter, as zx_grow and zx_shrink do, and a mapped file with it. Errors: those of these
   calls; ZX_FILE_FAULT; ZX_SHORT_REGION, if the file is mapped copy-on-write. After ZX_NO_MEMORY the segment of a
   mapped file may be closed; its file is whole. */
zx_code zx_file_grow(zx_file *file, uint64_t extra);
zx_code zx_file_shrink(zx_file *file);

/* Restores the segment as zx_rollback does, even if its region became too short, and a mapped file to its old length.
   Errors: ZX_FILE_FAULT, and ZX_NO_MEMORY as for zx_file_grow. */
zx_code zx_file_rollback(zx_file *file, zx_segment *before);

/* What a transaction keeps. It starts as ZX_NO_STEP, and zx_file_keep or zx_file_undo ends it. */
typedef struct {
    zx_segment copy;      /* a copy of the segment; closed if `kept` is used */
    struct zx_kept *kept; /* the old bytes of pages; null if `copy` is used */
} zx_step;

#ifdef __cplusplus
#define ZX_NO_STEP (zx_step{})
#else
#define ZX_NO_STEP ((zx_step){ { 0, 0, false, false }, 0 })
#endif

/* Groups several calls into one step. zx_file_begin copies at most the pages that changed: of a file that is mapped or
   durable since it was opened or last committed; of any other segment since the last outermost step began. It finds them
   by the system's map of pages, or by a comparison if there is no such map. The first step of a segment that is neither
   mapped nor durable copies the whole segment, and so does one after the segment moved or the process forked. A segment of
   less than 128 KiB is always copied, and any segment if the system refuses memory files (memfd_create). Steps may nest,
   each with its own zx_step.

   zx_file_keep ends the step and keeps its changes. For the outermost step it commits a file that was opened with
   ZX_DURABLE (errors: those of zx_file_commit), and writes the changes to a file that is mapped for writing (errors:
   ZX_FILE_FAULT and ZX_NO_MEMORY). After ZX_FILE_UNSURE the step is ended; after any other error it is still
   open. zx_file_undo restores the segment and ends the step. Its errors are those of zx_file_rollback.

   While a step is open, its changes are in no file, and zx_file_commit, zx_file_flush, zx_file_save and zx_file_close
   return ZX_FILE_IN_STEP. Errors of zx_file_begin: ZX_CLOSED, ZX_READ_ONLY, ZX_NO_MEMORY and ZX_FILE_FAULT. */
zx_code zx_file_begin(zx_file *file, zx_step *before);
zx_code zx_file_keep(zx_file *file, zx_step *before);
zx_code zx_file_undo(zx_file *file, zx_step *before);

/* Ends a step that cannot be undone: its changes stay in the segment, and nothing is committed. */
void zx_file_leave(zx_file *file, zx_step *before);

/* Waits until the changes of a mapped file are on the disk. For a file that was opened with ZX_DURABLE it is
   zx_file_commit, and for another file zx_file_save. */
zx_code zx_file_flush(zx_file *file);

/* The bytes of a log (docs/FORMAT.md). The calls above make these calls, which are proved, all but zx_log_body: they
   write its parts in place. A program needs them only if it reads or writes logs itself. No pointer is null. Each writes to the front of a buffer, and returns
   ZX_SHORT_BUFFER if that has too little room, or ZX_NO_MEMORY; then the buffer is unchanged. */

/* Return the fingerprint of an image, and the share of one page in it. The last page may have less than 4096 bytes. */
uint64_t zx_log_fingerprint(const uint8_t *image, size_t len);
uint64_t zx_log_page_mark(uint64_t index, const uint8_t *page, size_t len);

/* Write the front of a payload (40 bytes), and one of its edits (16 bytes, and then the bytes that the image gets). */
zx_code zx_log_front(uint64_t len, uint64_t base, uint64_t after, uint8_t *front, size_t room);
zx_code zx_log_edit(uint64_t offset, const uint8_t *bytes, size_t len, uint8_t *edit, size_t room);

/* Writes what stands behind the gate of a record: the length of the payload, the payload, and the next gate, shut.
   Errors: ZX_TOO_LARGE, if the payload has more than 2^40 bytes. */
zx_code zx_log_body(const uint8_t *payload, size_t len, uint8_t *body, size_t room);

/* Says whose a log is, by the first 4144 bytes of it, or all if it has fewer, and its length: 0 for a file of somebody
   else, 1 for a log without a record, 2 for a log with records. */
uint32_t zx_log_kind(const uint8_t *head, size_t head_len, uint64_t len);

/* Says whether a log counts beside a file in a folder, by their owners, groups and modes: 1 if nobody but its owner, the
   file's, root or the caller can have made or may write it who may not write the file; otherwise 0. */
uint32_t zx_log_counts(uint32_t file_owner, uint32_t file_group, uint32_t file_mode, uint32_t log_owner,
                       uint32_t log_group, uint32_t log_mode, uint32_t folder_owner, uint32_t folder_group,
                       uint32_t folder_mode, uint32_t caller);

/* Writes a gate, of 4096 bytes. */
zx_code zx_log_gate(bool is_open, uint8_t *gate, size_t room);

/* Returns the most bytes that an image has while the records of a log are applied to a file of `len` bytes. */
uint64_t zx_log_most(uint64_t len, const uint8_t *log, size_t log_len);

/* Makes the image of a file and its log in place. `image` has a copy of the file and zeros behind it, and then has the
   image and zeros behind that. Stores the length of the image in `len`, the offset at which the log's records end in
   `end`, and the fingerprints of the file and of the image in `base` and `after`. On failure all is unchanged. Errors:
   ZX_SHORT_BUFFER, if `room` is less than zx_log_most says; ZX_FILE_LOG_FOREIGN. */
zx_code zx_log_recover(const uint8_t *file, size_t file_len, const uint8_t *log, size_t log_len, uint8_t *image,
                       size_t room, uint64_t *len, uint64_t *end, uint64_t *base, uint64_t *after);

/* Gives the words for a code of this header or of zaluxhoni.h, as zx_words does. */
void zx_file_words(zx_code code, zx_text *words);

/* Returns the words of zx_file_words, ended by a byte 0. They stay until this thread calls zx_message again. */
const char *zx_message(zx_code code);

#ifdef __cplusplus
}
#endif

#endif
