/* The one file layer, for C, C++ and Python: zaluxhoni_files.h says what each call does. It is tested, not proved.

   It is one unit of these parts, in this order, so that no name of theirs is seen outside. */
#define _GNU_SOURCE
#include "zaluxhoni_files.h"
#include "zaluxhoni_rows.h"

#include "files/held.h"
#include "files/found.h"
#include "files/saved.h"
#include "files/log.h"
#include "files/mapped.h"
#include "files/pages.h"
#include "files/durable.h"
#include "files/ground.h"
#include "files/steps.h"
#include "files/recovered.h"

/* ---- a file opened */

/* The most times that a file and its log are read, until the log belongs to the file: another process may replace both
   between the two readings. */
enum { READINGS = 8 };

/* Reads a file once more that was found to be no image: another process may have been changing it in place. Returns
   ZX_FILE_IN_USE if one may be still. */
static zx_code read_locked(zx_file *file, int from, uint32_t how, zx_code code) {
    int refused = take_lock(from, LOCK_SH);
    if (refused == EWOULDBLOCK) return faulty(file, ZX_FILE_IN_USE, EWOULDBLOCK);
    if (refused) return code;
    code = read_segment(file, from, how);
    flock(from, LOCK_UN);
    return code;
}

/* Opens what a path leads to, and its segment with what the log says that was read before. */
static zx_code read_path(zx_file *file, const char *path, const struct image *log, uint32_t how) {
    int from = open(path, O_RDONLY | O_NONBLOCK | O_NOCTTY | O_CLOEXEC);
    if (from < 0) return errno == ENOENT || errno == EINTR ? (zx_code)AGAIN : fault(file);
    zx_code code = log->bytes ? read_with_log(file, from, log, how) : read_segment(file, from, how);
    if (ZX_TRUNCATED <= code && code <= ZX_ORPHAN_BLOCK && !log->bytes) code = read_locked(file, from, how, code);
    close(from);
    return code;
}

/* Reads the log of a path, which may be a link, and then the file. */
static zx_code read_both(zx_file *file, const char *path, const struct sight *sight, uint32_t how) {
    struct image log;
    char *real = sight->is_link ? realpath(path, NULL) : NULL;
    if (sight->is_link && !real)
        return errno == ENOENT ? (zx_code)AGAIN : errno == ENOMEM ? (zx_code)ZX_NO_MEMORY : fault(file);
    zx_code code = log_of(file, real ? real : path, &sight->found, &log);
    if (code == ZX_DONE) code = read_path(file, real ? real : path, &log, how);
    free(log.bytes);
    free(real);
    return code;
}

static zx_code open_unheld(zx_file *file, const char *path, uint32_t how) {
    zx_code code = AGAIN;
    int readings = 0;
    for (int tries = 0; tries < TRIES; tries++) {
        struct sight sight;
        code = look(file, path, &sight);
        if (code != ZX_DONE) return code;
        code = read_both(file, path, &sight, how);
        // the name led to a file, so another process changed the file or its log
        bool has_changed = code == AGAIN || code == ZX_FILE_IN_USE;
        if (!has_changed && (code != ZX_FILE_LOG_FOREIGN || ++readings == READINGS)) return code;
    }
    return code == ZX_FILE_IN_USE ? code : faulty(file, ZX_FILE_MISSING, ENOENT);
}

/* Creates the file with an empty segment. */
static zx_code make_empty(zx_file *file, struct zx_held_file *held, uint64_t size) {
    struct image image;
    zx_code code = zx_create(&file->segment, size);
    if (code == ZX_DONE) code = image_of(&file->segment, &image);
    if (code != ZX_DONE) return code;
    code = make_without_log(file, held, &image);
    free(image.bytes);
    return code;
}

/* How a file that is held is opened. */
enum way { BY_COPY, MAPPED, DURABLE };

/* Opens the segment of a file that exists. */
static zx_code open_existing(zx_file *file, struct zx_held_file *held, struct stat *found, uint32_t how, enum way way) {
    if (way == DURABLE) return open_durable(file, held, found);
    zx_code code = held->state == READ ? open_log(file, held) : settle_log(file, held, found);
    if (code != ZX_DONE) return code;
    uint64_t len = (uint64_t)found->st_size;
    if (held->log >= 0 && held->has_records)
        return len > 0 ? read_recovered(file, held, len, how) : faulty(file, ZX_FILE_LOG_FOREIGN, ESTALE);
    return way == MAPPED ? map(file, held, found, how) : read_segment(file, held->file, how);
}

/* Opens the segment of the file that is held, and is what was found; or creates both. */
static zx_code open_found(zx_file *file, struct zx_held_file *held, struct stat *found, uint32_t how, uint64_t size,
                          enum way way) {
    if (held->file >= 0) return open_existing(file, held, found, how, way);
    zx_code code = make_empty(file, held, size);
    if (code != ZX_DONE || way == BY_COPY) return code;
    zx_close(&file->segment);
    if (way == MAPPED) return map_anew(file, held, how);
    return fstat(held->file, found) == 0 ? open_durable(file, held, found) : fault(file);
}

/* Returns true if the file is longer than the image of the segment. */
static bool is_longer_than(zx_file *file, const struct zx_held_file *held) {
    struct stat found;
    uint64_t size;
    return zx_size(&file->segment, &size) == ZX_DONE && fstat(held->file, &found) == 0 && (uint64_t)found.st_size > size;
}

static zx_code open_held(zx_file *file, const char *path, uint32_t mode, uint64_t size, enum way way) {
    uint32_t how = mode == ZX_OPEN_READ_ONLY ? ZX_READ : mode == ZX_OPEN_COPY_ON_WRITE ? ZX_COPY_ON_WRITE : ZX_WRITE;
    for (int tries = 0; tries < TRIES; tries++) {
        struct zx_held_file *held;
        struct stat found;
        zx_code code = hold(file, path, mode, way == MAPPED, &held, &found);
        if (code != ZX_DONE) return code;
        code = open_found(file, held, &found, how, size, way);
        if (code == ZX_DONE) {
            // what follows an image in its file goes with the next save
            bool is_longer = way == BY_COPY && is_longer_than(file, held);
            held->saved = file->segment.changes - (is_longer ? 1 : 0);
            file->held = held;
            return ZX_DONE;
        }
        abandon(held);
        zx_close(&file->segment);
        if (code != AGAIN) return code;
    }
    return faulty(file, ZX_FILE_IN_USE, EWOULDBLOCK);
}

zx_code zx_file_open(zx_file *file, const char *path, uint32_t mode, uint64_t size) {
    file->error = 0;
    if (!path) return ZX_NULL_SLICE;
    enum way way = (mode & ZX_DURABLE) != 0 ? DURABLE : (mode & ZX_MAPPED) != 0 ? MAPPED : BY_COPY;
    mode &= ~(uint32_t)(ZX_MAPPED | ZX_DURABLE);
    if (mode < ZX_CREATE_ONLY || mode > (way == DURABLE ? ZX_OPEN_OR_CREATE : ZX_OPEN_COPY_ON_WRITE)) return ZX_BAD_MODE;
    if (file->segment.at || file->held) return ZX_FILE_IS_OPEN;
    bool is_held = way != BY_COPY || mode < ZX_OPEN_READ_ONLY;
    return answered(file, is_held                     ? open_held(file, path, mode, size, way)
                          : mode == ZX_OPEN_READ_ONLY ? open_unheld(file, path, ZX_READ)
                                                      : open_unheld(file, path, ZX_COPY_ON_WRITE));
}

/* ---- a file saved */

zx_code zx_file_save(zx_file *file) {
    struct image image;
    uint32_t how;
    file->error = 0;
    zx_code code = zx_mode(&file->segment, &how);
    if (code != ZX_DONE) return code;
    if (how != ZX_WRITE) return ZX_READ_ONLY;
    if (!file->held) return ZX_FILE_NONE;
    if (!is_own(file->held)) return faulty(file, ZX_FILE_FORKED, EPERM);
    if (file->held->steps > 0) return faulty(file, ZX_FILE_IN_STEP, EBUSY);
    if (is_durable(file->held)) return answered(file, save_durable(file, file->held));
    if (file->held->mapped) return zx_file_flush(file);
    if (is_saved(&file->segment, file->held)) return answered(file, sync_found(file, file->held));
    code = image_of(&file->segment, &image);
    if (code != ZX_DONE) return code;
    code = save_held(file, file->held, &image);
    free(image.bytes);
    if (code == ZX_DONE) file->held->saved = file->segment.changes;
    return answered(file, code);
}

/* Whether both have one name in one folder. */
static bool is_one_name(const struct zx_held_file *held, const struct zx_held_file *other) {
    struct stat one, another;
    return held && strcmp(held->name, other->name) == 0 && fstat(held->folder, &one) == 0 &&
           fstat(other->folder, &another) == 0 && is_same(&one, &another);
}

/* Whether the path leads to the zx_file's own file, by the name that a save replaces. Of a mapped file, which is
   changed in place, each name will do. */
static bool leads_home(zx_file *file, const char *path) {
    struct zx_held_file *other;
    struct stat named, own;
    if (stat(path, &named) != 0 || fstat(file->held->file, &own) != 0 || !is_same(&named, &own)) return false;
    if (file->held->mapped && !is_durable(file->held)) return true;
    char *real = realpath(path, NULL);
    bool is_found = real && find(file, real, &other) == ZX_DONE;
    free(real);
    if (!is_found) return false;
    bool is_home = is_one_name(file->held, other);
    release(other);
    return is_home;
}

static zx_code put(zx_file *file, const char *path, uint32_t mode, const struct image *image) {
    for (int tries = 0; tries < TRIES; tries++) {
        struct zx_held_file *held;
        struct stat found;
        zx_code code = hold(file, path, mode, false, &held, &found);
        if (code != ZX_DONE) return code;
        if (mode != ZX_CREATE_ONLY && is_one_name(file->held, held)) {
            // its own file was there when it was opened
            struct stat own;
            bool is_there = held->file >= 0 && fstat(file->held->file, &own) == 0 && is_same(&own, &found);
            code = is_there ? zx_file_save(file) : faulty(file, ZX_FILE_REPLACED, ESTALE);
        } else if (held->file < 0) {
            code = make_without_log(file, held, image);
            if (code == ZX_DONE) code = sync_name(file, held);
        } else {
            code = settle_log(file, held, &found);
            if (code == ZX_DONE) code = save_held(file, held, image);
        }
        abandon(held);
        if (code != AGAIN) return code;
    }
    return faulty(file, ZX_FILE_IN_USE, EWOULDBLOCK);
}

zx_code zx_file_save_as(zx_file *file, const char *path, uint32_t mode) {
    struct image image;
    file->error = 0;
    if (!path) return ZX_NULL_SLICE;
    if (mode < ZX_CREATE_ONLY || mode > ZX_OPEN_OR_CREATE) return ZX_BAD_MODE;
    if (mode != ZX_CREATE_ONLY && file->held) {
        if (!is_own(file->held)) return faulty(file, ZX_FILE_FORKED, EPERM);
        if (leads_home(file, path)) return zx_file_save(file);
    }
    zx_code code = image_of(&file->segment, &image);
    if (code != ZX_DONE) return code;
    code = put(file, path, mode, &image);
    free(image.bytes);
    return answered(file, code);
}

/* ---- a file closed */

/* Ends all that the zx_file has. */
static void let_go(zx_file *file) {
    struct zx_held_file *held = file->held;
    file->error = 0;
    file->held = NULL;
    if (is_durable(held)) leave_log(held);
    if (held && held->mapped) unmap(file, held);
    zx_close(&file->segment);
    end_grounds(&file->segment, NULL);
    if (held) abandon(held);
}

/* What a close asks first of a mapped file: that it has a name, and is as long as its image. */
static zx_code end_mapped(zx_file *file, struct zx_held_file *held) {
    struct stat own;
    uint64_t size;
    if (held->state == READ || !is_own(held)) return ZX_DONE;
    if (fstat(held->file, &own) != 0) return fault(file);
    if (own.st_nlink == 0) return faulty(file, ZX_FILE_REPLACED, ESTALE);
    if (held->steps > 0) return faulty(file, ZX_FILE_IN_STEP, EBUSY);
    bool is_long = file->segment.lent && zx_size(&file->segment, &size) == ZX_DONE && (uint64_t)own.st_size != size;
    return is_long && !set_length(held->file, size) ? fault(file) : (zx_code)ZX_DONE;
}

/* What a close does first for a file that is durable: it saves it. If its changes are committed and only the file cannot
   be replaced, as on a full disk, the next opening finds them in the log. */
static zx_code end_durable(zx_file *file, struct zx_held_file *held) {
    if (!is_own(held) || !file->segment.at) return ZX_DONE;
    if (held->steps > 0) return faulty(file, ZX_FILE_IN_STEP, EBUSY);
    zx_code code = commit_all(file, held);
    if (code != ZX_DONE) return code;
    code = checkpoint(file, held);
    return code == ZX_FILE_FAULT || code == ZX_NO_MEMORY ? (zx_code)ZX_DONE : code;
}

zx_code zx_file_close(zx_file *file) {
    struct zx_held_file *held = file->held;
    zx_code code = ZX_DONE;
    file->error = 0;
    if (is_durable(held))
        code = end_durable(file, held);
    else if (held && held->mapped)
        code = end_mapped(file, held);
    else if (held && file->segment.at)
        code = zx_file_save(file);
    if (code != ZX_DONE && code != ZX_FILE_UNSYNCED) return code;
    int32_t error = code == ZX_DONE ? 0 : file->error;
    let_go(file);
    file->error = error;
    return code;
}

void zx_file_discard(zx_file *file) {
    if (file->held && file->held->mapped) (void)cut_mapped(file, file->held);
    let_go(file);
}

#include "files/lent.h"
