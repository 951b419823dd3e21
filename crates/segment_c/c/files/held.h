/* A part of files.c: the files that this process holds, their descriptors, locks and bytes. */
#include <errno.h>
#include <fcntl.h>
#include <limits.h>
#include <linux/magic.h>
#include <linux/userfaultfd.h>
#include <malloc.h>
#include <pthread.h>
#include <stdio.h>
#include <stdlib.h>
#include <sys/file.h>
#include <sys/ioctl.h>
#include <sys/mman.h>
#include <sys/resource.h>
#include <sys/stat.h>
#include <sys/statfs.h>
#include <sys/sysmacros.h>
#include <sys/xattr.h>
#include <time.h>
#include <unistd.h>

#include "blocks.h"
#include "system.h"

enum { LARGEST = 1 << 30, TRIES = 64, SPARES = 8, PAGE = 4096, PIECE = 8 * PAGE };

/* The name leads to another file by now. No caller sees this code. */
enum { AGAIN = 1 };

/* The state of a held file. */
enum state {
    FOUND,    /* as it was opened: another process may have written, named or renamed it without a sync */
    SAVED,    /* its bytes and its name are on the disk */
    NEW,      /* created and never saved: who discards it removes it */
    UNSYNCED, /* saved, but the folder was not synced */
    READ      /* mapped and never changed: others may map it too */
};

/* A file that is open for writing, or mapped. */
struct zx_held_file {
    struct zx_held_file *next; /* in the list of all of this process */
    zx_segment *mapped;        /* the segment that lies in its mapping, or null */
    uint8_t *at;               /* the mapping, of `len` bytes, or null: it keeps the lock as a descriptor does */
    uint64_t len;
    uint64_t room;             /* the bytes of addresses that the mapping has, if they are more than `len`; or 0 */
    unsigned steps;            /* open transactions */
    struct commits *commits;   /* of a file that is durable, or null */
    int log;                   /* the log beside the file; -1 if none is open */
    bool has_records;          /* whether the log had records when it was opened */
    int watch;                 /* by which the system notes the pages that are written; -1 if there is none */
    bool is_watched;           /* whether it does so for each page of the mapping */
    unsigned forks;            /* of the process that opened it */
    int folder;                /* of the name; AT_FDCWD for a mapped file that existed, whose name is a path */
    int file;                  /* with its lock; -1 if none exists under the name */
    int made;                  /* the new file that gets the name, with its lock; -1 if there is none */
    enum state state;
    uint64_t saved;            /* the changes of the segment when the file had its image */
    char name[];               /* leads through no link */
};

struct image {
    uint8_t *bytes;
    uint64_t len;
};

/* ---- codes, with the errno that goes with them */

static zx_code faulty(zx_file *file, zx_code code, int error) {
    file->error = error;
    return code;
}

static zx_code fault(zx_file *file) { return faulty(file, ZX_FILE_FAULT, errno); }

/* Returns the code of a call. Only codes of files come with an errno. */
static zx_code answered(zx_file *file, zx_code code) {
    if (code < ZX_FILE_IN_USE || code > ZX_FILE_LOG_LEFT) file->error = 0;
    return code;
}

void zx_file_words(zx_code code, zx_text *words) {
    static const char *const all[] = {
        "no file", "file is open", "file in use", "file exists", "no such file", "link leads to nothing", "is a folder",
        "is a device", "is a pipe", "file too large", "file fault", "file was replaced", "saved, but folder not synced",
        "file of another process", "log of another file", "commit may be saved or not", "transaction is open",
        "FILE-log is in the way, and is no log: move or remove it",
        "FILE-log has commits of a file that is gone: put FILE back, or remove FILE-log",
    };
    if (ZX_FILE_NONE <= code && code <= ZX_FILE_LOG_LEFT) {
        words->at = (const uint8_t *)all[code - ZX_FILE_NONE];
        words->len = strlen(all[code - ZX_FILE_NONE]);
    } else {
        zx_words(code, words);
    }
}

const char *zx_message(zx_code code) {
    static _Thread_local char message[128];
    zx_text words;
    zx_file_words(code, &words);
    (void)snprintf(message, sizeof message, "%.*s", (int)words.len, (const char *)words.at);
    return message;
}

/* Returns true if a signal interrupted a call and the call may be repeated; the number of repetitions is limited. */
static bool is_interrupted(int *tries) { return errno == EINTR && ++*tries < TRIES; }

/* ---- the list of held files: a forked process closes its copies, since a copy would keep the parent's lock */

static pthread_mutex_t guard = PTHREAD_MUTEX_INITIALIZER;
static bool is_watching; /* whether a fork takes the list apart in the child */
static struct zx_held_file *all_held;
static unsigned forks; /* how often this process was forked off, with its parents: in a child it is another number */

static bool is_own(const struct zx_held_file *held) { return held->forks == forks; }

static void share_grounds(void);

static void before_fork(void) {
    pthread_mutex_lock(&guard);
    rattle_hold_blocks();
}

/* Ends what before_fork began, in both processes. */
static void end_fork(void) {
    share_grounds();
    rattle_let_blocks_go();
    pthread_mutex_unlock(&guard);
}

static void after_fork(void) { end_fork(); }

static void close_all(struct zx_held_file *held) {
    if (held->file >= 0) close(held->file);
    if (held->made >= 0) close(held->made);
    if (held->folder >= 0) close(held->folder);
    if (held->log >= 0) close(held->log);
    if (held->watch >= 0) close(held->watch);
    held->file = held->made = held->folder = held->log = held->watch = -1;
}

static void unmap_all(struct zx_held_file *held) { munmap(held->at, held->room ? held->room : held->len); }

/* A child has no mapping either, so its segment is closed, and no view is current. The box of its handle stays
   behind. */
static void in_child(void) {
    forks++;
    for (struct zx_held_file *each = all_held; each; each = each->next) {
        close_all(each);
        if (each->at) unmap_all(each);
        if (!each->mapped) continue;
        each->mapped->at = NULL;
        each->mapped->changes++;
    }
    all_held = NULL;
    end_fork();
}

/* Has forks watched from now on. The guard is held. Returns false if there is no memory for that. */
static bool watch_forks(void) {
    if (!is_watching) is_watching = pthread_atfork(before_fork, after_fork, in_child) == 0;
    return is_watching;
}

/* Puts a file into the list, before it is opened. Frees it, and returns null, if there is no memory to watch forks. */
static struct zx_held_file *enlist(struct zx_held_file *held) {
    held->forks = forks;
    held->file = held->made = held->log = held->watch = -1;
    pthread_mutex_lock(&guard);
    bool is_watched = watch_forks();
    if (is_watched) {
        held->next = all_held;
        all_held = held;
    }
    pthread_mutex_unlock(&guard);
    if (is_watched) return held;
    free(held);
    return NULL;
}

/* Opens a descriptor of a file in the list. A process that forks at any time has it in its list, and the child closes
   its copy: a lock lasts as long as a copy does. So the list is held while the file is opened. */
static bool open_listed(int *descriptor, int folder, const char *name, int how, mode_t mode) {
    int tries = 0;
    pthread_mutex_lock(&guard);
    do {
        *descriptor = openat(folder, name, how | O_CLOEXEC, mode);
    } while (*descriptor < 0 && is_interrupted(&tries));
    pthread_mutex_unlock(&guard);
    return *descriptor >= 0;
}

/* Closes a descriptor of a file in the list. errno stays. */
static void close_listed(int *descriptor) {
    int error = errno;
    pthread_mutex_lock(&guard);
    if (*descriptor >= 0) close(*descriptor);
    *descriptor = -1;
    pthread_mutex_unlock(&guard);
    errno = error;
}

/* Installs the new file as the held one, and releases the lock of the old file. */
static void take_made(struct zx_held_file *held) {
    pthread_mutex_lock(&guard);
    int before = held->file;
    held->file = held->made;
    held->made = before;
    pthread_mutex_unlock(&guard);
    if (before >= 0) flock(before, LOCK_UN);
    close_listed(&held->made);
}

static void free_commits(struct zx_held_file *held);

/* Releases the lock, even if a child process has a copy of the descriptor that no handler of forks saw. */
static void release(struct zx_held_file *held) {
    if (held->file >= 0 && is_own(held)) flock(held->file, LOCK_UN);
    pthread_mutex_lock(&guard);
    struct zx_held_file **at = &all_held;
    while (*at && *at != held) at = &(*at)->next;
    if (*at) *at = held->next;
    close_all(held);
    pthread_mutex_unlock(&guard);
    free_commits(held);
    free(held);
}

static bool is_same(const struct stat *one, const struct stat *other) {
    return one->st_dev == other->st_dev && one->st_ino == other->st_ino;
}

/* Returns true if a name leads to this file. */
static bool leads_to(int folder, const char *name, const struct stat *file) {
    struct stat named;
    return fstatat(folder, name, &named, AT_SYMLINK_NOFOLLOW) == 0 && is_same(&named, file);
}

/* Returns true if a name leads to this open file. */
static bool is_named(int folder, const char *name, int file) {
    struct stat own;
    return fstat(file, &own) == 0 && leads_to(folder, name, &own);
}

/* Removes a name if it leads to this open file. errno stays. */
static bool remove_own(int folder, const char *name, int file) {
    int error = errno;
    bool is_gone = is_named(folder, name, file) && unlinkat(folder, name, 0) == 0;
    errno = error;
    return is_gone;
}

/* Returns ZX_FILE_REPLACED if the name of a file that is held leads elsewhere by now, or nowhere. A mapped file, which
   keeps its bytes under any name, has lost the last one. A durable one is replaced by its name. */
static zx_code still_named(zx_file *file, const struct zx_held_file *held) {
    struct stat own, named;
    bool by_name = !held->mapped || held->commits;
    if (fstat(held->file, &own) != 0) return fault(file);
    bool is_named = by_name ? fstatat(held->folder, held->name, &named, AT_SYMLINK_NOFOLLOW) == 0 : own.st_nlink > 0;
    if (!is_named && by_name && errno != ENOENT) return fault(file);
    if (is_named && by_name) is_named = is_same(&own, &named);
    return is_named ? (zx_code)ZX_DONE : faulty(file, ZX_FILE_REPLACED, ESTALE);
}

/* Removes the file if it was created and never saved, and releases it. */
static void abandon(struct zx_held_file *held) {
    if (held->state == NEW && is_own(held)) remove_own(held->folder, held->name, held->file);
    release(held);
}

/* Locks a file without waiting. Returns 0 or an errno: EWOULDBLOCK if another process has the lock. On a file system
   without locks it returns 0. */
static int take_lock(int file, int how) {
    int tries = 0;
    while (flock(file, how | LOCK_NB) != 0) {
        if (errno == EOPNOTSUPP || errno == ENOSYS || errno == EINVAL) return 0;
        if (!is_interrupted(&tries)) return errno;
    }
    return 0;
}

/* ---- bytes */

static struct image room_for(uint64_t len) {
    struct image image = { malloc(len ? len : 1), len };
    return image;
}

static void free_image(struct image *image) {
    free(image->bytes);
    *image = (struct image){ NULL, 0 };
}

/* Copies the image of the segment. */
static zx_code image_of(zx_segment *segment, struct image *image) {
    uint64_t size;
    zx_code code = zx_size(segment, &size);
    if (code != ZX_DONE) return code;
    *image = room_for(size);
    if (!image->bytes) return ZX_NO_MEMORY;
    code = zx_save(segment, image->bytes, image->len);
    if (code != ZX_DONE) free(image->bytes);
    return code;
}

/* Reads `len` bytes from an offset on, or fewer at the end of the file. -1 if it fails. */
static ssize_t read_at(int file, uint8_t *bytes, size_t len, off_t from) {
    size_t count = 0;
    while (count < len) {
        ssize_t more = pread(file, bytes + count, len - count, from + (off_t)count);
        if (more < 0 && errno == EINTR) continue;
        if (more < 0) return -1;
        if (more == 0) break;
        count += (size_t)more;
    }
    return (ssize_t)count;
}

/* Returns true if the process may write so many bytes into a file (ulimit -f). The system ends one that writes more by a
   signal. */
static bool is_within_limit(uint64_t len) {
    struct rlimit most;
    if (getrlimit(RLIMIT_FSIZE, &most) != 0 || most.rlim_cur == RLIM_INFINITY || len <= most.rlim_cur) return true;
    return errno = EFBIG, false;
}

/* Returns true if the process may give a file this length. */
static bool may_have_length(int file, uint64_t len) {
    struct stat found;
    if (is_within_limit(len) || (fstat(file, &found) == 0 && (uint64_t)found.st_size >= len)) return true;
    return errno = EFBIG, false;
}

static bool write_at(int file, const uint8_t *bytes, size_t len, off_t from) {
    if (!is_within_limit((uint64_t)from + len)) return false;
    while (len > 0) {
        ssize_t more = pwrite(file, bytes, len, from);
        if (more < 0 && errno == EINTR) continue;
        if (more < 0) return false;
        bytes += more, len -= (size_t)more, from += more;
    }
    return true;
}

static bool set_length(int file, uint64_t len) {
    int tries = 0;
    if (!may_have_length(file, len)) return false;
    while (ftruncate(file, (off_t)len) != 0)
        if (!is_interrupted(&tries)) return false;
    return true;
}

static size_t at_most(size_t len, size_t most) { return len < most ? len : most; }

static bool is_zero(const uint8_t *bytes, size_t len) {
    return bytes[0] == 0 && memcmp(bytes, bytes + 1, len - 1) == 0;
}

/* Syncs a file or a folder. Does nothing for one that is not on a disk. */
static bool sync_one(int file) {
    int tries = 0;
    while (fsync(file) != 0)
        if (!is_interrupted(&tries)) return errno == EINVAL;
    return true;
}

static const char *last_name(const char *path) {
    const char *slash = strrchr(path, '/');
    return slash ? slash + 1 : path;
}

/* Opens the folder of a path. -1 if that fails. */
static int open_folder_of(const char *path) {
    size_t before = (size_t)(last_name(path) - path);
    char folder[PATH_MAX + 2];
    if (before >= PATH_MAX) return errno = ENAMETOOLONG, -1;
    memcpy(folder, path, before);
    memcpy(folder + before, ".", 2);
    return openat(AT_FDCWD, folder, O_RDONLY | O_DIRECTORY | O_CLOEXEC, 0);
}

/* Opens the folder of the held file. -1 if that fails, or if a name that is a path leads elsewhere by now. */
static int open_its_folder(const struct zx_held_file *held) {
    if (held->folder != AT_FDCWD) return openat(held->folder, ".", O_RDONLY | O_DIRECTORY | O_CLOEXEC, 0);
    int folder = open_folder_of(held->name);
    if (folder < 0 || is_named(folder, last_name(held->name), held->file)) return folder;
    close(folder);
    return -1;
}

/* Syncs the folder, or all of its disk if the folder may not be read. */
static zx_code sync_name(zx_file *file, struct zx_held_file *held) {
    int folder = open_its_folder(held);
    bool is_synced = folder >= 0 ? sync_one(folder) : syncfs(held->file) == 0;
    int error = errno;
    if (folder >= 0) close(folder);
    if (held->state != FOUND) held->state = is_synced ? SAVED : UNSYNCED;
    return is_synced ? (zx_code)ZX_DONE : faulty(file, ZX_FILE_UNSYNCED, error);
}

/* Checks that the file has its name, and syncs both once, as the opening found them: another process may have written
   or renamed it, or removed a log, without a sync. */
static zx_code sync_found(zx_file *file, struct zx_held_file *held) {
    zx_code code = still_named(file, held);
    if (code != ZX_DONE || held->state == SAVED) return code;
    if (held->state == FOUND && !sync_one(held->file)) return fault(file);
    if (held->state == FOUND) held->state = UNSYNCED;
    return sync_name(file, held);
}
