/* files FOLDER: zaluxhoni_files.h where the system fails. Each call of files.c that the system can refuse is made to
   fail once, in each of a few scenes, on a system that has files without names and on ones that lack what they take;
   and threads have a file each. It is linked with files.c itself, which takes its calls of the system from the table
   below. */
#define _GNU_SOURCE
#undef ZX_TEST_SYSTEM
#define ZX_TEST_TABLE
#include "zaluxhoni_files.h"

#include <dirent.h>
#include <errno.h>
#include <fcntl.h>
#include <pthread.h>
#include <semaphore.h>
#include <signal.h>
#include <stdio.h>
#include <stdlib.h>
#include <sys/file.h>
#include <sys/ioctl.h>
#include <sys/mman.h>
#include <sys/stat.h>
#include <sys/statfs.h>
#include <sys/syscall.h>
#include <sys/wait.h>
#include <sys/xattr.h>
#include <time.h>
#include <unistd.h>

#include "../files/system.h"

static int wrong, cases;
static char room[400];

#define IS(got, wanted) \
    do { \
        long long is = (long long)(got), should = (long long)(wanted); \
        cases++; \
        if (is != should) { \
            printf("files.c:%d: WRONG %s: %lld, not %lld, %s\n", __LINE__, #got, is, should, of_case()); \
            wrong++; \
        } \
    } while (0)

/* ---- calls that fail */

/* What the system lacks: files without names; giving them one by /proc; giving them one at all; locks; owners; marks of
   files. */
enum { HAS_ALL, NO_NAMELESS, NO_PROC, NO_NAMING, NO_LOCKS, NO_OWNERS, NO_MARKS, SYSTEMS };
/* How a call fails: with an error; with another one, which a call that is asked again does not have; in part. */
enum { AT_ONCE, INTERRUPTED, IN_PART, WAYS };

static __thread int countdown, way, lacks;
static __thread const char *failed;
/* The rights that a file has before a byte goes in, where they are looked at. */
static mode_t wanted_rights;
/* A path under which nothing stands while bytes are written. */
static __thread const char *absent;
/* A file, and another whose place it takes when the next one gets its name. */
static __thread const char *const *swapped;
/* Whether the process is killed when the new file would take the place of the old one. */
static bool is_killed;
/* Whether lstat takes a pipe for a file, as where one is put in the place of the other meanwhile. */
static bool is_blind;
/* Whether files are dated by whole seconds, as on some file systems. */
static bool is_coarse;
/* What others do between the opening of a file and its lock, and between the look at a path and its opening. */
static __thread void (*before_lock)(void), (*before_open)(void);
/* How often bytes of a file were read or written. */
static __thread int transfers;

static const char *of_case(void) {
    static __thread char all[200];
    snprintf(all, sizeof all, "where %s fails, way %d, system %d", failed ? failed : "nothing", way, lacks);
    return all;
}

/* Another thread forks before a call, and the child sleeps. It cannot fork as long as this thread holds the list of
   files: then the call goes on. */
static __thread int before_fork;
static bool is_killed_then;
static sem_t fork_wanted, fork_done;

/* How many seconds another process may take for what it does at once: other programs may have the machine. */
enum { PATIENCE = 600 };

static void *fork_once(void *none) {
    sem_wait(&fork_wanted);
    if (fork() == 0)
        for (;;) pause();
    sem_post(&fork_done);
    return none;
}

static void fork_beside(void) {
    struct timespec until;
    clock_gettime(CLOCK_REALTIME, &until);
    until.tv_nsec += 20000000;
    until.tv_sec += until.tv_nsec / 1000000000;
    until.tv_nsec %= 1000000000;
    sem_post(&fork_wanted);
    sem_timedwait(&fork_done, &until);
    if (is_killed_then) raise(SIGKILL);
}

/* Whether the next call fails. */
static bool fails(const char *name, int error) {
    if (before_fork > 0 && --before_fork == 0) fork_beside();
    if (countdown == 0 || --countdown != 0) return false;
    failed = name;
    errno = error;
    return true;
}

#define WRAPPED(answer, name, parameters, ...) \
    static answer system_##name parameters { \
        if (way == AT_ONCE && fails(#name, EIO)) return -1; \
        return name(__VA_ARGS__); \
    }

/* What a call that the library makes again says: it fails for a reason, or a signal interrupts it. */
#define INTERRUPTIBLE(answer, name, parameters, ...) \
    static answer system_##name parameters { \
        if (way != IN_PART && fails(#name, way == INTERRUPTED ? EINTR : EIO)) return -1; \
        return name(__VA_ARGS__); \
    }

WRAPPED(int, stat, (const char *path, struct stat *found), path, found)
WRAPPED(int, fstatat, (int folder, const char *path, struct stat *found, int flags), folder, path, found, flags)
INTERRUPTIBLE(int, fsync, (int file), file)
INTERRUPTIBLE(int, fdatasync, (int file), file)
WRAPPED(int, syncfs, (int file), file)
WRAPPED(int, fchmod, (int file, mode_t mode), file, mode)
WRAPPED(int, unlinkat, (int folder, const char *path, int flags), folder, path, flags)
WRAPPED(int, msync, (void *at, size_t len, int flags), at, len, flags)
WRAPPED(int, madvise, (void *at, size_t len, int advice), at, len, advice)
WRAPPED(int, memfd_create, (const char *name, unsigned how), name, how)
WRAPPED(int, userfaultfd, (int how), how)
WRAPPED(int, ioctl, (int file, unsigned long call, void *words), file, call, words)
INTERRUPTIBLE(int, fallocate, (int file, int mode, off_t at, off_t len), file, mode, at, len)

/* How often no file becomes shorter or longer. */
static int uncut;

static int system_ftruncate(int file, off_t len) {
    if (uncut > 0) return uncut--, errno = EIO, -1;
    if (way != IN_PART && fails("ftruncate", way == INTERRUPTED ? EINTR : EIO)) return -1;
    return ftruncate(file, len);
}

/* Whether there is no memory to watch forks. */
static bool is_unwatched;

static int system_pthread_atfork(void (*before)(void), void (*after)(void), void (*in_child)(void)) {
    return is_unwatched ? ENOMEM : pthread_atfork(before, after, in_child);
}

static int system_renameat(int from, const char *one, int to, const char *other) {
    if (is_killed) raise(SIGKILL);
    if (way == AT_ONCE && fails("renameat", EIO)) return -1;
    return renameat(from, one, to, other);
}

#define MARKED(answer, name, parameters, ...) \
    static answer system_##name parameters { \
        if (lacks == NO_MARKS) return errno = ENOTSUP, -1; \
        if (way == AT_ONCE && fails(#name, EIO)) return -1; \
        return name(__VA_ARGS__); \
    }

MARKED(ssize_t, flistxattr, (int file, char *names, size_t room), file, names, room)
MARKED(int, fremovexattr, (int file, const char *name), file, name)

/* The attribute that nobody may read; the one that no file takes any more, and the reason. */
static const char *unread, *untaken;
static int why_untaken;

static ssize_t system_fgetxattr(int file, const char *name, void *value, size_t size) {
    if (lacks == NO_MARKS) return errno = ENOTSUP, -1;
    if (unread && strcmp(unread, name) == 0) return errno = EPERM, -1;
    if (way == AT_ONCE && fails("fgetxattr", EIO)) return -1;
    return fgetxattr(file, name, value, size);
}

static int system_fsetxattr(int file, const char *name, const void *value, size_t len, int how) {
    if (lacks == NO_MARKS) return errno = ENOTSUP, -1;
    if (untaken && strcmp(untaken, name) == 0) return errno = why_untaken, -1;
    if (way == AT_ONCE && fails("fsetxattr", EIO)) return -1;
    return fsetxattr(file, name, value, len, how);
}

WRAPPED(int, fstatfs, (int file, struct statfs *found), file, found)

static off_t system_lseek(int file, off_t at, int whence) {
    return way == AT_ONCE && fails("lseek", EIO) ? -1 : lseek(file, at, whence);
}

static void *system_mmap(void *at, size_t len, int protection, int flags, int file, off_t from) {
    return way == AT_ONCE && fails("mmap", EIO) ? MAP_FAILED : mmap(at, len, protection, flags, file, from);
}

static void *system_mremap(void *at, size_t len, size_t wanted, int flags) {
    return way == AT_ONCE && fails("mremap", ENOMEM) ? MAP_FAILED : mremap(at, len, wanted, flags);
}

static int system_lstat(const char *path, struct stat *found) {
    if (way == AT_ONCE && fails("lstat", EIO)) return -1;
    int answer = lstat(path, found);
    if (is_blind) found->st_mode = S_IFREG | 0644;
    if (is_coarse) found->st_ctim.tv_nsec = 0;
    return answer;
}

static int system_fstat(int file, struct stat *found) {
    if (way == AT_ONCE && fails("fstat", EIO)) return -1;
    int answer = fstat(file, found);
    if (is_coarse) found->st_ctim.tv_nsec = 0;
    return answer;
}

/* How many locks are refused, and the reason. */
static int unlocked, why_unlocked;

static int system_flock(int file, int how) {
    if (lacks == NO_LOCKS) return errno = EOPNOTSUPP, -1;
    if (unlocked > 0 && how != LOCK_UN) return unlocked--, errno = why_unlocked, -1;
    if (way != IN_PART && fails("flock", way == INTERRUPTED ? EINTR : EWOULDBLOCK)) return -1;
    void (*others)(void) = before_lock;
    before_lock = NULL;
    if (others) others();
    return flock(file, how);
}

static int system_fchown(int file, uid_t user, gid_t group) {
    if (lacks == NO_OWNERS) return errno = EPERM, -1;
    return fchown(file, user, group);
}

static int system_linkat(int from, const char *one, int to, const char *other, int flags) {
    if (lacks == NO_NAMING || (lacks == NO_PROC && one[0])) return errno = ENOENT, -1;
    if (way == AT_ONCE && fails("linkat", EIO)) return -1;
    if (swapped) rename(swapped[0], swapped[1]);
    return linkat(from, one, to, other, flags);
}

static int system_open(const char *path, int flags) {
    void (*others)(void) = before_open;
    before_open = NULL;
    if (others) others();
    if (way != IN_PART && fails("open", way == INTERRUPTED ? EINTR : EIO)) return -1;
    return open(path, flags);
}

static int system_openat(int folder, const char *path, int flags, mode_t mode) {
    if (flags & O_CREAT && wanted_rights) IS(mode, 0600);
    if ((flags & O_TMPFILE) == O_TMPFILE && lacks == NO_NAMELESS) return errno = EOPNOTSUPP, -1;
    if (way != IN_PART && fails("openat", way == INTERRUPTED ? EINTR : EIO)) return -1;
    return openat(folder, path, flags, mode);
}

static ssize_t system_pread(int file, void *bytes, size_t len, off_t at) {
    transfers++;
    if (fails("pread", way == INTERRUPTED ? EINTR : EIO)) {
        if (way != IN_PART) return -1;
        len = len / 2 + 1;
    }
    return pread(file, bytes, len, at);
}

static ssize_t system_pwrite(int file, const void *bytes, size_t len, off_t at) {
    struct stat found;
    if (wanted_rights && fstat(file, &found) == 0) IS(found.st_mode & 07777, wanted_rights);
    // where a file without a name is refused, it has its name from the start
    bool has_name = failed && (strcmp(failed, "openat") == 0 || strcmp(failed, "linkat") == 0);
    if (absent && !has_name) IS(access(absent, F_OK), -1);
    transfers++;
    if (fails("pwrite", way == INTERRUPTED ? EINTR : ENOSPC)) {
        if (way != IN_PART) return -1;
        len = len / 2 + 1;
    }
    return pwrite(file, bytes, len, at);
}

static void *system_malloc(size_t size) { return way == AT_ONCE && fails("malloc", ENOMEM) ? NULL : malloc(size); }

static void *system_calloc(size_t count, size_t size) {
    return way == AT_ONCE && fails("calloc", ENOMEM) ? NULL : calloc(count, size);
}

static char *system_realpath(const char *path, char *found) {
    return way == AT_ONCE && fails("realpath", EACCES) ? NULL : realpath(path, found);
}

/* The calls that files.c makes. */
struct zx_system zx_system = {
    .open = system_open,
    .openat = system_openat,
    .pread = system_pread,
    .pwrite = system_pwrite,
    .ftruncate = system_ftruncate,
    .fallocate = system_fallocate,
    .lseek = system_lseek,
    .fsync = system_fsync,
    .fdatasync = system_fdatasync,
    .syncfs = system_syncfs,
    .flock = system_flock,
    .ioctl = system_ioctl,
    .lstat = system_lstat,
    .stat = system_stat,
    .fstat = system_fstat,
    .fstatat = system_fstatat,
    .fstatfs = system_fstatfs,
    .fchmod = system_fchmod,
    .fchown = system_fchown,
    .fgetxattr = system_fgetxattr,
    .fsetxattr = system_fsetxattr,
    .fremovexattr = system_fremovexattr,
    .flistxattr = system_flistxattr,
    .linkat = system_linkat,
    .renameat = system_renameat,
    .unlinkat = system_unlinkat,
    .mmap = system_mmap,
    .mremap = system_mremap,
    .munmap = munmap,
    .msync = system_msync,
    .madvise = system_madvise,
    .memfd_create = system_memfd_create,
    .userfaultfd = system_userfaultfd,
    .close = close,
    .malloc = system_malloc,
    .calloc = system_calloc,
    .free = free,
    .realpath = system_realpath,
    .pthread_atfork = system_pthread_atfork,
};

/* ---- what is there */

static int count_in(const char *folder) {
    int count = 0;
    DIR *all = opendir(folder);
    while (all && readdir(all)) count++;
    if (all) closedir(all);
    return count - 2;
}

static int open_descriptors(void) { return count_in("/proc/self/fd"); }

static zx_code set(zx_file *file, int64_t number) {
    zx_key key = zx_name("n");
    zx_value value = zx_i64(number);
    uint64_t handle;
    uint32_t found;
    zx_code code = zx_find_or_construct(&file->segment, &key, 1, &value, &handle, &found);
    return code == ZX_DONE ? zx_set(&file->segment, &key, 0, &value) : code;
}

/* What stands under the path: the number, 0 where the segment has none, -1 where there is no file, -2 where it is
   none. */
static int64_t stands(const char *path) {
    zx_file file = ZX_CLOSED_FILE;
    zx_code code = zx_file_open(&file, path, ZX_OPEN_READ_ONLY, 0);
    zx_key key = zx_name("n");
    zx_value value = zx_i64(0);
    if (code == ZX_FILE_MISSING) return -1;
    if (code != ZX_DONE) return -2;
    zx_get(&file.segment, &key, 0, &value);
    zx_file_discard(&file);
    return value.number;
}

/* Whether the file has just the bytes of the segment's image. */
static bool is_saved(zx_file *file, const char *path) {
    static uint8_t image[1 << 17], bytes[1 << 17];
    uint64_t size;
    if (zx_size(&file->segment, &size) != ZX_DONE) return false;
    if (zx_save(&file->segment, image, sizeof image) != ZX_DONE) return false;
    FILE *from = fopen(path, "rb");
    size_t len = from ? fread(bytes, 1, sizeof bytes, from) : 0;
    if (from) fclose(from);
    return len == size && memcmp(image, bytes, len) == 0;
}

/* Whether a code of a file comes with the errno of the system, and no other with one. */
static bool has_errno(const zx_file *file, zx_code code) { return (file->error != 0) == (code >= 40 && code < 60); }

/* ---- the scenes: what they answer is the code of the first call that is not done */

static const char *the_file(void) {
    static __thread char path[420];
    snprintf(path, sizeof path, "%s/file", room);
    return path;
}

static void seed(int64_t number) {
    int fails_later = countdown;
    zx_file file = ZX_CLOSED_FILE;
    countdown = 0;
    unlink(the_file());
    IS(zx_file_open(&file, the_file(), ZX_CREATE_ONLY, 66560), ZX_DONE);
    IS(set(&file, number), ZX_DONE);
    IS(zx_file_close(&file), ZX_DONE);
    countdown = fails_later;
}

/* How often a save was done, but for the folder. */
static int unsynced;

/* What stands under the path when a call has answered that it saved. */
static zx_code looked_at(zx_file *file, zx_code code) {
    int fails_later = countdown;
    countdown = 0;
    IS(has_errno(file, code), true);
    if (code == ZX_DONE || code == ZX_FILE_UNSYNCED) IS(is_saved(file, the_file()), true);
    unsynced += code == ZX_FILE_UNSYNCED;
    countdown = fails_later;
    return code;
}

static zx_code save_scene(zx_file *file) {
    zx_code code = zx_file_open(file, the_file(), ZX_OPEN_ONLY, 0);
    IS(has_errno(file, code), true);
    if (code == ZX_DONE) {
        set(file, 6);
        code = looked_at(file, zx_file_save(file));
    }
    return code;
}

static zx_code make_scene(zx_file *file) {
    absent = lacks == NO_NAMELESS || lacks == NO_NAMING ? NULL : the_file();
    zx_code code = zx_file_open(file, the_file(), ZX_OPEN_OR_CREATE, 66560);
    absent = NULL;
    IS(has_errno(file, code), true);
    if (code == ZX_DONE) {
        set(file, 6);
        code = zx_file_close(file);
        unsynced += code == ZX_FILE_UNSYNCED;
    }
    return code;
}

static zx_code put_scene(zx_file *file) {
    if (zx_create(&file->segment, 66560) != ZX_DONE || set(file, 6) != ZX_DONE) return ZX_NO_MEMORY;
    return looked_at(file, zx_file_save_as(file, the_file(), ZX_OPEN_OR_CREATE));
}

static zx_code put_new_scene(zx_file *file) {
    if (zx_create(&file->segment, 66560) != ZX_DONE || set(file, 6) != ZX_DONE) return ZX_NO_MEMORY;
    return looked_at(file, zx_file_save_as(file, the_file(), ZX_CREATE_ONLY));
}

static zx_code read_scene(zx_file *file) {
    zx_code code = zx_file_open(file, the_file(), ZX_OPEN_COPY_ON_WRITE, 0);
    IS(has_errno(file, code), true);
    return code;
}

/* A mapped file is changed in place: whatever fails, it is an image, of before or of after. */
static zx_code map_scene(zx_file *file) {
    zx_code code = zx_file_open(file, the_file(), ZX_OPEN_ONLY | ZX_MAPPED, 0);
    if (code == ZX_DONE) code = set(file, 6);
    if (code == ZX_DONE) code = zx_file_flush(file);
    IS(has_errno(file, code), true);
    return code;
}

static zx_code grow_scene(zx_file *file) {
    zx_code code = zx_file_open(file, the_file(), ZX_OPEN_ONLY | ZX_MAPPED, 0);
    if (code == ZX_DONE) code = set(file, 6);
    if (code == ZX_DONE) code = zx_file_grow(file, 1 << 20);
    IS(has_errno(file, code), true);
    if (code == ZX_DONE) code = zx_file_shrink(file);
    IS(has_errno(file, code), true);
    return code;
}

static zx_code make_mapped_scene(zx_file *file) {
    zx_code code = zx_file_open(file, the_file(), ZX_CREATE_ONLY | ZX_MAPPED, 66560);
    IS(has_errno(file, code), true);
    if (code == ZX_DONE) code = set(file, 6);
    return code == ZX_DONE ? looked_at(file, zx_file_flush(file)) : code;
}

struct scene {
    const char *name;
    zx_code (*run)(zx_file *);
    int64_t before, after; /* what stands under the path; -1 is nothing */
    bool is_mapped;
};

static const struct scene scenes[] = {
    { "save", save_scene, 5, 6, false },
    { "make", make_scene, -1, 6, false },
    { "put", put_scene, 5, 6, false },
    { "put new", put_new_scene, -1, 6, false },
    { "read", read_scene, 5, 5, false },
    { "map", map_scene, 5, 6, true },
    { "grow", grow_scene, 5, 6, true },
    { "make mapped", make_mapped_scene, -1, 6, true },
};

/* One scene, of which one call fails. Whether one was there to fail. */
static bool is_tried(const struct scene *scene, int at) {
    zx_file file = ZX_CLOSED_FILE;
    if (scene->before < 0)
        unlink(the_file());
    else
        seed(scene->before);
    int before = open_descriptors();
    failed = NULL;
    countdown = at;
    zx_code code = scene->run(&file);
    bool is_hit = failed != NULL, may_leave = is_hit && strcmp(failed, "unlinkat") == 0;
    countdown = 0;
    if (scene->is_mapped) zx_file_discard(&file);
    int64_t now = stands(the_file());
    if (code == ZX_DONE || code == ZX_FILE_UNSYNCED)
        IS(now, scene->after);
    else if (scene->is_mapped)
        IS(now == scene->before || now == scene->after || now == 0, true);
    else if (!file.held || scene->before >= 0)
        IS(now, may_leave && scene->before < 0 && now >= -1 ? now : scene->before);
    else
        IS(now, 0); /* made, and not saved */
    if (way != AT_ONCE || !is_hit) IS(code, ZX_DONE);
    // what failed can be done again, and nothing is left behind
    if (file.held) IS(zx_file_save(&file), ZX_DONE);
    zx_file_discard(&file);
    IS(open_descriptors(), before);
    if (!may_leave) IS(count_in(room), scene->before >= 0 || stands(the_file()) >= 0 ? 1 : 0);
    IS(zx_file_open(&file, the_file(), ZX_OPEN_OR_CREATE, 66560), ZX_DONE);
    IS(set(&file, 7), ZX_DONE);
    IS(zx_file_close(&file), ZX_DONE);
    IS(stands(the_file()), 7);
    IS(count_in(room), 1);
    return is_hit;
}

static void where_the_system_fails(void) {
    // each try looks at the name twice, so that all make the same calls
    is_coarse = true;
    for (lacks = HAS_ALL; lacks < SYSTEMS; lacks++) {
        for (way = AT_ONCE; way < WAYS; way++) {
            for (size_t i = 0; i < sizeof scenes / sizeof scenes[0]; i++) {
                int at = 1;
                unsynced = 0;
                while (is_tried(&scenes[i], at)) at++;
                if (lacks == HAS_ALL) printf("%s: %d calls were made to fail, way %d\n", scenes[i].name, at - 1, way);
                if (way == AT_ONCE) IS(at > 5, true);
                bool makes_name = scenes[i].after == 6 && (!scenes[i].is_mapped || scenes[i].before < 0);
                if (way == AT_ONCE) IS(unsynced > 0, makes_name);
            }
        }
    }
    lacks = HAS_ALL;
    way = AT_ONCE;
    is_coarse = false;
}

/* Whether the file is marked as one beside which a new one may stand. */
static bool is_marked(void) {
    char mark;
    return getxattr(the_file(), "user.zaluxhoni", &mark, 1) == 1;
}

/* Who saves is killed before the new file takes the place of the old one: who opens that for writing removes the new
   one, in either way. With another name of the old one the mark stays, since that says nothing of names. */
static void who_saves_is_killed(void) {
    char other[440];
    snprintf(other, sizeof other, "%s.other", the_file());
    for (lacks = HAS_ALL; lacks < SYSTEMS; lacks++) {
        for (int round = 0; round < 4; round++) {
            zx_file file = ZX_CLOSED_FILE;
            int status = 0, names = round < 2 ? 1 : 2;
            uint32_t mode = ZX_OPEN_ONLY | (round % 2 ? ZX_MAPPED : 0);
            seed(5);
            if (names == 2) IS(link(the_file(), other), 0);
            pid_t child = fork();
            if (child == 0) {
                is_killed = true;
                save_scene(&file);
                _exit(1);
            }
            IS(waitpid(child, &status, 0) == child && WIFSIGNALED(status), true);
            IS(count_in(room), names + 1);
            bool has_marks = lacks != NO_MARKS && is_marked();
            // what another name leads to says nothing of what is left beside this one
            if (names == 2) IS(zx_file_open(&file, other, mode, 0), ZX_DONE);
            zx_file_discard(&file);
            IS(zx_file_open(&file, the_file(), mode, 0), ZX_DONE);
            IS(count_in(room), names);
            IS(is_marked(), has_marks && names == 2);
            IS(set(&file, 7), ZX_DONE);
            IS(zx_file_close(&file), ZX_DONE);
            IS(stands(the_file()), 7);
            IS(count_in(room), names);
            unlink(other);
        }
    }
    lacks = HAS_ALL;
}

/* Whether a process forks before a call of a scene, and is killed then or later. Its file is free, though the child
   still sleeps. */
static bool is_free_beside_a_child(const struct scene *scene, int at, bool is_killed_at_once) {
    zx_file file = ZX_CLOSED_FILE;
    int status = 0;
    if (scene->before < 0)
        unlink(the_file());
    else
        seed(scene->before);
    pid_t parent = fork();
    if (parent == 0) {
        pthread_t thread;
        setpgid(0, 0);
        sem_init(&fork_wanted, 0, 0);
        sem_init(&fork_done, 0, 0);
        if (pthread_create(&thread, NULL, fork_once, NULL) != 0) _exit(1);
        is_killed_then = is_killed_at_once;
        before_fork = at;
        scene->run(&file);
        if (before_fork > 0) _exit(3);
        raise(SIGKILL);
    }
    IS(waitpid(parent, &status, 0), parent);
    bool is_hit = WIFSIGNALED(status) && WTERMSIG(status) == SIGKILL;
    if (!is_hit) IS(WIFEXITED(status) && WEXITSTATUS(status) == 3, true);
    // a child closes its copies as soon as it runs, which may be late
    zx_code code = ZX_FILE_IN_USE;
    const uint32_t mode = ZX_OPEN_OR_CREATE | (scene->is_mapped ? ZX_MAPPED : 0);
    const time_t until = time(NULL) + PATIENCE;
    for (int tries = 0; is_hit && code == ZX_FILE_IN_USE && time(NULL) < until; tries++) {
        if (tries > 0) usleep(1000);
        code = zx_file_open(&file, the_file(), mode, 66560);
    }
    // a new file that has its name before its bytes may not be whole
    bool may_be_cut = lacks == NO_NAMELESS && scene->before < 0;
    if (is_hit) IS(code == ZX_DONE || (may_be_cut && code >= ZX_TRUNCATED), true);
    if (is_hit && file.held) IS(set(&file, 7), ZX_DONE);
    if (is_hit && file.held) IS(zx_file_close(&file), ZX_DONE);
    zx_file_discard(&file);
    kill(-parent, SIGKILL);
    return is_hit;
}

static void who_forked_is_killed(void) {
    for (lacks = HAS_ALL; lacks <= NO_NAMELESS; lacks++) {
        for (size_t i = 0; i < 2 * (sizeof scenes / sizeof scenes[0]); i++) {
            int at = 1;
            while (is_free_beside_a_child(&scenes[i / 2], at, i % 2)) at++;
            if (lacks == HAS_ALL) printf("%s: forked before %d calls\n", scenes[i / 2].name, at - 1);
            IS(at > 5, true);
        }
    }
    lacks = HAS_ALL;
    unlink(the_file());
}

/* ---- what is passed */

static void what_is_passed(void) {
    zx_file file = ZX_CLOSED_FILE, other = ZX_CLOSED_FILE;
    char path[800], long_name[300];
    seed(5);
    IS(zx_file_open(&file, NULL, ZX_OPEN_ONLY, 0), ZX_NULL_SLICE);
    IS(zx_file_open(&file, the_file(), ZX_WRITE, 0), ZX_BAD_MODE);
    IS(zx_file_open(&file, the_file(), 21, 0), ZX_BAD_MODE);
    IS(zx_file_open(&file, "", ZX_OPEN_ONLY, 0), ZX_FILE_MISSING);
    IS(zx_file_open(&file, "", ZX_CREATE_ONLY, 1024), ZX_FILE_MISSING);
    IS(zx_file_open(&file, "/", ZX_OPEN_ONLY, 0), ZX_FILE_FOLDER);
    snprintf(path, sizeof path, "%s/none/", room);
    IS(zx_file_open(&file, path, ZX_OPEN_OR_CREATE, 1024), ZX_FILE_FOLDER);
    snprintf(path, sizeof path, "%s/file/none", room);
    IS(zx_file_open(&file, path, ZX_OPEN_OR_CREATE, 1024), ZX_FILE_FAULT);
    IS(file.error, ENOTDIR);
    memset(long_name, 'a', 299);
    long_name[299] = 0;
    snprintf(path, sizeof path, "%s/%.256s", room, long_name);
    IS(zx_file_open(&file, path, ZX_OPEN_OR_CREATE, 1024), ZX_FILE_FAULT);
    IS(file.error, ENAMETOOLONG);
    // the longest name can be saved too
    snprintf(path, sizeof path, "%s/%.255s", room, long_name);
    IS(zx_file_open(&file, path, ZX_OPEN_OR_CREATE, 1024), ZX_DONE);
    IS(zx_file_open(&file, path, ZX_OPEN_ONLY, 0), ZX_FILE_IS_OPEN);
    IS(set(&file, 1), ZX_DONE);
    IS(zx_file_close(&file), ZX_DONE);
    IS(stands(path), 1);
    IS(unlink(path), 0);

    IS(zx_file_save(&file), ZX_CLOSED);
    IS(zx_file_save_as(&file, the_file(), ZX_CREATE_ONLY), ZX_CLOSED);
    IS(zx_file_close(&file), ZX_DONE);
    zx_file_discard(&file);
    IS(zx_create(&file.segment, 1024), ZX_DONE);
    IS(zx_file_save(&file), ZX_FILE_NONE);
    IS(zx_file_save_as(&file, NULL, ZX_CREATE_ONLY), ZX_NULL_SLICE);
    IS(zx_file_save_as(&file, the_file(), ZX_OPEN_READ_ONLY), ZX_BAD_MODE);
    IS(zx_file_save_as(&file, the_file(), ZX_CREATE_ONLY), ZX_FILE_EXISTS);
    IS(file.error, EEXIST);
    IS(zx_file_open(&other, the_file(), ZX_OPEN_ONLY, 0), ZX_DONE);
    IS(zx_file_save_as(&file, the_file(), ZX_OPEN_ONLY), ZX_FILE_IN_USE);
    // its own path is its own file, also where another stands there
    IS(set(&other, 6), ZX_DONE);
    IS(zx_file_save_as(&other, the_file(), ZX_OPEN_OR_CREATE), ZX_DONE);
    IS(stands(the_file()), 6);
    IS(unlink(the_file()), 0);
    IS(zx_file_save_as(&other, the_file(), ZX_OPEN_OR_CREATE), ZX_FILE_REPLACED);
    IS(zx_file_save_as(&file, the_file(), ZX_OPEN_ONLY), ZX_FILE_MISSING);
    IS(zx_file_save_as(&file, the_file(), ZX_OPEN_OR_CREATE), ZX_DONE);
    IS(set(&other, 8), ZX_DONE);
    IS(zx_file_save_as(&other, the_file(), ZX_OPEN_OR_CREATE), ZX_FILE_REPLACED);
    IS(stands(the_file()), 0);
    // a segment that was closed by itself is not saved
    zx_close(&other.segment);
    IS(zx_file_close(&other), ZX_DONE);
    IS(zx_file_close(&file), ZX_DONE);
    IS(count_in(room), 1);

    zx_text words;
    for (zx_code code = ZX_FILE_NONE; code <= ZX_FILE_LOG_LEFT; code++) {
        words.len = 0;
        zx_file_words(code, &words);
        IS(words.len > 0, true);
        IS(strlen(zx_message(code)), words.len);
    }
    zx_file_words(ZX_FILE_LOG_LEFT + 1, &words);
    IS(words.len, 0);
    zx_file_words(ZX_NO_SPACE, &words);
    IS(words.len, 8);
}

/* A pipe that was put in the place of a file, behind the first look: nobody waits for who writes it. */
static void a_pipe_behind_the_look(void) {
    zx_file file = ZX_CLOSED_FILE;
    unlink(the_file());
    IS(mkfifo(the_file(), 0600), 0);
    is_blind = true;
    for (uint32_t mode = ZX_OPEN_ONLY; mode <= ZX_OPEN_COPY_ON_WRITE; mode++)
        IS(zx_file_open(&file, the_file(), mode, 1024), ZX_FILE_PIPE);
    is_blind = false;
    IS(unlink(the_file()), 0);
}

/* Another path in the folder. */
static const char *beside(const char *end) {
    static __thread char paths[2][440];
    static __thread int turn;
    char *path = paths[turn ^= 1];
    snprintf(path, sizeof paths[0], "%s.%s", the_file(), end);
    return path;
}

static void replaced(void) { rename(beside("new"), the_file()); }
static void named_twice_and_replaced(void) {
    IS(link(the_file(), beside("old")), 0);
    replaced();
}
static void moved(void) { rename(the_file(), beside("old")); }
static void moved_and_put_back(void) {
    moved();
    rename(beside("old"), the_file());
}
static void moved_and_replaced(void) {
    moved();
    replaced();
}

/* A name is changed before the file that it led to is locked: what is opened is what has the name then. The file was
   dated just before, or a while before; to the nanosecond, or to the second. */
static void names_behind_the_look(void) {
    static const struct {
        void (*others)(void);
        int64_t file, old; /* what stands there behind the call, which adds 100 */
    } cases_of[] = { { replaced, 150, -1 }, { named_twice_and_replaced, 150, 5 }, { moved, -1, 5 },
                     { moved_and_put_back, 105, -1 }, { moved_and_replaced, 150, 5 } };
    for (size_t i = 0; i < 8 * (sizeof cases_of / sizeof *cases_of); i++) {
        zx_file file = ZX_CLOSED_FILE;
        const uint32_t mapped = i & 1 ? ZX_MAPPED : 0;
        const int64_t wanted = cases_of[i / 8].file;
        seed(50);
        IS(rename(the_file(), beside("new")), 0);
        seed(5);
        if (i & 2) usleep(30000);
        is_coarse = i & 4;
        before_lock = cases_of[i / 8].others;
        IS(zx_file_open(&file, the_file(), ZX_OPEN_ONLY | mapped, 0), wanted < 0 ? ZX_FILE_MISSING : ZX_DONE);
        IS(before_lock == NULL, true);
        if (wanted >= 0) IS(set(&file, wanted), ZX_DONE);
        IS(wanted < 0 ? ZX_DONE : zx_file_close(&file), ZX_DONE);
        IS(stands(the_file()), wanted);
        IS(stands(beside("old")), cases_of[i / 8].old);
        unlink(beside("old"));
        unlink(beside("new"));
        unlink(the_file());
    }
    is_coarse = false;
    seed(5);
}

/* Another opens a new file before it is locked, and puts its own in the place: on a system on which a file has its name
   before its first byte. It has let the old one go by the time of the lock, or holds it a while longer. */
static int theirs = -1;

static void let_go(void) { close(theirs), theirs = -1; }

static void held(void) {
    theirs = open(the_file(), O_RDWR);
    IS(theirs >= 0 && flock(theirs, LOCK_EX | LOCK_NB) == 0, true);
}

static void held_and_replaced(void) {
    held();
    replaced();
    before_lock = let_go;
}

static void held_and_replaced_and_let_go(void) {
    held_and_replaced();
    let_go();
    before_lock = NULL;
}

static void a_new_file_that_another_replaces(void) {
    void (*const others[])(void) = { held_and_replaced, held_and_replaced_and_let_go };
    for (size_t i = 0; i < 4; i++) {
        zx_file file = ZX_CLOSED_FILE;
        seed(50);
        IS(rename(the_file(), beside("new")), 0);
        IS(zx_create(&file.segment, 1024), ZX_DONE);
        lacks = NO_NAMELESS;
        before_lock = others[i / 2];
        if (i % 2) {
            IS(zx_file_save_as(&file, the_file(), ZX_CREATE_ONLY), ZX_FILE_EXISTS);
        } else {
            zx_close(&file.segment);
            IS(zx_file_open(&file, the_file(), ZX_OPEN_OR_CREATE, 1024), ZX_DONE);
        }
        before_lock = NULL;
        lacks = HAS_ALL;
        IS(theirs, -1);
        zx_file_discard(&file);
        IS(stands(the_file()), 50);
        IS(count_in(room), 1);
    }
    // one that is kept locked is not removed
    for (uint32_t mode = ZX_CREATE_ONLY; mode <= ZX_OPEN_OR_CREATE; mode += ZX_OPEN_OR_CREATE - ZX_CREATE_ONLY) {
        zx_file file = ZX_CLOSED_FILE;
        IS(unlink(the_file()), 0);
        lacks = NO_NAMELESS;
        before_lock = held;
        IS(zx_file_open(&file, the_file(), mode, 1024), mode == ZX_CREATE_ONLY ? ZX_FILE_EXISTS : ZX_FILE_IN_USE);
        lacks = HAS_ALL;
        let_go();
        IS(stands(the_file()), -2);
    }
    seed(5);
}

/* Only a file system without locks lets all write. A lock that fails for another reason is a fault, and one that was
   interrupted is asked for again. */
static void locks_that_fail(void) {
    static const struct {
        int error;
        zx_code code;
    } reasons[] = { { EOPNOTSUPP, ZX_DONE }, { ENOSYS, ZX_DONE }, { EINVAL, ZX_DONE }, { EINTR, ZX_DONE },
                    { ENOLCK, ZX_FILE_FAULT }, { EIO, ZX_FILE_FAULT }, { EBADF, ZX_FILE_FAULT },
                    { EWOULDBLOCK, ZX_FILE_IN_USE } };
    for (size_t i = 0; i < sizeof reasons / sizeof *reasons; i++) {
        zx_file file = ZX_CLOSED_FILE, other = ZX_CLOSED_FILE;
        const int error = why_unlocked = reasons[i].error;
        const zx_code code = reasons[i].code;
        for (int is_mapped = 0; is_mapped < 2; is_mapped++) {
            seed(5);
            unlocked = 1;
            IS(zx_file_open(&file, the_file(), ZX_OPEN_ONLY | (is_mapped ? ZX_MAPPED : 0), 0), code);
            IS(unlocked, 0);
            IS(file.error, code == ZX_DONE ? 0 : error);
            // an interrupted one has the lock now
            if (error == EINTR) IS(zx_file_open(&other, the_file(), ZX_OPEN_ONLY, 0), ZX_FILE_IN_USE);
            zx_file_discard(&file);
        }
        // the new file of a save, which has no name yet or has one
        for (lacks = HAS_ALL; lacks <= NO_NAMELESS; lacks++) {
            const zx_code saved = error == EWOULDBLOCK ? (zx_code)ZX_DONE : code;
            seed(5);
            IS(zx_file_open(&file, the_file(), ZX_OPEN_ONLY, 0), ZX_DONE);
            IS(set(&file, 6), ZX_DONE);
            unlocked = 1;
            IS(zx_file_save(&file), saved);
            IS(stands(the_file()), saved == ZX_DONE ? 6 : 5);
            IS(unlocked, 0);
            if (error == EINTR) IS(zx_file_open(&other, the_file(), ZX_OPEN_ONLY, 0), ZX_FILE_IN_USE);
            zx_file_discard(&file);
            IS(count_in(room), 1);
        }
        lacks = HAS_ALL;
    }
}

/* A child that the C library does not know of has a copy of the lock, which ends with the parent's. */
static void a_child_by_the_system_call(void) {
    zx_file file = ZX_CLOSED_FILE;
    seed(5);
    IS(zx_file_open(&file, the_file(), ZX_OPEN_ONLY, 0), ZX_DONE);
    pid_t child = (pid_t)syscall(SYS_clone, SIGCHLD, 0, 0, 0, 0);
    if (child == 0)
        for (;;) pause();
    IS(child > 0, true);
    zx_file_discard(&file);
    IS(zx_file_open(&file, the_file(), ZX_OPEN_ONLY, 0), ZX_DONE);
    zx_file_discard(&file);
    kill(child, SIGKILL);
    waitpid(child, NULL, 0);
}

/* Another name of the own file gets the image, and the own name keeps the old one, with its lock, until it is saved.
   A path or a link to the own name is the own file. */
static void saved_by_another_name(void) {
    const char *other = beside("other"), *link_to = beside("link");
    char around[440];
    snprintf(around, sizeof around, "%s/../files.room/./file", room);
    for (int round = 0; round < 8; round++) {
        zx_file file = ZX_CLOSED_FILE, second = ZX_CLOSED_FILE;
        const uint32_t mode = round % 2 ? ZX_OPEN_ONLY : ZX_OPEN_OR_CREATE;
        const bool is_home = round >= 4;
        const char *const paths[] = { other, link_to, around, link_to };
        seed(5);
        IS(link(the_file(), other), 0);
        IS(symlink(is_home ? the_file() : other, link_to), 0);
        IS(zx_file_open(&file, the_file(), ZX_OPEN_ONLY, 0), ZX_DONE);
        IS(set(&file, 6), ZX_DONE);
        IS(zx_file_save_as(&file, other, ZX_CREATE_ONLY), ZX_FILE_EXISTS);
        IS(zx_file_save_as(&file, paths[round / 2], mode), ZX_DONE);
        IS(file.error, 0);
        IS(stands(the_file()), is_home ? 6 : 5);
        IS(stands(other), is_home ? 5 : 6);
        IS(zx_file_open(&second, the_file(), ZX_OPEN_ONLY, 0), ZX_FILE_IN_USE);
        if (!is_home) IS(zx_file_open(&second, other, ZX_OPEN_ONLY, 0), ZX_DONE);
        zx_file_discard(&second);
        IS(zx_file_close(&file), ZX_DONE);
        IS(stands(the_file()), 6);
        IS(count_in(room), 3);
        unlink(other);
        unlink(link_to);
    }
    seed(5);
}

/* Without a name there is no file to find again: a save and a close say so, also where no byte has changed, and the
   segment goes to another file. */
static void a_name_that_is_gone(void) {
    for (int round = 0; round < 16; round++) {
        zx_file file = ZX_CLOSED_FILE;
        const bool is_mapped = round & 1, is_changed = round & 2, is_replaced = round & 4, is_again = round & 8;
        const zx_code told = ZX_FILE_REPLACED;
        if (is_replaced) {
            seed(50);
            IS(rename(the_file(), beside("new")), 0);
        }
        seed(5);
        IS(zx_file_open(&file, the_file(), ZX_OPEN_ONLY | (is_mapped ? ZX_MAPPED : 0), 0), ZX_DONE);
        if (is_changed) IS(set(&file, is_again ? 5 : 6), ZX_DONE);
        IS(is_replaced ? rename(beside("new"), the_file()) : unlink(the_file()), 0);
        IS(zx_file_save(&file), told);
        IS(file.error, ESTALE);
        IS(zx_file_close(&file), told);
        IS(file.error, ESTALE);
        IS(stands(the_file()), is_replaced ? 50 : -1);
        IS(zx_file_save_as(&file, beside("kept"), ZX_CREATE_ONLY), ZX_DONE);
        IS(stands(beside("kept")), is_changed && !is_again ? 6 : 5);
        zx_file_discard(&file);
        IS(stands(the_file()), is_replaced ? 50 : -1);
        IS(unlink(beside("kept")), 0);
    }
    seed(5);
}

/* A mapped file that cannot be cut to its image is not closed, so that a reader by copy never finds it too long behind
   a close that was done. */
static void a_file_that_stays_too_long(void) {
    zx_file file = ZX_CLOSED_FILE;
    struct stat found;
    uint64_t size;
    seed(5);
    IS(zx_file_open(&file, the_file(), ZX_OPEN_ONLY | ZX_MAPPED, 0), ZX_DONE);
    uncut = 2;
    IS(zx_file_shrink(&file), ZX_FILE_FAULT);
    IS(file.error, EIO);
    IS(zx_file_close(&file), ZX_FILE_FAULT);
    IS(file.error, EIO);
    IS(uncut, 0);
    IS(zx_size(&file.segment, &size), ZX_DONE);
    IS(zx_file_close(&file), ZX_DONE);
    IS(stat(the_file(), &found), 0);
    IS(found.st_size, size);
    IS(stands(the_file()), 5);
}

/* Something that cannot be removed has the name for the new file, and the name behind it too: a third one is taken, and
   what one that was killed left there is removed. */
static void a_folder_in_the_way(void) {
    char spares[3][440];
    uint64_t hash = 0xcbf29ce484222325;
    for (const char *at = "file"; *at; at++) hash = (hash ^ (unsigned char)*at) * 0x100000001b3;
    for (unsigned i = 0; i < 3; i++)
        snprintf(spares[i], sizeof spares[i], "%s/.zaluxhoni-%016llx", room, (unsigned long long)hash + i);
    seed(5);
    IS(mkdir(spares[0], 0700), 0);
    IS(mkdir(spares[1], 0700), 0);
    for (int round = 0; round < 3; round++) {
        zx_file file = ZX_CLOSED_FILE;
        int status = 0;
        pid_t child = fork();
        if (child == 0) {
            is_killed = true;
            save_scene(&file);
            _exit(1);
        }
        IS(waitpid(child, &status, 0) == child && WIFSIGNALED(status), true);
        IS(access(spares[2], F_OK), 0);
        if (round < 2) IS(zx_file_open(&file, the_file(), ZX_OPEN_ONLY | (round ? ZX_MAPPED : 0), 0), ZX_DONE);
        IS(access(spares[2], F_OK), round < 2 ? -1 : 0);
        if (round == 2) IS(save_scene(&file), ZX_DONE);
        IS(zx_file_close(&file), ZX_DONE);
        IS(stands(the_file()), round == 2 ? 6 : 5);
        IS(count_in(room), 3);
    }
    IS(rmdir(spares[0]), 0);
    IS(rmdir(spares[1]), 0);
}

/* A file that has no room for the mark is saved without. */
static void no_room_for_the_mark(void) {
    const int reasons[] = { ENOSPC, EDQUOT, E2BIG, EPERM, EIO };
    for (size_t i = 0; i < sizeof reasons / sizeof *reasons; i++) {
        zx_file file = ZX_CLOSED_FILE;
        seed(5);
        untaken = "user.zaluxhoni";
        why_untaken = reasons[i];
        IS(save_scene(&file), ZX_DONE);
        IS(zx_file_close(&file), ZX_DONE);
        untaken = NULL;
        IS(stands(the_file()), 6);
    }
}

/* A name that is taken away between the look and the opening of a reader is a file that is missing, and one that is
   given again is found. */
static void taken_away(void) { rename(the_file(), beside("old")); }
static void behind_the_look_of_a_reader(void) {
    for (int round = 0; round < 4; round++) {
        zx_file file = ZX_CLOSED_FILE;
        const bool is_replaced = round & 1;
        seed(50);
        IS(rename(the_file(), beside("new")), 0);
        seed(5);
        before_open = is_replaced ? replaced : taken_away;
        zx_code code = zx_file_open(&file, the_file(), round & 2 ? ZX_OPEN_READ_ONLY : ZX_OPEN_COPY_ON_WRITE, 0);
        IS(code, is_replaced ? ZX_DONE : ZX_FILE_MISSING);
        IS(file.error, is_replaced ? 0 : ENOENT);
        before_open = NULL;
        zx_file_discard(&file);
        unlink(beside("new"));
        unlink(beside("old"));
    }
    seed(5);
}

/* A file whose lock a child might keep, since nothing is told of forks, is not opened. */
static void forks_that_are_not_watched(void) {
    zx_file file = ZX_CLOSED_FILE;
    is_unwatched = true;
    IS(zx_file_open(&file, the_file(), ZX_CREATE_ONLY, 1024), ZX_NO_MEMORY);
    IS(zx_file_open(&file, the_file(), ZX_CREATE_ONLY | ZX_MAPPED, 1024), ZX_NO_MEMORY);
    IS(file.error, 0);
    IS(count_in(room), 0);
    is_unwatched = false;
}

/* A file that is put in the place of the one that is saved, at the last moment, stays. */
static void a_file_put_there_meanwhile(void) {
    zx_file file = ZX_CLOSED_FILE;
    char other[430], mine[430];
    snprintf(other, sizeof other, "%s.other", the_file());
    snprintf(mine, sizeof mine, "%s", the_file());
    const char *const swap[] = { other, mine };
    seed(50);
    IS(rename(the_file(), other), 0);
    seed(5);
    IS(zx_file_open(&file, the_file(), ZX_OPEN_ONLY, 0), ZX_DONE);
    IS(set(&file, 6), ZX_DONE);
    swapped = swap;
    IS(zx_file_save(&file), ZX_FILE_REPLACED);
    swapped = NULL;
    IS(stands(the_file()), 50);
    IS(zx_file_close(&file), ZX_FILE_REPLACED);
    zx_file_discard(&file);
    IS(count_in(room), 1);
}

/* A file that begins with the image and goes on is another one. */
/* What no call changed is not written, and no byte of the file is looked at; what a view may have changed is. */
static void what_did_not_change(void) {
    zx_file file = ZX_CLOSED_FILE;
    zx_key key = zx_name("n");
    zx_elements number;
    zx_value value;
    IS(zx_file_open(&file, the_file(), ZX_OPEN_ONLY, 0), ZX_DONE);
    IS(zx_get(&file.segment, &key, 0, &value), ZX_DONE);
    IS(zx_view(&file.segment, &key, &number), ZX_DONE);
    const int before = transfers;
    IS(zx_file_save(&file), ZX_DONE);
    IS(transfers, before);
    IS(zx_view_mut(&file.segment, &key, &number), ZX_DONE);
    *(int64_t *)zx_elements_mut(&file.segment, &number) = 6;
    IS(zx_file_save(&file), ZX_DONE);
    IS(stands(the_file()), 6);
    *(int64_t *)zx_elements_mut(&file.segment, &number) = 7;
    IS(zx_file_close(&file), ZX_DONE);
    IS(stands(the_file()), 7);
    seed(5);
}

static void a_longer_file(void) {
    zx_file file = ZX_CLOSED_FILE;
    seed(5);
    IS(zx_file_open(&file, the_file(), ZX_OPEN_COPY_ON_WRITE, 0), ZX_DONE);
    FILE *longer = fopen(the_file(), "ab");
    if (longer) fputs("more", longer), fclose(longer);
    IS(is_saved(&file, the_file()), false);
    IS(zx_file_save_as(&file, the_file(), ZX_OPEN_OR_CREATE), ZX_DONE);
    IS(is_saved(&file, the_file()), true);
    zx_file_discard(&file);
}

/* Pages of zeros become holes, and come back; pages that begin with zeros are none. */
static void holes(void) {
    zx_file file = ZX_CLOSED_FILE;
    struct stat found;
    static uint8_t text[20000];
    zx_key key = zx_name("filling");
    uint64_t handle;
    for (size_t i = 0; i < sizeof text; i += 512) text[i] = 1;
    IS(unlink(the_file()), 0);
    IS(zx_file_open(&file, the_file(), ZX_CREATE_ONLY, 1 << 17), ZX_DONE);
    IS(set(&file, 5), ZX_DONE);
    IS(zx_construct_string(&file.segment, &key, text, sizeof text, &handle), ZX_DONE);
    IS(zx_file_save(&file), ZX_DONE);
    IS(is_saved(&file, the_file()), true);
    zx_file_discard(&file);
    IS(unlink(the_file()), 0);
    IS(zx_file_open(&file, the_file(), ZX_CREATE_ONLY, 1 << 20), ZX_DONE);
    IS(set(&file, 5), ZX_DONE);
    IS(zx_file_close(&file), ZX_DONE);
    IS(stat(the_file(), &found), 0);
    IS(found.st_size, 1 << 20);
    IS(stands(the_file()), 5);
    IS(unlink(the_file()), 0);
}

/* Rights, owner and group stay, and are there before a byte is; where the owner cannot be kept, nobody may more than
   before. */
static void rights(void) {
    for (lacks = HAS_ALL; lacks < SYSTEMS; lacks++) {
        zx_file file = ZX_CLOSED_FILE;
        struct stat found;
        seed(5);
        IS(chmod(the_file(), 0640), 0);
        wanted_rights = 0640;
        IS(save_scene(&file), ZX_DONE);
        IS(stat(the_file(), &found), 0);
        IS(found.st_mode & 07777, 0640);
        wanted_rights = 0;
        zx_file_discard(&file);
        for (gid_t group = 0; geteuid() == 0 && group <= 4321; group += 4321) {
            bool has_owner = lacks != NO_OWNERS;
            IS(chown(the_file(), 1234, group), 0);
            IS(chmod(the_file(), 04664), 0);
            IS(zx_file_open(&file, the_file(), ZX_OPEN_ONLY, 0), ZX_DONE);
            IS(set(&file, 8 + (int64_t)group), ZX_DONE);
            IS(zx_file_close(&file), ZX_DONE);
            IS(stat(the_file(), &found), 0);
            IS(found.st_uid, has_owner ? 1234 : 0);
            IS(found.st_gid, has_owner ? group : 0);
            IS(found.st_mode & 07777, has_owner ? 04664 : group == 0 ? 0664 : 0644);
        }
        IS(unlink(the_file()), 0);
    }
    lacks = HAS_ALL;
}

/* ---- access control lists and attributes of users: kept, and where a list cannot be kept, nobody may more */

static const char LIST[] = "system.posix_acl_access";
enum { USER_OBJ = 1, USER = 2, GROUP_OBJ = 4, GROUP = 8, MASK = 16, OTHER = 32, NAMED = 1234 };

/* A list as the system spells it: the rights of the owner, of one who is named, of the group, the mask, of others. */
static size_t spell_list(uint8_t list[44], int named_tag, int named, int group, int mask, int others) {
    const int entries[5][3] = { { USER_OBJ, 6, -1 }, { named_tag, named, NAMED }, { GROUP_OBJ, group, -1 },
                                { MASK, mask, -1 }, { OTHER, others, -1 } };
    const int in_order[2][5] = { { 0, 1, 2, 3, 4 }, { 0, 2, 1, 3, 4 } };
    memset(list, 0, 44);
    list[0] = 2;
    for (int i = 0; i < 5; i++) {
        const int *entry = entries[in_order[named_tag == GROUP][i]];
        uint8_t *at = list + 4 + 8 * i;
        at[0] = (uint8_t)entry[0], at[2] = (uint8_t)entry[1];
        for (int k = 0; k < 4; k++) at[4 + k] = (uint8_t)((unsigned)entry[2] >> 8 * k);
    }
    return 44;
}

/* The number of bytes of the file's list, and whether they are these; 0 where it has none. */
static bool has_list(const uint8_t *list, size_t len) {
    uint8_t found[200];
    ssize_t is = getxattr(the_file(), LIST, found, sizeof found);
    return len == 0 ? is < 0 : is == (ssize_t)len && memcmp(found, list, len) == 0;
}

static mode_t rights_of(const char *path) {
    struct stat found;
    return stat(path, &found) == 0 ? found.st_mode & 07777 : 0;
}

static bool has_lists(void) {
    uint8_t list[44];
    size_t len = spell_list(list, USER, 6, 0, 6, 0);
    seed(5);
    if (setxattr(the_file(), LIST, list, len, 0) == 0 && setxattr(the_file(), "user.note", "x", 1, 0) == 0) return true;
    printf("no access control lists or attributes in %s: they are not tried\n", room);
    return false;
}

/* The list stays. Without it the group has what its own entry gives, and nobody who is named with less gets more. */
static void lists(void) {
    static const struct {
        int tag, named, group, mask, others;
        mode_t shown, without;
    } tried[] = { { USER, 6, 0, 6, 0, 0660, 0600 },   { USER, 6, 4, 6, 0, 0660, 0640 },
                  { GROUP, 6, 0, 6, 0, 0660, 0600 },  { USER, 0, 4, 4, 4, 0644, 0600 },
                  { GROUP, 4, 6, 4, 6, 0646, 0644 },  { USER, 6, 6, 0, 0, 0600, 0600 } };
    for (size_t i = 0; i < 2 * (sizeof tried / sizeof *tried); i++) {
        zx_file file = ZX_CLOSED_FILE;
        uint8_t list[44];
        const bool is_kept = i % 2 == 0;
        size_t k = i / 2;
        seed(5);
        size_t len = spell_list(list, tried[k].tag, tried[k].named, tried[k].group, tried[k].mask, tried[k].others);
        IS(setxattr(the_file(), LIST, list, len, 0), 0);
        IS(rights_of(the_file()), tried[k].shown);
        wanted_rights = is_kept ? tried[k].shown : tried[k].without;
        untaken = is_kept ? NULL : LIST;
        why_untaken = i % 4 == 1 ? ENOTSUP : EPERM;
        IS(save_scene(&file), ZX_DONE);
        IS(zx_file_close(&file), ZX_DONE);
        wanted_rights = 0;
        untaken = NULL;
        IS(rights_of(the_file()), is_kept ? tried[k].shown : tried[k].without);
        IS(has_list(list, is_kept ? len : 0), true);
    }
}

/* A list that the process may not read may deny what the bits of the group, which are its mask, give. */
static void list_that_is_hidden(void) {
    zx_file file = ZX_CLOSED_FILE;
    uint8_t list[44];
    seed(5);
    IS(setxattr(the_file(), LIST, list, spell_list(list, USER, 6, 0, 6, 4), 0), 0);
    IS(rights_of(the_file()), 0664);
    unread = LIST;
    IS(save_scene(&file), ZX_DONE);
    IS(zx_file_close(&file), ZX_DONE);
    unread = NULL;
    IS(rights_of(the_file()), 0600);
    IS(stands(the_file()), 6);
}

/* What the folder would give to a new file, the one that was replaced did not give. */
static void list_of_the_folder(void) {
    zx_file file = ZX_CLOSED_FILE;
    uint8_t list[44];
    size_t len = spell_list(list, USER, 6, 6, 6, 6);
    seed(5);
    IS(chmod(the_file(), 0664), 0);
    IS(setxattr(room, "system.posix_acl_default", list, len, 0), 0);
    IS(save_scene(&file), ZX_DONE);
    IS(zx_file_close(&file), ZX_DONE);
    IS(removexattr(room, "system.posix_acl_default"), 0);
    IS(has_list(NULL, 0), true);
    IS(rights_of(the_file()), 0664);
}

/* Where the group cannot be kept, the list would give its rights to another group. */
static void lists_without_owner(void) {
    zx_file file = ZX_CLOSED_FILE;
    uint8_t list[44];
    if (geteuid() != 0) return;
    for (gid_t group = 0; group <= 4321; group += 4321) {
        seed(5);
        IS(chown(the_file(), 1234, group), 0);
        IS(chmod(the_file(), 06644), 0);
        size_t len = spell_list(list, USER, 6, 4, 6, 0);
        IS(setxattr(the_file(), LIST, list, len, 0), 0);
        lacks = NO_OWNERS;
        IS(save_scene(&file), ZX_DONE);
        IS(zx_file_close(&file), ZX_DONE);
        lacks = HAS_ALL;
        IS(has_list(list, group == 0 ? len : 0), true);
        IS(rights_of(the_file()), group == 0 ? 0660 : 0600);
    }
    // whom the old group had, others are now: they get no more than it had
    seed(5);
    IS(chown(the_file(), 0, 4321), 0);
    IS(chmod(the_file(), 02606), 0);
    lacks = NO_OWNERS;
    IS(save_scene(&file), ZX_DONE);
    IS(zx_file_close(&file), ZX_DONE);
    lacks = HAS_ALL;
    IS(rights_of(the_file()), 0600);
}

/* Attributes of users stay, but for the mark. A disk that is full for them is a fault, and the old file stays. */
static void attributes(void) {
    zx_file file = ZX_CLOSED_FILE;
    char value[8] = "";
    seed(5);
    IS(setxattr(the_file(), "user.note", "told", 4, 0), 0);
    IS(setxattr(the_file(), "user.empty", "", 0, 0), 0);
    IS(save_scene(&file), ZX_DONE);
    IS(getxattr(the_file(), "user.note", value, sizeof value), 4);
    IS(memcmp(value, "told", 4), 0);
    IS(getxattr(the_file(), "user.empty", value, sizeof value), 0);
    IS(getxattr(the_file(), "user.zaluxhoni", value, sizeof value), -1);
    IS(set(&file, 7), ZX_DONE);
    untaken = "user.note";
    why_untaken = ENOSPC;
    IS(zx_file_save(&file), ZX_FILE_FAULT);
    IS(file.error, ENOSPC);
    IS(stands(the_file()), 6);
    IS(count_in(room), 1);
    why_untaken = ENOTSUP;
    IS(zx_file_close(&file), ZX_DONE);
    untaken = NULL;
    IS(stands(the_file()), 7);
    IS(getxattr(the_file(), "user.empty", value, sizeof value), 0);
    IS(getxattr(the_file(), "user.note", value, sizeof value), -1);
}

static void kept_beside_the_bytes(void) {
    if (has_lists()) {
        lists();
        list_that_is_hidden();
        list_of_the_folder();
        lists_without_owner();
        attributes();
    }
    unlink(the_file());
}

/* ---- threads: each adds to a file that all have, and to one of its own */

enum { THREADS = 4, TIMES = 25 };

static void *add(void *own) {
    zx_file file = ZX_CLOSED_FILE;
    for (int i = 0; i < TIMES; i++) {
        const char *paths[] = { the_file(), own };
        for (int k = 0; k < 2; k++) {
            while (zx_file_open(&file, paths[k], ZX_OPEN_OR_CREATE, 1024) == ZX_FILE_IN_USE) usleep(100);
            zx_key key = zx_name("n");
            zx_value value = zx_i64(0);
            zx_get(&file.segment, &key, 0, &value);
            set(&file, value.number + 1);
            zx_code code = zx_file_close(&file);
            if (code != ZX_DONE) {
                printf("WRONG code %u, error %d of %s\n", code, file.error, paths[k]);
                zx_file_discard(&file);
            }
        }
    }
    return NULL;
}

static void threads(void) {
    pthread_t all[THREADS];
    static char paths[THREADS][420];
    for (int i = 0; i < THREADS; i++) {
        snprintf(paths[i], sizeof paths[i], "%s/own%d", room, i);
        IS(pthread_create(&all[i], NULL, add, paths[i]), 0);
    }
    for (int i = 0; i < THREADS; i++) IS(pthread_join(all[i], NULL), 0);
    IS(stands(the_file()), THREADS * TIMES);
    for (int i = 0; i < THREADS; i++) {
        IS(stands(paths[i]), TIMES);
        IS(unlink(paths[i]), 0);
    }
    IS(count_in(room), 1);
    IS(unlink(the_file()), 0);
}

int main(int count, char **words) {
    if (count < 2) return 2;
    snprintf(room, sizeof room, "%s/files.room", words[1]);
    IS(mkdir(room, 0700), 0);
    forks_that_are_not_watched();
    if (count < 3) where_the_system_fails();
    if (count < 3) who_saves_is_killed();
    if (count < 3) who_forked_is_killed();
    if (count < 3) unlink(the_file());
    seed(5);
    what_is_passed();
    a_pipe_behind_the_look();
    names_behind_the_look();
    a_new_file_that_another_replaces();
    locks_that_fail();
    a_child_by_the_system_call();
    what_did_not_change();
    a_longer_file();
    saved_by_another_name();
    a_name_that_is_gone();
    a_file_that_stays_too_long();
    if (count < 3) a_folder_in_the_way();
    no_room_for_the_mark();
    behind_the_look_of_a_reader();
    a_file_put_there_meanwhile();
    holes();
    rights();
    kept_beside_the_bytes();
    threads();
    IS(rmdir(room), 0);
    printf("files: %d cases, %d wrong\n", cases, wrong);
    return wrong != 0;
}
