/* fuzz_files [CORPUS] [FLAGS OF libFuzzer]: random calls of zaluxhoni_files.h on three names in one folder, while calls
   of the system fail, others change the folder between two of them, and processes are killed and forked. After each
   call a name leads to the image that it had, or to the one that was saved, and never to anything else; the code says
   which; and nobody may do more with it than before. files.c takes its calls of the system from the table below. The
   folder is in FUZZ_FOLDER, or in /dev/shm. At the end it prints how many calls it made.

   A process of libFuzzer is large, and a fork of it takes as long as a hundred calls. So the process that is killed is
   this one: it leaves the call by a jump, and loses what that call has, as the system takes it from a killed process. */
#define _GNU_SOURCE
#define ZX_TEST_SYSTEM
#include "../files.c"

#include <dirent.h>
#include <setjmp.h>
#include <sys/wait.h>

enum { NAMES = 3, FILES = 2, SIZE = 4096, LIST_LEN = 44, NAMED = 1234 };

/* The first call that wants a fork makes one, and then one of RARELY calls does. */
enum { RARELY = 1000 };
enum { MISSING = -1, NO_IMAGE = -2, OTHERS_NUMBER = 1000 };

/* ---- what happens to the calls of the system: one fails, or others act before it, or the process is killed */

static int calls, fails_at, acts_at, killed_at, why, action;
static bool is_disturbed; /* whether something of this happened */
static uint64_t made; /* calls of zaluxhoni_files.h */

static void act(int which);

/* ---- what a process has that is killed: descriptors, memory, mappings */

enum { MOST = 64 };

static bool is_mortal; /* whether what it gets now is noted */
static jmp_buf killed;
static struct {
    enum { DESCRIPTOR, MEMORY, MAPPING } what;
    void *at;
    size_t len; /* of a mapping, or the number of a descriptor */
} has[MOST];
static int has_count;

static void note(int what, void *at, size_t len) {
    if (!is_mortal) return;
    if (has_count == MOST) abort();
    has[has_count].what = what, has[has_count].at = at, has[has_count++].len = len;
}

/* Removes what was noted, if it was. */
static void forget_noted(int what, const void *at, size_t len) {
    for (int i = has_count; i-- > 0;) {
        if (has[i].what != (unsigned)what || has[i].at != at || (what == DESCRIPTOR && has[i].len != len)) continue;
        has[i] = has[--has_count];
        return;
    }
}

static int noted_file(int file) {
    if (file >= 0) note(DESCRIPTOR, NULL, (size_t)file);
    return file;
}

static void *noted_memory(void *at) {
    if (at) note(MEMORY, at, 0);
    return at;
}

static void *noted_mapping(void *at, size_t len) {
    if (at != MAP_FAILED) note(MAPPING, at, len);
    return at;
}

static bool happens(void) {
    calls++;
    if (is_mortal && calls == killed_at) longjmp(killed, 1);
    if (calls == acts_at) {
        is_disturbed = true;
        act(action);
    }
    if (calls != fails_at) return false;
    is_disturbed = true;
    errno = why;
    return true;
}

#define CALL(answer, failed, name, parameters, ...) \
    static answer fuzzed_##name parameters { return happens() ? failed : (name)(__VA_ARGS__); }
#define FILE_CALL(name, parameters, ...) \
    static int fuzzed_##name parameters { return happens() ? -1 : noted_file((name)(__VA_ARGS__)); }
#define MEMORY_CALL(answer, name, parameters, ...) \
    static answer fuzzed_##name parameters { return happens() ? NULL : noted_memory((name)(__VA_ARGS__)); }

FILE_CALL(open, (const char *path, int how), path, how)
FILE_CALL(openat, (int folder, const char *path, int how, mode_t mode), folder, path, how, mode)
FILE_CALL(userfaultfd, (int how), how)
FILE_CALL(memfd_create, (const char *name, unsigned how), name, how)
CALL(ssize_t, -1, pread, (int file, void *bytes, size_t len, off_t from), file, bytes, len, from)
CALL(ssize_t, -1, pwrite, (int file, const void *bytes, size_t len, off_t from), file, bytes, len, from)
CALL(int, -1, ftruncate, (int file, off_t len), file, len)
CALL(int, -1, fallocate, (int file, int how, off_t from, off_t len), file, how, from, len)
CALL(off_t, -1, lseek, (int file, off_t from, int whence), file, from, whence)
CALL(int, -1, fsync, (int file), file)
CALL(int, -1, fdatasync, (int file), file)
CALL(int, -1, syncfs, (int file), file)
CALL(int, -1, flock, (int file, int how), file, how)
CALL(int, -1, ioctl, (int file, unsigned long call, void *words), file, call, words)
CALL(int, -1, lstat, (const char *path, struct stat *found), path, found)
CALL(int, -1, stat, (const char *path, struct stat *found), path, found)
CALL(int, -1, fstat, (int file, struct stat *found), file, found)
CALL(int, -1, fstatat, (int folder, const char *path, struct stat *found, int how), folder, path, found, how)
CALL(int, -1, fstatfs, (int file, struct statfs *disk), file, disk)
CALL(int, -1, fchmod, (int file, mode_t mode), file, mode)
CALL(int, -1, fchown, (int file, uid_t user, gid_t group), file, user, group)
CALL(ssize_t, -1, fgetxattr, (int file, const char *name, void *value, size_t room), file, name, value, room)
CALL(int, -1, fsetxattr, (int file, const char *name, const void *value, size_t len, int how), file, name, value, len,
     how)
CALL(int, -1, fremovexattr, (int file, const char *name), file, name)
CALL(ssize_t, -1, flistxattr, (int file, char *names, size_t room), file, names, room)
CALL(int, -1, linkat, (int from, const char *one, int to, const char *other, int how), from, one, to, other, how)
CALL(int, -1, renameat, (int from, const char *one, int to, const char *other), from, one, to, other)
CALL(int, -1, unlinkat, (int folder, const char *path, int how), folder, path, how)
CALL(int, -1, msync, (void *at, size_t len, int how), at, len, how)
CALL(int, -1, madvise, (void *at, size_t len, int advice), at, len, advice)
MEMORY_CALL(void *, malloc, (size_t size), size)
MEMORY_CALL(void *, calloc, (size_t count, size_t size), count, size)
MEMORY_CALL(char *, realpath, (const char *path, char *found), path, found)

static void *fuzzed_mmap(void *at, size_t len, int protection, int how, int file, off_t from) {
    return happens() ? MAP_FAILED : noted_mapping((mmap)(at, len, protection, how, file, from), len);
}

static void *fuzzed_mremap(void *at, size_t len, size_t wanted, int how) {
    if (happens()) return MAP_FAILED;
    void *now = (mremap)(at, len, wanted, how);
    if (now != MAP_FAILED) forget_noted(MAPPING, at, 0);
    return noted_mapping(now, wanted);
}

static int fuzzed_munmap(void *at, size_t len) {
    forget_noted(MAPPING, at, 0);
    return (munmap)(at, len);
}

static int fuzzed_close(int file) {
    forget_noted(DESCRIPTOR, NULL, (size_t)file);
    return (close)(file);
}

static void fuzzed_free(void *at) {
    forget_noted(MEMORY, at, 0);
    (free)(at);
}

struct zx_system zx_system = {
    .open = fuzzed_open, .openat = fuzzed_openat, .pread = fuzzed_pread, .pwrite = fuzzed_pwrite,
    .ftruncate = fuzzed_ftruncate, .fallocate = fuzzed_fallocate, .lseek = fuzzed_lseek, .fsync = fuzzed_fsync,
    .fdatasync = fuzzed_fdatasync, .madvise = fuzzed_madvise, .memfd_create = fuzzed_memfd_create,
    .userfaultfd = fuzzed_userfaultfd,
    .syncfs = fuzzed_syncfs, .flock = fuzzed_flock, .ioctl = fuzzed_ioctl, .lstat = fuzzed_lstat, .stat = fuzzed_stat,
    .fstat = fuzzed_fstat, .fstatat = fuzzed_fstatat, .fstatfs = fuzzed_fstatfs, .fchmod = fuzzed_fchmod,
    .fchown = fuzzed_fchown, .fgetxattr = fuzzed_fgetxattr, .fsetxattr = fuzzed_fsetxattr,
    .fremovexattr = fuzzed_fremovexattr, .flistxattr = fuzzed_flistxattr, .linkat = fuzzed_linkat,
    .renameat = fuzzed_renameat, .unlinkat = fuzzed_unlinkat, .mmap = fuzzed_mmap, .mremap = fuzzed_mremap,
    .munmap = fuzzed_munmap, .msync = fuzzed_msync, .close = fuzzed_close, .malloc = fuzzed_malloc,
    .calloc = fuzzed_calloc, .free = fuzzed_free, .realpath = fuzzed_realpath, .pthread_atfork = pthread_atfork,
};

/* Nothing happens to the calls until the next disturb. */
static void leave_alone(void) { fails_at = acts_at = killed_at = 0; }

/* ---- what stands under the names */

static char paths[NAMES + 1][300], folder[280];

struct standing {
    int64_t number; /* in the segment, or MISSING or NO_IMAGE */
    struct stat found;
    uint8_t list[200];
    ssize_t list_len;
};

struct model {
    zx_file file;
    int name;        /* under which it was opened */
    ino_t inode;     /* of its file, as far as this knows */
    int64_t number;  /* in memory */
    bool is_mapped, is_written;
    bool is_unsure;  /* whether others acted as the inode was noted, which may be of their file */
    zx_step step;    /* a transaction, if one is open */
    bool is_in_step;
    int64_t number_before;
};

static struct model files[FILES];
static bool was_mapped; /* whether a file was: then bytes may be no image while it is open */

static void fail(const char *what, int which) {
    fprintf(stderr, "fuzz_files: %s: %d\n", what, which);
    abort();
}

static zx_code set(zx_file *file, int64_t number) {
    zx_key key = zx_name("n");
    zx_value value = zx_i64(number);
    uint64_t handle;
    uint32_t found;
    zx_code code = zx_find_or_construct(&file->segment, &key, 1, &value, &handle, &found);
    return code == ZX_DONE ? zx_set(&file->segment, &key, 0, &value) : code;
}

static int64_t get(zx_file *file) {
    zx_key key = zx_name("n");
    zx_value value = zx_i64(0);
    zx_get(&file->segment, &key, 0, &value);
    return value.number;
}

static struct standing stands(int name) {
    struct standing now = { .number = MISSING, .list_len = 0 };
    zx_file file = ZX_CLOSED_FILE;
    leave_alone();
    if ((lstat)(paths[name], &now.found) != 0) return now;
    zx_code code = zx_file_open(&file, paths[name], ZX_OPEN_READ_ONLY, 0);
    now.number = code == ZX_DONE ? get(&file) : NO_IMAGE;
    zx_file_discard(&file);
    now.list_len = getxattr(paths[name], LIST, now.list, sizeof now.list);
    if (now.list_len < 0) now.list_len = 0;
    return now;
}

/* ---- what others do */

static size_t spell_list(uint8_t list[LIST_LEN], int named, int group, int mask, int others) {
    const int entries[5][3] = { { 1, 6, -1 }, { 2, named, NAMED }, { 4, group, -1 }, { 16, mask, -1 },
                                { 32, others, -1 } };
    memset(list, 0, LIST_LEN);
    list[0] = 2;
    for (int i = 0; i < 5; i++) {
        uint8_t *at = list + 4 + 8 * i;
        at[0] = (uint8_t)entries[i][0], at[2] = (uint8_t)entries[i][1];
        for (int k = 0; k < 4; k++) at[4 + k] = (uint8_t)((unsigned)entries[i][2] >> 8 * k);
    }
    return LIST_LEN;
}

/* Another file with an image of its own takes the place of a name, as a program without locks does it. */
static void put_another(const char *path) {
    static uint8_t image[SIZE];
    char beside[320];
    zx_segment segment = ZX_CLOSED_HANDLE;
    zx_key key = zx_name("n");
    zx_value value = zx_i64(OTHERS_NUMBER);
    uint64_t handle;
    snprintf(beside, sizeof beside, "%s.other", path);
    if (zx_create(&segment, SIZE) == ZX_DONE && zx_construct(&segment, &key, 1, &value, &handle) == ZX_DONE &&
        zx_save(&segment, image, SIZE) == ZX_DONE) {
        int file = (open)(beside, O_CREAT | O_TRUNC | O_WRONLY, 0600);
        if (file >= 0 && write(file, image, SIZE) == SIZE) rename(beside, path);
        if (file >= 0) (close)(file);
    }
    zx_close(&segment);
}

static void act(int which) {
    static const mode_t modes[] = { 0600, 0640, 0644, 0666, 0606, 0660, 04755, 02660 };
    const char *path = paths[which % NAMES], *other = paths[(which + 1) % NAMES];
    uint8_t list[LIST_LEN];
    int kind = which / NAMES % 8, detail = which / NAMES / 8;
    if (kind == 0) unlink(path);
    if (kind == 1) put_another(path);
    if (kind == 2) link(path, other);
    if (kind == 3) rename(path, other);
    if (kind == 4) chmod(path, modes[detail % 8]);
    if (kind == 5) setxattr(path, LIST, list, spell_list(list, detail % 8, detail / 2 % 8, 7, detail % 3), 0);
    if (kind == 6 && geteuid() == 0 && chown(path, detail % 2 ? NAMED : 0, detail / 2 % 2 ? 4321 : 0) == 0) return;
    if (kind == 7) setxattr(folder, "system.posix_acl_default", list, spell_list(list, 7, 7, 7, 7), 0);
}

/* ---- what is right behind a call */

/* What a user of a group may do with a file. */
static int may(const struct standing *of, uid_t user, gid_t group) {
    int mode = (int)of->found.st_mode, in_group = group == of->found.st_gid;
    if (user == of->found.st_uid) return 7;
    if (of->list_len == 0) return in_group ? mode >> 3 & 7 : mode & 7;
    int named = -1, own_group = 0, mask = 7, others = mode & 7;
    for (ssize_t at = 4; at + 8 <= of->list_len; at += 8) {
        int tag = of->list[at], bits = of->list[at + 2];
        unsigned who = of->list[at + 4] | (unsigned)of->list[at + 5] << 8;
        if (tag == 2 && who == user) named = bits;
        if (tag == 4) own_group = bits;
        if (tag == 16) mask = bits;
    }
    return named >= 0 ? named & mask : in_group ? own_group & mask : others;
}

/* A file that took the place of another gives nobody more than that did, but to who saved it. */
static void check_rights(const struct standing *before, const struct standing *after) {
    static const struct {
        uid_t user;
        gid_t group;
    } all[] = { { NAMED, 1 }, { NAMED, 4321 }, { NAMED, 0 }, { 77, 1 }, { 77, 4321 }, { 77, 0 } };
    for (size_t i = 0; i < sizeof all / sizeof *all; i++) {
        int gained = may(after, all[i].user, all[i].group) & ~may(before, all[i].user, all[i].group);
        if (gained) fail("rights are wider", (int)i);
    }
    bool is_moved = before->found.st_uid != after->found.st_uid || before->found.st_gid != after->found.st_gid;
    if (is_moved && after->found.st_mode & 06000) fail("another owner has a set-ID bit", (int)after->found.st_mode);
}

/* What stands under each name behind a call that may save `number` under `target`. */
static void check(const struct standing before[NAMES], int target, int64_t number, bool may_save, bool is_saved,
                  bool is_mapped) {
    bool others_acted = is_disturbed && acts_at != 0 && calls >= acts_at;
    for (int i = 0; i < NAMES; i++) {
        struct standing now = stands(i);
        bool is_same = now.number == before[i].number && now.found.st_ino == before[i].found.st_ino;
        bool is_new = may_save && i == target && now.number == number;
        if (is_new && before[i].number >= 0 && now.found.st_ino != before[i].found.st_ino && !others_acted)
            check_rights(&before[i], &now);
        // a mapped file is changed in place, under each of its names
        if (is_mapped || others_acted) continue;
        if (now.number == NO_IMAGE && !was_mapped) fail("no image", i);
        if (is_saved && i == target && !is_new) fail("done, and not saved", i);
        if (!is_saved && i == target && !is_same && may_save && is_new) fail("refused, and saved", i);
        if (!is_same && !is_new) fail("a name leads elsewhere", i);
    }
}

/* ---- the calls */

struct input {
    const uint8_t *at, *end;
};

static int next(struct input *input) { return input->at < input->end ? *input->at++ : 0; }

static bool is_done(zx_code code) { return code == ZX_DONE || code == ZX_FILE_UNSYNCED; }

static void note_inode(struct model *of) {
    struct stat found;
    of->inode = (stat)(paths[of->name], &found) == 0 ? found.st_ino : 0;
    of->is_unsure = is_disturbed;
}

/* Returns true if its name leads to the file that it has; a mapped file keeps its bytes under any name. */
static bool is_home(const struct model *of) {
    struct stat found;
    for (int i = 0; i < NAMES; i++) {
        bool counts = i == of->name || of->is_mapped;
        if (counts && (stat)(paths[i], &found) == 0 && found.st_ino == of->inode) return true;
    }
    return false;
}

static void open_one(struct model *of, struct input *input) {
    struct standing before[NAMES];
    static const uint32_t modes[] = { ZX_OPEN_ONLY, ZX_OPEN_OR_CREATE, ZX_CREATE_ONLY, ZX_OPEN_COPY_ON_WRITE };
    int how = next(input), name = how / 8 % NAMES, fails = fails_at, acts = acts_at;
    bool is_mapped = how & 4;
    if (of->file.segment.at || of->file.held) return;
    for (int i = 0; i < NAMES; i++) before[i] = stands(i);
    fails_at = fails, acts_at = acts, calls = 0;
    was_mapped |= is_mapped;
    zx_code code = zx_file_open(&of->file, paths[name], modes[how % 4] | (is_mapped ? ZX_MAPPED : 0), SIZE);
    of->name = name;
    of->is_mapped = is_mapped;
    of->is_written = how % 4 != 3;
    // what it created has no number yet
    bool may_create = before[name].number == MISSING && (how % 4 == 1 || how % 4 == 2);
    check(before, name, 0, may_create, may_create && code == ZX_DONE, is_mapped);
    if (code != ZX_DONE) return;
    note_inode(of);
    of->number = get(&of->file);
}

static void save_one(struct model *of, bool closes) {
    struct standing before[NAMES];
    int fails = fails_at, acts = acts_at;
    bool was_open = of->file.segment.at && of->file.held, was_home = is_home(of);
    for (int i = 0; i < NAMES; i++) before[i] = stands(i);
    fails_at = fails, acts_at = acts, calls = 0;
    zx_code code = closes ? zx_file_close(&of->file) : zx_file_save(&of->file);
    bool is_saved = was_open && of->is_written && is_done(code);
    bool is_certain = was_open && of->is_written && !is_disturbed && !of->is_unsure;
    // in a transaction nothing is saved
    if (is_certain && is_done(code) != (was_home && !of->is_in_step)) fail("home and code differ", (int)code);
    check(before, of->name, of->number, was_open && of->is_written, is_saved, of->is_mapped);
    if (is_saved && !closes && !of->is_mapped) note_inode(of);
}

static void save_one_as(struct model *of, struct input *input) {
    struct standing before[NAMES];
    int how = next(input), name = how / 4 % NAMES, fails = fails_at, acts = acts_at;
    uint32_t mode = ZX_CREATE_ONLY + (uint32_t)(how % 3);
    bool was_open = of->file.segment.at, was_home = is_home(of);
    for (int i = 0; i < NAMES; i++) before[i] = stands(i);
    fails_at = fails, acts_at = acts, calls = 0;
    zx_code code = zx_file_save_as(&of->file, paths[name], mode);
    bool is_new = mode != ZX_OPEN_ONLY && before[name].number == MISSING;
    if (!is_disturbed && is_done(code) && mode == ZX_CREATE_ONLY && !is_new) fail("created what exists", name);
    check(before, name, of->number, was_open, was_open && is_done(code), of->is_mapped);
    // a name that led elsewhere before leads to a file that is not its own
    if (is_done(code) && of->file.held && was_home && of->name == name && !of->is_mapped) note_inode(of);
}

static zx_file mortal;

/* Takes from a process that was killed what it had. `before` are the files that others hold. */
static void lose_all(struct zx_held_file *before) {
    guard = (pthread_mutex_t)PTHREAD_MUTEX_INITIALIZER;
    while (all_held != before) all_held = all_held->next;
    for (int i = 0; i < has_count; i++) {
        if (has[i].what == DESCRIPTOR) (close)((int)has[i].len);
        else if (has[i].what == MEMORY) (free)(has[i].at);
        else (munmap)(has[i].at, has[i].len);
    }
    has_count = 0;
    mortal.held = NULL;
    zx_close(&mortal.segment);
}

/* A process is killed before a call of a save, and leaves the old image or the new one. */
static void kill_one(struct input *input) {
    struct standing before[NAMES];
    int name = next(input) % NAMES, at = next(input) % 48 + 1;
    int64_t number = next(input) + 300;
    struct zx_held_file *volatile held = all_held;
    volatile bool was_killed = true;
    for (int i = 0; i < NAMES; i++) before[i] = stands(i);
    calls = has_count = 0;
    killed_at = at;
    is_mortal = true;
    made += 2;
    if (setjmp(killed) == 0) {
        if (zx_file_open(&mortal, paths[name], ZX_OPEN_ONLY, SIZE) == ZX_DONE) {
            set(&mortal, number);
            zx_file_close(&mortal);
        }
        zx_file_discard(&mortal);
        was_killed = false;
    }
    is_mortal = false;
    killed_at = 0;
    lose_all(held);
    is_disturbed = false;
    check(before, name, number, before[name].number != MISSING, false, true);
    struct standing now = stands(name);
    if (now.number != before[name].number && now.number != number) fail("neither old nor new", (int)now.number);
    if (now.number == number && now.found.st_ino != before[name].found.st_ino) check_rights(&before[name], &now);
    if (!was_killed && has_count > 0) fail("a process kept what it had", has_count);
}

/* A child has no part in the files of its parent. */
static void fork_one(void) {
    static uint64_t next_time;
    int status = 0;
    if (made < next_time) return;
    next_time = made + RARELY;
    pid_t child = fork();
    if (child == 0) {
        bool is_free = true;
        for (int i = 0; i < FILES; i++) {
            if (!files[i].file.held) continue;
            set(&files[i].file, 77);
            zx_code code = zx_file_save(&files[i].file);
            if (files[i].is_written && code != ZX_FILE_FORKED && code != ZX_CLOSED) is_free = false;
            zx_file_discard(&files[i].file);
        }
        _exit(is_free ? 0 : 1);
    }
    waitpid(child, &status, 0);
    if (status != 0) fail("a child saved a file", status);
}

/* Ends a transaction whose file may be closed by now. */
static void leave_step(struct model *of) {
    if (of->is_in_step) zx_file_leave(&of->file, &of->step);
    of->is_in_step = false;
}

/* Begins a transaction, or ends it: one that is undone leaves the number that was there before. */
static void step_one(struct model *of, struct input *input) {
    bool keeps = next(input) % 2, was_open = of->file.segment.at;
    calls = 0;
    if (!of->is_in_step) {
        of->number_before = of->number;
        of->is_in_step = zx_file_begin(&of->file, &of->step) == ZX_DONE;
        return;
    }
    zx_code code = keeps ? zx_file_keep(&of->file, &of->step) : zx_file_undo(&of->file, &of->step);
    if (was_open && code != ZX_DONE && !is_disturbed) fail("a transaction is refused", (int)code);
    if (code == ZX_DONE) of->is_in_step = false;
    leave_step(of);
    if (was_open && !of->file.segment.at && !is_disturbed) fail("a transaction closed the segment", keeps);
    if (code == ZX_DONE && !keeps) of->number = of->number_before;
    if (code == ZX_DONE && of->file.segment.at && get(&of->file) != of->number) fail("another number", keeps);
}

static void do_one(int what, struct input *input) {
    struct model *of = &files[what / 16 % FILES];
    int how;
    is_disturbed = false;
    made++;
    switch (what % 16) {
    case 0: case 1: open_one(of, input); break;
    case 2: case 3:
        how = next(input);
        if (set(&of->file, how) == ZX_DONE) of->number = how;
        return;
    case 4: case 5: save_one(of, false); break;
    case 6:
        save_one(of, true);
        if (!of->file.held) leave_step(of);
        break;
    case 7:
        zx_file_discard(&of->file);
        leave_step(of);
        break;
    case 8: save_one_as(of, input); break;
    case 9:
        if (next(input) % 2) zx_file_grow(&of->file, 4096);
        else zx_file_shrink(&of->file);
        break;
    case 10: case 11: {
        static const int reasons[] = { EIO, ENOSPC, EINTR, EACCES, EPERM };
        fails_at = next(input) % 48 + 1;
        why = reasons[next(input) % 5];
        return;
    }
    case 12:
        acts_at = next(input) % 48 + 1;
        action = next(input);
        return;
    case 13: leave_alone(); act(next(input)); break;
    case 14: leave_alone(); kill_one(input); break;
    default:
        if (what < 255) {
            step_one(of, input);
        } else {
            leave_alone();
            fork_one();
        }
    }
    leave_alone();
}

static int count_in(const char *path, bool removes) {
    int count = 0;
    DIR *all = opendir(path);
    for (struct dirent *each; all && (each = readdir(all));) {
        if (strcmp(each->d_name, ".") == 0 || strcmp(each->d_name, "..") == 0) continue;
        count++;
        if (removes) unlinkat(dirfd(all), each->d_name, 0);
    }
    if (all) closedir(all);
    return count;
}

static void tell(void) { fprintf(stderr, "fuzz_files: %llu calls\n", (unsigned long long)made); }

int LLVMFuzzerInitialize(int *count, char ***words);
int LLVMFuzzerInitialize(int *count, char ***words) {
    const char *place = getenv("FUZZ_FOLDER");
    (void)count, (void)words;
    snprintf(folder, sizeof folder, "%.200s/fuzz_files.%d", place ? place : "/dev/shm", (int)getpid());
    if (mkdir(folder, 0755) != 0) return 1;
    for (int i = 0; i < NAMES; i++) snprintf(paths[i], sizeof paths[i], "%s/%c", folder, 'a' + i);
    return atexit(tell);
}

int LLVMFuzzerTestOneInput(const uint8_t *data, size_t len);
int LLVMFuzzerTestOneInput(const uint8_t *data, size_t len) {
    struct input input = { data, data + len };
    int before = count_in("/proc/self/fd", false);
    leave_alone();
    was_mapped = false;
    memset(files, 0, sizeof files);
    for (int i = 0; i < 60 && input.at < input.end; i++) do_one(next(&input), &input);
    leave_alone();
    for (int i = 0; i < FILES; i++) {
        zx_file_discard(&files[i].file);
        leave_step(&files[i]);
    }
    if (count_in("/proc/self/fd", false) != before) fail("descriptors are left", before);
    removexattr(folder, "system.posix_acl_default");
    count_in(folder, true);
    return 0;
}
