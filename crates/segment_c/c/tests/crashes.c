/* crashes FOLDER STATES [SEED]: what a power cut may leave of a file that is committed.

   Random runs create a durable file, change it, commit, save, close and open it, with transactions and with calls of
   the system that fail. Each write, sync, rename and removal is noted on a disk in memory. At each moment states are
   built that the power may leave: any part of the sectors that were not synced, old, new or garbage, lengths between,
   and any part of the names that were not synced. Each is recovered, and must be the image of the last commit that was
   answered, or of the one under way. Some runs go on with such a state, on a real file. It ends after so many states;
   the status is 1 if one was wrong. */
#define _GNU_SOURCE
#define ZX_TEST_SYSTEM
#define LONG_LOG 60000
#ifndef FILES
#define FILES "../files.c"
#endif
#include FILES

/* ---- random numbers */

static uint64_t seed = 88172645463325252u;

static uint64_t some(uint64_t many) {
    seed ^= seed << 13, seed ^= seed >> 7, seed ^= seed << 17;
    return (seed >> 11) % many;
}

/* ---- the disk */

enum { SECTOR = 512, WRITES = 256, FILES_MOST = 64, NAMES_MOST = 64 };

struct bytes {
    uint8_t *at;
    uint64_t len, room;
};

/* A write that is not synced, or a new length if `bytes` is null. */
struct write {
    uint64_t at, len;
    uint8_t *bytes;
    bool is_lost; /* a sync of it failed: no later one brings it to the disk */
};

static struct on_disk {
    ino_t number;
    struct bytes durable;
    struct write writes[WRITES];
    int count;
} disk[FILES_MOST];
static int disk_count;

enum name { THE_FILE, THE_LOG, OTHER };

/* The names that files got (-1: the name was removed) since the last sync of the folder; and the file that each name
   leads to, in memory and on the disk. */
static struct {
    enum name name;
    int file;
} names[NAMES_MOST];
static int name_count, now_at[2], durable_at[2];

static char folder[200], path[240], log_path[250];
static bool is_noted;         /* the disk in memory follows the calls */
static uint64_t calls, fuse;  /* the number of calls, and the number of the call that fails */
static bool has_failed;
static void at_moment(void);

static void resize_bytes(struct bytes *to, uint64_t len) {
    if (len > to->room) {
        to->at = realloc(to->at, to->room = 2 * len + 4096);
        if (!to->at) abort();
    }
    if (len > to->len) memset(to->at + to->len, 0, len - to->len);
    to->len = len;
}

static void put_bytes(struct bytes *to, uint64_t at, const uint8_t *bytes, uint64_t len) {
    if (at + len > to->len) resize_bytes(to, at + len);
    memcpy(to->at + at, bytes, len);
}

static void copy_bytes(struct bytes *to, const struct bytes *from) {
    to->len = 0;
    resize_bytes(to, from->len);
    if (from->len > 0) memcpy(to->at, from->at, from->len);
}

static int on_disk_of(int file) {
    struct stat found;
    if ((fstat)(file, &found) != 0) abort();
    for (int i = 0; i < disk_count; i++)
        if (disk[i].number == found.st_ino) return i;
    if (disk_count == FILES_MOST) abort();
    disk[disk_count].number = found.st_ino;
    disk[disk_count].durable.len = 0;
    disk[disk_count].count = 0;
    return disk_count++;
}

static void note_write(int file, const uint8_t *bytes, uint64_t len, uint64_t at) {
    struct on_disk *one = &disk[on_disk_of(file)];
    if (one->count == WRITES) abort();
    struct write *write = &one->writes[one->count++];
    *write = (struct write){ at, len, bytes ? (malloc)(len + 1) : NULL, false };
    if (bytes) memcpy(write->bytes, bytes, len);
}

static void make_durable(struct on_disk *one) {
    int left = 0;
    for (int i = 0; i < one->count; i++) {
        struct write *write = &one->writes[i];
        if (write->is_lost) {
            one->writes[left++] = *write;
            continue;
        }
        if (write->bytes) put_bytes(&one->durable, write->at, write->bytes, write->len);
        else resize_bytes(&one->durable, write->at);
        free(write->bytes);
    }
    one->count = left;
}

static void note_name(const char *name, int file) {
    const char *last = strrchr(name, '/') ? strrchr(name, '/') + 1 : name;
    enum name which = strcmp(last, "file") == 0 ? THE_FILE : strcmp(last, "file-log") == 0 ? THE_LOG : OTHER;
    if (which == OTHER) return;
    if (name_count == NAMES_MOST) abort();
    names[name_count].name = which;
    names[name_count++].file = now_at[which] = file;
}

/* ---- the calls of the system */

static bool fails(void) {
    if (!is_noted || ++calls != fuse) return false;
    has_failed = true;
    errno = EIO;
    return true;
}

static void noted(void) {
    int error = errno;
    if (is_noted) at_moment();
    errno = error;
}

static ssize_t disk_pwrite(int file, const void *bytes, size_t len, off_t at) {
    if (fails()) {
        // part of it may have been written
        if (some(2)) note_write(file, bytes, some(len), (uint64_t)at);
        noted();
        return -1;
    }
    ssize_t many = (pwrite)(file, bytes, len, at);
    if (is_noted && many > 0) note_write(file, bytes, (uint64_t)many, (uint64_t)at);
    noted();
    return many;
}

static int disk_ftruncate(int file, off_t len) {
    if (fails()) return -1;
    int done = (ftruncate)(file, len);
    if (is_noted && done == 0) note_write(file, NULL, 0, (uint64_t)len);
    noted();
    return done;
}

static int disk_fallocate(int file, int how, off_t from, off_t len) {
    struct stat found;
    if (fails() || (fstat)(file, &found) != 0) return -1;
    int done = (fallocate)(file, how, from, len);
    if (is_noted && done == 0 && from + len > found.st_size) note_write(file, NULL, 0, (uint64_t)(from + len));
    noted();
    return done;
}

static int disk_sync(int file) {
    struct stat found;
    if (!is_noted) return 0;
    if ((fstat)(file, &found) != 0) abort();
    bool is_folder = S_ISDIR(found.st_mode);
    if (fails()) {
        struct on_disk *one = is_folder ? NULL : &disk[on_disk_of(file)];
        for (int i = 0; one && i < one->count; i++) one->writes[i].is_lost = true;
        noted();
        return -1;
    }
    if (is_folder) {
        for (int i = 0; i < 2; i++) durable_at[i] = now_at[i];
        name_count = 0;
    } else {
        make_durable(&disk[on_disk_of(file)]);
    }
    noted();
    return 0;
}

static int disk_openat(int in, const char *name, int how, mode_t mode) {
    bool makes = is_noted && (how & O_CREAT) && (faccessat)(in, name, F_OK, AT_SYMLINK_NOFOLLOW) != 0;
    if (makes && fails()) return -1;
    int file = (openat)(in, name, how, mode);
    if (makes && file >= 0) note_name(name, on_disk_of(file)), noted();
    return file;
}

static int disk_linkat(int from, const char *one, int to, const char *other, int how) {
    if (fails()) return -1;
    int done = (linkat)(from, one, to, other, how);
    int file = is_noted && done == 0 ? (openat)(to, other, O_RDONLY | O_CLOEXEC) : -1;
    if (file >= 0) note_name(other, on_disk_of(file)), close(file);
    noted();
    return done;
}

static int disk_renameat(int from, const char *one, int to, const char *other) {
    if (fails()) return -1;
    int file = (openat)(from, one, O_RDONLY | O_CLOEXEC);
    int done = (renameat)(from, one, to, other);
    if (is_noted && done == 0) note_name(other, on_disk_of(file));
    close(file);
    noted();
    return done;
}

static int disk_unlinkat(int in, const char *name, int how) {
    if (fails()) return -1;
    int done = (unlinkat)(in, name, how);
    if (is_noted && done == 0) note_name(name, -1), noted();
    return done;
}

static void *disk_mremap(void *at, size_t len, size_t wanted, int how) { return (mremap)(at, len, wanted, how); }
static void *disk_malloc(size_t size) { return (malloc)(size); }
static void *disk_calloc(size_t count, size_t size) { return (calloc)(count, size); }

/* The way in which a run finds the pages that changed: as Linux 6.7 does, as older systems do, or without a page map. */
static enum { BY_SCAN, BY_ENTRIES, BY_COMPARISON } way;

static int disk_ioctl(int file, unsigned long call, void *words) {
    return way == BY_SCAN ? (ioctl)(file, call, words) : -1;
}

static int disk_open(const char *name, int how) {
    return way == BY_COMPARISON && strcmp(name, "/proc/self/pagemap") == 0 ? -1 : (open)(name, how);
}

static int disk_syncfs(int file) { return disk_sync(file); }

struct zx_system zx_system = {
    .open = disk_open, .openat = disk_openat, .pread = pread, .pwrite = disk_pwrite, .ftruncate = disk_ftruncate,
    .fallocate = disk_fallocate, .lseek = lseek, .fsync = disk_sync, .fdatasync = disk_sync, .syncfs = disk_syncfs,
    .flock = flock, .ioctl = disk_ioctl, .lstat = lstat, .stat = stat, .fstat = fstat, .fstatat = fstatat, .fstatfs = fstatfs,
    .fchmod = fchmod, .fchown = fchown, .fgetxattr = fgetxattr, .fsetxattr = fsetxattr, .fremovexattr = fremovexattr,
    .flistxattr = flistxattr, .linkat = disk_linkat, .renameat = disk_renameat, .unlinkat = disk_unlinkat, .mmap = mmap,
    .mremap = disk_mremap, .munmap = munmap, .msync = msync, .madvise = madvise, .memfd_create = memfd_create, .userfaultfd = userfaultfd,
    .close = close, .malloc = disk_malloc,
    .calloc = disk_calloc, .free = free, .realpath = realpath, .pthread_atfork = pthread_atfork,
};

/* ---- states that the power may leave */

static struct bytes state_file, state_log;
static bool has_log;
static uint64_t states, wrong, most_states;
static bool is_harsh; /* sectors can be garbage */

/* Applies a write to a file: each sector stays old, becomes new, or becomes garbage. */
static void cut_write(struct bytes *to, const struct write *write, unsigned mode) {
    for (uint64_t at = write->at; at < write->at + write->len;) {
        uint64_t end = (at / SECTOR + 1) * SECTOR, rest = write->at + write->len;
        uint64_t len = (end < rest ? end : rest) - at;
        unsigned how = mode < 2 ? mode : (unsigned)some(is_harsh ? 3 : 2);
        if (how == 1) put_bytes(to, at, write->bytes + (at - write->at), len);
        if (how == 2) {
            uint8_t garbage[SECTOR];
            for (uint64_t i = 0; i < len; i += 8) {
                uint64_t word = some(UINT64_MAX);
                memcpy(garbage + i, &word, at_most(len - i, 8));
            }
            if (some(2)) garbage[0] = 1;
            put_bytes(to, at, garbage, len);
        }
        at += len;
    }
}

static void cut_file(struct bytes *to, const struct on_disk *from) {
    unsigned mode = (unsigned)some(4);
    copy_bytes(to, &from->durable);
    for (int i = 0; i < from->count; i++) {
        const struct write *write = &from->writes[i];
        if (write->bytes) cut_write(to, write, mode);
        else if (mode == 1 || (mode > 1 && some(2))) resize_bytes(to, write->at);
    }
    if (to->len > from->durable.len && some(2)) to->len = from->durable.len + some(to->len - from->durable.len + 1);
}

/* Builds a state that a power cut can leave. Returns false if the file does not exist in it. */
static bool cut_power(void) {
    int at[2] = { durable_at[0], durable_at[1] };
    unsigned mode = (unsigned)some(4);
    for (int i = 0; i < name_count; i++)
        if (mode == 1 || (mode > 1 && some(2))) at[names[i].name] = names[i].file;
    has_log = at[THE_LOG] >= 0;
    state_log.len = 0;
    if (has_log) cut_file(&state_log, &disk[at[THE_LOG]]);
    if (at[THE_FILE] < 0) return false;
    cut_file(&state_file, &disk[at[THE_FILE]]);
    return true;
}

/* The images that a state may stand for: the image of the last commit that was answered, and the images of the calls
   after it. */
enum { MAY = 6 };
static struct bytes may[MAY];
static int may_count;

static bool is_allowed(const uint8_t *image, uint64_t len) {
    for (int i = 0; i < may_count; i++)
        if (may[i].len == len && memcmp(may[i].at, image, len) == 0) return true;
    return false;
}

static void say(const char *what) {
    if (++wrong > 5) return;
    printf("WRONG %s: state %llu, call %llu, %d images may be, %llu bytes, log %llu\n", what, (unsigned long long)states,
           (unsigned long long)calls, may_count, (unsigned long long)state_file.len, (unsigned long long)state_log.len);
}

/* Whether the log is taken for one. If its first gate is garbage it is not, and has no record that was answered. */
static bool is_log(void) { return has_log && zx_log_kind(state_log.at, state_log.len, state_log.len) == RECORDS; }

static void judge_state(void) {
    struct recovered made = { .end = 0 };
    zx_file none = ZX_CLOSED_FILE;
    states++;
    if (!cut_power()) return say("no file is there");
    const struct image log = { is_log() ? state_log.at : NULL, is_log() ? state_log.len : 0 };
    const struct image base = { state_file.at, state_file.len };
    struct image image;
    made.len = base.len;
    zx_code code = find_room(&none, base.len, &log, &image.len);
    if (code != ZX_DONE) return say(zx_message(code));
    image.bytes = (calloc)(image.len + 1, 1);
    if (!image.bytes) abort();
    memcpy(image.bytes, base.bytes, base.len);
    if (log.bytes) code = replay(&none, &base, &log, &image, &made);
    if (code != ZX_DONE) say(zx_message(code));
    else if (!is_allowed(image.bytes, made.len)) say("another image");
    else if (made.len < image.len && image.bytes[made.len] != 0) say("no zeros behind the image");
    (free)(image.bytes);
}

/* How many states are built at each moment. */
static int each_time = 24;

static void at_moment(void) {
    for (int i = 0; i < each_time && states < most_states; i++) judge_state();
}

/* ---- runs */

static zx_file file;
static bool is_unsure;

/* Makes the disk in memory a copy of the folder. */
static void begin_disk(void) {
    const char *all[2] = { path, log_path };
    for (int i = 0; i < disk_count; i++)
        for (int k = 0; k < disk[i].count; k++) free(disk[i].writes[k].bytes);
    disk_count = name_count = 0;
    for (int i = 0; i < 2; i++) {
        int from = (open)(all[i], O_RDONLY | O_CLOEXEC);
        now_at[i] = durable_at[i] = -1;
        if (from < 0) continue;
        struct stat found;
        (fstat)(from, &found);
        now_at[i] = durable_at[i] = on_disk_of(from);
        resize_bytes(&disk[now_at[i]].durable, (uint64_t)found.st_size);
        if (read_at(from, disk[now_at[i]].durable.at, (size_t)found.st_size, 0) != found.st_size) abort();
        close(from);
    }
}

static void image_now(struct bytes *to) {
    uint64_t size = 0;
    if (zx_size(&file.segment, &size) != ZX_DONE) abort();
    to->len = 0;
    resize_bytes(to, size);
    if (zx_save(&file.segment, to->at, size) != ZX_DONE) abort();
}

/* Adds the segment's image to the images that a state may stand for. */
static void add_image(void) {
    if (may_count == MAY) abort();
    image_now(&may[may_count++]);
}

/* Makes the segment's image the only one that a state may stand for. */
static void set_image(void) {
    image_now(&may[0]);
    may_count = 1;
    is_unsure = false;
}

static void change(void) {
    zx_key numbers = zx_name("numbers");
    for (uint64_t many = some(6) + 1; many > 0; many--) {
        zx_value value = zx_u64(some(UINT64_MAX));
        uint64_t count = 0, places = 0;
        (void)zx_measure(&file.segment, &numbers, &count, &places);
        if (count > 0 && some(4)) (void)zx_set(&file.segment, &numbers, some(count), &value);
        else (void)zx_push(&file.segment, &numbers, &value);
    }
}

static void change_length(void) {
    if (some(2)) (void)zx_file_grow(&file, 32 + 16 * some(400));
    else (void)zx_file_shrink(&file);
}

/* Takes the answer of a commit or a save, and drops the images that a state may stand for no more. */
static void note_answer(zx_code code, bool is_commit) {
    if (code == ZX_DONE || (code == ZX_FILE_UNSYNCED && !is_commit)) set_image();
    else if (code == ZX_FILE_UNSURE) is_unsure = true;
    else if (is_commit && !is_unsure) may_count--;
    if (code != ZX_DONE && !has_failed && !is_unsure) say(zx_message(code));
}

static void commit_once(void) {
    add_image();
    note_answer(zx_file_commit(&file), true);
}

static void step_once(void) {
    zx_step before = ZX_NO_STEP, inner = ZX_NO_STEP;
    struct bytes at_first = { 0 }, now = { 0 };
    image_now(&at_first);
    zx_code code = zx_file_begin(&file, &before);
    if (code != ZX_DONE) goto ended;
    change();
    if (some(3) == 0 && zx_file_begin(&file, &inner) == ZX_DONE) {
        image_now(&now);
        change();
        if (some(2)) change_length();
        if (some(2)) (void)zx_file_keep(&file, &inner);
        else if (zx_file_undo(&file, &inner) == ZX_DONE) {
            image_now(&may[MAY - 1]);
            if (now.len != may[MAY - 1].len || memcmp(now.at, may[MAY - 1].at, now.len) != 0) say("an inner undo");
        } else zx_file_leave(&file, &inner);
    }
    if (some(3) > 0) {
        add_image();
        code = zx_file_keep(&file, &before);
        note_answer(code, true);
        if (code == ZX_DONE || code == ZX_FILE_UNSURE) goto ended;
    }
    if (zx_file_undo(&file, &before) != ZX_DONE) {
        zx_file_leave(&file, &before);
        goto ended;
    }
    image_now(&now);
    if (now.len != at_first.len || memcmp(now.at, at_first.at, now.len) != 0) say("an undo");
ended:
    free(at_first.at);
    free(now.at);
}

/* Opens the file, which must be one of the images. If a commit was left unsure, and the power stayed, a later state may
   still be the other one, until the next commit is answered. */
static bool open_again(bool is_open_question) {
    fuse = 0;
    zx_code code = zx_file_open(&file, path, ZX_OPEN_ONLY | ZX_DURABLE, 0);
    if (code != ZX_DONE) return say(zx_message(code)), false;
    struct bytes now = { 0 };
    image_now(&now);
    if (!is_allowed(now.at, now.len)) say("another image is opened");
    free(now.at);
    if (!is_open_question) set_image();
    is_unsure = false;
    return true;
}

static void save_bytes(const char *name, const struct bytes *bytes) {
    int to = (openat)(AT_FDCWD, name, O_WRONLY | O_CREAT | O_EXCL, 0600);
    if (to < 0 || (pwrite)(to, bytes->at, bytes->len, 0) != (ssize_t)bytes->len) abort();
    close(to);
}

/* Cuts the power, and goes on with the state that this left, as a new process. */
static bool reboot(void) {
    bool is_there = cut_power();
    is_noted = false;
    zx_file_discard(&file);
    (unlinkat)(AT_FDCWD, path, 0);
    (unlinkat)(AT_FDCWD, log_path, 0);
    if (!is_there) return false;
    save_bytes(path, &state_file);
    // one that is garbage is in the way, and removed by whom a commit tells that
    has_log &= zx_log_kind(state_log.at, state_log.len, state_log.len) != FOREIGN;
    if (has_log) save_bytes(log_path, &state_log);
    begin_disk();
    is_noted = true;
    return open_again(false);
}

/* The process is killed, and another one saves the file without commits, which may fail, or end before its syncs do. */
static bool save_by_copy(void) {
    zx_file_discard(&file);
    zx_code code = zx_file_open(&file, path, ZX_OPEN_ONLY, 0);
    if (code != ZX_DONE && !has_failed) say(zx_message(code));
    if (code == ZX_DONE) {
        change();
        add_image();
        code = zx_file_save(&file);
        if (code == ZX_DONE) set_image();
        else if (!has_failed) say(zx_message(code));
    }
    zx_file_discard(&file);
    return open_again(may_count > 1);
}

static bool act_once(void) {
    uint64_t what = some(20);
    if (what < 8 && may_count < MAY - 1) commit_once();
    else if (what < 12 && may_count < MAY - 1) step_once();
    else if (what < 13) change_length();
    else if (what < 15) {
        if (may_count >= MAY - 1) return false;
        add_image();
        note_answer(zx_file_save(&file), false);
    } else if (what < 17) {
        if (may_count >= MAY - 1) return false;
        add_image();
        zx_code code = zx_file_close(&file);
        if (code == ZX_DONE || code == ZX_FILE_UNSYNCED) {
            struct bytes last = may[may_count - 1];
            may[may_count - 1] = may[0], may[0] = last, may_count = 1;
        } else zx_file_discard(&file);
        return open_again(may_count > 1);
    } else if (what < 18) {
        // the process is killed
        zx_file_discard(&file);
        return open_again(may_count > 1);
    } else if (what < 19) {
        return may_count < MAY - 1 && save_by_copy();
    } else return reboot();
    return true;
}

/* Creates the file, and begins with it. */
static void begin_run(void) {
    is_noted = false;
    fuse = 0;
    (unlinkat)(AT_FDCWD, path, 0);
    (unlinkat)(AT_FDCWD, log_path, 0);
    is_harsh = some(2);
    way = some(3);
    zx_key numbers = zx_name("numbers");
    zx_value none = zx_u64(0);
    zx_values first = zx_u64s(&none.natural, 1);
    uint64_t handle;
    if (zx_file_open(&file, path, ZX_CREATE_ONLY | ZX_DURABLE, 512 + 16 * some(1000)) != ZX_DONE) abort();
    if (zx_construct_vector(&file.segment, &numbers, &first, &handle) != ZX_DONE) abort();
    for (int i = 0; i < 20; i++) change();
    if (zx_file_save(&file) != ZX_DONE) abort();
    begin_disk();
    set_image();
    is_noted = true;
}

static void end_run(void) {
    is_noted = false;
    fuse = 0;
    zx_file_discard(&file);
}

/* One call of a commit fails, and then one of the end of the file. The process ends without more, and the next one commits
   what it finds: then nothing that the first one did not sync counts. */
static void fail_twice(uint64_t first, uint64_t second) {
    each_time = 2;
    begin_run();
    change();
    commit_once();
    change();
    has_failed = true;
    fuse = calls + first;
    add_image();
    note_answer(zx_file_commit(&file), true);
    fuse = calls + second;
    add_image();
    zx_code code = zx_file_close(&file);
    fuse = 0;
    if (code == ZX_DONE) {
        struct bytes last = may[may_count - 1];
        may[may_count - 1] = may[0], may[0] = last, may_count = 1;
    } else zx_file_discard(&file);
    if (open_again(may_count > 1) && may_count < MAY) commit_once();
    each_time = 24;
    at_moment();
    end_run();
}

/* One call of a save without commits fails, and the process ends. The next one commits what it finds, and so answers that
   it is on the disk. */
static void fail_in_a_save(uint64_t first) {
    each_time = 2;
    begin_run();
    has_failed = true;
    fuse = calls + first;
    if (save_by_copy() && may_count < MAY) commit_once();
    each_time = 24;
    at_moment();
    end_run();
}

static void run(void) {
    begin_run();
    for (uint64_t acts = 5 + some(40); acts > 0 && states < most_states; acts--) {
        if (some(8)) change();
        has_failed = false;
        fuse = some(5) == 0 ? calls + 1 + some(12) : 0;
        if (!act_once()) break;
        fuse = 0;
        at_moment();
    }
    end_run();
}

int main(int count, char **words) {
    if (count < 3) return 2;
    if (count > 3) seed ^= strtoull(words[3], NULL, 10) * 0x9e3779b97f4a7c15u;
    for (int i = 0; i < 10; i++) (void)some(2);
    snprintf(folder, sizeof folder, "%s/crashes-%d", words[1], (int)getpid());
    snprintf(path, sizeof path, "%s/file", folder);
    snprintf(log_path, sizeof log_path, "%s-log", path);
    if (mkdir(folder, 0700) != 0) return 2;
    most_states = strtoull(words[2], NULL, 10);
    uint64_t runs = 0;
    for (uint64_t both = 0; both < 400 && states < most_states && wrong == 0; both++) fail_twice(1 + both / 20, 1 + both % 20);
    for (uint64_t at = 0; at < 100 && states < most_states && wrong == 0; at++) fail_in_a_save(1 + at % 12);
    while (states < most_states && wrong == 0) run(), runs++;
    (unlinkat)(AT_FDCWD, path, 0);
    (unlinkat)(AT_FDCWD, log_path, 0);
    rmdir(folder);
    printf("crashes: %llu runs, %llu calls, %llu states, %llu wrong\n", (unsigned long long)runs,
           (unsigned long long)calls, (unsigned long long)states, (unsigned long long)wrong);
    return wrong > 0;
}
