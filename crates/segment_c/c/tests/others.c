/* others FOLDER [SMALL]: what others do beside a file. Files of theirs have the name of its log, logs are left of files that
   are gone, names lead elsewhere in the middle of a call, files have several names, what an opening finds was never synced,
   files are long or broken, and with SMALL, a disk of 1 MiB, it is full. It is linked with
   --wrap=pread,--wrap=pwrite,--wrap=fsync,--wrap=fdatasync,--wrap=linkat,--wrap=renameat,--wrap=unlinkat. */
#define _GNU_SOURCE
#include "zaluxhoni_files.h"

#include <dirent.h>
#include <errno.h>
#include <fcntl.h>
#include <signal.h>
#include <stdio.h>
#include <stdlib.h>
#include <sys/resource.h>
#include <sys/stat.h>
#include <sys/wait.h>
#include <unistd.h>

static int checks, wrong;
static const char *told = "";
static char room[300], path[400], log_path[410], other[410], other_log[420];

#define IS(got, wanted) is_same((long long)(got), (long long)(wanted), #got, __LINE__)
#define DONE(call) IS(call, ZX_DONE)

static void is_same(long long got, long long wanted, const char *what, int line) {
    checks++;
    if (got == wanted) return;
    wrong++;
    printf("others.c:%d: WRONG %s: %lld, not %lld (%s)\n", line, what, got, wanted, told);
}

/* ---- calls of the system by the library */

ssize_t __real_pread(int file, void *bytes, size_t len, off_t from);
ssize_t __real_pwrite(int file, const void *bytes, size_t len, off_t from);
int __real_fsync(int file);
int __real_fdatasync(int file);
int __real_linkat(int from, const char *one, int to, const char *name, int how);
int __real_renameat(int from, const char *one, int to, const char *name);
int __real_unlinkat(int folder, const char *name, int how);

/* What another process does once, in front of the sync of this number; how many syncs there were; how many bytes were read. */
static void (*before_sync)(void);
static int at_sync, syncs;
static long long bytes_read;

/* The calls that were made: w, s, l, r and u for a write, a sync, a link, a rename and a removal; a capital for a folder. */
static char made[400];

static void note(char call) {
    size_t len = strlen(made);
    if (len + 1 < sizeof made) made[len] = call, made[len + 1] = 0;
}

static void come_between(int file) {
    struct stat found;
    void (*what)(void) = before_sync;
    note(fstat(file, &found) == 0 && S_ISDIR(found.st_mode) ? 'S' : 's');
    if (++syncs != at_sync || !what) return;
    before_sync = NULL;
    what();
}

ssize_t __wrap_pread(int file, void *bytes, size_t len, off_t from) {
    ssize_t got = __real_pread(file, bytes, len, from);
    if (got > 0) bytes_read += got;
    return got;
}

ssize_t __wrap_pwrite(int file, const void *bytes, size_t len, off_t from) {
    note('w');
    return __real_pwrite(file, bytes, len, from);
}

int __wrap_fsync(int file) {
    come_between(file);
    return __real_fsync(file);
}

int __wrap_fdatasync(int file) {
    come_between(file);
    return __real_fdatasync(file);
}

int __wrap_linkat(int from, const char *one, int to, const char *name, int how) {
    int done = __real_linkat(from, one, to, name, how);
    if (done == 0) note('l');
    return done;
}

int __wrap_renameat(int from, const char *one, int to, const char *name) {
    int done = __real_renameat(from, one, to, name);
    if (done == 0) note('r');
    return done;
}

int __wrap_unlinkat(int folder, const char *name, int how) {
    int done = __real_unlinkat(folder, name, how);
    if (done == 0) note('u');
    return done;
}

/* ---- a file with a number */

static int64_t number(zx_file *file) {
    zx_key key = zx_name("n");
    zx_value value = zx_i64(-1);
    return zx_get(&file->segment, &key, 0, &value) == ZX_DONE ? value.number : -1;
}

static void set(zx_file *file, int64_t to) {
    zx_key key = zx_name("n");
    zx_value value = zx_i64(to);
    uint64_t handle;
    uint32_t found;
    DONE(zx_find_or_construct(&file->segment, &key, 1, &value, &handle, &found));
    DONE(zx_set(&file->segment, &key, 0, &value));
}

/* What a reader finds: the number, or minus the code. */
static int64_t found(const char *at) {
    zx_file file = ZX_CLOSED_FILE;
    zx_code code = zx_file_open(&file, at, ZX_OPEN_READ_ONLY, 0);
    int64_t is = code == ZX_DONE ? number(&file) : -(int64_t)code;
    zx_file_discard(&file);
    return is;
}

/* Creates a file that has this number, and no log. */
static void make(const char *at, int64_t first, uint64_t size) {
    zx_file file = ZX_CLOSED_FILE;
    char log[440];
    snprintf(log, sizeof log, "%s-log", at);
    unlink(at), unlink(log);
    DONE(zx_file_open(&file, at, ZX_CREATE_ONLY, size));
    set(&file, first);
    DONE(zx_file_close(&file));
}

/* Commits a number to a file, and leaves the log. */
static void commit(const char *at, int64_t to) {
    zx_file file = ZX_CLOSED_FILE;
    DONE(zx_file_open(&file, at, ZX_OPEN_ONLY | ZX_DURABLE, 0));
    set(&file, to);
    DONE(zx_file_commit(&file));
    zx_file_discard(&file);
}

static int names_in_room(void) {
    int count = 0;
    DIR *all = opendir(room);
    while (all && readdir(all)) count++;
    if (all) closedir(all);
    return count - 2;
}

/* ---- a file of somebody else has the name of the log */

enum thing { TEXT, LONG_TEXT, ZEROS, SEGMENT, NOTHING_IN_IT, FOLDER, LINK, DANGLING, PIPE, SOCKET, THINGS };
static const char *const things[] = { "a text", "a long text", "zeros", "a segment", "an empty file", "a folder", "a link",
                                      "a link to nothing", "a pipe", "a socket" };

static void write_file(const char *at, const char *text, size_t len) {
    FILE *file = fopen(at, "wb");
    for (size_t i = 0; file && i < len; i++) fputc(text[i % strlen(text)], file);
    if (file) fclose(file);
}

static void put_thing(enum thing thing) {
    switch (thing) {
    case TEXT: write_file(log_path, "my notes\n", 9); break;
    case LONG_TEXT: write_file(log_path, "my notes, a line of them\n", 20480); break;
    case ZEROS: write_file(log_path, "", 0), IS(truncate(log_path, 8207), 0); break;
    case SEGMENT: make(log_path, 42, 4096); break;
    case NOTHING_IN_IT: write_file(log_path, "", 0); break;
    case FOLDER: IS(mkdir(log_path, 0700), 0); break;
    case LINK: write_file(other, "my notes\n", 9), IS(symlink(other, log_path), 0); break;
    case DANGLING: IS(symlink("nowhere", log_path), 0); break;
    case PIPE: IS(mkfifo(log_path, 0600), 0); break;
    default: IS(mknod(log_path, S_IFSOCK | 0600, 0), 0);
    }
}

static void take_thing_away(void) {
    if (rmdir(log_path) != 0) unlink(log_path);
    unlink(other);
}

/* What tells that the thing is as it was. */
static uint64_t looks(void) {
    struct stat own;
    char text[64] = "";
    if (lstat(log_path, &own) != 0) return 0;
    FILE *file = S_ISREG(own.st_mode) || S_ISLNK(own.st_mode) ? fopen(log_path, "rb") : NULL;
    size_t len = file ? fread(text, 1, sizeof text, file) : 0;
    if (file) fclose(file);
    uint64_t sum = own.st_ino * 31 + (uint64_t)own.st_size + (uint64_t)own.st_mtim.tv_nsec;
    for (size_t i = 0; i < len; i++) sum = sum * 31 + (uint8_t)text[i];
    return sum;
}

static zx_code open_and_close(uint32_t mode, bool changes) {
    zx_file file = ZX_CLOSED_FILE;
    zx_code code = zx_file_open(&file, path, mode, 4096);
    if (code == ZX_DONE && changes) set(&file, 2);
    if (code == ZX_DONE && changes) code = zx_file_close(&file);
    zx_file_discard(&file);
    return code;
}

static zx_code save_as(uint32_t mode) {
    zx_file file = ZX_CLOSED_FILE;
    DONE(zx_create(&file.segment, 4096));
    set(&file, 3);
    zx_code code = zx_file_save_as(&file, path, mode);
    zx_file_discard(&file);
    return code;
}

/* Readers and those who save without a commit do not care, and a commit says what stands in its way. */
static void a_file_of_somebody_else(enum thing thing) {
    zx_file file = ZX_CLOSED_FILE;
    told = things[thing];
    make(path, 1, 4096);
    put_thing(thing);
    const uint64_t before = looks();
    IS(found(path), 1);
    DONE(open_and_close(ZX_OPEN_READ_ONLY | ZX_MAPPED, false));
    DONE(open_and_close(ZX_OPEN_COPY_ON_WRITE, false));
    DONE(open_and_close(ZX_OPEN_ONLY | ZX_DURABLE, false));
    DONE(open_and_close(ZX_OPEN_ONLY, true));
    DONE(open_and_close(ZX_OPEN_ONLY | ZX_MAPPED, true));
    IS(looks(), before);
    DONE(zx_file_open(&file, path, ZX_OPEN_ONLY | ZX_DURABLE, 0));
    set(&file, 4);
    IS(zx_file_commit(&file), ZX_FILE_LOG_IN_THE_WAY);
    IS(file.error, EEXIST);
    IS(zx_file_save(&file), ZX_FILE_LOG_IN_THE_WAY);
    IS(zx_file_close(&file), ZX_FILE_LOG_IN_THE_WAY);
    IS(looks(), before);
    IS(found(path), 2);
    zx_file_discard(&file);
    DONE(save_as(ZX_OPEN_ONLY));
    IS(unlink(path), 0);
    DONE(open_and_close(ZX_CREATE_ONLY, true));
    DONE(save_as(ZX_OPEN_OR_CREATE));
    IS(unlink(path), 0);
    DONE(open_and_close(ZX_CREATE_ONLY | ZX_MAPPED, true));
    IS(unlink(path), 0);
    DONE(save_as(ZX_CREATE_ONLY));
    IS(unlink(path), 0);
    DONE(open_and_close(ZX_CREATE_ONLY | ZX_DURABLE, false));
    IS(looks(), before);
    // without it the commit is done
    make(other_log, 1, 4096);
    IS(rename(other_log, path), 0);
    DONE(zx_file_open(&file, path, ZX_OPEN_ONLY | ZX_DURABLE, 0));
    set(&file, 5);
    IS(zx_file_commit(&file), ZX_FILE_LOG_IN_THE_WAY);
    take_thing_away();
    DONE(zx_file_commit(&file));
    zx_file_discard(&file);
    IS(found(path), 5);
    unlink(path), unlink(log_path);
    IS(names_in_room(), 0);
}

/* ---- a log is left of a file that is gone */

/* Nothing is created beside it, and nothing is removed. */
static void a_file_that_is_gone(void) {
    make(path, 1, 4096);
    commit(path, 2);
    IS(rename(path, other), 0);
    for (int i = 0; i < 8; i++) {
        const uint32_t how[] = { ZX_CREATE_ONLY, ZX_OPEN_OR_CREATE, ZX_CREATE_ONLY | ZX_MAPPED, ZX_OPEN_OR_CREATE | ZX_MAPPED,
                                 ZX_CREATE_ONLY | ZX_DURABLE, ZX_OPEN_OR_CREATE | ZX_DURABLE };
        IS(i < 6 ? open_and_close(how[i], true) : save_as(i == 6 ? ZX_CREATE_ONLY : ZX_OPEN_OR_CREATE), ZX_FILE_LOG_LEFT);
        IS(names_in_room(), 2);
    }
    IS(rename(other, path), 0);
    IS(found(path), 2);
    // a log without a record is none of its own
    zx_file file = ZX_CLOSED_FILE;
    DONE(zx_file_open(&file, path, ZX_OPEN_ONLY | ZX_DURABLE, 0));
    DONE(zx_file_save(&file));
    set(&file, 3);
    DONE(zx_file_commit(&file));
    DONE(zx_file_save(&file));
    IS(rename(log_path, other), 0);
    zx_file_discard(&file);
    IS(rename(other, log_path), 0);
    IS(unlink(path), 0);
    DONE(open_and_close(ZX_CREATE_ONLY, true));
    IS(names_in_room(), 1);
    unlink(path);
}

/* The log of another file, which somebody put beside this one, is not applied to it, and stays. */
static void a_log_of_another_file(void) {
    make(path, 1, 4096);
    make(other, 7, 4096);
    commit(other, 8);
    IS(rename(other_log, log_path), 0);
    IS(found(path), -(int64_t)ZX_FILE_LOG_FOREIGN);
    IS(open_and_close(ZX_OPEN_ONLY, true), ZX_FILE_LOG_FOREIGN);
    IS(open_and_close(ZX_OPEN_ONLY | ZX_MAPPED, true), ZX_FILE_LOG_FOREIGN);
    IS(open_and_close(ZX_OPEN_ONLY | ZX_DURABLE, true), ZX_FILE_LOG_FOREIGN);
    IS(save_as(ZX_OPEN_ONLY), ZX_FILE_LOG_FOREIGN);
    IS(truncate(path, 0), 0);
    IS(save_as(ZX_OPEN_OR_CREATE), ZX_FILE_LOG_FOREIGN);
    IS(rename(log_path, other_log), 0);
    IS(found(other), 8);
    unlink(path), unlink(other), unlink(other_log);
}

/* ---- the log's name leads elsewhere, or is one of two */

static void a_log_that_is_moved(void) {
    zx_file file = ZX_CLOSED_FILE;
    struct stat own;
    make(path, 1, 4096);
    DONE(zx_file_open(&file, path, ZX_OPEN_ONLY | ZX_DURABLE, 0));
    for (int round = 0; round < 2; round++) {
        set(&file, 2);
        DONE(zx_file_commit(&file));
        IS(rename(log_path, other), 0);
        if (round == 1) write_file(log_path, "my notes\n", 9);
        set(&file, 3);
        IS(zx_file_commit(&file), ZX_FILE_REPLACED);
        IS(zx_file_save(&file), ZX_FILE_REPLACED);
        IS(found(path), 1);
        IS(rename(other, log_path), 0);
        DONE(zx_file_commit(&file));
        IS(found(path), 3);
    }
    // a backup by a second name gets no commits, and the log that is removed then no more either
    IS(link(log_path, other), 0);
    set(&file, 4);
    DONE(zx_file_commit(&file));
    IS(stat(other, &own), 0);
    IS(own.st_nlink, 1);
    IS(stat(log_path, &own), 0);
    IS(own.st_nlink, 1);
    IS(found(path), 4);
    IS(rename(other, log_path), 0);
    IS(found(path), 3);
    set(&file, 5);
    IS(zx_file_commit(&file), ZX_FILE_REPLACED);
    zx_file_discard(&file);
    unlink(path), unlink(log_path);
    IS(names_in_room(), 0);
}

/* ---- another file and its log take both names */

static void they_come(void) {
    IS(rename(other_log, log_path), 0);
    IS(rename(other, path), 0);
}

enum call { COMMITS, COMMITS_BEHIND, SETTLES, CLOSES, SAVES, CALLS };
static const char *const calls[] = { "a first commit", "a commit behind another process", "a save behind another process",
                                     "a close", "a save" };

/* At each sync of a call another file and its log, which has a commit, take the names. Both stay as they are. */
static bool names_that_others_take(enum call call, int at) {
    zx_file file = ZX_CLOSED_FILE;
    told = calls[call];
    make(other, 101, 4096);
    commit(other, 102);
    make(path, 1, 4096);
    if (call == COMMITS_BEHIND || call == SETTLES) commit(path, 2);
    uint32_t way = call == SETTLES || call == SAVES ? 0 : ZX_DURABLE;
    if (call != SETTLES) DONE(zx_file_open(&file, path, ZX_OPEN_ONLY | way, 0));
    if (call == CLOSES) {
        set(&file, 2);
        DONE(zx_file_commit(&file));
    }
    if (call != SETTLES) set(&file, 3);
    before_sync = they_come;
    syncs = 0;
    at_sync = at;
    zx_code code = call == SETTLES                             ? zx_file_open(&file, path, ZX_OPEN_ONLY, 0)
                   : call == COMMITS || call == COMMITS_BEHIND ? zx_file_commit(&file)
                                                               : zx_file_close(&file);
    bool is_hit = before_sync == NULL;
    before_sync = NULL;
    if (!is_hit) DONE(code);
    zx_file_discard(&file);
    if (is_hit) IS(found(path), 102);
    unlink(path), unlink(log_path), unlink(other), unlink(other_log);
    IS(names_in_room(), 0);
    return is_hit;
}

/* ---- what was never synced */

static int count(const char *all, char one) {
    int many = 0;
    for (; *all; all++) many += *all == one;
    return many;
}

/* Another process may have saved the image without a sync: the first answer that it is there syncs file and folder. */
static void what_another_did_not_sync(void) {
    zx_file file = ZX_CLOSED_FILE;
    for (int round = 0; round < 5; round++) {
        const uint32_t ways[] = { 0, 0, ZX_MAPPED, ZX_DURABLE, 0 };
        told = round == 4 ? "save_as" : round == 3 ? "durable" : round == 2 ? "mapped" : round == 1 ? "set to the same" : "unchanged";
        make(path, 3, 4096);
        if (round < 4) DONE(zx_file_open(&file, path, ZX_OPEN_ONLY | ways[round], 0));
        if (round == 1) set(&file, 3);
        made[0] = 0;
        zx_file copy = ZX_CLOSED_FILE;
        if (round == 4) {
            DONE(zx_file_open(&copy, path, ZX_OPEN_READ_ONLY, 0));
            DONE(zx_file_save_as(&copy, path, ZX_OPEN_ONLY));
        } else {
            DONE(zx_file_save(&file));
        }
        IS(count(made, 's') > 0, true);
        IS(count(made, 'S'), 1);
        IS(count(made, 'r'), 0);
        made[0] = 0;
        if (round < 4) DONE(zx_file_save(&file));
        IS(count(made, 'S'), 0);
        zx_file_discard(&copy);
        zx_file_discard(&file);
    }
    unlink(path);
}

/* On a disk without a journal the number of names is on the disk when the file is synced behind its name. */
static void synced_behind_its_name(void) {
    zx_file file = ZX_CLOSED_FILE;
    make(path, 1, 4096);
    for (int round = 0; round < 3; round++) {
        told = round == 0 ? "a save" : round == 1 ? "a creation" : "a first commit";
        if (round == 1) unlink(path);
        DONE(zx_file_open(&file, path, round == 1 ? ZX_CREATE_ONLY : ZX_OPEN_ONLY | (round == 2 ? ZX_DURABLE : 0), 4096));
        set(&file, 2 + round);
        if (round != 1) made[0] = 0;
        DONE(round == 2 ? zx_file_commit(&file) : zx_file_save(&file));
        // behind each link that stays comes a sync of the file, and then one of the folder
        const char *last = strrchr(made, round == 2 ? 'u' : 'l'), *sync = last ? strchr(last, 's') : NULL;
        if (round < 2) IS(sync != NULL && strchr(sync, 'S') != NULL, true);
        else IS(last != NULL && strchr(last, 'S') != NULL, true);
        zx_file_discard(&file);
        made[0] = 0;
    }
    unlink(path), unlink(log_path);
}

/* A log is named when its first gate is on the disk, so that none is found empty. */
static void a_log_is_never_empty(void) {
    zx_file file = ZX_CLOSED_FILE;
    make(path, 1, 4096);
    DONE(zx_file_open(&file, path, ZX_OPEN_ONLY | ZX_DURABLE, 0));
    DONE(zx_file_commit(&file));
    set(&file, 2);
    made[0] = 0;
    DONE(zx_file_commit(&file));
    IS(strncmp(made, "wslu", 4), 0);
    zx_file_discard(&file);
    unlink(path), unlink(log_path);
}

/* A log without a record may have an open gate on the disk: who writes the file shuts it anew before it removes the log. */
static void a_gate_that_was_not_synced(void) {
    for (int way = 0; way < 4; way++) {
        const uint32_t ways[] = { ZX_OPEN_ONLY, ZX_OPEN_ONLY | ZX_MAPPED, ZX_OPEN_ONLY | ZX_DURABLE, ZX_CREATE_ONLY };
        zx_file file = ZX_CLOSED_FILE;
        make(path, 1, 4096);
        DONE(zx_file_open(&file, path, ZX_OPEN_ONLY | ZX_DURABLE, 0));
        set(&file, 2);
        DONE(zx_file_commit(&file));
        DONE(zx_file_save(&file));
        IS(link(log_path, other), 0);
        DONE(zx_file_close(&file));
        IS(rename(other, log_path), 0);
        if (way == 3) unlink(path);
        made[0] = 0;
        DONE(zx_file_open(&file, path, ways[way], 4096));
        if (way == 2) DONE(zx_file_commit(&file));
        const char *gate = strrchr(made, 'w');
        IS(gate != NULL && strncmp(gate, "wsuS", 4) == 0, true);
        IS(access(log_path, F_OK), -1);
        zx_file_discard(&file);
    }
    unlink(path);
}

/* ---- a file has two names */

static void a_file_with_two_names(void) {
    zx_file file = ZX_CLOSED_FILE, second = ZX_CLOSED_FILE;
    for (int round = 0; round < 2; round++) {
        make(path, 1, 4096);
        IS(link(path, other), 0);
        DONE(zx_file_open(&file, path, ZX_OPEN_ONLY | ZX_DURABLE, 0));
        set(&file, 2);
        DONE(zx_file_commit(&file));
        if (round == 0) DONE(zx_file_close(&file));
        else zx_file_discard(&file);
        DONE(zx_file_open(&second, other, ZX_OPEN_ONLY | ZX_MAPPED, 0));
        IS(number(&second), 1);
        set(&second, 9);
        DONE(zx_file_flush(&second));
        DONE(zx_file_close(&second));
        IS(found(path), 2);
        IS(found(other), 9);
        unlink(path), unlink(log_path), unlink(other);
    }
}

/* ---- what a reader meets */

static void put_bytes(const char *at, off_t from, const char *bytes, size_t len) {
    int file = open(at, O_RDWR);
    IS(__real_pwrite(file, bytes, len, from), len);
    close(file);
}

/* A mapped writer is in the middle of a change: the file is in use. Without a writer it is no image. */
static void a_file_under_change(void) {
    zx_file file = ZX_CLOSED_FILE;
    char old[16];
    make(path, 1, 4096);
    DONE(zx_file_open(&file, path, ZX_OPEN_ONLY | ZX_MAPPED, 0));
    int bytes = open(path, O_RDONLY);
    IS(__real_pread(bytes, old, 16, 0), 16);
    close(bytes);
    put_bytes(path, 0, "no image at all!", 16);
    IS(found(path), -(int64_t)ZX_FILE_IN_USE);
    put_bytes(path, 0, old, 16);
    IS(found(path), 1);
    DONE(zx_file_close(&file));
    put_bytes(path, 0, "no image at all!", 16);
    IS(found(path) <= -(int64_t)ZX_TRUNCATED, true);
    unlink(path);
}

/* A process was killed while it made a mapped file longer. */
static void a_longer_file(void) {
    struct stat own;
    for (int way = 0; way < 3; way++) {
        make(path, 1, 4096);
        IS(truncate(path, 8192), 0);
        IS(found(path), 1);
        DONE(open_and_close(way == 0 ? ZX_OPEN_READ_ONLY : way == 1 ? ZX_OPEN_ONLY : ZX_OPEN_ONLY | ZX_MAPPED, way > 0));
        IS(found(path), way == 0 ? 1 : 2);
        IS(stat(path, &own), 0);
        IS(own.st_size, way == 0 ? 8192 : 4096);
    }
    // by copy it is cut although nothing was changed
    zx_file file = ZX_CLOSED_FILE;
    IS(truncate(path, 8192), 0);
    DONE(zx_file_open(&file, path, ZX_OPEN_ONLY, 0));
    DONE(zx_file_close(&file));
    IS(stat(path, &own), 0);
    IS(own.st_size, 4096);
    IS(truncate(path, 4100), 0);
    IS(found(path) <= -(int64_t)ZX_TRUNCATED, true);
    unlink(path);
}

/* What follows the records of a log may be long, and is not read. */
static void a_long_log(void) {
    struct stat own;
    make(path, 1, 4096);
    commit(path, 2);
    IS(stat(log_path, &own), 0);
    IS(truncate(log_path, 3ll << 30), 0);
    for (int way = 0; way < 3; way++) {
        bytes_read = 0;
        if (way == 0) IS(found(path), 2);
        else DONE(open_and_close(way == 1 ? ZX_OPEN_READ_ONLY | ZX_MAPPED : ZX_OPEN_ONLY | ZX_DURABLE, false));
        IS(bytes_read < 16 << 20, true);
    }
    // a record that says more than any record has
    put_bytes(log_path, 4096, "\0\0\0\0\1\0\0\0", 8);
    IS(truncate(log_path, 9ll << 30), 0);
    bytes_read = 0;
    IS(found(path), -(int64_t)ZX_FILE_LOG_FOREIGN);
    IS(bytes_read < 16 << 20, true);
    unlink(path), unlink(log_path);
}

/* ---- the process or the disk has limits */

static int in_child(void (*what)(void)) {
    int status = -1;
    fflush(stdout);
    pid_t child = fork();
    if (child == 0) {
        checks = wrong = 0;
        what();
        fflush(stdout);
        _exit(wrong > 0);
    }
    IS(waitpid(child, &status, 0), child);
    return status;
}

/* A file may not become longer than the process may make one: a code says so, not a signal. */
static void limited(void) {
    const struct rlimit least = { 8192, 8192 };
    zx_file file = ZX_CLOSED_FILE;
    IS(setrlimit(RLIMIT_FSIZE, &least), 0);
    for (int way = 0; way < 3; way++) {
        DONE(zx_file_open(&file, path, ZX_OPEN_ONLY | (way == 0 ? ZX_DURABLE : way == 1 ? 0 : ZX_MAPPED), 0));
        set(&file, 2);
        zx_code code = way == 0 ? zx_file_commit(&file) : way == 1 ? zx_file_save(&file) : zx_file_grow(&file, 65536);
        IS(code, ZX_FILE_FAULT);
        IS(file.error, EFBIG);
        zx_file_discard(&file);
    }
    IS(zx_file_open(&file, other, ZX_CREATE_ONLY, 65536), ZX_FILE_FAULT);
    IS(file.error, EFBIG);
}

static void a_limit(void) {
    make(path, 1, 65536);
    IS(in_child(limited), 0);
    IS(found(path), 2); // what was changed in place
    unlink(path);
    IS(names_in_room(), 0);
}

/* ---- whose the log is */

enum { ALICE = 1001, BOB = 1002, STAFF = 2000 };

static int64_t found_by_alice;

/* What Alice finds, and whether she can commit. */
static void as_alice(void) {
    zx_file file = ZX_CLOSED_FILE;
    const int64_t wanted = found_by_alice;
    if (setgid(STAFF) != 0 || setuid(ALICE) != 0) _exit(0);
    IS(found(path), wanted);
    DONE(zx_file_open(&file, path, ZX_OPEN_READ_ONLY | ZX_MAPPED, 0));
    IS(number(&file), wanted);
    zx_file_discard(&file);
    DONE(zx_file_open(&file, path, ZX_OPEN_ONLY | ZX_DURABLE, 0));
    IS(number(&file), wanted);
    set(&file, 3);
    IS(zx_file_commit(&file), wanted == 2 ? ZX_DONE : ZX_FILE_LOG_IN_THE_WAY);
    zx_file_discard(&file);
}

/* A log counts only if nobody can have made it, or may write it, who may not write the file. */
static void the_owner_of_a_log(void) {
    static const struct {
        uid_t owner;
        mode_t file, log, folder;
        bool counts;
    } rows[] = { { ALICE, 0644, 0644, 0777, true },  { 0, 0644, 0644, 0777, true },     { BOB, 0644, 0644, 01777, false },
                 { BOB, 0664, 0664, 0777, false },   { BOB, 0664, 0664, 0775, true },   { BOB, 0644, 0644, 0775, false },
                 { ALICE, 0644, 0666, 0777, false }, { ALICE, 0644, 0664, 0777, false }, { ALICE, 0664, 0664, 0777, true } };
    if (geteuid() != 0) return;
    IS(chown(room, ALICE, STAFF), 0);
    for (size_t i = 0; i < sizeof rows / sizeof *rows; i++) {
        char row[40];
        snprintf(row, sizeof row, "row %zu", i);
        told = row;
        make(path, 1, 4096);
        commit(path, 2);
        IS(chown(path, ALICE, STAFF) | chown(log_path, rows[i].owner, STAFF), 0);
        IS(chmod(path, rows[i].file) | chmod(log_path, rows[i].log) | chmod(room, rows[i].folder), 0);
        found_by_alice = rows[i].counts ? 2 : 1;
        if (rows[i].owner == 0) IS(chmod(log_path, 0664) | chmod(path, 0664), 0);
        IS(in_child(as_alice), 0);
        unlink(path), unlink(log_path);
    }
    told = "";
    IS(chown(room, 0, 0) | chmod(room, 0700), 0);
}

/* A log grants no more than its file does, also where the file's rights became fewer beside it. */
static void the_rights_of_a_log(void) {
    zx_file file = ZX_CLOSED_FILE;
    struct stat own;
    make(path, 1, 4096);
    IS(chmod(path, 0755), 0);
    commit(path, 2);
    IS(stat(log_path, &own), 0);
    IS(own.st_mode & 07777, 0644);
    IS(chmod(path, 0600), 0);
    DONE(zx_file_open(&file, path, ZX_OPEN_ONLY | ZX_DURABLE, 0));
    IS(stat(log_path, &own), 0);
    IS(own.st_mode & 07777, 0600);
    IS(chmod(path, 0640) | chmod(log_path, 0600), 0);
    set(&file, 3);
    DONE(zx_file_commit(&file));
    IS(stat(log_path, &own), 0);
    IS(own.st_mode & 07777, 0640);
    zx_file_discard(&file);
    IS(found(path), 3);
    unlink(path), unlink(log_path);
}

static uint32_t how_opened;

static void opened_on_a_full_disk(void) {
    zx_file file = ZX_CLOSED_FILE;
    zx_code code = zx_file_open(&file, path, how_opened, 0);
    uint64_t gaps;
    if (code == ZX_DONE) IS(number(&file) > 0, true);
    if (code == ZX_DONE) DONE(zx_sanity(&file.segment, &(bool){ false }));
    if (code == ZX_DONE) (void)zx_free_bytes(&file.segment, &gaps);
    else IS(file.error, ENOSPC);
    if (code == ZX_DONE && how_opened & ZX_DURABLE) {
        set(&file, 3);
        code = zx_file_commit(&file);
        IS(code == ZX_DONE || (code == ZX_FILE_FAULT && file.error == ENOSPC), true);
        if (code == ZX_DONE) DONE(zx_file_close(&file));
    }
    zx_file_discard(&file);
}

/* A file with holes on a full disk in memory: each opening and each commit has a code, and no signal ends the process. */
static void a_full_disk(const char *small) {
    const uint32_t ways[] = { ZX_OPEN_READ_ONLY, ZX_OPEN_READ_ONLY | ZX_MAPPED, ZX_OPEN_COPY_ON_WRITE | ZX_MAPPED, ZX_OPEN_ONLY,
                              ZX_OPEN_ONLY | ZX_DURABLE, ZX_OPEN_ONLY | ZX_MAPPED };
    char filling[440];
    static char zeros[4096];
    snprintf(path, sizeof path, "%s/file", small);
    snprintf(log_path, sizeof log_path, "%s-log", path);
    snprintf(filling, sizeof filling, "%s/filling", small);
    for (int round = 0; round < 2 * 6; round++) {
        told = round % 2 ? "with a log" : "without a log";
        make(path, 1, 262144);
        if (round % 2) commit(path, 2);
        FILE *fill = fopen(filling, "w");
        while (fill && fwrite(zeros, 1, sizeof zeros, fill) == sizeof zeros && fflush(fill) == 0) {}
        if (fill) fclose(fill);
        how_opened = ways[round / 2];
        IS(in_child(opened_on_a_full_disk), 0);
        IS(found(path) == 1 + round % 2 || found(path) == 3, true);
        unlink(filling);
    }
    unlink(path), unlink(log_path);
}

/* ---- a save inside a transaction */

static void inside_a_transaction(void) {
    for (int way = 0; way < 6; way++) {
        const uint32_t ways[] = { 0, ZX_MAPPED, ZX_DURABLE };
        zx_file file = ZX_CLOSED_FILE;
        zx_step before = ZX_NO_STEP, inner = ZX_NO_STEP;
        told = way / 3 ? "large" : "small";
        make(path, 1, way / 3 ? 1 << 20 : 4096);
        DONE(zx_file_open(&file, path, ZX_OPEN_ONLY | ways[way % 3], 0));
        DONE(zx_file_begin(&file, &before));
        set(&file, 2);
        DONE(zx_file_begin(&file, &inner));
        IS(zx_file_save(&file), ZX_FILE_IN_STEP);
        IS(file.error, EBUSY);
        DONE(zx_file_keep(&file, &inner));
        IS(zx_file_commit(&file), ZX_FILE_IN_STEP);
        IS(zx_file_flush(&file), ZX_FILE_IN_STEP);
        IS(zx_file_save_as(&file, path, ZX_OPEN_ONLY), ZX_FILE_IN_STEP);
        IS(zx_file_close(&file), ZX_FILE_IN_STEP);
        DONE(zx_file_undo(&file, &before));
        DONE(zx_file_save(&file));
        IS(found(path), 1);
        DONE(zx_file_begin(&file, &before));
        set(&file, 3);
        DONE(zx_file_keep(&file, &before));
        DONE(zx_file_begin(&file, &before));
        set(&file, 4);
        zx_file_leave(&file, &before);
        DONE(zx_file_close(&file));
        IS(found(path), 4);
    }
    unlink(path);
}

int main(int count_of, char **words) {
    if (count_of < 2) return 2;
    snprintf(room, sizeof room, "%s/others.room", words[1]);
    IS(mkdir(room, 0700), 0);
    snprintf(path, sizeof path, "%s/file", room);
    snprintf(log_path, sizeof log_path, "%s-log", path);
    snprintf(other, sizeof other, "%s/other", room);
    snprintf(other_log, sizeof other_log, "%s-log", other);
    for (enum thing thing = 0; thing < THINGS; thing++) a_file_of_somebody_else(thing);
    told = "";
    a_file_that_is_gone();
    a_log_of_another_file();
    a_log_that_is_moved();
    for (enum call call = 0; call < CALLS; call++) {
        int at = 1;
        while (names_that_others_take(call, at)) at++;
        IS(at > 2, true);
    }
    told = "";
    what_another_did_not_sync();
    synced_behind_its_name();
    told = "";
    a_log_is_never_empty();
    a_gate_that_was_not_synced();
    a_file_with_two_names();
    a_file_under_change();
    a_longer_file();
    a_long_log();
    a_limit();
    the_owner_of_a_log();
    the_rights_of_a_log();
    inside_a_transaction();
    IS(rmdir(room), 0);
    if (count_of > 2) a_full_disk(words[2]);
    printf("others.c: %d checks, %d wrong\n", checks, wrong);
    return wrong != 0;
}
