/* durable FOLDER [SMALL]: commits meet a fork, readers, another creator, other files under the name, a hard link, a folder
   that may not be written, and with SMALL, a disk of 1 MiB, a full disk. It is linked with --wrap=pread,--wrap=pwrite,
   --wrap=fdatasync,--wrap=linkat,--wrap=unlinkat, so that processes meet within a call. */
#define _GNU_SOURCE
#include "zaluxhoni_files.h"

#include <errno.h>
#include <signal.h>
#include <stdio.h>
#include <stdlib.h>
#include <sys/stat.h>
#include <sys/wait.h>
#include <time.h>
#include <unistd.h>

/* How many seconds another process may take for what it does at once: other programs may have the machine. */
enum { PATIENCE = 600 };

static int checks, wrong;
static char path[400], log_path[410], other[410];

#define IS(got, wanted) is_same((long long)(got), (long long)(wanted), #got, __LINE__)
#define DONE(call) IS(call, ZX_DONE)

static void is_same(long long got, long long wanted, const char *what, int line) {
    checks++;
    if (got == wanted) return;
    wrong++;
    printf("durable.c:%d: WRONG %s: %lld, not %lld\n", line, what, got, wanted);
}

/* ---- calls of the system by the library */

ssize_t __real_pread(int file, void *bytes, size_t len, off_t from);
ssize_t __real_pwrite(int file, const void *bytes, size_t len, off_t from);
int __real_fdatasync(int file);
int __real_linkat(int from, const char *one, int to, const char *other, int how);
int __real_unlinkat(int folder, const char *path, int how);

/* Whether a call often waits after the first page that it reads, and before it writes or syncs, as if the system ran
   another process then. */
static bool is_slow;
static unsigned seed = 1;

static void wait_often(void) {
    if (is_slow && rand_r(&seed) % 2 == 0) usleep(rand_r(&seed) % 1000);
}

ssize_t __wrap_pread(int file, void *bytes, size_t len, off_t from) {
    const size_t first = is_slow && len > 4096 ? 4096 : len;
    ssize_t got = __real_pread(file, bytes, first, from);
    if (got < (ssize_t)first || first == len) return got;
    wait_often();
    ssize_t more = __real_pread(file, (uint8_t *)bytes + first, len - first, from + (off_t)first);
    return more < 0 ? more : got + more;
}

ssize_t __wrap_pwrite(int file, const void *bytes, size_t len, off_t from) {
    wait_often();
    return __real_pwrite(file, bytes, len, from);
}

int __wrap_fdatasync(int file) {
    wait_often();
    return __real_fdatasync(file);
}

/* What another process does once, in front of the next call that gives a name or takes one away. */
static void (*in_between)(void);

static void come_between(void) {
    void (*what)(void) = in_between;
    in_between = NULL;
    if (what) what();
}

int __wrap_linkat(int from, const char *one, int to, const char *other, int how) {
    come_between();
    return __real_linkat(from, one, to, other, how);
}

int __wrap_unlinkat(int folder, const char *name, int how) {
    come_between();
    return __real_unlinkat(folder, name, how);
}

/* ---- cases */

static int64_t number(zx_file *file, const char *name) {
    zx_key key = zx_name(name);
    zx_value value = zx_i64(-1);
    DONE(zx_get(&file->segment, &key, 0, &value));
    return value.number;
}

static void set(zx_file *file, const char *name, int64_t to) {
    zx_key key = zx_name(name);
    zx_value value = zx_i64(to);
    uint64_t handle;
    uint32_t found;
    DONE(zx_find_or_construct(&file->segment, &key, 1, &value, &handle, &found));
    DONE(zx_set(&file->segment, &key, 0, &value));
}

/* Creates a durable file with the numbers n and m, both 1. */
static void make(zx_file *file, const char *folder, uint64_t size) {
    snprintf(path, sizeof path, "%s/durable.seg", folder);
    snprintf(log_path, sizeof log_path, "%s-log", path);
    snprintf(other, sizeof other, "%s-other", path);
    unlink(path), unlink(log_path), unlink(other);
    DONE(zx_file_open(file, path, ZX_CREATE_ONLY | ZX_DURABLE, size));
    set(file, "n", 1), set(file, "m", 1);
    DONE(zx_file_commit(file));
}

static void a_fork(const char *folder) {
    zx_file file = ZX_CLOSED_FILE;
    make(&file, folder, 8192);
    set(&file, "n", 2);
    int status = 1;
    pid_t child = fork();
    if (child == 0) {
        bool is = zx_file_commit(&file) == ZX_CLOSED;
        zx_file_discard(&file);
        _exit(is ? 0 : 1);
    }
    IS(waitpid(child, &status, 0), child);
    IS(status, 0);
    DONE(zx_file_commit(&file));
    zx_file_discard(&file);
    DONE(zx_file_open(&file, path, ZX_OPEN_ONLY | ZX_DURABLE, 0));
    IS(number(&file, "n"), 2);
    DONE(zx_file_close(&file));
}

/* Opens the file in a mode, and compares its size and n. */
static void has_size(uint32_t mode, uint64_t size) {
    zx_file file = ZX_CLOSED_FILE;
    uint64_t is = 0;
    DONE(zx_file_open(&file, path, mode, 0));
    DONE(zx_size(&file.segment, &is));
    IS(is, size);
    IS(number(&file, "n"), 1);
    zx_file_discard(&file);
}

/* A commit writes no zeros of a longer image, so that the log may be much shorter than the image becomes. */
static void a_longer_image(const char *folder) {
    zx_file file = ZX_CLOSED_FILE;
    const uint64_t size = 8192 + (1 << 24);
    make(&file, folder, 8192);
    DONE(zx_file_grow(&file, 1 << 24));
    DONE(zx_file_commit(&file));
    zx_file_discard(&file);
    has_size(ZX_OPEN_ONLY | ZX_DURABLE, size);
    has_size(ZX_OPEN_READ_ONLY, size);
    has_size(ZX_OPEN_READ_ONLY | ZX_MAPPED, size);
    DONE(zx_file_open(&file, path, ZX_OPEN_ONLY | ZX_DURABLE, 0));
    DONE(zx_file_shrink(&file));
    DONE(zx_file_commit(&file));
    uint64_t least = 0;
    DONE(zx_size(&file.segment, &least));
    IS(least < 8192, true);
    zx_file_discard(&file);
    has_size(ZX_OPEN_READ_ONLY, least);
    has_size(ZX_OPEN_ONLY, least);
    unlink(path);
}

/* A child commits, with checkpoints, and this process reads: n and m are always equal, and never become smaller. It reads
   until it has seen commits of the child, which may begin late. */
static void a_reader(const char *folder, uint64_t size, int readings) {
    zx_file file = ZX_CLOSED_FILE, reader = ZX_CLOSED_FILE;
    make(&file, folder, size);
    zx_file_discard(&file);
    pid_t child = fork();
    if (child == 0) {
        DONE(zx_file_open(&file, path, ZX_OPEN_ONLY | ZX_DURABLE, 0));
        for (int64_t i = 2;; i++) {
            set(&file, "n", i), set(&file, "m", i);
            zx_code code = i % 7 ? zx_file_commit(&file) : zx_file_save(&file);
            if (code != ZX_DONE) _exit(1);
        }
    }
    int64_t last = 1;
    const time_t until = time(NULL) + PATIENCE;
    for (int i = 0; i < readings || (last == 1 && time(NULL) < until && waitpid(child, NULL, WNOHANG) == 0); i++) {
        zx_code code = zx_file_open(&reader, path, ZX_OPEN_READ_ONLY, 0);
        IS(code, ZX_DONE);
        if (code != ZX_DONE) continue;
        int64_t n = number(&reader, "n");
        IS(number(&reader, "m"), n);
        if (n < last) IS(n, last);
        last = n;
        zx_file_discard(&reader);
    }
    IS(last > 1, true);
    IS(zx_file_open(&reader, path, ZX_OPEN_ONLY | ZX_DURABLE, 0), ZX_FILE_IN_USE);
    kill(child, SIGKILL);
    waitpid(child, NULL, 0);
}

static zx_file another;
static zx_code another_code;

static void create_another(void) {
    another_code = zx_file_open(&another, path, ZX_CREATE_ONLY | ZX_DURABLE, 8192);
    if (another_code != ZX_DONE) return;
    set(&another, "n", 5);
    DONE(zx_file_commit(&another));
}

/* Leaves a log without a record beside the name of a file that is gone. */
static void leave_an_empty_log(zx_file *file) {
    DONE(zx_file_save(file));
    IS(link(log_path, other), 0);
    zx_file_discard(file);
    IS(rename(other, log_path), 0);
    unlink(path);
}

/* Two create a file at once, in two ways, and perhaps a log without a record was left beside the name. One is refused, and
   takes no commit of the other away. */
static void two_creators(const char *folder, bool has_log, bool saves) {
    zx_file file = ZX_CLOSED_FILE;
    make(&file, folder, 8192);
    leave_an_empty_log(&file);
    if (!has_log) unlink(log_path);
    if (saves) DONE(zx_create(&file.segment, 4096));
    in_between = create_another;
    zx_code code = saves ? zx_file_save_as(&file, path, ZX_CREATE_ONLY)
                         : zx_file_open(&file, path, ZX_OPEN_OR_CREATE | ZX_DURABLE, 4096);
    IS(in_between == NULL, true);
    IS((code == ZX_DONE) + (another_code == ZX_DONE), 1);
    zx_file_discard(&file);
    zx_file_discard(&another);
    DONE(zx_file_open(&file, path, ZX_OPEN_ONLY | ZX_DURABLE, 0));
    if (another_code == ZX_DONE) IS(number(&file, "n"), 5);
    DONE(zx_file_close(&file));
    unlink(path);
}

/* Another process takes the name of a file whose log is empty. Who has the old file takes no log of the new one away. */
static void another_durable_file(const char *folder) {
    zx_file file = ZX_CLOSED_FILE;
    make(&file, folder, 8192);
    DONE(zx_file_save(&file));
    IS(rename(path, other), 0);
    create_another();
    DONE(another_code);
    IS(zx_file_close(&file), ZX_FILE_REPLACED);
    zx_file_discard(&file);
    zx_file_discard(&another);
    DONE(zx_file_open(&file, path, ZX_OPEN_ONLY | ZX_DURABLE, 0));
    IS(number(&file, "n"), 5);
    DONE(zx_file_close(&file));
    unlink(other);
}

static void another_file(const char *folder) {
    zx_file file = ZX_CLOSED_FILE, second = ZX_CLOSED_FILE;
    make(&file, folder, 8192);
    // another process renames the file
    set(&file, "n", 2);
    IS(rename(path, other), 0);
    IS(zx_file_commit(&file), ZX_FILE_REPLACED);
    IS(rename(other, path), 0);
    DONE(zx_file_commit(&file));
    // another process removes the log
    set(&file, "n", 3);
    IS(unlink(log_path), 0);
    IS(zx_file_commit(&file), ZX_FILE_REPLACED);
    zx_file_discard(&file);
    // another process puts another file in its place
    make(&file, folder, 8192);
    zx_file_discard(&file);
    DONE(zx_file_open(&second, other, ZX_CREATE_ONLY, 4096));
    DONE(zx_file_close(&second));
    IS(rename(other, path), 0);
    IS(zx_file_open(&file, path, ZX_OPEN_ONLY | ZX_DURABLE, 0), ZX_FILE_LOG_FOREIGN);
    IS(zx_file_open(&file, path, ZX_OPEN_ONLY | ZX_MAPPED, 0), ZX_FILE_LOG_FOREIGN);
    IS(zx_file_open(&file, path, ZX_OPEN_READ_ONLY | ZX_MAPPED, 0), ZX_FILE_LOG_FOREIGN);
    IS(zx_file_open(&file, path, ZX_OPEN_READ_ONLY, 0), ZX_FILE_LOG_FOREIGN);
    IS(unlink(log_path), 0);
    DONE(zx_file_open(&file, path, ZX_OPEN_ONLY | ZX_DURABLE, 0));
    DONE(zx_file_close(&file));
}

/* A reader by another name of the file finds the last save, without the log. A save leaves the other name as it is. */
static void a_hard_link(const char *folder) {
    zx_file file = ZX_CLOSED_FILE;
    make(&file, folder, 8192);
    DONE(zx_file_save(&file));
    set(&file, "n", 2);
    DONE(zx_file_commit(&file));
    zx_file_discard(&file);
    IS(link(path, other), 0);
    DONE(zx_file_open(&file, other, ZX_OPEN_READ_ONLY, 0));
    IS(number(&file, "n"), 1);
    zx_file_discard(&file);
    DONE(zx_file_open(&file, path, ZX_OPEN_ONLY | ZX_DURABLE, 0));
    IS(number(&file, "n"), 2);
    DONE(zx_file_close(&file));
    DONE(zx_file_open(&file, other, ZX_OPEN_READ_ONLY, 0));
    IS(number(&file, "n"), 1);
    zx_file_discard(&file);
    unlink(other);
}

/* In a folder that the process may not write, it reads what was committed, and its own commits fail. */
static void a_closed_folder(const char *folder) {
    zx_file file = ZX_CLOSED_FILE;
    make(&file, folder, 8192);
    zx_file_discard(&file);
    int status = 1;
    pid_t child = fork();
    if (child == 0) {
        checks = wrong = 0;
        if (chown(path, 65534, 65534) != 0 || chown(log_path, 65534, 65534) != 0 || setuid(65534) != 0) _exit(0);
        DONE(zx_file_open(&file, path, ZX_OPEN_READ_ONLY, 0));
        IS(number(&file, "n"), 1);
        zx_file_discard(&file);
        DONE(zx_file_open(&file, path, ZX_OPEN_ONLY | ZX_DURABLE, 0));
        set(&file, "n", 2);
        IS(zx_file_commit(&file), ZX_FILE_FAULT);
        IS(file.error, EACCES);
        zx_file_discard(&file);
        DONE(zx_file_open(&file, path, ZX_OPEN_READ_ONLY, 0));
        IS(number(&file, "n"), 1);
        _exit(wrong > 0);
    }
    IS(waitpid(child, &status, 0), child);
    IS(status, 0);
}

/* On a full disk commits go on as long as the log has blocks. Then one fails, commits nothing, and may be called again. */
static void a_full_disk(const char *small) {
    zx_file file = ZX_CLOSED_FILE;
    make(&file, small, 200000);
    char filling[440];
    static uint8_t zeros[4096];
    snprintf(filling, sizeof filling, "%s/filling", small);
    FILE *fill = fopen(filling, "w");
    while (fill && fwrite(zeros, 1, sizeof zeros, fill) == sizeof zeros && fflush(fill) == 0) {}
    if (fill) fclose(fill);
    int64_t last = 1;
    set(&file, "n", 2);
    zx_code code = zx_file_commit(&file);
    for (; code == ZX_DONE && last < 1000; code = zx_file_commit(&file)) set(&file, "n", ++last + 1);
    IS(code, ZX_FILE_FAULT);
    IS(file.error, ENOSPC);
    zx_file other_file = ZX_CLOSED_FILE;
    DONE(zx_file_open(&other_file, path, ZX_OPEN_READ_ONLY, 0));
    IS(number(&other_file, "n"), last);
    zx_file_discard(&other_file);
    unlink(filling);
    DONE(zx_file_commit(&file));
    zx_file_discard(&file);
    DONE(zx_file_open(&file, path, ZX_OPEN_ONLY | ZX_DURABLE, 0));
    IS(number(&file, "n"), last + 1);
    DONE(zx_file_close(&file));
    unlink(path);
}

int main(int count, char **words) {
    if (count < 2) return 2;
    a_fork(words[1]);
    a_longer_image(words[1]);
    a_reader(words[1], 300000, 3000);
    is_slow = true;
    a_reader(words[1], 8192, 2000);
    is_slow = false;
    for (int way = 0; way < 4; way++) two_creators(words[1], way % 2, way / 2);
    another_durable_file(words[1]);
    another_file(words[1]);
    a_hard_link(words[1]);
    a_closed_folder(words[1]);
    if (count > 2) a_full_disk(words[2]);
    unlink(path), unlink(log_path);
    printf("durable.c: %d checks, %d wrong\n", checks, wrong);
    return wrong != 0;
}
