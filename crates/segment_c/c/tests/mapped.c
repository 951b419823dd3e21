/* mapped FOLDER KILLS [SMALL [BLOCKS]]: files that are mapped, by zaluxhoni_files.h. So many processes are killed
   within a call. SMALL is a folder on a disk of 1 MiB, and BLOCKS one on a small disk whose files have blocks of
   attributes. */
#define _GNU_SOURCE
#include "zaluxhoni_files.h"

#include <errno.h>
#include <fcntl.h>
#include <pthread.h>
#include <signal.h>
#include <stdatomic.h>
#include <stdio.h>
#include <stdlib.h>
#include <sys/mman.h>
#include <sys/resource.h>
#include <sys/stat.h>
#include <sys/wait.h>
#include <sys/xattr.h>
#include <time.h>
#include <unistd.h>

static int wrong, cases;
static char path[420];

#define IS(got, wanted) \
    do { \
        long long is = (long long)(got), should = (long long)(wanted); \
        cases++; \
        if (is != should) { \
            printf("mapped.c:%d: WRONG %s: %lld, not %lld\n", __LINE__, #got, is, should); \
            wrong++; \
        } \
    } while (0)
#define DONE(call) IS(call, ZX_DONE)

enum { CREATE = ZX_CREATE_ONLY | ZX_MAPPED, WRITE = ZX_OPEN_ONLY | ZX_MAPPED, READ = ZX_OPEN_READ_ONLY | ZX_MAPPED,
       COPY = ZX_OPEN_COPY_ON_WRITE | ZX_MAPPED };

static zx_code set(zx_file *file, int64_t number) {
    zx_key key = zx_name("n");
    zx_value value = zx_i64(number);
    uint64_t handle;
    uint32_t found;
    zx_code code = zx_find_or_construct(&file->segment, &key, 1, &value, &handle, &found);
    return code == ZX_DONE ? zx_set(&file->segment, &key, 0, &value) : code;
}

static int64_t get(zx_file *file) {
    zx_key key = zx_name("n");
    zx_value value;
    zx_code code = zx_get(&file->segment, &key, 0, &value);
    return code == ZX_DONE ? value.number : -(int64_t)code;
}

/* Returns the number that a reader by copy finds, or -1000 minus the code if the opening fails. */
static int64_t stands(void) {
    zx_file file = ZX_CLOSED_FILE;
    zx_code code = zx_file_open(&file, path, ZX_OPEN_READ_ONLY, 0);
    int64_t number = code == ZX_DONE ? get(&file) : -1000 - (int64_t)code;
    zx_file_discard(&file);
    return number;
}

static int64_t length(void) {
    struct stat found;
    return stat(path, &found) == 0 ? (int64_t)found.st_size : -1;
}

/* How many seconds another process may take for what it does at once: other programs may have the machine. */
enum { PATIENCE = 600 };

/* Opens the file for writing behind the kill of a process that had it mapped. Whoever looks at that process meanwhile keeps
   its mapping, and so its lock, a moment longer. */
static zx_code open_behind_kill(zx_file *file) {
    const time_t until = time(NULL) + PATIENCE;
    zx_code code;
    while ((code = zx_file_open(file, path, WRITE, 0)) == ZX_FILE_IN_USE && time(NULL) < until) usleep(1000);
    return code;
}

static void seed(int64_t number) {
    zx_file file = ZX_CLOSED_FILE;
    unlink(path);
    DONE(zx_file_open(&file, path, CREATE, 8192));
    DONE(set(&file, number));
    DONE(zx_file_close(&file));
}

/* A change is in the file at once. A save waits for the disk. Neither a close nor a discard reverts it. */
static void in_place(void) {
    zx_file file = ZX_CLOSED_FILE;
    struct stat before, after;
    unlink(path);
    DONE(zx_file_open(&file, path, CREATE, 8192));
    IS(length(), 8192);
    DONE(set(&file, 5));
    IS(stands(), 5);
    DONE(zx_file_flush(&file));
    DONE(set(&file, 6));
    zx_file_discard(&file);
    IS(stands(), 6);
    stat(path, &before);
    DONE(zx_file_open(&file, path, WRITE, 0));
    IS(get(&file), 6);
    DONE(set(&file, 7));
    DONE(zx_file_save(&file));
    DONE(zx_file_close(&file));
    IS(stands(), 7);
    stat(path, &after);
    IS(before.st_ino == after.st_ino, true);
    IS(zx_file_open(&file, path, CREATE, 8192), ZX_FILE_EXISTS);
    DONE(zx_file_open(&file, path, ZX_OPEN_OR_CREATE | ZX_MAPPED, 0));
    DONE(zx_file_close(&file));
    IS(zx_file_open(&file, path, ZX_MAPPED, 0), ZX_BAD_MODE);
}

/* The elements of a view lie in the mapping of the file. */
static void views(void) {
    zx_file file = ZX_CLOSED_FILE;
    zx_key key = zx_name("n");
    zx_elements number;
    seed(5);
    DONE(zx_file_open(&file, path, WRITE, 0));
    DONE(zx_view_mut(&file.segment, &key, &number));
    *(int64_t *)zx_elements_mut(&file.segment, &number) = 6;
    IS(stands(), 6);
    DONE(zx_file_grow(&file, 1 << 20));
    IS(zx_is_current(&file.segment, &number), false);
    DONE(zx_view(&file.segment, &key, &number));
    IS(*(const int64_t *)number.at, 6);
    DONE(zx_file_close(&file));
    IS(zx_is_current(&file.segment, &number), false);
    DONE(zx_file_open(&file, path, READ, 0));
    IS(zx_view_mut(&file.segment, &key, &number), ZX_READ_ONLY);
    DONE(zx_view(&file.segment, &key, &number));
    IS(*(const int64_t *)number.at, 6);
    DONE(zx_file_close(&file));
}

/* Returns the address at which a file is mapped. */
static uintptr_t start(zx_file *file) {
    zx_key key = zx_name("n");
    zx_elements number = { NULL, 0, 0, 0, 0 };
    DONE(zx_view(&file->segment, &key, &number));
    return (uintptr_t)number.at - (uintptr_t)number.offset;
}

/* Files of one length are mapped in one place, one after another; two of them at once are apart, and one that becomes
   longer leaves the place. */
static void one_place(void) {
    zx_file file = ZX_CLOSED_FILE, other = ZX_CLOSED_FILE;
    char beside[430];
    uintptr_t at = 0;
    snprintf(beside, sizeof beside, "%s.beside", path);
    seed(5);
    DONE(zx_file_open(&other, beside, CREATE, 8192));
    DONE(set(&other, 6));
    DONE(zx_file_close(&other));
    for (int round = 0; round < 6; round++) {
        DONE(zx_file_open(&file, round % 2 ? beside : path, round < 4 ? WRITE : READ, 0));
        IS(get(&file), 5 + round % 2);
        if (round > 0) IS(start(&file), at);
        at = start(&file);
        DONE(zx_file_close(&file));
    }
    DONE(zx_file_open(&file, path, WRITE, 0));
    DONE(zx_file_open(&other, beside, WRITE, 0));
    IS(start(&file) != start(&other), true);
    DONE(set(&file, 7));
    IS(get(&other), 6);
    for (int round = 0; round < 3; round++) {
        DONE(zx_file_grow(&file, 1 << 20));
        DONE(zx_file_close(&file));
        DONE(zx_file_open(&file, path, WRITE, 0));
        IS(get(&file), 7);
        IS(get(&other), 6);
    }
    DONE(set(&other, 8));
    IS(get(&file), 7);
    DONE(zx_file_close(&file));
    DONE(zx_file_close(&other));
    IS(stands(), 7);
    IS(unlink(beside), 0);
}

/* A transaction can be undone, even if the file became longer in it. */
static void taken_back(void) {
    zx_file file = ZX_CLOSED_FILE;
    zx_segment before = ZX_CLOSED_HANDLE;
    seed(5);
    DONE(zx_file_open(&file, path, WRITE, 0));
    DONE(zx_begin(&file.segment, &before));
    DONE(set(&file, 6));
    IS(stands(), 6);
    DONE(zx_file_rollback(&file, &before));
    IS(stands(), 5);
    DONE(zx_begin(&file.segment, &before));
    DONE(zx_file_grow(&file, 1 << 20));
    DONE(set(&file, 6));
    DONE(zx_file_rollback(&file, &before));
    IS(get(&file), 5);
    IS(length(), 8192);
    IS(stands(), 5);
    DONE(zx_begin(&file.segment, &before));
    DONE(set(&file, 6));
    DONE(zx_file_shrink(&file));
    IS(length() < 8192, true);
    DONE(zx_file_rollback(&file, &before));
    IS(length(), 8192);
    IS(stands(), 5);
    DONE(zx_begin(&file.segment, &before));
    DONE(set(&file, 6));
    zx_commit(&before);
    DONE(zx_file_close(&file));
    IS(stands(), 6);
    /* of a file by copy too, where its region became shorter */
    DONE(zx_file_open(&file, path, ZX_OPEN_ONLY, 0));
    DONE(zx_begin(&file.segment, &before));
    DONE(zx_file_shrink(&file));
    DONE(zx_relocate(&file.segment, 1024));
    DONE(zx_file_rollback(&file, &before));
    DONE(zx_file_close(&file));
    IS(length(), 8192);
    seed(5);
    IS(stands(), 5);
}

static void one_writer_or_readers(void) {
    zx_file one = ZX_CLOSED_FILE, other = ZX_CLOSED_FILE, third = ZX_CLOSED_FILE;
    seed(5);
    DONE(zx_file_open(&one, path, WRITE, 0));
    IS(zx_file_open(&other, path, WRITE, 0), ZX_FILE_IN_USE);
    IS(zx_file_open(&other, path, READ, 0), ZX_FILE_IN_USE);
    IS(zx_file_open(&other, path, COPY, 0), ZX_FILE_IN_USE);
    IS(zx_file_open(&other, path, ZX_OPEN_ONLY, 0), ZX_FILE_IN_USE);
    DONE(zx_file_close(&one));
    DONE(zx_file_open(&one, path, READ, 0));
    DONE(zx_file_open(&other, path, COPY, 0));
    IS(zx_file_open(&third, path, WRITE, 0), ZX_FILE_IN_USE);
    IS(zx_file_open(&third, path, ZX_OPEN_ONLY, 0), ZX_FILE_IN_USE);
    IS(get(&one), 5);
    IS(set(&one, 6), ZX_READ_ONLY);
    IS(zx_file_flush(&one), ZX_READ_ONLY);
    IS(zx_file_save(&one), ZX_READ_ONLY);
    DONE(set(&other, 6));
    IS(zx_file_save(&other), ZX_READ_ONLY);
    IS(zx_file_grow(&other, 4096), ZX_SHORT_REGION);
    IS(get(&other), 6);
    IS(get(&one), 5);
    IS(stands(), 5);
    DONE(zx_file_close(&one));
    DONE(zx_file_close(&other));
    IS(stands(), 5);
    IS(length(), 8192);
    DONE(zx_file_open(&third, path, WRITE, 0));
    zx_file_discard(&third);
    /* one that is read needs no right to write */
    IS(chmod(path, 0444), 0);
    DONE(zx_file_open(&one, path, READ, 0));
    DONE(zx_file_close(&one));
}

static void longer_and_shorter(void) {
    zx_file file = ZX_CLOSED_FILE;
    uint64_t size;
    seed(5);
    DONE(zx_file_open(&file, path, WRITE, 0));
    IS(zx_grow(&file.segment, 4096), ZX_SHORT_REGION);
    IS(zx_file_grow(&file, 31), ZX_BAD_GROWTH);
    IS(length(), 8192);
    DONE(zx_file_grow(&file, 1 << 20));
    DONE(zx_size(&file.segment, &size));
    IS(size, 8192 + (1 << 20));
    IS(length(), 8192 + (1 << 20));
    IS(get(&file), 5);
    DONE(set(&file, 6));
    IS(stands(), 6);
    for (int i = 0; i < 20; i++) DONE(zx_file_grow(&file, 32));
    IS(stands(), 6);
    DONE(zx_file_shrink(&file));
    DONE(zx_size(&file.segment, &size));
    IS(length(), size);
    IS(size < 8192, true);
    IS(get(&file), 6);
    IS(stands(), 6);
    DONE(zx_file_grow(&file, 4096));
    /* one that was made shorter by itself is cut when it is closed */
    DONE(zx_shrink(&file.segment));
    DONE(zx_file_close(&file));
    IS(length(), size);
    IS(stands(), 6);
    /* a file that may not become longer stays as it is, and open */
    struct rlimit limit, low = { 65536, RLIM_INFINITY };
    getrlimit(RLIMIT_FSIZE, &limit);
    low.rlim_max = limit.rlim_max;
    signal(SIGXFSZ, SIG_IGN);
    DONE(zx_file_open(&file, path, WRITE, 0));
    setrlimit(RLIMIT_FSIZE, &low);
    IS(zx_file_grow(&file, 1 << 20), ZX_FILE_FAULT);
    IS(file.error, EFBIG);
    setrlimit(RLIMIT_FSIZE, &limit);
    IS(get(&file), 6);
    IS(length(), size);
    DONE(zx_file_grow(&file, 1 << 20));
    DONE(set(&file, 7));
    DONE(zx_file_close(&file));
    IS(stands(), 7);
}

/* Bytes that are no image are refused, with the class that a reader by copy gives, and are left as they are. */
static void no_image(void) {
    zx_file file = ZX_CLOSED_FILE;
    int64_t lengths[] = { 0, 1, 16, 100, 4096, 5000 };
    for (int i = 0; i < 6; i++) {
        for (int zeros = 0; zeros < 2; zeros++) {
            seed(5);
            if (zeros) IS(truncate(path, 0), 0);
            IS(truncate(path, lengths[i]), 0);
            int64_t refused = stands();
            IS(refused < -1100, true);
            for (uint32_t mode = WRITE; mode <= COPY; mode++) IS(zx_file_open(&file, path, mode, 0), -1000 - refused);
            IS(length(), lengths[i]);
            IS(file.segment.at == NULL, true);
        }
    }
    seed(5);
    /* one that is longer than its image is read, and cut by a writer; bytes that say so are not enough */
    IS(truncate(path, 8192 + 4096), 0);
    IS(stands(), 5);
    for (uint32_t mode = READ; mode <= COPY; mode++) {
        DONE(zx_file_open(&file, path, mode, 0));
        IS(get(&file), 5);
        DONE(zx_file_close(&file));
        IS(length(), 8192 + 4096);
    }
    DONE(zx_file_open(&file, path, WRITE, 0));
    IS(length(), 8192);
    IS(get(&file), 5);
    DONE(zx_file_close(&file));
    IS(stands(), 5);
    IS(truncate(path, 4096), 0);
    IS(truncate(path, 8192 + 16), 0);
    for (uint32_t mode = WRITE; mode <= COPY; mode++) IS(zx_file_open(&file, path, mode, 0), -1000 - stands());
    IS(length(), 8192 + 16);
}

/* The path is looked up when the file is opened, and by no other call; a link leads to the file. */
static void by_its_path(void) {
    char link[430], folder[430], here[400];
    zx_file file = ZX_CLOSED_FILE;
    seed(5);
    IS(getcwd(here, sizeof here) != NULL, true);
    snprintf(folder, sizeof folder, "%s", path);
    *strrchr(folder, '/') = 0;
    IS(chdir(folder), 0);
    DONE(zx_file_open(&file, "mapped.seg", WRITE, 0));
    IS(chdir("/"), 0);
    DONE(zx_file_grow(&file, 1 << 20));
    DONE(set(&file, 6));
    DONE(zx_file_flush(&file));
    DONE(zx_file_shrink(&file));
    DONE(zx_file_close(&file));
    IS(chdir(here), 0);
    IS(stands(), 6);
    snprintf(link, sizeof link, "%s.link", path);
    unlink(link);
    IS(symlink("mapped.seg", link), 0);
    for (uint32_t mode = WRITE; mode <= COPY; mode++) {
        DONE(zx_file_open(&file, link, mode, 0));
        IS(get(&file), 6);
        DONE(zx_file_close(&file));
    }
    IS(zx_file_open(&file, link, CREATE, 8192), ZX_FILE_EXISTS);
    IS(unlink(path), 0);
    for (uint32_t mode = READ; mode <= COPY; mode++) IS(zx_file_open(&file, link, mode, 0), ZX_FILE_DANGLES);
    IS(unlink(link), 0);
    /* a file that has lost its name is changed, and no other is made; under another name it is found again */
    for (int is_moved = 0; is_moved < 2; is_moved++) {
        const zx_code code = is_moved ? (zx_code)ZX_DONE : (zx_code)ZX_FILE_REPLACED;
        seed(5);
        DONE(zx_file_open(&file, path, WRITE, 0));
        IS(is_moved ? rename(path, link) : unlink(path), 0);
        DONE(set(&file, 6));
        IS(zx_file_flush(&file), code);
        IS(zx_file_close(&file), code);
        zx_file_discard(&file);
        IS(length(), -1);
    }
    IS(rename(link, path), 0);
    IS(stands(), 6);
}

/* What a saver that was killed left beside a file is removed by who opens that for writing. */
static void what_was_left(void) {
    char spare[430];
    uint64_t hash = 0xcbf29ce484222325;
    zx_file file = ZX_CLOSED_FILE;
    for (const char *at = "mapped.seg"; *at; at++) hash = (hash ^ (unsigned char)*at) * 0x100000001b3;
    snprintf(spare, sizeof spare, "%s", path);
    snprintf(strrchr(spare, '/') + 1, 40, ".zaluxhoni-%016llx", (unsigned long long)hash);
    for (uint32_t mode = WRITE; mode <= COPY; mode++) {
        seed(5);
        int left = open(spare, O_CREAT | O_RDWR, 0600);
        IS(left >= 0 && close(left) == 0, true);
        setxattr(path, "user.zaluxhoni", "1", 1, 0);
        DONE(zx_file_open(&file, path, mode, 0));
        IS(access(spare, F_OK), mode < READ ? -1 : 0);
        DONE(zx_file_close(&file));
        unlink(spare);
    }
}

/* A child has no part in a mapping, and its calls find the segment closed. */
static void forked(void) {
    zx_file file = ZX_CLOSED_FILE;
    int status = -1;
    zx_key key = zx_name("n");
    zx_elements number;
    seed(5);
    DONE(zx_file_open(&file, path, WRITE, 0));
    DONE(zx_view(&file.segment, &key, &number));
    void *page = (void *)((uintptr_t)number.at / 4096 * 4096);
    unsigned char is_there;
    IS(mincore(page, 4096, &is_there), 0);
    fflush(stdout);
    pid_t child = fork();
    if (child == 0) {
        /* no page is where the file was mapped */
        if (mincore(page, 4096, &is_there) == 0 || errno != ENOMEM) _exit(2);
        int is = get(&file) == -ZX_CLOSED && set(&file, 9) == ZX_CLOSED && zx_file_save(&file) == ZX_CLOSED;
        is &= zx_file_flush(&file) == ZX_FILE_FORKED && zx_file_close(&file) == ZX_DONE;
        _exit(is ? 0 : 1);
    }
    waitpid(child, &status, 0);
    IS(status, 0);
    DONE(set(&file, 6));
    DONE(zx_file_close(&file));
    IS(stands(), 6);
}

static atomic_bool goes_on;

/* Opens, changes and closes the file, and makes it longer and shorter, again and again. */
static void *opened_by_a_thread(void *number) {
    zx_file file = ZX_CLOSED_FILE;
    while (atomic_load(&goes_on)) {
        bool is = zx_file_open(&file, path, WRITE, 0) == ZX_DONE && set(&file, ++*(int64_t *)number) == ZX_DONE;
        is = is && zx_file_grow(&file, 1 << 16) == ZX_DONE && zx_file_shrink(&file) == ZX_DONE;
        if (!is || zx_file_close(&file) != ZX_DONE) return number;
    }
    return NULL;
}

/* Children of a process of which a thread has files: whatever that does meanwhile, they have their memory, and no file. */
static void forked_meanwhile(void) {
    int64_t number = 5;
    int status = -1;
    pthread_t thread;
    void *failed = &number;
    seed(5);
    atomic_store(&goes_on, true);
    fflush(stdout);
    IS(pthread_create(&thread, NULL, opened_by_a_thread, &number), 0);
    for (int i = 0; i < 200; i++) {
        uint8_t *room = mmap(NULL, 8192, PROT_READ | PROT_WRITE, MAP_PRIVATE | MAP_ANONYMOUS, -1, 0);
        pid_t child = fork();
        if (child == 0) {
            memset(room, 7, 8192);
            _exit(room[8191] == 7 ? 0 : 1);
        }
        IS(waitpid(child, &status, 0) == child && status == 0, true);
        munmap(room, 8192);
    }
    atomic_store(&goes_on, false);
    IS(pthread_join(thread, &failed), 0);
    IS(failed == NULL, true);
    IS(stands(), number);
}

/* After a kill, the file has every change that the process made. */
static void killed(void) {
    int ends[2];
    char one;
    seed(5);
    IS(pipe(ends), 0);
    fflush(stdout);
    pid_t child = fork();
    if (child == 0) {
        zx_file file = ZX_CLOSED_FILE;
        if (zx_file_open(&file, path, WRITE, 0) == ZX_DONE && set(&file, 6) == ZX_DONE && write(ends[1], "1", 1) == 1)
            for (;;) pause();
        _exit(1);
    }
    IS(read(ends[0], &one, 1), 1);
    kill(child, SIGKILL);
    waitpid(child, NULL, 0);
    close(ends[0]);
    close(ends[1]);
    IS(stands(), 6);
    zx_file file = ZX_CLOSED_FILE;
    DONE(open_behind_kill(&file));
    IS(get(&file), 6);
    /* its image goes to another file too */
    char other[430];
    snprintf(other, sizeof other, "%s.other", path);
    DONE(zx_file_save_as(&file, other, ZX_CREATE_ONLY));
    IS(unlink(other), 0);
    DONE(zx_file_close(&file));
}

/* Changes elements, objects and lengths until the process is killed. */
static void change_for_ever(void) {
    zx_file file = ZX_CLOSED_FILE;
    zx_key key = zx_name("v");
    uint64_t handle;
    bool was_there;
    if (zx_file_open(&file, path, WRITE, 0) != ZX_DONE) _exit(1);
    for (int64_t i = 0;; i++) {
        zx_value value = zx_i64(i);
        zx_values none = zx_i64s(&i, 0);
        uint32_t found;
        zx_code code = zx_find_or_construct_vector(&file.segment, &key, &none, &handle, &found);
        if (code == ZX_DONE) code = zx_push(&file.segment, &key, &value);
        if (code == ZX_NO_SPACE) code = i % 2 ? zx_file_grow(&file, 4096) : zx_destroy(&file.segment, &key, &was_there);
        if (code == ZX_DONE && i % 500 == 499) code = zx_destroy(&file.segment, &key, &was_there);
        if (code == ZX_DONE && i % 1000 == 999) code = zx_file_shrink(&file);
        if (code != ZX_DONE && code != ZX_NO_SPACE) _exit(2);
    }
}

/* A process that is killed within a call leaves an image, or one with more behind it, which a writer cuts, or bytes
   that are refused as what they are: both ways of opening agree, and none of them crashes. */
static void killed_within_a_call(int kills) {
    int images = 0, longer = 0, refused = 0, status;
    for (int i = 0; i < kills; i++) {
        seed(5);
        fflush(stdout);
        pid_t child = fork();
        if (child == 0) change_for_ever();
        usleep((useconds_t)(500 + 37 * i % 4000));
        kill(child, SIGKILL);
        waitpid(child, &status, 0);
        IS(WIFSIGNALED(status) && WTERMSIG(status) == SIGKILL, true);
        zx_file file = ZX_CLOSED_FILE, mapped = ZX_CLOSED_FILE;
        zx_code code = zx_file_open(&file, path, ZX_OPEN_READ_ONLY, 0);
        IS(code == ZX_DONE || (code >= ZX_TRUNCATED && code <= ZX_ORPHAN_BLOCK), true);
        zx_code opened = open_behind_kill(&mapped);
        if (code != ZX_BAD_IMAGE_SIZE || opened != ZX_DONE) IS(opened, code);
        if (opened == ZX_DONE) {
            IS(get(&mapped), 5);
            IS(stands(), 5);
        }
        if (code == ZX_DONE) images++;
        else if (opened == ZX_DONE) longer++;
        else refused++;
        zx_file_discard(&file);
        zx_file_discard(&mapped);
    }
    printf("killed: %d images, %d longer than theirs, %d refused\n", images, longer, refused);
    IS(images > 0, true);
}

/* Another process opens the file while this one has it. */
static void two_processes(void) {
    zx_file file = ZX_CLOSED_FILE;
    int status = -1;
    seed(5);
    DONE(zx_file_open(&file, path, READ, 0));
    for (int is_read = 0; is_read < 2; is_read++) {
        fflush(stdout);
        pid_t child = fork();
        if (child == 0) {
            zx_file own = ZX_CLOSED_FILE;
            zx_code code = zx_file_open(&own, path, is_read ? READ : WRITE, 0);
            int is = code == (is_read ? (zx_code)ZX_DONE : (zx_code)ZX_FILE_IN_USE);
            if (is_read) is &= get(&own) == 5 && zx_file_close(&own) == ZX_DONE;
            _exit(is ? 0 : 1);
        }
        waitpid(child, &status, 0);
        IS(status, 0);
    }
    IS(get(&file), 5);
    DONE(zx_file_close(&file));
}

/* On a full disk a call returns a code, and the process gets no signal. */
static void full_disk(const char *small) {
    char there[430];
    zx_file file = ZX_CLOSED_FILE;
    snprintf(there, sizeof there, "%s/mapped.seg", small);
    IS(zx_file_open(&file, there, CREATE, 8 << 20), ZX_FILE_FAULT);
    IS(file.error, ENOSPC);
    IS(access(there, F_OK), -1);
    DONE(zx_file_open(&file, there, CREATE, 65536));
    DONE(set(&file, 5));
    IS(zx_file_grow(&file, 8 << 20), ZX_FILE_FAULT);
    IS(file.error, ENOSPC);
    IS(get(&file), 5);
    DONE(set(&file, 6));
    DONE(zx_file_grow(&file, 65536));
    DONE(zx_file_close(&file));
    /* one with holes is as long as the disk, and has few blocks */
    IS(unlink(there), 0);
    DONE(zx_file_open(&file, there, ZX_CREATE_ONLY, 2 << 20));
    DONE(set(&file, 7));
    DONE(zx_file_close(&file));
    IS(zx_file_open(&file, there, WRITE, 0), ZX_FILE_FAULT);
    IS(file.error, ENOSPC);
    DONE(zx_file_open(&file, there, READ, 0));
    IS(get(&file), 7);
    DONE(zx_file_close(&file));
    IS(unlink(there), 0);
}

/* A file with a hole on a disk that is full. The system counts the block of its attributes as one of the
   file's, so that the number of blocks says nothing of holes. */
static void hole_on_a_full_disk(const char *small) {
    char there[430], filling[430], value[400];
    zx_file file = ZX_CLOSED_FILE;
    struct stat found;
    snprintf(there, sizeof there, "%s/hole.seg", small);
    snprintf(filling, sizeof filling, "%s/filling", small);
    DONE(zx_file_open(&file, there, ZX_CREATE_ONLY, 16384));
    DONE(set(&file, 7));
    DONE(zx_file_close(&file));
    memset(value, 'v', sizeof value);
    IS(setxattr(there, "user.long", value, sizeof value, 0), 0);
    IS(setxattr(there, "user.longer", value, sizeof value, 0), 0);
    int out = open(there, O_RDWR), full = open(filling, O_CREAT | O_RDWR, 0600);
    IS(out >= 0 && full >= 0, true);
    static uint8_t block[4096];
    for (off_t at = 4096; at < 16384; at += 8192) {
        IS(pread(out, block, sizeof block, at), sizeof block);
        IS(pwrite(out, block, sizeof block, at), sizeof block);
    }
    IS(fsync(out), 0);
    IS(fstat(out, &found), 0);
    IS(close(out), 0);
    while (write(full, block, sizeof block) > 0) continue;
    IS(fsync(full) == 0 || errno == ENOSPC, true);
    IS(zx_file_open(&file, there, WRITE, 0), ZX_FILE_FAULT);
    IS(file.error, ENOSPC);
    const long long blocks = 512 * (long long)found.st_blocks;
    printf("a hole on a full disk: %lld bytes, %lld in blocks\n", (long long)found.st_size, blocks);
    IS(close(full), 0);
    IS(unlink(filling), 0);
    DONE(zx_file_open(&file, there, WRITE, 0));
    IS(get(&file), 7);
    DONE(zx_file_close(&file));
    IS(unlink(there), 0);
}

int main(int count, char **words) {
    if (count < 3) return 2;
    snprintf(path, sizeof path, "%s/mapped.seg", words[1]);
    in_place();
    views();
    one_place();
    taken_back();
    one_writer_or_readers();
    longer_and_shorter();
    no_image();
    by_its_path();
    what_was_left();
    forked();
    forked_meanwhile();
    killed();
    killed_within_a_call(atoi(words[2]));
    two_processes();
    unlink(path);
    if (count > 3) full_disk(words[3]);
    if (count > 4) hole_on_a_full_disk(words[4]);
    printf("mapped: %d cases, %d wrong\n", cases, wrong);
    return wrong != 0;
}
