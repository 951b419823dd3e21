/* steps FOLDER COUNT [SEED]: random transactions of segments in memory, and in files that are opened by copy, beside copies
   of their images. Meanwhile calls of the system fail, memory is locked, processes fork, and segments become longer,
   move, or leave their memory. After each transaction that is undone, the segment has the image that it had before. And a
   transaction of one change costs a few pages, however long the segment is. */
#define _GNU_SOURCE
#define ZX_TEST_SYSTEM
#include "../files.c"

#include <sys/wait.h>

#define MUST(what) \
    do { \
        if (!(what)) fail(#what, __LINE__); \
    } while (0)
#define DONE(call) MUST((call) == ZX_DONE)

static uint64_t seed = 88172645463325252u, acts;

static void fail(const char *what, int line) {
    printf("steps.c:%d: act %llu: %s\n", line, (unsigned long long)acts, what);
    exit(1);
}

static uint64_t some(uint64_t many) {
    seed ^= seed << 13, seed ^= seed >> 7, seed ^= seed << 17;
    return (seed >> 11) % many;
}

/* ---- calls of the system: one fails, or the page map is of an older system, or missing, or memory is locked */

static uint64_t calls, fuse;
static enum { BY_SCAN, BY_ENTRIES, BY_COMPARISON } way;
static bool is_locked;

static bool fails(void) {
    if (++calls != fuse) return false;
    errno = ENOMEM;
    return true;
}

static int failing_open(const char *name, int how) {
    return way == BY_COMPARISON && strcmp(name, "/proc/self/pagemap") == 0 ? -1 : (open)(name, how);
}
static int failing_ioctl(int file, unsigned long call, void *words) {
    return way == BY_SCAN && !fails() ? (ioctl)(file, call, words) : -1;
}
static int failing_openat(int in, const char *name, int how, mode_t mode) { return (openat)(in, name, how, mode); }
static ssize_t failing_pwrite(int file, const void *bytes, size_t len, off_t at) {
    return fails() ? -1 : (pwrite)(file, bytes, len, at);
}
static void *failing_mmap(void *at, size_t len, int protection, int how, int file, off_t from) {
    return fails() ? MAP_FAILED : (mmap)(at, len, protection, how, file, from);
}
static void *failing_mremap(void *at, size_t len, size_t wanted, int how) { return (mremap)(at, len, wanted, how); }
static int failing_madvise(void *at, size_t len, int advice) {
    return is_locked || fails() ? -1 : (madvise)(at, len, advice);
}
static int failing_memfd_create(const char *name, unsigned how) { return fails() ? -1 : (memfd_create)(name, how); }
static void *failing_malloc(size_t size) { return fails() ? NULL : (malloc)(size); }
static void *failing_calloc(size_t count, size_t size) { return fails() ? NULL : (calloc)(count, size); }

struct zx_system zx_system = {
    .open = failing_open, .openat = failing_openat, .pread = pread, .pwrite = failing_pwrite, .ftruncate = ftruncate,
    .fallocate = fallocate, .lseek = lseek, .fsync = fsync, .fdatasync = fdatasync, .syncfs = syncfs, .flock = flock,
    .ioctl = failing_ioctl, .lstat = lstat, .stat = stat, .fstat = fstat, .fstatat = fstatat, .fstatfs = fstatfs,
    .fchmod = fchmod, .fchown = fchown, .fgetxattr = fgetxattr, .fsetxattr = fsetxattr, .fremovexattr = fremovexattr,
    .flistxattr = flistxattr, .linkat = linkat, .renameat = renameat, .unlinkat = unlinkat, .mmap = failing_mmap,
    .mremap = failing_mremap, .munmap = munmap, .msync = msync, .madvise = failing_madvise,
    .memfd_create = failing_memfd_create, .userfaultfd = userfaultfd,
    .close = close, .malloc = failing_malloc, .calloc = failing_calloc, .free = free,
    .realpath = realpath, .pthread_atfork = pthread_atfork,
};

/* ---- a segment, and what its open transactions must restore */

enum { DEEP = 4 };

static zx_file file;
static char path[300];
static zx_step steps[DEEP];
static struct image before[DEEP];
static int depth;
static uint64_t grounded, copied, undone, children;

static struct image image_now(void) {
    uint64_t size = 0;
    DONE(zx_size(&file.segment, &size));
    struct image image = { (malloc)(size), size };
    MUST(image.bytes);
    DONE(zx_save(&file.segment, image.bytes, size));
    return image;
}

static void check_image(const struct image *wanted) {
    struct image now = image_now();
    MUST(now.len == wanted->len);
    MUST(memcmp(now.bytes, wanted->bytes, now.len) == 0);
    DONE(zx_check(now.bytes, now.len));
    free(now.bytes);
}

static void fill_segment(uint64_t size) {
    zx_key numbers = zx_name("numbers"), prices = zx_name("prices"), texts = zx_name("texts");
    zx_text one = { (const uint8_t *)"one", 3 };
    uint64_t handle, count = size / 24;
    uint64_t *all = (calloc)(count, 8);
    MUST(all);
    for (uint64_t i = 0; i < count; i += 1 + some(700)) all[i] = some(UINT64_MAX);
    zx_values values = zx_u64s(all, count);
    DONE(zx_construct_vector(&file.segment, &numbers, &values, &handle));
    DONE(zx_construct_map(&file.segment, &prices, ZX_U64, ZX_I64, &handle));
    DONE(zx_construct_strings(&file.segment, &texts, &one, 1, &handle));
    free(all);
}

static void open_one(void) {
    static const uint64_t sizes[] = { 4096, 150000, 400000, 1 << 20, 3 << 20 };
    uint64_t size = sizes[some(5)] + 16 * some(300);
    if (some(2)) {
        (unlink)(path);
        DONE(zx_file_open(&file, path, ZX_CREATE_ONLY, size));
        fill_segment(size);
        DONE(zx_file_close(&file));
        DONE(zx_file_open(&file, path, some(3) ? ZX_OPEN_ONLY : ZX_OPEN_COPY_ON_WRITE, 0));
    } else {
        DONE(zx_create(&file.segment, size));
        fill_segment(size);
    }
}

static void change_number(void) {
    zx_key numbers = zx_name("numbers");
    zx_elements found;
    zx_value value = zx_u64(some(UINT64_MAX));
    uint64_t count = 0, places = 0;
    DONE(zx_measure(&file.segment, &numbers, &count, &places));
    if (some(3)) {
        DONE(zx_set(&file.segment, &numbers, some(count), &value));
        return;
    }
    DONE(zx_view_mut(&file.segment, &numbers, &found));
    uint64_t *at = zx_elements_mut(&file.segment, &found);
    MUST(at);
    for (uint64_t i = some(count), end = i + some(3000); i < end && i < count; i += 1 + some(900)) at[i] = seed;
}

static void change(void) {
    zx_key prices = zx_name("prices"), texts = zx_name("texts");
    static const uint8_t text[200] = "a text";
    for (uint64_t many = some(5) + 1; many > 0; many--) {
        zx_value key = zx_u64(some(300)), value = zx_i64((int64_t)some(1 << 20));
        bool is_new;
        if (some(2)) change_number();
        else if (some(2)) (void)zx_map_put(&file.segment, &prices, &key, &value, &is_new);
        else if (some(3)) (void)zx_push_text(&file.segment, &texts, text, some(200));
        else (void)zx_pop_text(&file.segment, &texts);
    }
}

/* Makes the segment longer or shorter, here or elsewhere. */
static void change_length(void) {
    uint64_t size = 0, left = 0;
    DONE(zx_size(&file.segment, &size));
    DONE(zx_region_left(&file.segment, &left));
    switch (some(5)) {
    case 0: (void)zx_file_grow(&file, 32 + 16 * some(5000)); break;
    case 1: (void)zx_grow(&file.segment, 32 + 16 * some(5000)); break;
    case 2: (void)zx_file_shrink(&file); break;
    case 3: (void)zx_relocate(&file.segment, size + 16 * some(20000)); break;
    default: (void)zx_relocate(&file.segment, size + left);
    }
}

/* The memory of the segment becomes the caller's, who frees it at once or later, and the segment is opened from a copy. */
static void leave_memory(void) {
    static zx_memory left[8];
    static uint64_t turn;
    struct image now = image_now();
    zx_memory *slot = &left[turn++ % 8];
    uint32_t how;
    DONE(zx_mode(&file.segment, &how));
    free(slot->at);
    DONE(zx_detach(&file.segment, slot));
    MUST(memcmp(slot->at, now.bytes, now.len) == 0);
    if (some(2)) {
        free(slot->at);
        slot->at = NULL;
    }
    DONE(zx_open(&file.segment, now.bytes, now.len, now.len, how));
    free(now.bytes);
}

/* A child has the segment as it was when it was forked off, whatever its parent does meanwhile, and transactions of its
   own. */
static void fork_one(void) {
    int ends[2], status = 0;
    char byte = 0;
    struct image now = image_now();
    fuse = 0;
    MUST(pipe(ends) == 0);
    fflush(stdout);
    pid_t child = fork();
    MUST(child >= 0);
    if (child == 0) {
        close(ends[1]);
        (void)!read(ends[0], &byte, 1);
        check_image(&now);
        zx_step step = ZX_NO_STEP;
        for (int i = 0; i < 3; i++) {
            DONE(zx_file_begin(&file, &step));
            change();
            change_number();
            if (some(2)) DONE(zx_file_undo(&file, &step));
            else {
                DONE(zx_file_keep(&file, &step));
                free(now.bytes);
                now = image_now();
            }
            check_image(&now);
        }
        while (depth-- > 0) {
            DONE(zx_file_undo(&file, &steps[depth]));
            check_image(&before[depth]);
        }
        _exit(0);
    }
    close(ends[0]);
    for (int i = 0; i < 3; i++) {
        zx_step step = ZX_NO_STEP;
        DONE(zx_file_begin(&file, &step));
        change();
        if (some(2)) DONE(zx_file_keep(&file, &step));
        else DONE(zx_file_undo(&file, &step));
    }
    close(ends[1]);
    MUST(waitpid(child, &status, 0) == child);
    MUST(status == 0);
    free(now.bytes);
    children++;
}

static void begin(void) {
    if (depth == DEEP) return;
    before[depth] = image_now();
    calls = 0;
    fuse = some(4) ? 0 : 1 + some(14);
    zx_code code = zx_file_begin(&file, &steps[depth]);
    fuse = 0;
    if (code != ZX_DONE) MUST(code == ZX_NO_MEMORY);
    if (code != ZX_DONE) return free(before[depth].bytes);
    *(steps[depth].kept ? &grounded : &copied) += 1;
    check_image(&before[depth]);
    depth++;
}

static void step_image_is(const struct image *wanted, zx_step *step) {
    uint64_t len = 0;
    MUST(zx_step_image(step, NULL, 0, &len) == ZX_SHORT_BUFFER && len == wanted->len);
    uint8_t *bytes = (malloc)(len);
    DONE(zx_step_image(step, bytes, len, &len));
    MUST(memcmp(bytes, wanted->bytes, len) == 0);
    free(bytes);
}

static void end(void) {
    if (depth == 0) return;
    zx_step *step = &steps[depth - 1];
    struct image *old = &before[depth - 1];
    if (some(4) == 0) step_image_is(old, step);
    zx_code code = ZX_DONE;
    if (some(2)) {
        DONE(zx_file_keep(&file, step));
    } else if (some(8) == 0) {
        zx_file_leave(&file, step);
    } else {
        calls = 0;
        fuse = some(4) ? 0 : 1 + some(8);
        code = zx_file_undo(&file, step);
        fuse = 0;
        if (code != ZX_DONE) MUST(code == ZX_NO_MEMORY);
        else check_image(old), undone++;
    }
    if (code != ZX_DONE) return;
    free(old->bytes);
    depth--;
}

static void run(void) {
    way = some(3);
    is_locked = some(6) == 0;
    open_one();
    for (uint64_t many = some(80) + 20; many > 0; many--, acts++) {
        uint64_t what = some(64);
        if (what < 20) change();
        else if (what < 36) begin();
        else if (what < 52) end();
        else if (what < 58) change_length();
        else if (what < 60) leave_memory();
        else if (what < 61) fork_one();
    }
    while (depth > 0) end();
    if (some(4) == 0) zx_close(&file.segment);
    zx_file_discard(&file);
}

/* ---- what a transaction costs */

static long faults(void) {
    struct rusage used;
    getrusage(RUSAGE_SELF, &used);
    return used.ru_minflt;
}

/* A transaction makes pages own, and copies them: not those that it does not change. */
static void check_cost(uint64_t size) {
    zx_key numbers = zx_name("numbers");
    zx_step step = ZX_NO_STEP, inner = ZX_NO_STEP;
    DONE(zx_create(&file.segment, size));
    fill_segment(size);
    for (int i = 0; i < 40; i++) {
        zx_value value = zx_u64(some(UINT64_MAX));
        long from = faults();
        DONE(zx_file_begin(&file, &step));
        DONE(zx_file_begin(&file, &inner));
        DONE(zx_set(&file.segment, &numbers, some(size / 24), &value));
        if (i % 3 == 0) DONE(zx_file_undo(&file, &inner));
        else DONE(zx_file_keep(&file, &inner));
        if (i % 4 == 0) DONE(zx_file_undo(&file, &step));
        else DONE(zx_file_keep(&file, &step));
        MUST(i == 0 || faults() - from < 1000);
    }
    zx_file_discard(&file);
}

static int descriptors(void) {
    int count = 0;
    for (int i = 0; i < 256; i++) count += fcntl(i, F_GETFD) >= 0;
    return count;
}

int main(int count, char **words) {
    if (count < 3) return 2;
    if (count > 3) seed ^= strtoull(words[3], NULL, 10) * 0x9e3779b97f4a7c15u;
    for (int i = 0; i < 10; i++) (void)some(2);
    snprintf(path, sizeof path, "%s/steps.seg", words[1]);
    int at_first = descriptors();
    check_cost(64 << 20);
    uint64_t wanted = strtoull(words[2], NULL, 10);
    while (acts < wanted) run();
    (unlink)(path);
    MUST(descriptors() == at_first);
    MUST(!grounds);
    printf("steps: %llu acts, %llu transactions by pages, %llu by copies, %llu undone, %llu children\n",
           (unsigned long long)acts, (unsigned long long)grounded, (unsigned long long)copied, (unsigned long long)undone,
           (unsigned long long)children);
    return grounded == 0 || copied == 0;
}
