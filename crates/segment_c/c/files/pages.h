/* A part of files.c: which pages of a private mapping this process changed, and transactions of files that are mapped,
   which keep what the pages held. A private mapping begins as the file; a page of it that is written is the process' own
   from then on. */

/* How many entries of the page map are read at once. */
enum { ENTRIES = 4096 };

static uint64_t pages_of(uint64_t len) { return (len + PAGE - 1) / PAGE; }

/* How many bytes of a page belong to an image. */
static size_t page_len(uint64_t len, uint64_t page) { return page * PAGE < len ? at_most(len - page * PAGE, PAGE) : 0; }

/* Whether an entry of the page map tells of an own page: it is in memory or swapped out, and no file's. */
static bool is_own_page(uint64_t entry) { return entry >> 62 != 0 && (entry >> 61 & 1) == 0; }

/* Opens the kernel's map of this process' pages. -1 if there is none, or if it does not tell of the page that this
   function writes. */
static int open_page_map(void) {
    volatile uint64_t entry = 0;
    uint64_t read = 0;
    if (page_size() != PAGE) return -1;
    int map = open("/proc/self/pagemap", O_RDONLY | O_CLOEXEC);
    if (map < 0) return -1;
    bool is_told = pread(map, &read, 8, (off_t)((uintptr_t)&entry / PAGE * 8)) == 8 && is_own_page(read);
    if (is_told) return map;
    close(map);
    return -1;
}

/* A call of the page map by which Linux 6.7 and later find the own pages without a look at each: what it takes, and the
   ranges that it returns (linux/fs.h, which older systems have without it). */
struct scan {
    uint64_t size, flags, start, end, stop, found, room, most, inverted, all, any, told;
};

struct range {
    uint64_t start, end, kinds;
};

enum { RANGES = 256, PROTECT = 1, IF_WATCHED = 2, IS_WRITTEN = 2, IS_FILE = 4, IS_PRESENT = 8, IS_SWAPPED = 16 };

#define SCAN _IOWR('f', 16, struct scan)

/* Notes, beside those that are noted, the own pages by that call. For a mapping that is watched it notes those that were
   written since the call before. Returns false if the system does not have it. */
static bool scan_own(int map, const uint8_t *mapping, uint64_t pages, bool is_watched, uint8_t *own) {
    struct range found[RANGES] = { { 0 } }; // valgrind does not know that the call writes it
    uint64_t from = (uintptr_t)mapping, end = from + pages * PAGE;
    for (uint64_t at = from; at < end;) {
        struct scan scan = { .size = sizeof scan, .flags = is_watched ? PROTECT | IF_WATCHED : 0, .start = at, .end = end,
                             .found = (uintptr_t)found, .room = RANGES, .inverted = IS_FILE,
                             .all = is_watched ? IS_FILE | IS_WRITTEN : IS_FILE, .any = IS_PRESENT | IS_SWAPPED,
                             .told = IS_PRESENT };
        int count = ioctl(map, SCAN, &scan);
        if (count < 0 || scan.stop <= at) return false;
        for (int i = 0; i < count; i++)
            memset(own + (found[i].start - from) / PAGE, 1, (found[i].end - found[i].start) / PAGE);
        at = scan.stop;
    }
    return true;
}

/* Notes the own pages by their entries in the page map. */
static bool read_own(int map, const uint8_t *mapping, uint64_t pages, uint8_t *own) {
    uint64_t entries[ENTRIES];
    for (uint64_t at = 0; at < pages;) {
        size_t many = at_most(pages - at, ENTRIES);
        ssize_t got = pread(map, entries, many * 8, (off_t)(((uintptr_t)mapping / PAGE + at) * 8));
        if (got <= 0) return false;
        for (size_t i = 0; i < (size_t)got / 8; i++) own[at + i] = is_own_page(entries[i]);
        at += (size_t)got / 8;
    }
    return true;
}

/* Sets own[i] to 1 for each page of a mapping that is own, or may be, and to 0 for the others. Returns whether the page
   map told. */
static bool find_own(const uint8_t *mapping, uint64_t pages, uint8_t *own) {
    int map = open_page_map();
    memset(own, 0, pages);
    bool is_told = map >= 0 && (scan_own(map, mapping, pages, false, own) || read_own(map, mapping, pages, own));
    if (map >= 0) close(map);
    if (!is_told) memset(own, 1, pages);
    return is_told;
}

/* What Linux 6.7 and later have for a watch (linux/userfaultfd.h): no program waits for what is written to protected
   pages, which the system notes and lets happen. */
enum { OF_USER = 1, NOTED = 1 << 15, ALSO_ABSENT = 1 << 13 };

/* Has the system watch the pages of a private mapping. Returns false if it does not do that. */
static bool watch(struct zx_held_file *held) {
    struct uffdio_api wanted = { .api = UFFD_API, .features = NOTED | ALSO_ABSENT };
    struct uffdio_register all = { .range = { (uintptr_t)held->at, pages_of(held->len) * PAGE },
                                   .mode = UFFDIO_REGISTER_MODE_WP };
    if (held->watch < 0) {
        pthread_mutex_lock(&guard);
        held->watch = userfaultfd(O_CLOEXEC | OF_USER);
        bool is_able = held->watch >= 0 && ioctl(held->watch, UFFDIO_API, &wanted) == 0;
        pthread_mutex_unlock(&guard);
        if (!is_able) return close_listed(&held->watch), false;
    }
    if (!held->is_watched) held->is_watched = ioctl(held->watch, UFFDIO_REGISTER, &all) == 0;
    return held->is_watched;
}

/* Notes, beside those that are noted, the own pages that were written since the call before; at first all own pages.
   Returns false if the system does not tell: then it may have forgotten some. */
static bool find_written(struct zx_held_file *held, uint64_t pages, uint8_t *written) {
    int map = open_page_map();
    bool is_told = map >= 0 && watch(held) && scan_own(map, held->at, pages, true, written);
    if (map >= 0) close(map);
    return is_told;
}

/* Returns the first page from `page` on that is noted by a 1, or `pages`. */
static uint64_t next_noted(const uint8_t *noted, uint64_t pages, uint64_t page) {
    const uint8_t *found = page < pages ? memchr(noted + page, 1, pages - page) : NULL;
    return found ? (uint64_t)(found - noted) : pages;
}

/* Reads a page of the file behind a mapping. What is behind the file's end is 0. */
static bool read_page(int file, uint64_t page, size_t len, uint8_t bytes[PAGE]) {
    ssize_t got = len > 0 ? read_at(file, bytes, len, (off_t)(page * PAGE)) : 0;
    if (got < 0) return false;
    memset(bytes + got, 0, PAGE - (size_t)got);
    return true;
}

/* ---- what a file has that is durable: a private mapping of the file, and what its commits left */

struct idle_page {
    struct idle_page *next;
    uint8_t rest[PAGE - sizeof(struct idle_page *)];
};

struct commits {
    uint64_t len;    /* of the image that was committed last */
    uint64_t base;   /* the fingerprint of the file when the log began */
    uint64_t after;  /* that of the image that was committed last */
    bool is_marked;  /* whether the two are known */
    bool is_unsure;  /* a commit failed, and may be in the log or not */
    bool is_left;    /* another process left the log: nothing is added to it, since a sync of it may have failed */
    uint64_t left;   /* the fingerprint of the records that it left */
    uint64_t end;    /* where the records of the log end */
    uint64_t room;   /* the length up to which this process allocated the log's blocks */
    uint64_t compared; /* pages that commits found the same since the last checkpoint */
    struct image buffer; /* room for a record */
    struct idle_page *idle; /* pages that are kept no more: a list, for those that are kept next */
    uint64_t idle_count;
    uint8_t *written;    /* of each page: 1 if it may have changed since the last commit, by what the system told so far */
    bool is_untold;      /* it told not all since then */
    uint8_t *kept[]; /* of each page that a commit changed, what it left; null for those that are the file's */
};

/* How many bytes that takes, for the largest image, and where the notes on pages stand in them. They are mapped, since
   only those that are used take memory then. */
static size_t notes_at(void) { return sizeof(struct commits) + pages_of(LARGEST) * sizeof(uint8_t *); }
static size_t commits_size(void) { return notes_at() + pages_of(LARGEST); }

/* Reads what the last commit left of a page. */
static bool committed_page(const struct zx_held_file *held, uint64_t page, uint8_t bytes[PAGE]) {
    const struct commits *commits = held->commits;
    size_t len = page_len(commits->len, page);
    if (len == 0 || !commits->kept[page]) return read_page(held->file, page, len, bytes);
    memcpy(bytes, commits->kept[page], PAGE);
    return true;
}

/* Reads what a page was when the mapping began, or by the last commit. */
static bool old_page(const struct zx_held_file *held, uint64_t page, uint8_t bytes[PAGE]) {
    return held->commits ? committed_page(held, page, bytes) : read_page(held->file, page, PAGE, bytes);
}

/* Whether the segment has not changed since its last commit. */
static bool is_committed(const zx_file *file) {
    return file->held->saved == file->segment.changes && !file->segment.shared;
}

/* ---- transactions */

struct ground;

/* What pages held when a transaction began. */
struct zx_kept {
    uint64_t size;         /* of the image */
    uint64_t len;          /* of the mapping */
    uint64_t count;
    uint64_t *pages;       /* rising */
    uint8_t *bytes;        /* of each, one after another */
    struct ground *ground; /* of a segment in memory of the library, or null */
    uint8_t *ends;         /* the bytes of that memory before its first whole page, and behind its last one */
};

static void leave_ground(struct ground *ground);

static void free_kept(zx_step *before) {
    if (!before->kept) return;
    if (before->kept->ground) leave_ground(before->kept->ground);
    free(before->kept->pages);
    free(before->kept->bytes);
    free(before->kept->ends);
    free(before->kept);
    before->kept = NULL;
}

/* Whether this process writes a file that is mapped for all to see. */
static bool is_shared_writer(const struct zx_held_file *held) { return held->state != READ && !held->commits; }

/* Gives pages back what the file has. Memory that is locked does not end, and gets the bytes of the file. */
static bool forget(const struct zx_held_file *held, uint64_t first, uint64_t behind) {
    if (first >= behind || madvise(held->at + first * PAGE, (behind - first) * PAGE, MADV_DONTNEED) == 0) return true;
    uint8_t bytes[PAGE];
    for (uint64_t page = first; page < behind; page++) {
        if (!old_page(held, page, bytes)) return false;
        memcpy(held->at + page * PAGE, bytes, page_len(held->len, page));
    }
    return true;
}

/* Which pages differ from what they were. One that is own and does not differ is given back, so that it is not compared
   again. Returns false if the file can't be read. */
static bool find_changed(const struct zx_held_file *held, uint64_t pages, uint8_t *changed) {
    uint8_t bytes[PAGE];
    bool is_told = find_own(held->at, pages, changed);
    for (uint64_t page = 0; page < pages; page++) {
        changed[page] |= held->commits && held->commits->kept[page];
        if (!changed[page] || (is_told && !held->commits)) continue;
        if (!old_page(held, page, bytes)) return false;
        changed[page] = memcmp(bytes, held->at + page * PAGE, page_len(held->len, page)) != 0;
        bool is_alike = is_told && !changed[page] && !held->commits->kept[page];
        if (is_alike && !forget(held, page, page + 1)) return false;
    }
    return true;
}

/* Copies the pages that differ of `len` bytes. */
static bool copy_changed(const uint8_t *mapping, uint64_t len, struct zx_kept *kept, const uint8_t *changed,
                         uint64_t pages) {
    for (uint64_t page = 0; page < pages; page++) kept->count += changed[page];
    kept->pages = malloc(kept->count * sizeof *kept->pages + 1);
    kept->bytes = malloc(kept->count * PAGE + 1);
    if (!kept->pages || !kept->bytes) return false;
    uint64_t at = 0;
    for (uint64_t page = 0; page < pages; page++) {
        if (!changed[page]) continue;
        kept->pages[at] = page;
        memcpy(kept->bytes + at++ * PAGE, mapping + page * PAGE, page_len(len, page));
    }
    return true;
}

static bool keep_changed(const struct zx_held_file *held, struct zx_kept *kept) {
    uint64_t pages = pages_of(kept->size);
    uint8_t *changed = malloc(pages);
    bool is_done = changed && find_changed(held, pages, changed) && copy_changed(held->at, held->len, kept, changed, pages);
    free(changed);
    return is_done;
}

/* Puts another mapping of the file over the one that it has. */
static bool map_over(const struct zx_held_file *held, int flags) {
    return mmap(held->at, held->len, PROT_READ | PROT_WRITE, flags | MAP_FIXED, held->file, 0) != MAP_FAILED;
}

/* Begins a transaction of a file that is mapped. The first one of a file that all see makes the mapping private. */
static zx_code begin_pages(zx_file *file, struct zx_held_file *held, zx_step *before) {
    struct zx_kept *kept = calloc(1, sizeof *kept);
    if (!kept) return ZX_NO_MEMORY;
    before->kept = kept;
    kept->len = held->len;
    zx_code code = zx_size(&file->segment, &kept->size);
    bool is_first = is_shared_writer(held) && held->steps == 0;
    bool is_clean = is_first || (held->commits && is_committed(file));
    if (code == ZX_DONE && !is_clean && !keep_changed(held, kept)) code = ZX_NO_MEMORY;
    if (code == ZX_DONE && is_first && !map_over(held, MAP_PRIVATE)) code = fault(file);
    if (code != ZX_DONE) free_kept(before);
    else held->steps++;
    return code;
}

/* Writes the own pages of a transaction to the file that all see. If one can't be written, those before it get their
   old bytes back. */
static bool write_own(const struct zx_held_file *held, const struct zx_kept *old) {
    for (uint64_t i = 0; i < old->count; i++) {
        uint64_t page = old->pages[i];
        if (write_at(held->file, held->at + page * PAGE, page_len(held->len, page), (off_t)(page * PAGE))) continue;
        int error = errno;
        for (; i-- > 0;)
            (void)write_at(held->file, old->bytes + i * PAGE, page_len(held->len, old->pages[i]),
                           (off_t)(old->pages[i] * PAGE));
        errno = error;
        return false;
    }
    return true;
}

/* Puts the own pages into the file that all see, and maps that again. */
static zx_code share_own(zx_file *file, struct zx_held_file *held) {
    zx_step now = ZX_NO_STEP;
    struct zx_kept *kept = now.kept = calloc(1, sizeof *kept);
    if (!kept) return ZX_NO_MEMORY;
    zx_code code = zx_size(&file->segment, &kept->size);
    if (code == ZX_DONE && !keep_changed(held, kept)) code = ZX_NO_MEMORY;
    for (uint64_t i = 0; code == ZX_DONE && i < kept->count; i++)
        if (!read_page(held->file, kept->pages[i], PAGE, kept->bytes + i * PAGE)) code = fault(file);
    if (code == ZX_DONE && !(write_own(held, kept) && map_over(held, MAP_SHARED))) code = fault(file);
    free_kept(&now);
    return code;
}

/* Gives each page what it held when the transaction began. `own` says which are own. */
static bool restore_pages(const struct zx_held_file *held, const struct zx_kept *kept, const uint8_t *own) {
    uint64_t pages = pages_of(kept->size), first = 0, at = 0;
    for (uint64_t page = 0; page < pages; page++) {
        const uint8_t *bytes = held->commits ? held->commits->kept[page] : NULL;
        bool is_kept = at < kept->count && kept->pages[at] == page;
        if (is_kept) bytes = kept->bytes + at++ * PAGE;
        if (!bytes && own[page]) continue;
        if (!forget(held, first, page)) return false;
        first = page + 1;
        if (bytes) memcpy(held->at + page * PAGE, bytes, page_len(held->len, page));
    }
    return forget(held, first, pages);
}

/* Maps a file for all to see again, as long as it was. */
static bool share_again(struct zx_held_file *held, uint64_t len) {
    if (!map_over(held, MAP_SHARED)) return false;
    if (held->len == len) return true;
    pthread_mutex_lock(&guard);
    bool is_done = mremap(held->at, held->len, len, 0) != MAP_FAILED;
    if (is_done) held->len = len;
    pthread_mutex_unlock(&guard);
    return is_done && set_length(held->file, len);
}

/* Undoes a transaction: restores the bytes of the mapping, and opens the segment in it again. */
static zx_code undo_pages(zx_file *file, struct zx_held_file *held, const struct zx_kept *kept) {
    uint64_t pages = pages_of(kept->size), size = 0;
    zx_memory memory;
    uint32_t how = ZX_WRITE;
    uint8_t *own = malloc(pages);
    if (!own) return ZX_NO_MEMORY;
    (void)find_own(held->at, pages, own);
    (void)zx_size(&file->segment, &size);
    (void)zx_mode(&file->segment, &how);
    zx_code code = zx_detach(&file->segment, &memory);
    bool is_shared = is_shared_writer(held) && held->steps == 1;
    bool is_done = is_shared ? share_again(held, kept->len) : restore_pages(held, kept, own);
    int error = errno;
    free(own);
    if (code == ZX_DONE) code = attach(file, held, is_done ? kept->size : size, how);
    return code == ZX_DONE && !is_done ? faulty(file, ZX_FILE_FAULT, error) : code;
}
