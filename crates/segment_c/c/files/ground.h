/* A part of files.c: transactions of a segment in memory that the library allocated. The pages of such memory become a
   private mapping of a file without a name, the ground, which has what they held when the outermost transaction began: a
   page that is written is the process' own from then on. The first transaction copies all pages to the ground; a later
   one only those that changed since the one before began. */

/* The most pages that stay own when a transaction begins. To compare one takes less time than to make it own again. */
enum { OWN_MOST = 64 };

struct ground {
    struct ground *next;       /* in the list of all of this process */
    const zx_segment *segment; /* for which it was laid */
    uint64_t block;            /* the number of the block of memory */
    uint8_t *memory;           /* of the segment */
    uint64_t len;
    uint8_t *at;               /* its whole pages */
    uint64_t pages;
    uint8_t *base;             /* what they held */
    unsigned steps;            /* open transactions */
    bool is_shared;            /* a forked process has the file too: nothing is written to it any more */
    bool is_gone;              /* the memory ended */
};

static struct ground *_Atomic grounds; /* held by the guard of the held files */

/* How many bytes of the memory stand before its whole pages, and behind them. */
static size_t front_of(const struct ground *ground) { return (size_t)(ground->at - ground->memory); }
static size_t behind_of(const struct ground *ground) { return ground->len - front_of(ground) - ground->pages * PAGE; }

/* ---- where a segment lies */

/* The words of the box behind a handle, of which one points to the memory of the segment. */
enum { BOX_WORDS = 32 };

/* Finds the block of memory in which the segment lies, if it is the library's and long enough. */
static bool find_memory(zx_segment *segment, struct rattle_block *found) {
    uintptr_t words[BOX_WORDS];
    uint64_t size = 0, left = 0;
    size_t count = at_most(malloc_usable_size(segment->at) / sizeof *words, BOX_WORDS);
    memcpy(words, segment->at, count * sizeof *words);
    bool is_found = page_size() == PAGE && rattle_find_block(words, count, found);
    return is_found && zx_size(segment, &size) == ZX_DONE && zx_region_left(segment, &left) == ZX_DONE &&
           size + left == found->len;
}

/* ---- grounds that end */

static void free_ground(struct ground *ground) {
    munmap(ground->base, ground->pages * PAGE);
    free(ground);
}

/* Takes a ground out of the list. The transactions that need it keep it. The guard is held. */
static void end_ground(struct ground *ground) {
    struct ground *before = grounds;
    while (before && before->next != ground) before = before->next;
    if (before) before->next = ground->next;
    else if (grounds == ground) grounds = ground->next;
    ground->is_gone = true;
    if (ground->steps == 0) free_ground(ground);
}

/* Ends a transaction of a ground. */
static void leave_ground(struct ground *ground) {
    pthread_mutex_lock(&guard);
    ground->steps--;
    if (ground->is_gone && ground->steps == 0) free_ground(ground);
    pthread_mutex_unlock(&guard);
}

/* Ends the ground of a block that ends. Memory that is freed keeps no page of the file. */
static void end_of_block(const struct rattle_block *block, bool is_freed) {
    pthread_mutex_lock(&guard);
    struct ground *ground = grounds;
    while (ground && ground->block != block->number) ground = ground->next;
    if (ground) {
        int flags = MAP_PRIVATE | MAP_ANONYMOUS | MAP_FIXED;
        if (is_freed) (void)mmap(ground->at, ground->pages * PAGE, PROT_READ | PROT_WRITE, flags, -1, 0);
        end_ground(ground);
    }
    pthread_mutex_unlock(&guard);
}

/* Ends the grounds of a segment other than the one in this block, or all if that is null. */
static void end_grounds(const zx_segment *segment, const struct rattle_block *but) {
    if (!grounds) return; // one of this segment was laid by this thread
    pthread_mutex_lock(&guard);
    for (struct ground *each = grounds, *next; each; each = next) {
        next = each->next;
        if (each->segment == segment && !(but && each->block == but->number)) end_ground(each);
    }
    pthread_mutex_unlock(&guard);
}

/* A process that forks has its files in memory in common with the child from then on. */
static void share_grounds(void) {
    for (struct ground *each = grounds; each; each = each->next) each->is_shared = true;
}

/* ---- a ground laid */

/* Whether a limit of the process is below a length of a file: to write beyond it is a signal. */
static bool is_limited(uint64_t len) {
    struct rlimit limit;
    return getrlimit(RLIMIT_FSIZE, &limit) != 0 || (limit.rlim_cur != RLIM_INFINITY && limit.rlim_cur < len);
}

/* Puts the pages of a ground into a file in memory, and maps that in their place. The guard is held. */
static bool lay(struct ground *ground) {
    struct image image = { ground->at, ground->pages * PAGE };
    int protection = PROT_READ | PROT_WRITE, file = is_limited(image.len) ? -1 : memfd_create("zaluxhoni", MFD_CLOEXEC);
    if (file < 0) return false;
    bool is_written = write_image(file, &image);
    uint8_t *base = is_written ? mmap(NULL, image.len, protection, MAP_SHARED, file, 0) : MAP_FAILED;
    bool is_mapped = base != MAP_FAILED;
    bool is_laid = is_mapped && mmap(ground->at, image.len, protection, MAP_PRIVATE | MAP_FIXED, file, 0) == ground->at;
    close(file);
    if (!is_laid && is_mapped) munmap(base, image.len);
    if (!is_laid) return false;
    if (ground->base) munmap(ground->base, image.len);
    ground->base = base;
    ground->is_shared = false;
    return true;
}

/* Lays the ground of a segment for the first time. The guard is held. Null if the system refuses it. */
static struct ground *new_ground(const zx_segment *segment, const struct rattle_block *block) {
    struct ground *ground = calloc(1, sizeof *ground);
    if (!ground) return NULL;
    size_t front = (PAGE - (uintptr_t)block->at % PAGE) % PAGE;
    *ground = (struct ground){ .segment = segment, .block = block->number, .memory = block->at, .len = block->len,
                               .at = block->at + front, .pages = (block->len - front) / PAGE };
    if (!lay(ground)) {
        free(ground);
        return NULL;
    }
    ground->next = grounds;
    grounds = ground;
    return ground;
}

/* Puts the pages that changed into the ground. `own` says which are own. If there are many of them they are given
   back, so that they are not compared again. */
static void take_changed(struct ground *ground, const uint8_t *own, bool is_told) {
    uint64_t count = 0;
    for (uint64_t page = 0; (page = next_noted(own, ground->pages, page)) < ground->pages; page++, count++) {
        uint8_t *at = ground->at + page * PAGE, *base = ground->base + page * PAGE;
        if (memcmp(at, base, PAGE) != 0) memcpy(base, at, PAGE);
    }
    if (!is_told || count <= OWN_MOST) return;
    for (uint64_t page = 0, end; (page = next_noted(own, ground->pages, page)) < ground->pages; page = end) {
        for (end = page; end < ground->pages && own[end];) end++;
        (void)madvise(ground->at + page * PAGE, (end - page) * PAGE, MADV_DONTNEED);
    }
}

/* Finds the ground of a segment, and lays it if it has none, or shares it. The guard is held. */
static struct ground *find_ground(const zx_segment *segment, const struct rattle_block *block) {
    struct ground *ground = grounds;
    while (ground && ground->block != block->number) ground = ground->next;
    if (!ground) return new_ground(segment, block);
    return ground->steps > 0 || !ground->is_shared || lay(ground) ? ground : NULL;
}

/* ---- transactions */

/* Copies what the ground does not have: the ends of the memory, and the pages that changed since the outermost
   transaction began. The guard is held. */
static bool keep_memory(struct ground *ground, struct zx_kept *kept) {
    size_t front = front_of(ground), behind = behind_of(ground);
    uint8_t *own = malloc(ground->pages);
    kept->ends = malloc(front + behind + 1);
    bool is_done = own && kept->ends;
    bool is_told = is_done && find_own(ground->at, ground->pages, own);
    if (is_done && ground->steps == 0) take_changed(ground, own, is_told);
    for (uint64_t page = 0; is_done && !is_told && ground->steps > 0 && page < ground->pages; page++)
        own[page] = memcmp(ground->at + page * PAGE, ground->base + page * PAGE, PAGE) != 0;
    if (is_done && ground->steps > 0)
        is_done = copy_changed(ground->at, ground->pages * PAGE, kept, own, ground->pages);
    free(own);
    if (!is_done) return false;
    memcpy(kept->ends, ground->memory, front);
    memcpy(kept->ends + front, ground->at + ground->pages * PAGE, behind);
    return true;
}

/* Begins a transaction of a segment in memory of the library. Returns false if the caller must copy the segment, because
   the segment is short or a call of the system fails. */
static bool begin_ground(zx_file *file, zx_step *before) {
    struct rattle_block block;
    bool is_found = find_memory(&file->segment, &block);
    end_grounds(&file->segment, is_found ? &block : NULL);
    struct zx_kept *kept = is_found ? calloc(1, sizeof *kept) : NULL;
    if (!kept) return false;
    (void)zx_size(&file->segment, &kept->size);
    pthread_mutex_lock(&guard);
    rattle_ends = end_of_block;
    struct ground *ground = watch_forks() ? find_ground(&file->segment, &block) : NULL;
    bool is_kept = ground && keep_memory(ground, kept);
    if (is_kept) {
        ground->steps++;
        kept->ground = ground;
    }
    pthread_mutex_unlock(&guard);
    before->kept = kept;
    if (!is_kept) free_kept(before);
    return is_kept;
}

/* Copies the image that a segment was when a transaction began. */
static void copy_before(const struct zx_kept *kept, uint8_t *image, uint64_t len) {
    const struct ground *ground = kept->ground;
    size_t front = front_of(ground), whole = ground->pages * PAGE;
    memcpy(image, kept->ends, at_most(len, front));
    if (len > front) memcpy(image + front, ground->base, at_most(len - front, whole));
    for (uint64_t i = 0; i < kept->count; i++) {
        size_t at = front + kept->pages[i] * PAGE;
        if (at < len) memcpy(image + at, kept->bytes + i * PAGE, at_most(len - at, PAGE));
    }
    if (len > front + whole) memcpy(image + front + whole, kept->ends + front, len - front - whole);
}

/* Makes the segment an empty one of `size` bytes, where it lies. Then its handle knows of no object, and any image of
   this length may take the place of its bytes. */
static bool make_blank(zx_segment *segment, uint64_t size) {
    zx_segment least = ZX_CLOSED_HANDLE;
    enum { LEAST = 144 };
    bool is_blank = zx_create(&least, LEAST) == ZX_DONE && zx_rollback(segment, &least) == ZX_DONE;
    zx_close(&least);
    return is_blank && (size == LEAST || zx_grow(segment, size - LEAST) == ZX_DONE);
}

/* Puts back what the memory held when a transaction began. */
static void restore_memory(const struct ground *ground, const struct zx_kept *kept, uint8_t *own) {
    (void)find_own(ground->at, ground->pages, own);
    for (uint64_t page = 0, end; (page = next_noted(own, ground->pages, page)) < ground->pages; page = end) {
        for (end = page; end < ground->pages && own[end];) end++;
        if (madvise(ground->at + page * PAGE, (end - page) * PAGE, MADV_DONTNEED) == 0) continue;
        // memory that is locked does not end
        memcpy(ground->at + page * PAGE, ground->base + page * PAGE, (end - page) * PAGE);
    }
    for (uint64_t i = 0; i < kept->count; i++)
        memcpy(ground->at + kept->pages[i] * PAGE, kept->bytes + i * PAGE, PAGE);
    memcpy(ground->memory, kept->ends, front_of(ground));
    memcpy(ground->at + ground->pages * PAGE, kept->ends + front_of(ground), behind_of(ground));
}

/* Undoes a transaction of a segment that lies in other memory by now: restores it there. */
static zx_code undo_elsewhere(zx_file *file, const struct zx_kept *kept) {
    zx_segment old = ZX_CLOSED_HANDLE;
    struct image image = room_for(kept->size);
    if (!image.bytes) return ZX_NO_MEMORY;
    copy_before(kept, image.bytes, image.len);
    zx_code code = zx_open(&old, image.bytes, image.len, image.len, ZX_WRITE);
    free(image.bytes);
    if (code == ZX_DONE) code = zx_file_rollback(file, &old);
    zx_close(&old);
    return code;
}

/* Undoes a transaction of a segment in memory of the library. */
static zx_code undo_ground(zx_file *file, const struct zx_kept *kept) {
    const struct ground *ground = kept->ground;
    struct rattle_block block;
    if (!file->segment.at) return ZX_CLOSED;
    uint8_t *own = malloc(ground->pages);
    if (!own) return ZX_NO_MEMORY;
    bool is_there = !ground->is_gone && find_memory(&file->segment, &block) && block.number == ground->block;
    bool is_blank = is_there && make_blank(&file->segment, kept->size);
    if (is_blank) restore_memory(ground, kept, own);
    free(own);
    return is_blank ? (zx_code)ZX_DONE : undo_elsewhere(file, kept);
}
