/* A part of files.c: views of a mapped file that stay behind an undone transaction, or behind the file. A program in
   Python cannot end them. So the segment moves to other addresses, or is closed, and at the old addresses the views find
   a copy of the bytes that they showed. */

/* Where a file is mapped. */
struct mapping {
    uint8_t *at;
    uint64_t len;  /* in whole pages */
    uint64_t room; /* the bytes of addresses: `len`, or more */
};

static struct mapping mapping_of(const struct zx_held_file *held) {
    uint64_t len = pages_of(held->len) * PAGE;
    return (struct mapping){ held->at, len, held->room > len ? held->room : len };
}

/* Copies what the views show into memory as long as the mapping, at the same offsets. The other pages take no memory.
   Null if the system refuses it. */
static uint8_t *copy_views(const struct mapping *old, const zx_memory *views, size_t count) {
    int flags = MAP_PRIVATE | MAP_ANONYMOUS | MAP_NORESERVE;
    uint8_t *copy = mmap(NULL, old->len, PROT_READ | PROT_WRITE, flags, -1, 0);
    if (copy == MAP_FAILED) return NULL;
    for (size_t i = 0; i < count; i++) {
        uint64_t from = (uint64_t)((uintptr_t)views[i].at - (uintptr_t)old->at);
        if (from <= old->len && views[i].len <= old->len - from) memcpy(copy + from, views[i].at, views[i].len);
    }
    return copy;
}

/* Puts the copy in the place of a mapping, which ends. `left` gets the addresses, for munmap. If the system has no more
   mappings, the views keep the old one. */
static void leave_copy(const struct mapping *old, uint8_t *copy, zx_memory *left) {
    // in one call, so that no other thread finds nothing there
    bool is_moved = (mremap)(copy, old->len, old->len, MREMAP_MAYMOVE | MREMAP_FIXED, old->at) != MAP_FAILED;
    if (!is_moved) munmap(copy, old->len);
    if (old->room > old->len) munmap(old->at + old->len, old->room - old->len);
    *left = (zx_memory){ old->at, old->len };
}

/* Maps the file privately once more. The old mapping stays, and is that of the file again if this fails. */
static bool map_again(struct zx_held_file *held) {
    struct stat found;
    zx_segment *mapped = held->mapped;
    uint8_t *at = held->at;
    uint64_t len = held->len, room = held->room;
    bool is_mapped = fstat(held->file, &found) == 0 &&
                     (room ? map_private(held, (uint64_t)found.st_size, len, room)
                           : map_listed(held, len, PROT_READ | PROT_WRITE, MAP_PRIVATE));
    if (is_mapped) return true;
    pthread_mutex_lock(&guard);
    held->mapped = mapped;
    held->at = at;
    held->len = len;
    held->room = room;
    pthread_mutex_unlock(&guard);
    return false;
}

/* Moves the mapping to other addresses: a new one gets the pages of the old one that are the process' own. */
static bool map_elsewhere(struct zx_held_file *held, const struct mapping *old) {
    uint64_t pages = old->len / PAGE;
    uint8_t *own = malloc(pages);
    bool is_mapped = own && map_again(held);
    if (is_mapped) {
        (void)find_own(old->at, pages, own);
        for (uint64_t page = 0; (page = next_noted(own, pages, page)) < pages; page++)
            memcpy(held->at + page * PAGE, old->at + page * PAGE, PAGE);
        held->is_watched = false;
        if (held->commits) held->commits->is_untold = true;
    }
    free(own);
    return is_mapped;
}

zx_code zx_file_undo_beside(zx_file *file, zx_step *before, const zx_memory *views, size_t count, zx_memory *left) {
    struct zx_held_file *held = file->held;
    bool is_open = held && held->mapped && held->steps > 0 && is_own(held) && file->segment.at;
    uint64_t size = 0;
    uint32_t how = ZX_WRITE;
    zx_memory memory;
    file->error = 0;
    if (!is_open || !before->kept || before->kept->ground) return ZX_CLOSED;
    struct mapping old = mapping_of(held);
    uint8_t *copy = copy_views(&old, views, count);
    if (!copy) return ZX_NO_MEMORY;
    if (!map_elsewhere(held, &old)) {
        munmap(copy, old.len);
        return ZX_NO_MEMORY;
    }
    (void)zx_size(&file->segment, &size);
    (void)zx_mode(&file->segment, &how);
    zx_code code = zx_file_undo(file, before);
    int32_t error = file->error;
    // what could not be undone moves as it is
    bool is_moved = code == ZX_DONE || zx_detach(&file->segment, &memory) != ZX_DONE;
    if (!is_moved) (void)attach(file, held, size, how);
    leave_copy(&old, copy, left);
    file->error = error;
    return code;
}

/* Ends the mapping, at whose addresses the views find the copy. */
static void unmap_beside(zx_file *file, struct zx_held_file *held, uint8_t *copy, zx_memory *left) {
    struct mapping old = mapping_of(held);
    zx_close(&file->segment);
    pthread_mutex_lock(&guard);
    leave_copy(&old, copy, left);
    held->at = NULL;
    held->room = 0;
    held->mapped = NULL;
    pthread_mutex_unlock(&guard);
}

zx_code zx_file_close_beside(zx_file *file, bool is_kept, const zx_memory *views, size_t count, zx_memory *left) {
    struct zx_held_file *held = file->held;
    zx_code code = ZX_DONE;
    file->error = 0;
    if (!held || !held->mapped || !is_own(held)) return ZX_CLOSED;
    if (is_kept && held->steps > 0) return faulty(file, ZX_FILE_IN_STEP, EBUSY);
    struct mapping old = mapping_of(held);
    uint8_t *copy = copy_views(&old, views, count);
    if (!copy) return ZX_NO_MEMORY;
    if (is_kept) code = is_durable(held) ? end_durable(file, held) : end_mapped(file, held);
    else (void)cut_mapped(file, held);
    if (code != ZX_DONE && code != ZX_FILE_UNSYNCED) {
        munmap(copy, old.len);
        return code;
    }
    int32_t error = code == ZX_DONE ? 0 : file->error;
    unmap_beside(file, held, copy, left);
    let_go(file);
    file->error = error;
    return code;
}
