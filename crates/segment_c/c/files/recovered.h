/* A part of files.c: files that are opened with a log beside them. */

/* Maps a file privately to read all of it. Null if that fails. */
static uint8_t *map_to_read(int file, uint64_t len) {
    uint8_t *at = mmap(NULL, len, PROT_READ, MAP_PRIVATE, file, 0);
    if (at == MAP_FAILED) return NULL;
    if (cover_holes(file, at, len, PROT_READ)) return at;
    munmap(at, len);
    return NULL;
}

/* Reads the records of the log of a held file. Leaves `log` without bytes if there are none. */
static zx_code read_held_log(zx_file *file, const struct zx_held_file *held, struct image *log) {
    *log = (struct image){ NULL, 0 };
    return held->log >= 0 && held->has_records ? read_records(file, held->log, log) : (zx_code)ZX_DONE;
}

/* Applies a log to the private mapping of a file of `len` bytes. The file does not change. */
static zx_code replay_mapped(zx_file *file, struct zx_held_file *held, uint64_t len, const struct image *log,
                             struct recovered *made) {
    const struct image base = { map_to_read(held->file, len), len }, image = { held->at, held->len };
    if (!base.bytes) return fault(file);
    // behind the end of the file its last page has what others wrote there, if they mapped it
    if (held->len > len) memset(held->at + len, 0, pages_of(len) * PAGE - len);
    // else each 16 pages are a fault of their own
    (void)madvise(held->at, len, MADV_POPULATE_READ);
    zx_code code = replay(file, &base, log, &image, made);
    munmap(base.bytes, base.len);
    if (code == ZX_DONE) held->len = made->len;
    return code;
}

/* Whether a page of a mapping has what the file has, behind whose end are zeros. */
static bool is_as_in_file(const struct zx_held_file *held, uint64_t page) {
    uint8_t bytes[PAGE];
    return read_page(held->file, page, PAGE, bytes) && memcmp(bytes, held->at + page * PAGE, PAGE) == 0;
}

/* Keeps the pages that the log changed as committed. Returns false if there is no memory. */
static bool keep_own(const struct zx_held_file *held) {
    struct commits *commits = held->commits;
    uint64_t pages = pages_of(held->len);
    uint8_t *own = malloc(pages);
    bool is_told = own && find_own(held->at, pages, own), is_kept = own;
    for (uint64_t page = 0; is_kept && (page = next_noted(own, pages, page)) < pages; page++) {
        if (!is_told && is_as_in_file(held, page)) continue;
        commits->kept[page] = new_page(commits);
        is_kept = commits->kept[page];
        if (is_kept) keep_page(commits, held->at, held->len, page);
    }
    free(own);
    return is_kept;
}

/* Maps a file privately, reserves `room` bytes of addresses, and applies the records of its log to the mapping. */
static zx_code map_recovered(zx_file *file, struct zx_held_file *held, uint64_t len, uint64_t room,
                             const struct image *log, struct recovered *made) {
    uint64_t most;
    *made = (struct recovered){ .end = 0 };
    zx_code code = find_room(file, len, log, &most);
    if (code != ZX_DONE) return code;
    if (room < most) room = most;
    if (!map_private(held, len, most, room) && !map_private(held, len, most, pages_of(most) * PAGE)) return fault(file);
    if (log->bytes) code = replay_mapped(file, held, len, log, made);
    if (code == ZX_DONE && held->commits && made->end > 0 && !keep_own(held)) code = ZX_NO_MEMORY;
    if (code != ZX_DONE) unmap_listed(held);
    return code;
}

/* Maps a file that is only read, applies the records of its log to the mapping, and opens the segment. */
static zx_code read_recovered(zx_file *file, struct zx_held_file *held, uint64_t len, uint32_t how) {
    struct image log;
    struct recovered made;
    zx_code code = read_held_log(file, held, &log);
    if (code == ZX_DONE) code = map_recovered(file, held, len, 0, &log, &made);
    free_image(&log);
    if (code != ZX_DONE) return code;
    if (how == ZX_READ) mprotect(held->at, held->len, PROT_READ);
    code = attach(file, held, held->len, how);
    if (code == ZX_DONE) held->mapped = &file->segment;
    else unmap_listed(held);
    return code;
}

/* Maps a file and begins its commits. Applies the records of its log to the mapping, if there is a log. */
static zx_code begin_commits(zx_file *file, struct zx_held_file *held, uint64_t len) {
    struct image log = { NULL, 0 };
    struct recovered made;
    void *commits = mmap(NULL, commits_size(), PROT_READ | PROT_WRITE, MAP_PRIVATE | MAP_ANONYMOUS, -1, 0);
    if (commits == MAP_FAILED) return ZX_NO_MEMORY;
    held->commits = commits;
    held->commits->written = (uint8_t *)commits + notes_at();
    zx_code code = open_log(file, held);
    if (code == ZX_DONE) code = read_held_log(file, held, &log);
    if (code == ZX_DONE) code = map_recovered(file, held, len, pages_of(LARGEST) * PAGE, &log, &made);
    if (code == ZX_DONE && made.end > 0) held->commits->left = zx_log_fingerprint(log.bytes, made.end);
    free_image(&log);
    if (code != ZX_DONE) return code;
    held->commits->base = made.base;
    held->commits->after = made.after;
    held->commits->end = made.end;
    held->commits->is_left = held->log >= 0;
    held->commits->is_marked = made.end > 0;
    return ZX_DONE;
}

static zx_code part_from_names(zx_file *file, struct zx_held_file *held, struct stat *found);

/* Opens a segment of a durable file, for commits. */
static zx_code open_durable(zx_file *file, struct zx_held_file *held, struct stat *found) {
    zx_code parted = part_from_names(file, held, found);
    if (parted != ZX_DONE) return parted;
    uint64_t len = (uint64_t)found->st_size;
    // no segment has such a size, so the bytes are refused
    if (len == 0 || len % 16 != 0) return read_segment(file, held->file, ZX_WRITE);
    zx_code code = begin_commits(file, held, len);
    if (code != ZX_DONE) return code;
    code = attach(file, held, held->len, ZX_WRITE);
    if (code != ZX_DONE) {
        unmap_listed(held);
        return code;
    }
    held->commits->len = held->len;
    held->mapped = &file->segment;
    return ZX_DONE;
}

/* ---- the log of a file that is written without commits */

/* Opens the folder of a file whose name is a path, and shortens the name to the last part of the path. */
static zx_code open_folder(zx_file *file, struct zx_held_file *held) {
    const char *name = last_name(held->name);
    size_t before = (size_t)(name - held->name);
    char *folder = held->folder == AT_FDCWD ? malloc(before + 2) : NULL;
    if (held->folder != AT_FDCWD) return ZX_DONE;
    if (!folder) return ZX_NO_MEMORY;
    memcpy(folder, held->name, before);
    memcpy(folder + before, ".", 2);
    bool is_open = open_listed(&held->folder, AT_FDCWD, folder, O_PATH | O_DIRECTORY, 0);
    zx_code code = is_open ? ZX_DONE : fault(file);
    free(folder);
    if (is_open) memmove(held->name, name, strlen(name) + 1);
    else held->folder = AT_FDCWD;
    return code;
}

/* Reads the held file into memory of its own, and applies the records of its log. */
static zx_code read_image(zx_file *file, struct zx_held_file *held, const struct image *log, struct image *image,
                          struct recovered *made) {
    struct image base;
    *image = (struct image){ NULL, 0 };
    zx_code code = read_all(file, held->file, &base);
    if (code == ZX_DONE) code = replay_copy(file, &base, log, image, made);
    free_image(&base);
    return code;
}

/* Applies the records of the log to the file: replaces the file, and empties the log. */
static zx_code replace_recovered(zx_file *file, struct zx_held_file *held) {
    struct image log, image = { NULL, 0 };
    struct recovered made = { .end = 0 };
    zx_code code = read_held_log(file, held, &log);
    if (code == ZX_DONE && log.bytes) code = read_image(file, held, &log, &image, &made);
    if (code == ZX_DONE && made.end > 0) {
        image.len = made.len;
        code = renew_log(file, held, &log, made.end);
        if (code == ZX_DONE) code = replace(file, held, &image);
    }
    free_image(&image);
    free_image(&log);
    return code;
}

/* Applies the records of the log to the file and ends the log, before the file is written without commits. */
static zx_code settle_log(zx_file *file, struct zx_held_file *held, struct stat *found) {
    zx_code code = open_log(file, held);
    if (code != ZX_DONE || held->log < 0) return code;
    code = open_folder(file, held);
    if (code == ZX_DONE && held->has_records) code = replace_recovered(file, held);
    if (code == ZX_DONE) code = end_name(file, held);
    close_listed(&held->log);
    if (code == ZX_FILE_UNSYNCED) code = ZX_FILE_FAULT;
    return code == ZX_DONE && fstat(held->file, found) != 0 ? fault(file) : code;
}

/* Replaces a file that has several names by one of its own, before a log lies beside this name: by another name it would
   be opened without the log, and changed. */
static zx_code part_from_names(zx_file *file, struct zx_held_file *held, struct stat *found) {
    struct image image;
    if (found->st_nlink < 2) return ZX_DONE;
    zx_code code = settle_log(file, held, found);
    if (code != ZX_DONE || found->st_nlink < 2) return code;
    code = read_all(file, held->file, &image);
    if (code == ZX_DONE) code = open_image(file, &image, ZX_READ);
    zx_close(&file->segment);
    if (code == ZX_DONE) code = synced(replace(file, held, &image));
    free_image(&image);
    return code == ZX_DONE && fstat(held->file, found) != 0 ? fault(file) : code;
}

/* ---- the log of a file that is gone, beside a new one */

/* Looks for a log beside the name of a new file: whose commits they are is not known, so the file is not created. If the
   file is held, a log without a record is removed. */
static zx_code look_beside(zx_file *file, struct zx_held_file *held) {
    zx_code code = open_log(file, held);
    if (code == ZX_DONE && held->log >= 0) {
        enum state state = held->state;
        if (held->file >= 0 && !held->has_records) code = end_name(file, held);
        held->state = state;
    }
    if (held->log >= 0 && held->has_records) code = faulty(file, ZX_FILE_LOG_LEFT, EEXIST);
    int32_t error = file->error;
    close_listed(&held->log);
    file->error = error;
    return code;
}

/* Creates the file of a name. Refuses to if a log with records lies beside the name, before it or behind it: then the
   caller removes the new file. If the file exists by now, the log may be its own. */
static zx_code make_without_log(zx_file *file, struct zx_held_file *held, const struct image *image) {
    struct stat found;
    zx_code code = look_beside(file, held);
    if (code == ZX_FILE_LOG_LEFT && fstatat(held->folder, held->name, &found, AT_SYMLINK_NOFOLLOW) == 0) return AGAIN;
    if (code == ZX_DONE) code = make_held(file, held, image);
    return code == ZX_DONE ? look_beside(file, held) : code;
}

/* ---- a file that is read while another process may write it */

/* Reads a file, applies `log` to it and opens the segment. The caller read the log before the file. Returns
   ZX_FILE_LOG_FOREIGN if another process changed the file between the two reads. */
static zx_code read_with_log(zx_file *file, int from, const struct image *log, uint32_t how) {
    struct recovered made = { .end = 0 };
    struct image base, image = { NULL, 0 };
    zx_code code = read_all(file, from, &base);
    if (code == ZX_DONE) code = replay_copy(file, &base, log, &image, &made);
    if (code == ZX_DONE) {
        image.len = made.len;
        code = open_image(file, &image, how);
    }
    free_image(&image);
    free_image(&base);
    return code;
}

/* Returns true if a log may have the name that could not be opened. Links and sockets are not opened, and are no logs. */
static bool may_be_log(const char *name, const struct stat *own) {
    int error = errno;
    struct stat found;
    bool is_none = is_no_log(error) || (lstat(name, &found) == 0 && !(S_ISREG(found.st_mode) && does_count(own, &found, AT_FDCWD, name)));
    errno = error;
    return !is_none;
}

/* Opens and reads the log of the file at `path`. Leaves `log` without bytes if the file has no log, or the log has no
   record. */
static zx_code log_of(zx_file *file, const char *path, const struct stat *own, struct image *log) {
    char name[PATH_MAX + 8];
    struct stat found;
    *log = (struct image){ NULL, 0 };
    if (!name_log(path, name)) return ZX_DONE;
    int from = open(name, O_RDONLY | O_NONBLOCK | O_NOCTTY | O_CLOEXEC | O_NOFOLLOW);
    if (from < 0) return errno == EINTR ? (zx_code)AGAIN : may_be_log(name, own) ? fault(file) : (zx_code)ZX_DONE;
    zx_code code = fstat(from, &found) == 0 ? ZX_DONE : fault(file);
    bool is_log = code == ZX_DONE && S_ISREG(found.st_mode) && does_count(own, &found, AT_FDCWD, path);
    if (is_log) code = read_log(file, from, &found, log);
    close(from);
    return code;
}
