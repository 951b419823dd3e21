/* A part of files.c: durable files. Changes are private to the process until a commit adds a record to the log. */

static bool is_durable(const struct zx_held_file *held) { return held && held->commits; }

/* ---- a private mapping, which may become longer than its file */

/* Maps `len` bytes privately, the file's bytes and then zeros, and reserves `room` bytes of addresses. */
static bool map_private(struct zx_held_file *held, uint64_t file_len, uint64_t len, uint64_t room) {
    int flags = MAP_PRIVATE | MAP_ANONYMOUS | MAP_NORESERVE, protection = PROT_READ | PROT_WRITE;
    uint64_t end = pages_of(len) * PAGE, from_file = file_len < len ? file_len : len;
    pthread_mutex_lock(&guard);
    uint8_t *at = mmap(NULL, room, PROT_NONE, flags, -1, 0);
    bool is_mapped = at != MAP_FAILED && mmap(at, end, protection, flags | MAP_FIXED, -1, 0) == at &&
                     mmap(at, from_file, protection, MAP_PRIVATE | MAP_FIXED, held->file, 0) == at &&
                     cover_holes(held->file, at, from_file, protection);
    if (is_mapped) {
        held->at = at;
        held->len = len;
        held->room = room;
    } else if (at != MAP_FAILED) {
        munmap(at, room);
    }
    pthread_mutex_unlock(&guard);
    return is_mapped;
}

/* Lengthens the usable part of the mapping to `wanted` bytes, and attaches the segment again. */
static zx_code lengthen(zx_file *file, struct zx_held_file *held, uint64_t size, uint64_t wanted) {
    zx_memory memory;
    uint64_t from = pages_of(held->len) * PAGE, end = pages_of(wanted) * PAGE;
    if (end > held->room) return ZX_NO_MEMORY;
    if (end > from && mmap(held->at + from, end - from, PROT_READ | PROT_WRITE,
                           MAP_PRIVATE | MAP_ANONYMOUS | MAP_NORESERVE | MAP_FIXED, -1, 0) == MAP_FAILED)
        return fault(file);
    (void)zx_detach(&file->segment, &memory);
    held->len = wanted;
    held->is_watched = false;
    return attach(file, held, size, ZX_WRITE);
}

/* ---- commits */

/* Converts ZX_FILE_UNSYNCED to ZX_FILE_FAULT, for calls that cannot go on before the name is on the disk. */
static zx_code synced(zx_code code) { return code == ZX_FILE_UNSYNCED ? (zx_code)ZX_FILE_FAULT : code; }

/* A longer buffer is freed after a commit, and so are pages that are kept no more, if they take more memory. */
enum { LONG_BUFFER = 1 << 24 };

/* Returns memory for a kept page. Takes first the pages that a checkpoint gave back, since the system clears each page
   that it gives. */
static uint8_t *new_page(struct commits *commits) {
    struct idle_page *page = commits->idle;
    if (!page) return malloc(sizeof *page);
    commits->idle = page->next;
    commits->idle_count--;
    return (uint8_t *)page;
}

static void drop_page(struct commits *commits, uint8_t *bytes) {
    struct idle_page *page = (struct idle_page *)bytes;
    if (!page || commits->idle_count == LONG_BUFFER / PAGE) {
        free(page);
        return;
    }
    page->next = commits->idle;
    commits->idle = page;
    commits->idle_count++;
}

static void free_pages(struct commits *commits, uint64_t first, uint64_t behind) {
    for (uint64_t page = first; page < behind; page++) {
        drop_page(commits, commits->kept[page]);
        commits->kept[page] = NULL;
    }
}

/* Stores the bytes of a page as committed, in commits->kept[page], which is allocated. */
static void keep_page(struct commits *commits, const uint8_t *image, uint64_t size, uint64_t page) {
    size_t len = page_len(size, page);
    memcpy(commits->kept[page], image + page * PAGE, len);
    memset(commits->kept[page] + len, 0, PAGE - len);
}

/* Returns the share of a page in the fingerprint. `len` is the number of its bytes in the image. */
static uint64_t share_of(uint64_t page, const uint8_t *bytes, size_t len) {
    return len > 0 ? zx_log_page_mark(page, bytes, len) : 0;
}

/* Marks a page that may be the process' own, but has the same bytes in the file. */
enum { ALIKE = 2 };

/* What a commit writes. */
struct record {
    uint64_t size;        /* of the image */
    uint64_t pages;       /* of the image */
    uint64_t count;       /* of the pages that changed */
    uint8_t *changed;     /* of each page: 1 if it changed, or ALIKE */
    uint64_t share;       /* what the fingerprint gains by these pages */
    uint64_t len;         /* of its bytes, which are in the buffer */
    uint64_t edits;       /* where its edits end there */
};

/* Makes the buffer long enough for `len` bytes of a record. */
static bool make_buffer(struct commits *commits, const struct record *record, uint64_t len) {
    struct image *buffer = &commits->buffer, more;
    if (len <= buffer->len) return true;
    more = room_for(2 * len);
    if (!more.bytes) return false;
    if (buffer->bytes) memcpy(more.bytes, buffer->bytes, record->len);
    free(buffer->bytes);
    *buffer = more;
    return true;
}

static void free_buffer(struct commits *commits) {
    free(commits->buffer.bytes);
    commits->buffer = (struct image){ NULL, 0 };
}

/* Returns how many bytes of two pages are the same from an offset on, in whole words. */
static size_t same_words(const uint8_t *old, const uint8_t *now, size_t at, size_t len) {
    size_t from = at;
    while (at < len && memcmp(old + at, now + at, 8) == 0) at += 8;
    return at - from;
}

/* Finds the next changed run of a page, from `behind` on. A run ends where more than EDIT unchanged bytes follow, since
   another edit costs EDIT bytes. Returns false if no run is left. */
static bool next_run(const uint8_t *old, const uint8_t *now, size_t len, size_t *from, size_t *behind) {
    size_t at = *behind + same_words(old, now, *behind, len);
    if (at == len) return false;
    *from = at;
    for (size_t same = 0; at < len && same <= EDIT; at += same) {
        while (at < len && memcmp(old + at, now + at, 8) != 0) at += 8;
        *behind = at;
        same = same_words(old, now, at, len);
    }
    return true;
}

/* Adds the edits of a page that changed, and its share. */
static zx_code add_page(const struct zx_held_file *held, struct record *record, uint64_t page, const uint8_t *old) {
    struct commits *commits = held->commits;
    const uint8_t *now = held->at + page * PAGE;
    size_t len = page_len(record->size, page), from, behind = 0;
    zx_code code = ZX_DONE;
    record->changed[page] = 1;
    record->count++;
    record->share -= share_of(page, old, page_len(commits->len, page));
    record->share += share_of(page, now, len);
    while (code == ZX_DONE && next_run(old, now, len, &from, &behind)) {
        size_t edit = EDIT + behind - from;
        if (!make_buffer(commits, record, record->len + edit)) return ZX_NO_MEMORY;
        code = zx_log_edit(page * PAGE + from, now + from, behind - from, commits->buffer.bytes + record->len, edit);
        record->len += edit;
    }
    return code;
}

/* Adds a page to the record, and keeps its committed bytes, if the page differs from them or `has_moved`. Otherwise
   marks the page: with ALIKE if the file has the same bytes as the last commit, and with 0 if not. */
static zx_code compare_page(zx_file *file, const struct zx_held_file *held, struct record *record, uint64_t page,
                            bool has_moved) {
    struct commits *commits = held->commits;
    uint8_t *old = commits->kept[page] ? commits->kept[page] : new_page(commits);
    if (!old) return ZX_NO_MEMORY;
    if (!commits->kept[page] && !committed_page(held, page, old)) {
        zx_code code = fault(file);
        drop_page(commits, old);
        return code;
    }
    if (has_moved || memcmp(old, held->at + page * PAGE, page_len(record->size, page)) != 0) {
        commits->kept[page] = old;
        return add_page(held, record, page, old);
    }
    record->changed[page] = commits->kept[page] ? 0 : ALIKE;
    if (commits->kept[page]) commits->compared++;
    else drop_page(commits, old);
    return ZX_DONE;
}

/* Drops the process' own copies of the ALIKE pages, so that they are not compared again. */
static bool forget_alike(const struct zx_held_file *held, const struct record *record) {
    for (uint64_t page = 0; page < record->pages;) {
        const uint8_t *first = memchr(record->changed + page, ALIKE, record->pages - page);
        if (!first) return true;
        uint64_t from = (uint64_t)(first - record->changed);
        for (page = from; page < record->pages && record->changed[page] == ALIKE;) page++;
        if (!forget(held, from, page)) return false;
    }
    return true;
}

/* Notes the pages that may have changed since the last commit: the written pages, or all own pages if the system did
   not report all writes. Returns false if it did not report the own pages either: then all pages are noted. */
static bool find_since(struct zx_held_file *held, uint64_t pages, uint8_t *noted) {
    struct commits *commits = held->commits;
    commits->is_untold |= !find_written(held, pages, commits->written);
    if (commits->is_untold) return find_own(held->at, pages, noted);
    memcpy(noted, commits->written, pages);
    return true;
}

/* Clears the notes of written pages, after a commit is done. */
static void forget_written(struct commits *commits, uint64_t pages) {
    memset(commits->written, 0, pages);
    commits->is_untold = false;
}

/* Finds the pages that changed since the last commit, and their edits. */
static zx_code find_record(zx_file *file, struct zx_held_file *held, struct record *record) {
    zx_code code = zx_size(&file->segment, &record->size);
    if (code != ZX_DONE) return code;
    record->len = 8 + FRONT;
    record->pages = pages_of(record->size);
    record->changed = malloc(record->pages);
    if (!record->changed) return ZX_NO_MEMORY;
    bool is_told = find_since(held, record->pages, record->changed);
    // if the image's end moved, each page from the lower end on has another length, and so another share
    uint64_t before = held->commits->len, moved = record->pages;
    if (before != record->size) moved = (before < record->size ? before : record->size) / PAGE;
    memset(record->changed + moved, 1, record->pages - moved);
    for (uint64_t page = 0; code == ZX_DONE; page++) {
        page = next_noted(record->changed, record->pages, page);
        if (page == record->pages) break;
        code = compare_page(file, held, record, page, page >= moved);
    }
    return code == ZX_DONE && is_told && !forget_alike(held, record) ? fault(file) : code;
}

/* Takes away the shares of the pages that are cut off. */
static bool cut_shares(const struct zx_held_file *held, struct record *record) {
    uint8_t bytes[PAGE];
    for (uint64_t page = record->pages; page < pages_of(held->commits->len); page++) {
        if (!committed_page(held, page, bytes)) return false;
        record->share -= share_of(page, bytes, page_len(held->commits->len, page));
    }
    return true;
}

/* Completes the record behind its gate: the length (written as the offset of an edit) and the front of the payload,
   zeros up to whole disk blocks, so that each gate has a block of its own, and the next gate, shut. */
static zx_code end_record(struct commits *commits, struct record *record) {
    uint64_t gate = (record->len + GATE - 1) / GATE * GATE;
    if (!make_buffer(commits, record, gate + GATE)) return ZX_NO_MEMORY;
    uint8_t *bytes = commits->buffer.bytes;
    memset(bytes + record->len, 0, gate - record->len);
    record->edits = record->len;
    record->len = gate + GATE;
    zx_code code = zx_log_edit(gate - 8, bytes, 0, bytes, EDIT);
    if (code == ZX_DONE) {
        code = zx_log_front(record->size, commits->base, commits->after + record->share, bytes + 8, FRONT);
    }
    return code == ZX_DONE ? zx_log_gate(false, bytes + gate, GATE) : code;
}

static uint8_t *map_to_read(int file, uint64_t len);

/* Computes the fingerprint of the file, if it is not known yet. The log's tags name the file by it. */
static zx_code mark_base(zx_file *file, struct zx_held_file *held) {
    struct commits *commits = held->commits;
    if (commits->is_marked) return ZX_DONE;
    uint8_t *at = map_to_read(held->file, commits->len);
    if (!at) return fault(file);
    commits->base = commits->after = zx_log_fingerprint(at, commits->len);
    munmap(at, commits->len);
    commits->is_marked = true;
    return ZX_DONE;
}

/* Writes a gate. */
static bool write_gate(const struct zx_held_file *held, bool is_open, uint64_t at) {
    uint8_t gate[GATE];
    return zx_log_gate(is_open, gate, sizeof gate) == ZX_DONE && write_at(held->log, gate, sizeof gate, (off_t)at);
}

/* Fills a new log, which gets its name when it is on the disk, with records, a shut gate, and the rights of the file, but
   not to execute it. */
static bool fill_log(struct zx_held_file *held, const struct image *log, uint64_t end) {
    struct stat old;
    uint8_t gate[GATE];
    if (fstat(held->file, &old) != 0) return false;
    old.st_mode &= ~(mode_t)07111;
    return take_all_but_bytes(held->made, held->file, &old) &&
           zx_log_gate(false, gate, sizeof gate) == ZX_DONE && (end == 0 || write_at(held->made, log->bytes, end, 0)) &&
           write_at(held->made, gate, sizeof gate, (off_t)end) && sync_one(held->made);
}

/* Gives a new log its name, which nothing has. On a file system without links it is renamed. */
static bool name_new(const struct zx_held_file *held, const char *spare, const char *log) {
    struct stat found;
    if (linkat(held->folder, spare, held->folder, log, 0) == 0) {
        remove_own(held->folder, spare, held->made);
        return true;
    }
    if (errno == EEXIST || fstatat(held->folder, log, &found, AT_SYMLINK_NOFOLLOW) == 0) return errno = EEXIST, false;
    return renameat(held->folder, spare, held->folder, log) == 0;
}

/* Gives a new log the name, in place of the old log if one is open. Fails with ESTALE if the name of the file or of the
   log leads to another file by now. */
static bool place_log(const struct zx_held_file *held, const char *spare, const char *log) {
    bool is_there = is_named(held->folder, held->name, held->file) &&
                    (held->log < 0 || is_named(held->folder, log, held->log));
    if (!is_there) return errno = ESTALE, false;
    return held->log < 0 ? name_new(held, spare, log) : renameat(held->folder, spare, held->folder, log) == 0;
}

/* Installs the new log as the open one. */
static void take_log_made(struct zx_held_file *held) {
    pthread_mutex_lock(&guard);
    int before = held->log;
    held->log = held->made;
    held->made = before;
    if (held->commits) held->commits->room = 0;
    pthread_mutex_unlock(&guard);
    close_listed(&held->made);
}

/* Makes a new log that has the records of `log` up to `end`, or none; on the disk, with its name. It takes the place of
   the log that is open, if one is: a sync of that one may have failed, so that its bytes can be read, but are not on the
   disk. Otherwise nothing may have the name. */
static zx_code renew_log(zx_file *file, struct zx_held_file *held, const struct image *log, uint64_t end) {
    char name[PATH_MAX + 8], spare[40];
    struct stat found;
    if (!name_log(held->name, name)) return fault(file);
    spare_name(spare, name, 0);
    if (held->log < 0 && fstatat(held->folder, name, &found, AT_SYMLINK_NOFOLLOW) == 0)
        return faulty(file, ZX_FILE_LOG_IN_THE_WAY, EEXIST);
    if (unlinkat(held->folder, spare, 0) != 0 && errno != ENOENT) return fault(file);
    int how = O_RDWR | O_CREAT | O_EXCL | O_NOFOLLOW;
    if (!open_listed(&held->made, held->folder, spare, how, 0600)) return fault(file);
    if (fill_log(held, log, end) && place_log(held, spare, name)) {
        take_log_made(held);
        return synced(sync_name(file, held));
    }
    int error = errno;
    remove_own(held->folder, spare, held->made);
    close_listed(&held->made);
    if (error == EEXIST) return faulty(file, ZX_FILE_LOG_IN_THE_WAY, error);
    return faulty(file, error == ESTALE ? ZX_FILE_REPLACED : ZX_FILE_FAULT, error);
}

/* Reads the records of the open log again, as they were when they were read first. Fails with EIO if they are not. */
static bool read_again(const struct zx_held_file *held, uint64_t mark, struct image *log) {
    *log = room_for(held->commits->end);
    if (!log->bytes) return false;
    ssize_t got = read_at(held->log, log->bytes, log->len, 0);
    if (got < 0) return false;
    bool is_same = (uint64_t)got == log->len && zx_log_fingerprint(log->bytes, log->len) == mark;
    return is_same || (errno = EIO, false);
}

/* Replaces the open log by a copy, which has no second name. */
static zx_code copy_log(zx_file *file, struct zx_held_file *held) {
    struct image log = room_for(held->commits->end);
    bool is_read = log.bytes && read_at(held->log, log.bytes, log.len, 0) == (ssize_t)log.len;
    zx_code code = is_read ? renew_log(file, held, &log, log.len) : fault(file);
    free_image(&log);
    return code;
}

/* Makes the log ready for a record: its name leads to it and to nothing else, and it ends with a shut gate that is on the
   disk. If it has a second name, this session writes into a copy. */
static zx_code ready_log(zx_file *file, struct zx_held_file *held) {
    char log[PATH_MAX + 8];
    struct stat own;
    if (held->log < 0) return renew_log(file, held, NULL, 0);
    if (!name_log(held->name, log) || fstat(held->log, &own) != 0) return fault(file);
    if (!leads_to(held->folder, log, &own)) return faulty(file, ZX_FILE_REPLACED, ESTALE);
    if (own.st_nlink > 1) return copy_log(file, held);
    return held->state == SAVED ? (zx_code)ZX_DONE : synced(sync_name(file, held));
}

/* The length at which a log is emptied. */
static uint64_t longest_log(const struct commits *commits) {
    return commits->len / 4 > LONG_LOG ? commits->len / 4 : LONG_LOG;
}

/* Allocates the log's blocks up to `end` and for later records. If bytes have their blocks already, a sync writes only
   these bytes. If the disk refuses the blocks, a write allocates them. */
static void allot_log(struct zx_held_file *held, uint64_t end) {
    struct commits *commits = held->commits;
    uint64_t step = (longest_log(commits) / 8 / GATE + 1) * GATE, room = (end / step + 1) * step;
    if (end > commits->room && is_within_limit(room) && fallocate(held->log, 0, 0, (off_t)room) == 0) commits->room = room;
}

/* Adds the record to the log. If a call fails after the record is written, the record may count or not. */
static zx_code write_record(zx_file *file, struct zx_held_file *held, const struct record *record) {
    struct commits *commits = held->commits;
    allot_log(held, commits->end + GATE + record->len);
    if (!write_at(held->log, commits->buffer.bytes, record->len, (off_t)(commits->end + GATE))) return fault(file);
    if (sync_log(held->log) && write_gate(held, true, commits->end) && sync_log(held->log)) return ZX_DONE;
    commits->is_unsure = true;
    return faulty(file, ZX_FILE_UNSURE, errno);
}

/* Puts the edits of a record into the kept pages, which hold what they held before it. Behind the image they are 0. */
static void keep_record(struct commits *commits, const struct record *record) {
    const uint8_t *edit = commits->buffer.bytes + 8 + FRONT, *behind = commits->buffer.bytes + record->edits;
    while (edit < behind) {
        uint64_t at = number_at(edit), len = number_at(edit + 8);
        memcpy(commits->kept[at / PAGE] + at % PAGE, edit + EDIT, len);
        edit += EDIT + len;
    }
    uint64_t last = record->size / PAGE, len = record->size % PAGE;
    if (len > 0 && commits->kept[last]) memset(commits->kept[last] + len, 0, PAGE - len);
}

/* Notes what was committed. */
static void note_record(const zx_file *file, struct zx_held_file *held, const struct record *record) {
    struct commits *commits = held->commits;
    keep_record(commits, record);
    free_pages(commits, record->pages, pages_of(commits->len));
    forget_written(commits, pages_of(record->size > commits->len ? record->size : commits->len));
    commits->len = record->size;
    commits->after += record->share;
    commits->end += record->len;
    held->saved = file->segment.changes;
}

/* Empties the log by shutting its first gate. The file has the log's image already. */
static zx_code empty_log(zx_file *file, struct zx_held_file *held) {
    if (write_gate(held, false, 0) && sync_log(held->log)) return ZX_DONE;
    if (held->commits) held->commits->is_unsure = true;
    return fault(file);
}

/* Removes the log, which counts no more. What has its name by now, or the file's, is another's, and stays with its log. */
static bool remove_log(struct zx_held_file *held) {
    char log[PATH_MAX + 8];
    struct stat own;
    if (held->log < 0) return true;
    if (!name_log(held->name, log) || fstat(held->log, &own) != 0) return false;
    bool is_theirs = is_taken(held) || !leads_to(held->folder, log, &own);
    if (!is_theirs && unlinkat(held->folder, log, 0) != 0 && errno != ENOENT) return false;
    close_listed(&held->log);
    if (held->commits) held->commits->room = 0;
    return true;
}

/* Ends the open log, which counts no more: shuts its first gate, removes it and syncs the folder. After a power cut a log
   that was removed may be there again, with the gate that is on the disk. */
static zx_code end_name(zx_file *file, struct zx_held_file *held) {
    zx_code code = held->log >= 0 ? empty_log(file, held) : (zx_code)ZX_DONE;
    if (code != ZX_DONE) return code;
    return remove_log(held) ? synced(sync_name(file, held)) : fault(file);
}

/* Replaces the file by the last commit that is certain, and removes the log, whose last record may count or not. */
static zx_code end_log(zx_file *file, struct zx_held_file *held) {
    struct commits *commits = held->commits;
    struct image image = room_for(pages_of(commits->len) * PAGE);
    zx_code code = image.bytes ? ZX_DONE : ZX_NO_MEMORY;
    for (uint64_t page = 0; code == ZX_DONE && page < pages_of(commits->len); page++)
        if (!committed_page(held, page, image.bytes + page * PAGE)) code = fault(file);
    image.len = commits->len;
    if (code == ZX_DONE && commits->end > 0) code = synced(replace(file, held, &image));
    free(image.bytes);
    if (code != ZX_DONE) return code;
    (void)empty_log(file, held);
    code = remove_log(held) ? synced(sync_name(file, held)) : fault(file);
    if (code != ZX_DONE) return code;
    commits->is_unsure = false;
    commits->base = commits->after;
    commits->end = 0;
    return ZX_DONE;
}

/* Takes over a log that another process left: replaces it by a copy, or removes it if it has no record. */
static zx_code take_log(zx_file *file, struct zx_held_file *held) {
    struct commits *commits = held->commits;
    struct image log;
    if (!commits->is_left) return ZX_DONE;
    zx_code code = ZX_DONE;
    if (commits->end == 0) {
        code = end_name(file, held);
    } else {
        code = read_again(held, commits->left, &log) ? renew_log(file, held, &log, commits->end) : fault(file);
        free_image(&log);
    }
    if (code == ZX_DONE) commits->is_left = false;
    return code;
}

/* Commits the pages that changed. */
static zx_code commit_pages(zx_file *file, struct zx_held_file *held) {
    struct record record = { 0 };
    if (held->commits->is_unsure) return faulty(file, ZX_FILE_UNSURE, EIO);
    zx_code code = synced(sync_found(file, held));
    if (code == ZX_DONE) code = take_log(file, held);
    if (code != ZX_DONE || is_committed(file)) return code;
    code = find_record(file, held, &record);
    bool is_same_image = code == ZX_DONE && record.count == 0 && record.size == held->commits->len;
    if (code == ZX_DONE && !is_same_image) {
        code = mark_base(file, held);
        if (code == ZX_DONE && !cut_shares(held, &record)) code = fault(file);
        if (code == ZX_DONE) code = end_record(held->commits, &record);
        if (code == ZX_DONE) code = ready_log(file, held);
        if (code == ZX_DONE) code = write_record(file, held, &record);
        if (code == ZX_DONE) note_record(file, held, &record);
    }
    if (is_same_image) {
        held->saved = file->segment.changes;
        forget_written(held->commits, record.pages);
    }
    free(record.changed);
    if (held->commits->buffer.len > LONG_BUFFER) free_buffer(held->commits);
    return code;
}

/* ---- checkpoints: the file becomes the image, and the log empty */

/* Has the system map all pages at once. Linux has that from 5.14 on. */
#ifndef MADV_POPULATE_READ
#define MADV_POPULATE_READ 22
#endif

/* Maps the file that has the committed image, so that no page is own any more. */
static void map_committed(struct zx_held_file *held) {
    struct commits *commits = held->commits;
    int protection = PROT_READ | PROT_WRITE;
    held->is_watched = false;
    if (mmap(held->at, commits->len, protection, MAP_PRIVATE | MAP_FIXED, held->file, 0) == MAP_FAILED) return;
    (void)cover_holes(held->file, held->at, commits->len, protection);
    free_pages(commits, 0, pages_of(held->len));
}

/* Replaces the file by a new one that has the committed image, and empties the log. If the name of the new file can't
   be synced, the log keeps its records. */
static zx_code checkpoint(zx_file *file, struct zx_held_file *held) {
    struct commits *commits = held->commits;
    struct image image = { held->at, commits->len };
    if (commits->end == 0) return held->state == SAVED ? (zx_code)ZX_DONE : sync_name(file, held);
    zx_code code = take_log(file, held);
    // else each page is a fault of its own, since the system maps no neighbours of a page that is watched
    (void)madvise(held->at, commits->len, MADV_POPULATE_READ);
    if (code == ZX_DONE) code = replace(file, held, &image);
    if (code != ZX_DONE) return code;
    map_committed(held);
    code = empty_log(file, held);
    if (code != ZX_DONE) return code;
    commits->base = commits->after;
    commits->end = commits->compared = 0;
    return ZX_DONE;
}

/* Makes a checkpoint if no transaction is open and the log is long, or if comparing unchanged pages took as long as a
   checkpoint takes. The commit is done even if the checkpoint fails. */
static void shorten_log(zx_file *file, struct zx_held_file *held) {
    const struct commits *commits = held->commits;
    bool is_due = commits->end > longest_log(commits) || commits->compared / IN_VAIN > pages_of(commits->len);
    if (held->steps == 0 && is_due) (void)checkpoint(file, held);
    file->error = 0;
}

/* Commits. If a commit before may be in the log or not, begins a new log. */
static zx_code commit_all(zx_file *file, struct zx_held_file *held) {
    zx_code code = held->commits->is_unsure ? end_log(file, held) : (zx_code)ZX_DONE;
    return code == ZX_DONE ? commit_pages(file, held) : code;
}

/* Commits, and makes a checkpoint. */
static zx_code save_durable(zx_file *file, struct zx_held_file *held) {
    zx_code code = commit_all(file, held);
    return code == ZX_DONE ? checkpoint(file, held) : code;
}

/* Removes a log of this process' own that has no record. */
static void leave_log(struct zx_held_file *held) {
    const struct commits *commits = held->commits;
    bool is_empty = commits->end == 0 && !commits->is_unsure && !commits->is_left;
    if (held->log >= 0 && is_own(held) && is_empty) (void)remove_log(held);
}

static void free_commits(struct zx_held_file *held) {
    if (!held->commits) return;
    free_pages(held->commits, 0, pages_of(held->len));
    while (held->commits->idle) free(new_page(held->commits));
    free_buffer(held->commits);
    munmap(held->commits, commits_size());
    held->commits = NULL;
}

zx_code zx_file_commit(zx_file *file) {
    struct zx_held_file *held = file->held;
    file->error = 0;
    if (!is_durable(held)) return zx_file_flush(file);
    if (!file->segment.at) return ZX_CLOSED;
    if (!is_own(held)) return faulty(file, ZX_FILE_FORKED, EPERM);
    if (held->steps > 0) return faulty(file, ZX_FILE_IN_STEP, EBUSY);
    zx_code code = commit_pages(file, held);
    if (code == ZX_DONE) shorten_log(file, held);
    return answered(file, code);
}
