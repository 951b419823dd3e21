/* A part of files.c: the log beside a file that is open to be committed (docs/FORMAT.md), and how a file is recovered.
   A record counts when its gate is open. It is on the disk before that, with a shut gate behind it. */

/* The bytes of a gate, of the front of a payload, and of an edit without those that it puts. */
enum { GATE = 4096, FRONT = 40, EDIT = 16 };

/* The bytes at the front of a log that no log before it in the same file has, and by which a log is known: the first
   gate, the length of the first payload, and its front, which has the tag. */
enum { HEAD = GATE + 8 + FRONT };

/* What has the name of a log, as zx_log_kind says: a file of somebody else, which is left alone; a log without a record;
   or a log with records. */
enum kind { FOREIGN, EMPTY, RECORDS };

/* The most bytes that a payload has: its edits are no more than the image. A log that says more is damaged. */
enum { LONGEST_PAYLOAD = LARGEST + LARGEST / 2 };

/* A log may be so long, or a quarter of its image. A test has a shorter one. */
#ifndef LONG_LOG
#define LONG_LOG (1 << 20)
#endif

/* Commits compare this many pages in the time in which a checkpoint writes one. */
enum { IN_VAIN = 32 };

/* Syncs the bytes and the length of a log. */
static bool sync_log(int log) {
    int tries = 0;
    while (fdatasync(log) != 0)
        if (!is_interrupted(&tries)) return errno == EINVAL;
    return true;
}

/* Makes the name of the log. Returns false if the name is too long. */
static bool name_log(const char *name, char log[PATH_MAX + 8]) {
    size_t len = strlen(name);
    if (len >= PATH_MAX) return errno = ENAMETOOLONG, false;
    memcpy(log, name, len);
    memcpy(log + len, "-log", 5);
    return true;
}

/* Whether an errno says that no log exists. */
static bool is_no_log(int error) { return error == ENOENT || error == ENAMETOOLONG || error == ENOTDIR; }

/* Asks the proved function whether a log counts. If `folder` is null, nobody else is taken to be kept out of it. */
static bool do_rights_count(const struct stat *file, const struct stat *log, const struct stat *folder) {
    return zx_log_counts(file->st_uid, file->st_gid, file->st_mode & 07777, log->st_uid, log->st_gid, log->st_mode & 07777,
                         folder ? folder->st_uid : 0, folder ? folder->st_gid : 0, folder ? folder->st_mode & 07777 : 0777,
                         geteuid()) == 1;
}

/* Returns true if a log counts beside a file of a folder, whose name may begin the path: nobody who may not write the file
   can have made it, or may write it. The folder matters only for a log of another user of the file's group. */
static bool does_count(const struct stat *file, const struct stat *log, int folder, const char *path) {
    struct stat holds;
    if (do_rights_count(file, log, NULL)) return true;
    if (log->st_gid != file->st_gid) return false;
    int opened = folder == AT_FDCWD ? open_folder_of(path) : -1;
    bool is_known = fstat(folder == AT_FDCWD ? opened : folder, &holds) == 0;
    if (opened >= 0) close(opened);
    return is_known && do_rights_count(file, log, &holds);
}

/* The same of the file that is held. A file that is to be created will be the caller's own. */
static bool does_log_count(const struct zx_held_file *held, const struct stat *log) {
    struct stat file = { .st_uid = geteuid(), .st_gid = getegid(), .st_mode = 0600 };
    bool is_known = held->file < 0 || fstat(held->file, &file) == 0;
    return is_known && does_count(&file, log, held->folder, held->name);
}

/* Takes from the log what nobody may do with the file, whose rights may have become fewer. */
static void narrow_log(const struct zx_held_file *held, const struct stat *log) {
    struct stat file;
    bool is_wider = held->file >= 0 && fstat(held->file, &file) == 0 && (log->st_mode & ~file.st_mode & 0777) != 0;
    if (is_wider) (void)fchmod(held->log, log->st_mode & file.st_mode & 0777);
}

/* Finds out what an open file is that has the name of a log. Returns false if it cannot be read. */
static bool find_kind(int log, const struct stat *found, enum kind *kind) {
    uint8_t head[HEAD];
    ssize_t len = read_at(log, head, HEAD, 0);
    if (len >= 0) *kind = (enum kind)zx_log_kind(head, (size_t)len, (uint64_t)found->st_size);
    return len >= 0;
}

/* Opens a log to be written or read; or to be read alone, if it may not be written, since it may be no log. */
static bool open_to_know(struct zx_held_file *held, const char *log, bool *is_writable) {
    const int how = O_NOFOLLOW | O_NONBLOCK | O_NOCTTY;
    *is_writable = held->state != READ && open_listed(&held->log, held->folder, log, how | O_RDWR, 0);
    if (*is_writable) return true;
    bool may_read = held->state == READ || errno == EACCES || errno == EPERM || errno == EROFS;
    return may_read && open_listed(&held->log, held->folder, log, how | O_RDONLY, 0);
}

/* Opens the log of a file that is held. held->log is -1 if there is none, or if what has its name is no log. */
static zx_code open_log(zx_file *file, struct zx_held_file *held) {
    char log[PATH_MAX + 8];
    struct stat found, opened;
    enum kind kind;
    bool is_writable;
    held->has_records = false;
    if (!name_log(held->name, log)) return ZX_DONE;
    // most files have none: to find that out without the list takes a third of the instructions
    if (fstatat(held->folder, log, &found, AT_SYMLINK_NOFOLLOW) != 0) return is_no_log(errno) ? (zx_code)ZX_DONE : fault(file);
    if (!S_ISREG(found.st_mode) || !does_log_count(held, &found)) return ZX_DONE;
    if (!open_to_know(held, log, &is_writable)) return is_no_log(errno) ? (zx_code)ZX_DONE : fault(file);
    if (fstat(held->log, &opened) != 0 || !find_kind(held->log, &opened, &kind)) return fault(file);
    if (!is_same(&found, &opened)) return faulty(file, ZX_FILE_REPLACED, ESTALE);
    held->has_records = kind == RECORDS;
    if (kind == FOREIGN) close_listed(&held->log);
    else if (is_writable) narrow_log(held, &opened);
    return kind == FOREIGN || is_writable || held->state == READ ? (zx_code)ZX_DONE : faulty(file, ZX_FILE_FAULT, EACCES);
}

/* ---- what a log says */

/* Returns the number in 8 bytes (docs/FORMAT.md). */
static uint64_t number_at(const uint8_t *bytes) {
    uint64_t number = 0;
    for (int i = 7; i >= 0; i--) number = number << 8 | bytes[i];
    return number;
}

/* Returns how many bytes the records at the front of a log take, with what follows them up to the next length. It is more
   than the log has if a record may follow. Returns 0 if a record is longer than any record is. */
static uint64_t bytes_of_records(const struct image *log) {
    uint64_t at = 0;
    while (at + GATE + 8 <= log->len && log->bytes[at] == 1) {
        uint64_t len = number_at(log->bytes + at + GATE);
        if (len > LONGEST_PAYLOAD) return 0;
        at += GATE + 8 + len;
    }
    return at + GATE + 8;
}

/* Makes room for `len` bytes of a log, and reads those that it does not have yet. */
static zx_code read_on(zx_file *file, int from, struct image *log, uint64_t len) {
    uint8_t *bytes = malloc(len);
    if (!bytes) return ZX_NO_MEMORY;
    if (log->bytes) memcpy(bytes, log->bytes, log->len);
    free(log->bytes);
    log->bytes = bytes;
    ssize_t got = read_at(from, bytes + log->len, len - log->len, (off_t)log->len);
    if (got < 0) return fault(file);
    log->len += (uint64_t)got;
    return ZX_DONE;
}

/* Reads the records of a log, and no more than a little of what follows them: that may be much, and counts for nothing. */
static zx_code read_records(zx_file *file, int from, struct image *log) {
    struct stat found;
    if (fstat(from, &found) != 0) return fault(file);
    uint64_t all = (uint64_t)found.st_size, wanted = LONG_LOG;
    zx_code code = ZX_DONE;
    *log = (struct image){ NULL, 0 };
    while (code == ZX_DONE && log->len < all && log->len < wanted) {
        uint64_t before = log->len, len = wanted < 2 * before ? 2 * before : wanted;
        code = read_on(file, from, log, len < all ? len : all);
        wanted = bytes_of_records(log);
        if (code == ZX_DONE && wanted == 0) code = faulty(file, ZX_FILE_LOG_FOREIGN, ESTALE);
        if (log->len == before) break;
    }
    if (code != ZX_DONE) free_image(log);
    return code;
}

/* Checks that a log has the head that it had before it was read. */
static zx_code has_head(zx_file *file, int from, const uint8_t *before, size_t len, const struct image *log) {
    uint8_t after[HEAD];
    ssize_t again = read_at(from, after, HEAD, 0);
    if (again < 0) return fault(file);
    bool is_same = (size_t)again == len && log->len >= len && memcmp(before, log->bytes, len) == 0 &&
                   memcmp(before, after, len) == 0;
    return is_same ? (zx_code)ZX_DONE : faulty(file, ZX_FILE_IN_USE, EWOULDBLOCK);
}

/* Reads a log that another process may write. Leaves `log` without bytes if the log has no record, or is none. Returns
   ZX_FILE_IN_USE if the other process emptied the log during the read, so that the bytes may come from two logs. */
static zx_code read_log(zx_file *file, int from, const struct stat *found, struct image *log) {
    uint8_t before[HEAD];
    ssize_t head = read_at(from, before, HEAD, 0);
    if (head < 0) return fault(file);
    if (zx_log_kind(before, (size_t)head, (uint64_t)found->st_size) != RECORDS) return ZX_DONE;
    zx_code code = read_records(file, from, log);
    if (code == ZX_DONE) code = has_head(file, from, before, (size_t)head, log);
    if (code != ZX_DONE) free_image(log);
    return code;
}

/* What a file stands for with its log. */
struct recovered {
    uint64_t len;   /* of the image */
    uint64_t end;   /* where the records of the log end; 0 if it has none: then FILE is the image */
    uint64_t base;  /* the fingerprint of the file */
    uint64_t after; /* the fingerprint of the image */
};

/* Finds how much room the image of a log takes while its records are applied to a file of `len` bytes. No file's log
   makes an image that is too long. */
static zx_code find_room(zx_file *file, uint64_t len, const struct image *log, uint64_t *room) {
    *room = log->bytes ? zx_log_most(len, log->bytes, log->len) : len;
    return *room <= LARGEST ? (zx_code)ZX_DONE : faulty(file, ZX_FILE_LOG_FOREIGN, ESTALE);
}

/* Applies a log in place to `image`, which has a copy of the file's bytes and zeros behind it. The log of another file is
   refused. */
static zx_code replay(zx_file *file, const struct image *base, const struct image *log, const struct image *image,
                      struct recovered *made) {
    zx_code code = zx_log_recover(base->bytes, base->len, log->bytes, log->len, image->bytes, image->len, &made->len,
                                  &made->end, &made->base, &made->after);
    bool has_size = made->end == 0 || (made->len > 0 && made->len % 16 == 0);
    if (code == ZX_DONE && !has_size) code = ZX_FILE_LOG_FOREIGN;
    return code == ZX_FILE_LOG_FOREIGN ? faulty(file, code, ESTALE) : code;
}

/* Applies a log to a copy of the bytes that were read of a file. */
static zx_code replay_copy(zx_file *file, const struct image *base, const struct image *log, struct image *image,
                           struct recovered *made) {
    zx_code code = find_room(file, base->len, log, &image->len);
    if (code != ZX_DONE) return code;
    image->bytes = calloc(image->len ? image->len : 1, 1);
    if (!image->bytes) return ZX_NO_MEMORY;
    memcpy(image->bytes, base->bytes, base->len);
    return replay(file, base, log, image, made);
}
