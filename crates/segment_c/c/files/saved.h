/* A part of files.c: a new file with the attributes of the old one, and the replacement of the old file. */

/* ---- owner, rights and attributes */

/* The access control list, and what the names of attributes of users begin with. */
static const char LIST[] = "system.posix_acl_access", OF_USERS[] = "user.";

/* The most bytes of a value, or of all names of attributes, that the system gives. */
enum { ATTRIBUTE = 1 << 16 };

/* Returns true if an errno says that the file has no such attribute. */
static bool is_without(int error) { return error == ENODATA || error == ENOTSUP || error == ENOSYS; }

/* Returns true if an errno says that the attribute can never be copied; a full or failing disk does not say so. */
static bool is_for_ever(int error) {
    return is_without(error) || error == EPERM || error == EACCES || error == EINVAL || error == ERANGE ||
           error == E2BIG;
}

/* Returns the rights that give nobody more than `mode` with this list does (the system's spelling: 4 bytes, then 8 for
   each entry). With a list the bits of the group are the mask. A user or group that the list names may belong to the
   group or to the others. */
static mode_t without_list(mode_t mode, const uint8_t *list, size_t len) {
    enum { NAMED_USER = 0x02, OWN_GROUP = 0x04, NAMED_GROUP = 0x08 };
    mode_t named = 7, mask = mode >> 3 & 7, group = mask, others = mode & 7;
    for (size_t at = 4; at + 8 <= len; at += 8) {
        unsigned tag = list[at] | (unsigned)list[at + 1] << 8;
        if (tag == OWN_GROUP) group = list[at + 2] & mask;
        if (tag == NAMED_USER || tag == NAMED_GROUP) named &= list[at + 2] & mask;
    }
    return (mode & ~(mode_t)077) | (group & named) << 3 | (others & named);
}

/* Gives a file the owner, group and rights of another, as far as the process may. Otherwise who saves is the owner, and
   another group and the others get what both had. `list` is the other's access control list, of `len` bytes; a file
   that is created in a folder may have got one from there. */
static bool take_rights(int made, const struct stat *old, const uint8_t *list, size_t len) {
    struct stat own;
    if (fstat(made, &own) != 0) return false;
    if (fgetxattr(made, LIST, NULL, 0) >= 0 && fremovexattr(made, LIST) != 0) return false;
    mode_t mode = old->st_mode & 07777;
    if (len > 0) mode = without_list(mode, list, len);
    if ((own.st_uid != old->st_uid || own.st_gid != old->st_gid) && fchown(made, old->st_uid, old->st_gid) != 0) {
        mode &= 0777;
        if (own.st_gid != old->st_gid && fchown(made, (uid_t)-1, old->st_gid) != 0) {
            mode_t both = mode >> 3 & mode & 07;
            mode = (mode & 0700) | both << 3 | both;
            len = 0;
        }
    }
    if (fchmod(made, mode) != 0) return false;
    return len == 0 || fsetxattr(made, LIST, list, len, 0) == 0 || is_for_ever(errno);
}

/* Copies the attributes of users, but for the mark, by way of `value`. Those that the process may not read, or the file
   system does not take, are left out. */
static bool copy_attributes(int made, int from, char *names, uint8_t *value) {
    ssize_t len = flistxattr(from, names, ATTRIBUTE);
    if (len < 0) return is_for_ever(errno);
    for (const char *name = names; name < names + len; name += strlen(name) + 1) {
        if (strncmp(name, OF_USERS, sizeof OF_USERS - 1) != 0 || strcmp(name, MARK) == 0) continue;
        ssize_t size = fgetxattr(from, name, value, ATTRIBUTE);
        bool is_copied = size >= 0 && fsetxattr(made, name, value, (size_t)size, 0) == 0;
        if (!is_copied && !is_for_ever(errno)) return false;
    }
    return true;
}

/* Copies owner, rights and attributes. If the old file's access control list cannot be read, only the owner gets
   rights. */
static bool take_all_but_bytes(int made, int from, const struct stat *old) {
    uint8_t *value = malloc((size_t)2 * ATTRIBUTE);
    if (!value) return false;
    struct stat given = *old;
    ssize_t len = fgetxattr(from, LIST, value, ATTRIBUTE);
    if (len < 0 && !is_without(errno)) given.st_mode &= ~(mode_t)06077;
    bool is_done = (len >= 0 || is_for_ever(errno)) && take_rights(made, &given, value, len > 0 ? (size_t)len : 0) &&
                   copy_attributes(made, from, (char *)value + ATTRIBUTE, value);
    int error = errno;
    free(value);
    errno = error;
    return is_done;
}

/* ---- a new file, which gets its name when all of it is synced */

/* Writes an image into an empty file. Pages of zeros are holes. */
static bool write_image(int file, const struct image *image) {
    size_t at = 0;
    while (at < image->len) {
        size_t end = at;
        while (end < image->len && !is_zero(image->bytes + end, at_most(image->len - end, PAGE)))
            end += at_most(image->len - end, PAGE);
        if (!write_at(file, image->bytes + at, end - at, (off_t)at)) return false;
        at = end < image->len ? end + at_most(image->len - end, PAGE) : end;
    }
    return set_length(file, image->len);
}

/* Returns true if the file's bytes are the image. */
static bool has_image(int file, const struct image *image) {
    uint8_t piece[PIECE];
    struct stat found;
    if (fstat(file, &found) != 0 || (uint64_t)found.st_size != image->len) return false;
    for (size_t at = 0; at < image->len; at += PIECE) {
        size_t len = at_most(image->len - at, PIECE);
        if (read_at(file, piece, len, (off_t)at) != (ssize_t)len) return false;
        if (memcmp(piece, image->bytes + at, len) != 0) return false;
    }
    return true;
}

/* Fills the new file, which is locked. If the old one is not null, it gets that one's rights. */
static bool fill(struct zx_held_file *held, const struct image *image, const struct stat *old) {
    return (!old || take_all_but_bytes(held->made, held->file, old)) && write_image(held->made, image);
}

/* Locks a new file, as take_lock does. Who opens an empty file before it is locked finds no segment in it, or puts
   another file in its place, and so gives the lock back soon. */
static int lock_new(int made) {
    int error = EWOULDBLOCK;
    for (int tries = 0; tries < TRIES && error == EWOULDBLOCK; tries++) {
        if (tries > 0) usleep(1000);
        error = take_lock(made, LOCK_EX);
    }
    return error;
}

/* Returns true if the name of the held file certainly leads to another file. */
static bool is_taken(const struct zx_held_file *held) {
    struct stat own, named;
    return fstat(held->file, &own) == 0 && fstatat(held->folder, held->name, &named, AT_SYMLINK_NOFOLLOW) == 0 &&
           !is_same(&named, &own);
}

/* Returns true if a name certainly leads to the file no more. */
static bool lost_its_name(int made, int folder, const char *name) {
    struct stat own, named;
    if (fstat(made, &own) != 0) return false;
    return fstatat(folder, name, &named, AT_SYMLINK_NOFOLLOW) == 0 ? !is_same(&named, &own) : errno == ENOENT;
}

/* Names an unnamed file. Fails with EEXIST if the name exists. */
static bool give_name(int made, int folder, const char *name) {
    char self[40];
    (void)snprintf(self, sizeof self, "/proc/self/fd/%d", made);
    return linkat(AT_FDCWD, self, folder, name, AT_SYMLINK_FOLLOW) == 0 ||
           (errno == ENOENT && linkat(made, "", folder, name, AT_EMPTY_PATH) == 0);
}

/* Closes the new file. Returns false, with this errno. */
static bool unmade(struct zx_held_file *held, int error) {
    close_listed(&held->made);
    errno = error;
    return false;
}

/* Syncs the new file behind its name: a file system without a journal writes the number of names with the file, and
   after a power cut removes a file that has none. Removes the name if the sync fails. */
static bool sync_made(struct zx_held_file *held, const char *name) {
    if (sync_one(held->made)) return true;
    int error = errno;
    remove_own(held->folder, name, held->made);
    return unmade(held, error);
}

/* Creates a file that does not exist, as the new one of `held`, in its folder. The file gets its name when it is whole
   and, unless it replaces the old one, synced; on a file system without unnamed files, before its first byte, and is
   removed if it does not become whole. */
static bool make(struct zx_held_file *held, const char *name, const struct image *image, const struct stat *old) {
    mode_t mode = old ? 0600 : 0666;
    if (open_listed(&held->made, held->folder, ".", O_TMPFILE | O_RDWR, mode)) {
        int refused = lock_new(held->made);
        bool is_filled = !refused && fill(held, image, old) && (old || sync_one(held->made));
        if (!is_filled) return unmade(held, refused ? refused : errno);
        if (give_name(held->made, held->folder, name)) return sync_made(held, name);
        if (errno == EEXIST) return unmade(held, EEXIST);
        close_listed(&held->made);
    }
    if (!open_listed(&held->made, held->folder, name, O_RDWR | O_CREAT | O_EXCL | O_NOFOLLOW, mode)) return false;
    // who does not hold it may not remove it: another may have put a file of its own there
    int error = lock_new(held->made);
    if (error == EWOULDBLOCK) return unmade(held, error);
    if (lost_its_name(held->made, held->folder, name)) return unmade(held, EEXIST);
    if (!error && fill(held, image, old)) return sync_made(held, name);
    if (!error) error = errno;
    remove_own(held->folder, name, held->made);
    return unmade(held, error);
}

/* Creates the file of a name. AGAIN if one exists now. */
static zx_code make_held(zx_file *file, struct zx_held_file *held, const struct image *image) {
    if (make(held, held->name, image, NULL)) {
        take_made(held);
        held->state = NEW;
        return ZX_DONE;
    }
    return errno == EEXIST || errno == EWOULDBLOCK ? (zx_code)AGAIN : fault(file);
}

/* ---- a file saved */

/* Creates the new file that will replace the held one, and returns its name. Fails with ESTALE if another process has
   replaced the held file. A file system without attributes gets no mark. */
static bool make_spare(struct zx_held_file *held, char spare[40], const struct image *image, const struct stat *old) {
    (void)fsetxattr(held->file, MARK, "1", 1, 0);
    for (int turn = 0; turn < SPARES; turn++) {
        spare_name(spare, held->name, turn);
        if (make(held, spare, image, old)) return true;
        if (errno != EEXIST) return false;
        // one that was killed left it, unless another holds what stands there now, and the spare name with it
        if (!leads_to(held->folder, held->name, old)) return errno = ESTALE, false;
        if (unlinkat(held->folder, spare, 0) != 0) continue;
        if (make(held, spare, image, old)) return true;
        if (errno != EEXIST) return false;
    }
    return errno = EEXIST, false;
}

/* Replaces the held file by a new one with the image. */
static zx_code replace(zx_file *file, struct zx_held_file *held, const struct image *image) {
    struct stat old;
    char spare[40];
    if (fstat(held->file, &old) != 0) return fault(file);
    // another may hold what stands there now
    if (!leads_to(held->folder, held->name, &old)) return faulty(file, ZX_FILE_REPLACED, ESTALE);
    bool is_made = make_spare(held, spare, image, &old);
    zx_code code = ZX_DONE;
    if (!is_made)
        code = errno == ESTALE ? faulty(file, ZX_FILE_REPLACED, ESTALE)
               : errno == ENOMEM ? (zx_code)ZX_NO_MEMORY
                                 : fault(file);
    else if (!leads_to(held->folder, held->name, &old))
        code = faulty(file, ZX_FILE_REPLACED, ESTALE);
    else if (renameat(held->folder, spare, held->folder, held->name) != 0)
        code = fault(file);
    if (code != ZX_DONE) {
        bool is_left = is_made && !remove_own(held->folder, spare, held->made);
        close_listed(&held->made);
        if (!is_left && old.st_nlink == 1) fremovexattr(held->file, MARK);
        return code;
    }
    take_made(held);
    held->state = UNSYNCED;
    return sync_name(file, held);
}

/* Returns true if the file certainly has the segment's image: no call has changed it since, and no view can have. */
static bool is_saved(const zx_segment *segment, const struct zx_held_file *held) {
    bool was_saved = held->state == SAVED || held->state == FOUND;
    return was_saved && segment->changes == held->saved && !segment->shared;
}

static zx_code save_held(zx_file *file, struct zx_held_file *held, const struct image *image) {
    return has_image(held->file, image) ? sync_found(file, held) : replace(file, held, image);
}
