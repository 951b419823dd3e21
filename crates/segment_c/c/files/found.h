/* A part of files.c: what exists at a path, and the right to write it. */

/* ---- what exists at a path */

/* Refuses what cannot be a segment's file. */
static zx_code judge(zx_file *file, const struct stat *found) {
    if (S_ISDIR(found->st_mode)) return faulty(file, ZX_FILE_FOLDER, EISDIR);
    if (S_ISCHR(found->st_mode) || S_ISBLK(found->st_mode)) return faulty(file, ZX_FILE_DEVICE, EINVAL);
    if (!S_ISREG(found->st_mode)) return faulty(file, ZX_FILE_PIPE, ESPIPE);
    if (found->st_size > LARGEST) return faulty(file, ZX_FILE_TOO_LARGE, EFBIG);
    return ZX_DONE;
}

/* A look at a path: its result, and its time by the clock that dates changes of files. */
struct sight {
    struct timespec at;
    struct stat found;
    bool is_link;
};

/* Looks at the path for a call that opens. Returns ZX_FILE_MISSING only if nothing exists there. */
static zx_code look(zx_file *file, const char *path, struct sight *sight) {
    clock_gettime(CLOCK_REALTIME_COARSE, &sight->at);
    if (lstat(path, &sight->found) != 0) return errno == ENOENT ? faulty(file, ZX_FILE_MISSING, ENOENT) : fault(file);
    sight->is_link = S_ISLNK(sight->found.st_mode);
    if (sight->is_link && stat(path, &sight->found) != 0)
        return errno == ENOENT ? faulty(file, ZX_FILE_DANGLES, ENOENT) : fault(file);
    return judge(file, &sight->found);
}

static int compared(const struct timespec *one, const struct timespec *other) {
    if (one->tv_sec != other->tv_sec) return one->tv_sec < other->tv_sec ? -1 : 1;
    return one->tv_nsec < other->tv_nsec ? -1 : one->tv_nsec > other->tv_nsec;
}

/* Returns true if a file certainly has the same names as at the first look: adding or removing a name changes the date
   of its status. The clock of these dates advances in steps of some milliseconds, so a date just before the first look
   proves nothing. Nor does a date in whole hundredths of a second: some file systems have only coarse dates. */
static bool has_its_names(const struct sight *sight, const struct stat *file) {
    return is_same(&sight->found, file) && sight->found.st_nlink == file->st_nlink &&
           compared(&sight->found.st_ctim, &file->st_ctim) == 0 && compared(&file->st_ctim, &sight->at) < 0 &&
           file->st_ctim.tv_nsec % 10000000 != 0;
}

/* Keeps the path. It is not used once the file is open. */
static zx_code keep(const char *path, struct zx_held_file **found) {
    size_t room = strlen(path) + 1;
    struct zx_held_file *held = calloc(1, sizeof *held + room);
    if (!held) return ZX_NO_MEMORY;
    memcpy(held->name, path, room);
    held->folder = AT_FDCWD;
    *found = enlist(held);
    return *found ? ZX_DONE : ZX_NO_MEMORY;
}

/* Opens the folder of a path, and keeps its last name. */
static zx_code find(zx_file *file, const char *path, struct zx_held_file **found) {
    const char *name = last_name(path);
    size_t len = strlen(name), before = (size_t)(name - path);
    if (len == 0) return faulty(file, before ? ZX_FILE_FOLDER : ZX_FILE_MISSING, before ? EISDIR : ENOENT);
    struct zx_held_file *held = calloc(1, sizeof *held + len + 1);
    char *folder = malloc(before + 2);
    if (!held || !folder) {
        free(held);
        free(folder);
        return ZX_NO_MEMORY;
    }
    memcpy(held->name, name, len + 1);
    memcpy(folder, path, before);
    memcpy(folder + before, ".", 2);
    held->folder = -1;
    held = enlist(held);
    bool is_open = held && open_listed(&held->folder, AT_FDCWD, folder, O_PATH | O_DIRECTORY, 0);
    int error = errno;
    free(folder);
    if (!held) return ZX_NO_MEMORY;
    if (!is_open) {
        release(held);
        return faulty(file, error == ENOENT ? ZX_FILE_MISSING : ZX_FILE_FAULT, error);
    }
    *found = held;
    return ZX_DONE;
}

/* ---- the mark of a file under replacement: a killed saver can have left a new file next to it. Reading the mark takes
   a quarter of the time that a search for that file takes */

/* The attribute that is the mark. */
static const char MARK[] = "user.zaluxhoni";

enum marked { NO, YES, UNKNOWN };

static enum marked is_marked(int file) {
    return fgetxattr(file, MARK, NULL, 0) >= 0 ? YES : errno == ENODATA ? NO : UNKNOWN;
}

/* Makes a name for a new file from the name of the file that it will replace (FNV-1a). Only the holder of that file
   uses it. There are several, since a folder can have one of them. */
static void spare_name(char spare[40], const char *name, int turn) {
    uint64_t hash = 0xcbf29ce484222325;
    for (; *name; name++) hash = (hash ^ (unsigned char)*name) * 0x100000001b3;
    hash += (uint64_t)turn;
    memcpy(spare, ".zaluxhoni-", 11);
    for (int i = 0; i < 16; i++) spare[11 + i] = "0123456789abcdef"[hash >> (60 - 4 * i) & 15];
    spare[27] = 0;
}

/* ---- the right to write */

/* Removes the new file that a killed saver left, and the mark. A file with several names keeps its mark, which does not
   say next to which of them the new file is. */
static void remove_spare(const struct zx_held_file *held, bool has_one_name, enum marked marked) {
    const char *name = last_name(held->name);
    size_t before = (size_t)(name - held->name);
    char spare[PATH_MAX + 40];
    if (before >= PATH_MAX) return;
    memcpy(spare, held->name, before);
    bool was_there = false, is_gone = false;
    for (int turn = 0; turn < SPARES && !is_gone; turn++) {
        spare_name(spare + before, name, turn);
        was_there = unlinkat(held->folder, spare, 0) == 0;
        is_gone = was_there || errno == ENOENT;
    }
    bool may_unmark = was_there || (is_gone && marked == YES);
    if (may_unmark && has_one_name) fremovexattr(held->file, MARK);
}

/* Returns true if the zx_file itself has the lock, under another name of its file. */
static bool is_own_lock(const zx_file *file, const struct stat *locked) {
    struct stat own;
    return file->held && is_own(file->held) && file->held->state != READ && fstat(file->held->file, &own) == 0 &&
           is_same(&own, locked);
}

/* Opens and locks the file of a name after a look at it. Returns AGAIN if the name leads to another file by now. */
static zx_code lock(zx_file *file, struct zx_held_file *held, const struct sight *sight, struct stat *opened) {
    int how = held->state == READ ? O_RDONLY : O_RDWR;
    if (!open_listed(&held->file, held->folder, held->name, how | O_NOFOLLOW | O_NONBLOCK | O_NOCTTY, 0))
        return errno == ENOENT || errno == ELOOP ? (zx_code)AGAIN : fault(file);
    int refused = take_lock(held->file, held->state == READ ? LOCK_SH : LOCK_EX);
    if (fstat(held->file, opened) != 0) return fault(file);
    zx_code code = judge(file, opened);
    if (code != ZX_DONE) return code;
    if (refused && (refused != EWOULDBLOCK || !is_own_lock(file, opened)))
        return faulty(file, refused == EWOULDBLOCK ? ZX_FILE_IN_USE : ZX_FILE_FAULT, refused);
    if (!has_its_names(sight, opened) && !leads_to(held->folder, held->name, opened)) return AGAIN;
    if (held->state == READ) return ZX_DONE;
    // a file that is opened by its path is mapped
    enum marked marked = held->folder == AT_FDCWD ? is_marked(held->file) : UNKNOWN;
    if (marked != NO) remove_spare(held, opened->st_nlink == 1, marked);
    return ZX_DONE;
}

/* Finds and locks the file; or finds the folder and the name of a file to create. */
static zx_code hold_once(zx_file *file, const char *path, uint32_t mode, bool is_mapped, struct zx_held_file **held,
                         struct stat *found) {
    struct sight sight;
    if (mode == ZX_CREATE_ONLY && lstat(path, found) == 0) return faulty(file, ZX_FILE_EXISTS, EEXIST);
    zx_code code = look(file, path, &sight);
    if (code == ZX_FILE_MISSING && mode != ZX_OPEN_ONLY && mode < ZX_OPEN_READ_ONLY) return find(file, path, held);
    if (code != ZX_DONE) return code;
    if (mode == ZX_CREATE_ONLY) return AGAIN;
    char *real = sight.is_link ? realpath(path, NULL) : NULL;
    if (sight.is_link && !real)
        return errno == ENOENT ? (zx_code)AGAIN : errno == ENOMEM ? (zx_code)ZX_NO_MEMORY : fault(file);
    code = is_mapped ? keep(real ? real : path, held) : find(file, real ? real : path, held);
    free(real);
    if (code == ZX_FILE_MISSING) return AGAIN;
    if (code != ZX_DONE) return code;
    if (mode >= ZX_OPEN_READ_ONLY) (*held)->state = READ;
    code = lock(file, *held, &sight, found);
    if (code != ZX_DONE) release(*held);
    return code;
}

static zx_code hold(zx_file *file, const char *path, uint32_t mode, bool is_mapped, struct zx_held_file **held,
                    struct stat *found) {
    for (int tries = 0; tries < TRIES; tries++) {
        zx_code code = hold_once(file, path, mode, is_mapped, held, found);
        if (code != AGAIN) return code;
    }
    return faulty(file, ZX_FILE_IN_USE, EWOULDBLOCK);
}
