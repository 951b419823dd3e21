/* A part of files.c: files that are mapped, and their lengths. */

/* Returns the code of an opening whose region holds all `len` bytes of the image. ZX_SHORT_REGION then says that the
   image states more bytes than there are: it is truncated, and its end shows that. */
static zx_code explained(zx_file *file, zx_code code, uint64_t len) {
    if (code != ZX_SHORT_REGION) return code;
    file->place = len;
    return ZX_TRUNCATED;
}

/* Returns the size in an image's header. */
static uint64_t size_said(const uint8_t *image) { return number_at(image + 16); }

/* Reads all bytes of a file. */
static zx_code read_all(zx_file *file, int from, struct image *image) {
    struct stat found;
    *image = (struct image){ NULL, 0 };
    if (fstat(from, &found) != 0) return fault(file);
    zx_code code = judge(file, &found);
    if (code != ZX_DONE) return code;
    *image = room_for((uint64_t)found.st_size);
    if (!image->bytes) return ZX_NO_MEMORY;
    ssize_t len = read_at(from, image->bytes, image->len, 0);
    if (len >= 0) image->len = (uint64_t)len;
    return len < 0 ? fault(file) : (zx_code)ZX_DONE;
}

/* Opens the segment of an image in a copy of its bytes. */
static zx_code open_image(zx_file *file, const struct image *image, uint32_t how) {
    uint64_t capacity = image->len < 16 ? 16 : (image->len + 15) / 16 * 16;
    zx_code code = zx_open_explained(&file->segment, image->bytes, image->len, capacity, how, &file->place);
    return explained(file, code, image->len);
}

/* Opens the segment of the file's bytes. If a process was killed while it changed the length of the mapped file, bytes can
   follow the image. */
static zx_code read_segment(zx_file *file, int from, uint32_t how) {
    struct image image;
    zx_code code = read_all(file, from, &image);
    if (code == ZX_DONE) code = open_image(file, &image, how);
    uint64_t shown = file->place, said = code == ZX_BAD_IMAGE_SIZE ? size_said(image.bytes) : image.len;
    if (image.len % 16 == 0 && said < image.len) {
        const struct image front = { image.bytes, said };
        if (open_image(file, &front, how) == ZX_DONE) code = ZX_DONE;
        file->place = shown;
    }
    free_image(&image);
    return code;
}

/* Attaches the mapping, whose image has `size` bytes. */
static zx_code attach(zx_file *file, struct zx_held_file *held, uint64_t size, uint32_t how) {
    zx_memory memory = { held->at, held->len };
    zx_code code = zx_attach_explained(&file->segment, &memory, size, how, &file->place);
    return explained(file, code, size);
}

/* The size of a page of the system. To ask for it takes 30 instructions, and an opening needs it six times. */
static size_t page_size(void) {
    static size_t _Atomic size;
    if (size == 0) size = (size_t)sysconf(_SC_PAGESIZE);
    return size;
}

/* Returns true if the file is in a tmpfs, where pages are allocated one by one and counted as the file's blocks. */
static bool is_in_memory(int file, const struct stat *found) {
    struct statfs disk;
    return major(found->st_dev) == 0 && (size_t)found->st_blksize == page_size() && fstatfs(file, &disk) == 0 &&
           disk.f_type == TMPFS_MAGIC;
}

/* Returns true if the file can have a hole: a range without blocks. Its number of blocks alone does not show that, since
   blocks that hold the file's attributes are counted too. On tmpfs attributes have no blocks, so the number is used: a
   search for a hole would look at each page there. */
static bool has_hole(int file, const struct stat *found) {
    uint64_t len = (uint64_t)found->st_size, page = page_size(), blocks = (uint64_t)found->st_blocks * 512;
    if (blocks < len) return true;
    if (blocks == (len + page - 1) / page * page && is_in_memory(file, found)) return false;
    return lseek(file, 0, SEEK_HOLE) < (off_t)len;
}

/* Puts zeros in memory over the holes of a file that is mapped privately in a tmpfs. There to read a hole takes a page of
   the disk, and if that is full the system ends the process. */
static bool cover_holes(int file, uint8_t *at, uint64_t len, int protection) {
    struct stat found;
    const int how = MAP_PRIVATE | MAP_ANONYMOUS | MAP_NORESERVE | MAP_FIXED;
    const off_t end = (off_t)((len + page_size() - 1) / page_size() * page_size());
    if (fstat(file, &found) != 0) return false;
    uint64_t all = (uint64_t)found.st_size > len ? (uint64_t)found.st_size : len;
    if ((uint64_t)found.st_blocks * 512 >= all || !is_in_memory(file, &found)) return true;
    for (off_t data = 0; data < (off_t)len;) {
        off_t hole = lseek(file, data, SEEK_HOLE);
        if (hole < 0 || hole >= (off_t)len) return hole >= 0;
        data = lseek(file, hole, SEEK_DATA);
        if (data < 0 && errno != ENXIO) return false;
        if (data < 0 || data > end) data = end;
        if (mmap(at + hole, (size_t)(data - hole), protection, how, -1, 0) == MAP_FAILED) return false;
    }
    return true;
}

/* Allocates blocks up to a length, so that no write to a page finds the disk full. */
static bool allot(int file, const struct stat *found, uint64_t len) {
    if ((uint64_t)found->st_size >= len && !has_hole(file, found)) return true;
    if (!may_have_length(file, len)) return false;
    int tries = 0;
    while (fallocate(file, 0, 0, (off_t)len) != 0)
        if (!is_interrupted(&tries)) return errno == EOPNOTSUPP && set_length(file, len);
    return true;
}

/* Sets the length of the file to that of its image. */
static bool cut(int file, uint64_t size) {
    struct stat found;
    return fstat(file, &found) == 0 && ((uint64_t)found.st_size == size || set_length(file, size));
}

/* The addresses at which this process maps files of one length again and again: a gap between two pages that stay
   mapped. A short file lies near the start of the range that one page table of the system covers. The two pages keep
   the page tables of the gap's ends. Without them the system would allocate and free these tables at each opening,
   which costs as much as the rest of the opening. */
static struct {
    uint8_t *at;  /* null if there are no such pages */
    uint64_t len; /* of the file that was mapped last, in whole pages */
} place;

/* The distance, in pages, from an end of a mapping to another page that is read with this end. When a mapping ends, the
   system flushes its pages from the processor's cache of addresses, table by table. It flushes up to 33 pages of a
   table one by one, and under a hypervisor each of these flushes also drops the entries of the system itself. For more
   than 33 pages it flushes all entries of this process, and no others. */
enum { APART = 34 };

/* Returns the page of a table at which a file begins. If the two ends of the file lie in different tables, each table
   also has the page that is read with its end, and the page next to that end. */
static size_t first_page(size_t entries, size_t pages) {
    return pages % entries >= APART && pages % entries < entries - 1 ? 1 : APART + 15;
}

/* Reads the first and the last page of a mapping in its place, and the page APART pages from each, if its ends lie in
   different tables. The file is mapped for writing, so `allot` has allocated their blocks, if its file system can. */
static void read_apart(const uint8_t *at, uint64_t len) {
    size_t page = page_size();
    const volatile uint8_t *first = at, *last = at + (len - 1) / page * page;
    if ((uintptr_t)first / (page / 8 * page) == (uintptr_t)last / (page / 8 * page)) return;
    (void)(first[0] + first[APART * page] + last[0] + (last - APART * page)[0]);
}

/* Unmaps the two pages. If the file mapped last had this length too, maps two new pages with a gap of this length
   between them. */
static void move_place(size_t page, uint64_t len) {
    if (place.at) {
        munmap(place.at - page, page);
        munmap(place.at + place.len, page);
        place.at = NULL;
    }
    bool is_second = place.len == len;
    place.len = len;
    if (!is_second) return;
    size_t table = page / 8 * page, first = first_page(page / 8, len / page) * page, room = len + table + first + page;
    uint8_t *from = mmap(NULL, room, PROT_NONE, MAP_PRIVATE | MAP_ANONYMOUS | MAP_NORESERVE, -1, 0);
    if (from == MAP_FAILED) return;
    place.at = from + (table - (uintptr_t)from % table) + first;
    uint8_t *behind = place.at + len + page;
    munmap(from, (size_t)(place.at - page - from));
    munmap(place.at, len);
    if (behind < from + room) munmap(behind, (size_t)(from + room - behind));
}

/* Returns an address at which a file of this length may be mapped, if it is still free then; null for any address. */
static void *place_for(uint64_t len) {
    size_t page = page_size();
    len = (len + page - 1) / page * page;
    if (!place.at || place.len != len) move_place(page, len);
    return place.at;
}

static void unmap_listed(struct zx_held_file *held) {
    pthread_mutex_lock(&guard);
    unmap_all(held);
    held->at = NULL;
    held->room = 0;
    held->mapped = NULL;
    pthread_mutex_unlock(&guard);
}

/* Maps a file that is in the list of held files. A child that is forked at any time unmaps its copy. */
static bool map_listed(struct zx_held_file *held, uint64_t len, int protection, int flags) {
    pthread_mutex_lock(&guard);
    void *wanted = place_for(len), *at = mmap(wanted, len, protection, flags, held->file, 0);
    bool is_mapped = at != MAP_FAILED, is_in_place = is_mapped && at == wanted;
    if (is_mapped) {
        held->at = at;
        held->len = len;
    }
    pthread_mutex_unlock(&guard);
    if (is_in_place && flags == MAP_SHARED) read_apart(at, len);
    if (!is_mapped || flags == MAP_SHARED || cover_holes(held->file, at, len, protection)) return is_mapped;
    unmap_listed(held);
    return false;
}

static zx_code map_anew(zx_file *file, struct zx_held_file *held, uint32_t how);

/* Maps the file, and opens its segment in the mapping. */
static zx_code map(zx_file *file, struct zx_held_file *held, const struct stat *found, uint32_t how) {
    uint64_t len = (uint64_t)found->st_size;
    // no segment has such a size, so the bytes are refused
    if (len == 0 || len % 16 != 0) return read_segment(file, held->file, how);
    if (how == ZX_WRITE && !allot(held->file, found, len)) return fault(file);
    int protection = how == ZX_READ ? PROT_READ : PROT_READ | PROT_WRITE;
    if (!map_listed(held, len, protection, how == ZX_WRITE ? MAP_SHARED : MAP_PRIVATE)) return fault(file);
    zx_code code = attach(file, held, len, how);
    // a process that was killed while it changed the file's length can leave bytes after the image
    uint64_t said = code == ZX_BAD_IMAGE_SIZE ? size_said(held->at) : len, shown = file->place;
    bool is_longer = said < len && attach(file, held, said, how) == ZX_DONE;
    if (is_longer) code = ZX_DONE;
    file->place = shown;
    bool is_cut = is_longer && how == ZX_WRITE;
    if (is_cut) zx_close(&file->segment);
    if (code != ZX_DONE || is_cut) unmap_listed(held);
    if (is_cut) return cut(held->file, said) ? map_anew(file, held, how) : fault(file);
    if (code != ZX_DONE) return code;
    held->mapped = &file->segment;
    // a new file that is mapped has its name and all changes from now on, even if it is never flushed
    if (held->state == NEW) held->state = UNSYNCED;
    return ZX_DONE;
}

/* Maps a file that is new, or was cut. */
static zx_code map_anew(zx_file *file, struct zx_held_file *held, uint32_t how) {
    struct stat found;
    return fstat(held->file, &found) == 0 ? map(file, held, &found, how) : fault(file);
}

/* Cuts a mapped file to the length of its image, if this process writes the file, the file is not durable, and no
   transaction is open. Returns false if the cut fails. */
static bool cut_mapped(zx_file *file, const struct zx_held_file *held) {
    uint64_t size;
    bool is_written = held->state != READ && !held->commits && held->steps == 0 && is_own(held) && file->segment.lent;
    return !is_written || zx_size(&file->segment, &size) != ZX_DONE || cut(held->file, size);
}

/* Ends the mapping. */
static void unmap(zx_file *file, struct zx_held_file *held) {
    zx_close(&file->segment);
    if (is_own(held)) unmap_listed(held);
}

/* Sets the length of the mapping and of the file; the image fits into both. The segment stays open, unless memory is
   refused. */
static zx_code remap(zx_file *file, struct zx_held_file *held, uint64_t size, uint64_t wanted) {
    zx_memory memory;
    struct stat found;
    if (wanted > held->len && (fstat(held->file, &found) != 0 || !allot(held->file, &found, wanted))) {
        zx_code code = fault(file);
        if (held->steps == 0) cut(held->file, held->len);
        return code;
    }
    zx_detach(&file->segment, &memory);
    pthread_mutex_lock(&guard);
    void *at = mremap(held->at, held->len, wanted, MREMAP_MAYMOVE);
    bool is_done = at != MAP_FAILED;
    int error = errno;
    if (is_done) {
        held->at = at;
        held->len = wanted;
    }
    pthread_mutex_unlock(&guard);
    zx_code code = attach(file, held, size, ZX_WRITE);
    if (code == ZX_DONE && !is_done) code = faulty(file, ZX_FILE_FAULT, error);
    bool is_cut = held->steps == 0 && (code != ZX_DONE || wanted == size);
    // an open segment may grow into all of its mapping, and behind the end of the file there are no pages
    uint64_t len = file->segment.at ? held->len : size;
    if (is_cut && !cut(held->file, len) && code == ZX_DONE) code = fault(file);
    return code;
}

static zx_code lengthen(zx_file *file, struct zx_held_file *held, uint64_t size, uint64_t wanted);

/* Makes mapping and file long enough for an image of this many bytes. */
static zx_code make_room(zx_file *file, uint64_t wanted) {
    struct zx_held_file *held = file->held;
    uint64_t size;
    if (!held || !held->mapped) return zx_relocate(&file->segment, (wanted + 15) / 16 * 16);
    zx_code code = held->state == READ ? (zx_code)ZX_SHORT_REGION : zx_size(&file->segment, &size);
    if (code != ZX_DONE) return code;
    return held->commits ? lengthen(file, held, size, wanted) : remap(file, held, size, wanted);
}

zx_code zx_file_grow(zx_file *file, uint64_t extra) {
    uint64_t size;
    file->error = 0;
    zx_code code = zx_grow(&file->segment, extra);
    if (code != ZX_SHORT_REGION) return code;
    code = zx_size(&file->segment, &size);
    if (code == ZX_DONE) code = make_room(file, size + extra);
    return code == ZX_DONE ? zx_grow(&file->segment, extra) : code;
}

/* Sets the length of a mapped file and of its mapping to the size of its segment, after a call that returned `code`.
   Changes neither if the call failed, if a transaction is open, or if the file is durable. */
static zx_code fit(zx_file *file, zx_code code) {
    struct zx_held_file *held = file->held;
    uint64_t size = 0;
    if (code == ZX_DONE) code = zx_size(&file->segment, &size);
    if (code != ZX_DONE || !held || !held->mapped || held->state == READ || size == held->len) return code;
    if (held->steps > 0 || held->commits) return code;
    return remap(file, held, size, size);
}

zx_code zx_file_shrink(zx_file *file) {
    file->error = 0;
    return fit(file, zx_shrink(&file->segment));
}

zx_code zx_file_rollback(zx_file *file, zx_segment *before) {
    uint64_t size;
    file->error = 0;
    zx_code code = zx_rollback(&file->segment, before);
    if (code == ZX_SHORT_REGION) {
        code = zx_size(before, &size);
        if (code == ZX_DONE) code = make_room(file, size);
        if (code == ZX_DONE) code = zx_rollback(&file->segment, before);
    }
    return fit(file, code);
}

zx_code zx_file_flush(zx_file *file) {
    struct zx_held_file *held = file->held;
    if (!held || !held->mapped) return zx_file_save(file);
    if (held->commits) return zx_file_commit(file);
    file->error = 0;
    if (held->state == READ) return ZX_READ_ONLY;
    if (!is_own(held)) return faulty(file, ZX_FILE_FORKED, EPERM);
    if (held->steps > 0) return faulty(file, ZX_FILE_IN_STEP, EBUSY);
    return msync(held->at, held->len, MS_SYNC) == 0 ? sync_found(file, held) : fault(file);
}
