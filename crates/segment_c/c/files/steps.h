/* A part of files.c: transactions, of a segment in a file that is mapped, and in memory. */

zx_code zx_file_begin(zx_file *file, zx_step *before) {
    struct zx_held_file *held = file->held;
    uint32_t how;
    file->error = 0;
    zx_code code = zx_mode(&file->segment, &how);
    if (code != ZX_DONE) return code;
    if (how == ZX_READ) return ZX_READ_ONLY;
    free_kept(before);
    if (held && held->mapped) {
        zx_close(&before->copy);
        return begin_pages(file, held, before);
    }
    if (begin_ground(file, before)) zx_close(&before->copy);
    else code = zx_begin(&file->segment, &before->copy);
    if (code == ZX_DONE && held) held->steps++;
    return code;
}

/* Ends a step of a segment that has a file, and is not mapped. */
static void end_step(struct zx_held_file *held) {
    if (held && !held->mapped && held->steps > 0) held->steps--;
}

zx_code zx_file_keep(zx_file *file, zx_step *before) {
    struct zx_held_file *held = file->held;
    file->error = 0;
    if (!before->kept || before->kept->ground) {
        zx_commit(&before->copy);
        free_kept(before);
        end_step(held);
        return ZX_DONE;
    }
    bool is_open = held && held->mapped && held->steps > 0 && is_own(held);
    bool is_last = is_open && held->steps == 1;
    zx_code code = !is_last            ? (zx_code)ZX_DONE
                   : is_durable(held)  ? commit_pages(file, held)
                   : held->state != READ ? share_own(file, held)
                                         : (zx_code)ZX_DONE;
    if (code != ZX_DONE && code != ZX_FILE_UNSURE) return answered(file, code);
    free_kept(before);
    if (is_open) held->steps--;
    if (is_last && code == ZX_DONE && is_durable(held)) shorten_log(file, held);
    if (is_last && is_shared_writer(held)) (void)fit(file, ZX_DONE);
    return answered(file, code);
}

void zx_file_leave(zx_file *file, zx_step *before) {
    struct zx_held_file *held = file->held;
    file->error = 0;
    zx_commit(&before->copy);
    bool has_pages = before->kept && !before->kept->ground;
    free_kept(before);
    if (!has_pages) end_step(held);
    if (!has_pages || !held || !held->mapped || held->steps == 0 || !is_own(held)) return;
    if (held->steps == 1 && is_shared_writer(held)) (void)share_own(file, held);
    held->steps--;
}

zx_code zx_file_undo(zx_file *file, zx_step *before) {
    struct zx_held_file *held = file->held;
    file->error = 0;
    if (!before->kept || before->kept->ground) {
        zx_code code = before->kept ? undo_ground(file, before->kept) : zx_file_rollback(file, &before->copy);
        if (code == ZX_DONE) free_kept(before);
        if (code == ZX_DONE) end_step(held);
        return answered(file, code);
    }
    if (!held || !held->mapped || held->steps == 0 || !file->segment.at) return ZX_CLOSED;
    bool was_clean = is_durable(held) && before->kept->count == 0 && before->kept->size == held->commits->len;
    zx_code code = undo_pages(file, held, before->kept);
    if (code != ZX_DONE && file->segment.at) return answered(file, code);
    if (was_clean && code == ZX_DONE) held->saved = file->segment.changes;
    free_kept(before);
    held->steps--;
    return answered(file, code);
}

zx_code zx_step_image(zx_step *before, uint8_t *image, size_t room, uint64_t *len) {
    const struct zx_kept *kept = before->kept;
    zx_code code = kept ? (zx_code)ZX_DONE : zx_size(&before->copy, len);
    if (code != ZX_DONE) return code;
    if (kept && !kept->ground) return ZX_CLOSED;
    if (kept) *len = kept->size;
    if (*len > room) return ZX_SHORT_BUFFER;
    if (!kept) return zx_save(&before->copy, image, room);
    copy_before(kept, image, kept->size);
    return ZX_DONE;
}
