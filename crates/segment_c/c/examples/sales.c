/* The program of docs/C.md, "A durable file": it counts its runs by commits. */
#include "zaluxhoni_files.h"

#include <stdio.h>

int main(void) {
    zx_file file = ZX_CLOSED_FILE;
    zx_step before = ZX_NO_STEP;
    zx_key key = zx_name("sold");
    zx_value sold = zx_i64(0);
    uint64_t handle;
    uint32_t found;
    zx_code code = zx_file_open(&file, "sales.seg", ZX_OPEN_OR_CREATE | ZX_DURABLE, 65536);
    if (code == ZX_DONE) code = zx_file_begin(&file, &before);
    if (code == ZX_DONE) code = zx_find_or_construct(&file.segment, &key, 1, &sold, &handle, &found);
    if (code == ZX_DONE) code = zx_get(&file.segment, &key, 0, &sold);
    if (code == ZX_DONE) {
        sold.number++;
        code = zx_set(&file.segment, &key, 0, &sold);
    }
    /* the end of the outermost transaction is a commit */
    if (code == ZX_DONE) code = zx_file_keep(&file, &before);
    if (code != ZX_DONE) {
        fprintf(stderr, "sales.seg: %s\n", zx_message(code));
        (void)zx_file_undo(&file, &before);
        zx_file_leave(&file, &before);
        zx_file_discard(&file);
        return 1;
    }
    printf("sold %lld\n", (long long)sold.number);
    return zx_file_close(&file) != ZX_DONE;
}
