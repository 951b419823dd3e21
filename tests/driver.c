/* driver FILE: reads commands from standard input, one on each line, and prints a line for each: `ok`, a number, or the
   code and the words of a refusal. A command is one of

     open create|write|read -|durable|mapped [SIZE]     set NUMBER   get   save   commit   close   discard   quit

   and works on the object `earned` of FILE; `quit` ends the process as a kill does. driver.py does the same by the package for Python. */
#include "zaluxhoni_files.h"

#include <inttypes.h>
#include <stdio.h>
#include <stdlib.h>
#include <string.h>
#include <unistd.h>

static zx_file file;

static zx_code open_file(const char *path, const char *mode, const char *how, const char *size) {
    uint32_t flags = strcmp(mode, "create") == 0 ? ZX_CREATE_ONLY : strcmp(mode, "write") == 0 ? ZX_OPEN_ONLY : ZX_OPEN_READ_ONLY;
    if (strcmp(how, "durable") == 0) flags |= ZX_DURABLE;
    if (strcmp(how, "mapped") == 0) flags |= ZX_MAPPED;
    return zx_file_open(&file, path, flags, strtoull(size, NULL, 10));
}

static zx_code set(int64_t number) {
    zx_key key = zx_name("earned");
    zx_value value = zx_i64(number);
    uint64_t handle;
    uint32_t found;
    zx_code code = zx_find_or_construct(&file.segment, &key, 1, &value, &handle, &found);
    return code == ZX_DONE ? zx_set(&file.segment, &key, 0, &value) : code;
}

int main(int count, char **words) {
    char line[200], verb[20], one[20], two[20], three[30];
    if (count != 2) return 2;
    while (fgets(line, sizeof line, stdin)) {
        zx_code code = ZX_DONE;
        zx_value value;
        zx_key key = zx_name("earned");
        verb[0] = one[0] = two[0] = three[0] = 0;
        sscanf(line, "%19s %19s %19s %29s", verb, one, two, three);
        if (strcmp(verb, "open") == 0) code = open_file(words[1], one, two, three);
        if (strcmp(verb, "set") == 0) code = set(strtoll(one, NULL, 10));
        if (strcmp(verb, "save") == 0) code = zx_file_save(&file);
        if (strcmp(verb, "commit") == 0) code = zx_file_commit(&file);
        if (strcmp(verb, "close") == 0) code = zx_file_close(&file);
        if (strcmp(verb, "quit") == 0) _exit(0);
        if (strcmp(verb, "discard") == 0) zx_file_discard(&file);
        if (strcmp(verb, "get") == 0) code = zx_get(&file.segment, &key, 0, &value);
        if (code != ZX_DONE)
            printf("refused: %" PRIu32 " %s %s\n", code, zx_message(code), file.error ? strerror(file.error) : "");
        else if (strcmp(verb, "get") == 0)
            printf("%" PRId64 "\n", value.number);
        else
            puts("ok");
        fflush(stdout);
        if (code != ZX_DONE) break;
    }
    zx_file_discard(&file);
    return 0;
}
