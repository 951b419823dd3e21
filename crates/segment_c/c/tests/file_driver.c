/* file_driver FILE [loop | loop-one | make]: reads commands from standard input, one on each line, and prints a line
   for each. two_processes.py and killed_savers.py run it, and the same drivers in C++ and Python. A command is a digit,
   which selects a zx_file, and words:

   open MODE SIZE [FILE]   get   set N   save   close   discard   saveas MODE FILE   fork COMMAND, COMMAND, ..
   sleeper   nobody

   `fork` runs commands in a child, on the files that are open, and prints their answers in one line. `sleeper` forks a
   child that sleeps. `nobody` gives up the rights of root.

   With `loop` or `loop-one` the program reads no commands. It adds 1 to the number in FILE until it is killed, and
   prints each number after it is saved. `loop` opens and closes the file for each number; `loop-one` opens it once.
   With `make` it creates files until it is killed. */
#define _GNU_SOURCE
#include "zaluxhoni_files.h"

#include <grp.h>
#include <inttypes.h>
#include <signal.h>
#include <stdio.h>
#include <stdlib.h>
#include <sys/prctl.h>
#include <sys/wait.h>
#include <unistd.h>

static const char *path;
static zx_file files[10]; /* all ZX_CLOSED_FILE */

static const char *word(zx_code code, int32_t error) {
    static char made[40];
    static const char *const of_files[] = { "none",   "is_open", "in_use",    "exists", "missing",  "dangles",  "folder",
                                            "device", "pipe",    "too_large", "fault",  "replaced", "unsynced", "forked" };
    if (code == ZX_FILE_FAULT)
        snprintf(made, sizeof made, "fault %d", error);
    else if (ZX_FILE_NONE <= code && code <= ZX_FILE_FORKED)
        return of_files[code - ZX_FILE_NONE];
    else if (code > 100)
        snprintf(made, sizeof made, "image %u", code - 100);
    else
        return code == ZX_DONE        ? "ok"
               : code == ZX_READ_ONLY ? "read_only"
               : code == ZX_CLOSED    ? "closed"
               : code == ZX_BAD_SIZE  ? "bad_size"
               : code == ZX_NO_MEMORY ? "no_memory"
                                      : (snprintf(made, sizeof made, "code %u", code), made);
    return made;
}

static uint32_t mode_of(const char *name) {
    static const char *const all[] = { "create_only", "open_only", "open_or_create", "open_read_only",
                                       "open_copy_on_write" };
    for (uint32_t i = 0; i < 5; i++)
        if (strcmp(name, all[i]) == 0) return ZX_CREATE_ONLY + i;
    return 0;
}

static zx_code get(zx_file *file, int64_t *number) {
    zx_key key = zx_name("n");
    zx_value value;
    zx_code code = zx_get(&file->segment, &key, 0, &value);
    *number = code == ZX_DONE ? value.number : 0;
    return code == ZX_NOT_FOUND ? (zx_code)ZX_DONE : code;
}

static zx_code set(zx_file *file, int64_t number) {
    zx_key key = zx_name("n");
    zx_value value = zx_i64(number);
    uint64_t handle;
    uint32_t found;
    zx_code code = zx_find_or_construct(&file->segment, &key, 1, &value, &handle, &found);
    return code == ZX_DONE ? zx_set(&file->segment, &key, 0, &value) : code;
}

static void answer(char *line, char *said, size_t room);

/* Runs the commands in a child, and stores their answers in `said`, separated by commas. */
static void answer_in_child(char *lines, char *said, size_t room) {
    int ends[2];
    fflush(stdout);
    if (pipe(ends) != 0) exit(97);
    pid_t child = fork();
    if (child == 0) {
        for (char *rest, *line = strtok_r(lines, ",", &rest); line; line = strtok_r(NULL, ",", &rest)) {
            answer(line, said, room);
            dprintf(ends[1], "%s%s", line == lines ? "" : ", ", said);
        }
        _exit(0);
    }
    close(ends[1]);
    size_t len = 0;
    for (ssize_t more; (more = read(ends[0], said + len, room - 1 - len)) > 0;) len += (size_t)more;
    said[len] = 0;
    close(ends[0]);
    waitpid(child, NULL, 0);
}

/* A child that sleeps; it has started when this is done. */
static void sleeper(void) {
    int ends[2];
    char one;
    if (pipe(ends) != 0) exit(97);
    if (fork() == 0) {
        close(0), close(1), close(2), close(ends[0]), close(ends[1]);
        sleep(60);
        _exit(0);
    }
    close(ends[1]);
    if (read(ends[0], &one, 1) != 0) exit(97);
    close(ends[0]);
}

static void answer(char *line, char *said, size_t room) {
    char verb[20] = "", one[200] = "", two[200] = "", three[600] = "";
    unsigned which = 0;
    int behind = 0;
    sscanf(line, " %u %19s %n%199s %199s %599s", &which, verb, &behind, one, two, three);
    zx_file *file = &files[which];
    zx_code code = ZX_DONE;
    if (strcmp(verb, "open") == 0) {
        code = zx_file_open(file, three[0] ? three : path, mode_of(one), strtoull(two, NULL, 10));
    } else if (strcmp(verb, "get") == 0) {
        int64_t number;
        code = get(file, &number);
        if (code == ZX_DONE) {
            snprintf(said, room, "%" PRId64, number);
            return;
        }
    } else if (strcmp(verb, "set") == 0) {
        code = set(file, strtoll(one, NULL, 10));
    } else if (strcmp(verb, "save") == 0) {
        code = zx_file_save(file);
    } else if (strcmp(verb, "saveas") == 0) {
        code = zx_file_save_as(file, two, mode_of(one));
    } else if (strcmp(verb, "close") == 0) {
        code = zx_file_close(file);
    } else if (strcmp(verb, "discard") == 0) {
        zx_file_discard(file);
    } else if (strcmp(verb, "fork") == 0) {
        answer_in_child(line + behind, said, room);
        return;
    } else if (strcmp(verb, "sleeper") == 0) {
        sleeper();
    } else if (strcmp(verb, "nobody") == 0) {
        if (setgroups(0, NULL) != 0 || setgid(65534) != 0 || setuid(65534) != 0) exit(95);
    } else {
        exit(98);
    }
    snprintf(said, room, "%s", word(code, file->error));
}

/* Adds 1 for ever; the number is printed when it is saved. */
static void loop(bool by_one_file) {
    zx_file *file = &files[0];
    for (;;) {
        zx_code code = file->segment.at ? ZX_DONE : zx_file_open(file, path, ZX_OPEN_ONLY, 0);
        if (code == ZX_FILE_IN_USE) {
            usleep(100);
            continue;
        }
        int64_t number = 0;
        if (code == ZX_DONE) code = get(file, &number);
        if (code == ZX_DONE) code = set(file, number + 1);
        if (code == ZX_DONE) code = by_one_file ? zx_file_save(file) : zx_file_close(file);
        if (code != ZX_DONE) {
            printf("WRONG %s\n", word(code, file->error));
            fflush(stdout);
            exit(1);
        }
        printf("%" PRId64 "\n", number + 1);
        fflush(stdout);
    }
}

/* Creates files for ever: FILE1, FILE2 and so on. Each holds its number, which is printed after the file is closed. */
static void make(void) {
    char each[600];
    zx_file *file = &files[0];
    for (int64_t i = 1;; i++) {
        snprintf(each, sizeof each, "%s%" PRId64, path, i);
        zx_code code = zx_file_open(file, each, ZX_CREATE_ONLY, 65536);
        if (code == ZX_DONE) code = set(file, i);
        if (code == ZX_DONE) code = zx_file_close(file);
        if (code == ZX_DONE)
            printf("%" PRId64 "\n", i);
        else
            printf("WRONG %s\n", word(code, file->error));
        fflush(stdout);
    }
}

int main(int count, char **words) {
    char line[4096], said[4096];
    prctl(PR_SET_PDEATHSIG, SIGKILL);
    signal(SIGXFSZ, SIG_IGN);
    path = words[1];
    if (count > 2 && strcmp(words[2], "make") == 0) make();
    if (count > 2) loop(strcmp(words[2], "loop-one") == 0);
    while (fgets(line, sizeof line, stdin)) {
        line[strcspn(line, "\n")] = 0;
        answer(line, said, sizeof said);
        puts(said);
        fflush(stdout);
    }
    for (int i = 0; i < 10; i++) zx_file_discard(&files[i]);
    return 0;
}
