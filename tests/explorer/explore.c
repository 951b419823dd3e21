/* Explores all orders of a small world of sessions, readers, kills, failing calls and power cuts, over the session
   machine of crates/file_protocol (machine.h, which machine.py writes). In each state it checks what an opening
   finds then, and after each power cut: the image that was answered last, or that of a commit or save without an
   answer.

   The world is finer than that of the theorems. A record has a body and a gate, which reach the disk apart; a body
   that is cut may be anything. After a sync of a log that failed, later syncs of it keep nothing, and what is read
   may fall back to what the disk has. A reader reads a log cell by cell.

   Arguments NAME=NUMBER: processes, sessions (of each process), commits, saves, checkpoints, fails, cuts, removals,
   readings, values (images of commits that come again; 0: each is new), most (million states), careless (1: a reader
   does not look at FILE again). The status is 1 if a state is wrong: its events are printed. It is 2 if there are
   too many states. */
#include <stdbool.h>
#include <stdint.h>
#include <stdio.h>
#include <stdlib.h>
#include <string.h>
#include <time.h>

struct value { uint8_t kind, part[4]; };
static const struct value zero;
static struct value number(int n) { return (struct value){ (uint8_t)n, { 0 } }; }
static struct value made(int kind, struct value a, struct value b, struct value c, struct value d) {
    return (struct value){ (uint8_t)kind, { a.kind, b.kind, c.kind, d.kind } };
}
#include "machine.h"

enum { PROCESSES = 3, INODES = 10, RECORDS = 3, TORN = 255 };

struct body { uint8_t base, before, after; };   /* images: of FILE as the log began, before the record, after it */
struct cells { uint8_t gate[RECORDS + 1]; struct body body[RECORDS]; };

struct inode {
    uint8_t is_log, image, owner;               /* an owner is a process + 1 */
    uint8_t is_broken;                          /* a sync of this log failed */
    struct cells seen, disk;                    /* of a log: what reads return, and what the disk has */
};

struct process { struct value state; uint8_t sessions, image; };
struct reader { uint8_t step, file, log, tries; struct cells cells; };

struct world {
    uint8_t count, images, file, log;           /* a name leads to nothing (0), or to an inode + 1 */
    uint16_t files, logs;                       /* what each name led to since the folder was synced, as bits */
    uint8_t promised, trying;                   /* images; 0: none */
    uint8_t commits, saves, checkpoints, fails, cuts, removals, readings; /* that are left */
    uint16_t found_since;                       /* the images that an opening would have found since the reader began */
    struct reader reader;
    struct process process[PROCESSES];
    struct inode inode[INODES];
};

static int processes = 2, sessions = 2, values, most = 40, careless;
static uint64_t states, cut_states, small, returned;
static char trail[600][64];

/* ---- what an opening finds */

static int records_of(const struct cells *log) {
    int n = 0;
    while (n < RECORDS && log->gate[n] == 1 && log->body[n].after != 0) n++;
    return n;
}

/* The image of a file with these records; 0 if they belong to another file. */
static int image_with(int image, const struct cells *log) {
    int n = records_of(log);
    bool belongs = n == 0 || log->body[0].base == image;
    for (int i = 0; i < n; i++) {
        if (log->body[i].after == TORN || (i > 0 && log->body[i].before != log->body[i - 1].after)) return 0;
        belongs |= log->body[i].after == image;
    }
    return !belongs ? 0 : n == 0 ? image : log->body[n - 1].after;
}

static const struct inode *log_of(const struct world *w) {
    return w->log && w->inode[w->log - 1].is_log ? &w->inode[w->log - 1] : NULL;
}

/* The image that an opening finds; 0 if it is refused, -1 without FILE. */
static int found(const struct world *w) {
    if (!w->file) return -1;
    const struct inode *log = log_of(w);
    int image = w->inode[w->file - 1].image;
    return log ? image_with(image, &log->seen) : image;
}

/* ---- the calls of the system */

static int new_inode(struct world *w, bool is_log, int image, int owner) {
    if (w->count == INODES) return -1;
    struct inode *made = &w->inode[w->count];
    memset(made, 0, sizeof *made);
    made->is_log = is_log, made->image = (uint8_t)image, made->owner = (uint8_t)owner;
    return w->count++;
}

static void name_file(struct world *w, int to) { w->file = (uint8_t)to, w->files |= (uint16_t)(1 << to); }
static void name_log(struct world *w, int to) { w->log = (uint8_t)to, w->logs |= (uint16_t)(1 << to); }
static void sync_names(struct world *w) { w->files = (uint16_t)(1 << w->file), w->logs = (uint16_t)(1 << w->log); }
static struct value answer(int kind, int a, int b) { return made(kind, number(a), number(b), zero, zero); }

static struct value look_file(const struct world *w) {
    return w->file ? answer(FILE_, w->file - 1, 0) : answer(MISSING, 0, 0);
}

static struct value look_log(const struct world *w) {
    if (!w->log) return answer(MISSING, 0, 0);
    return log_of(w) ? answer(LOG, w->log - 1, records_of(&log_of(w)->seen) > 0) : answer(STRANGER, 0, 0);
}

static struct value open_log(const struct world *w, int i) {
    if (log_of(w) && !image_with(w->inode[i].image, &log_of(w)->seen)) return answer(FOREIGN, 0, 0);
    return look_log(w);
}

static bool make_file(struct world *w, int p, int image, struct value *answered) {
    int made_at = new_inode(w, false, image, p + 1);
    *answered = answer(FILE_, made_at, 0);
    return made_at >= 0;
}

static bool make_log(struct world *w, const struct cells *cells, struct value *answered) {
    int made_at = new_inode(w, true, 0, 0);
    if (made_at < 0) return false;
    if (cells) {
        int n = records_of(cells);
        memcpy(w->inode[made_at].seen.gate, cells->gate, (size_t)n);
        memcpy(w->inode[made_at].seen.body, cells->body, (size_t)n * sizeof cells->body[0]);
        w->inode[made_at].disk = w->inode[made_at].seen;
    }
    name_log(w, made_at + 1);
    *answered = answer(LOG, made_at, cells != NULL);
    return true;
}

static int image_for(const struct world *w, const struct value *call) {
    switch (call->part[0]) {
    case CHECKPOINT: return image_with(w->inode[call->part[1]].image, &w->inode[call->part[2]].seen);
    case MEND: return w->promised;
    default: return call->part[3];
    }
}

/* Makes a call for the process p. Returns false if the world is too small for it. */
static bool make_call(struct world *w, int p, const struct value *call, struct value *answered) {
    const uint8_t *part = call->part;
    *answered = answer(DONE, 0, 0);
    switch (call->kind) {
    case OPEN_FILE:
    case LOOK_FILE: *answered = look_file(w); break;
    case LOCK:
        if (w->inode[part[0]].owner) *answered = answer(REFUSED, 0, 0);
        else w->inode[part[0]].owner = (uint8_t)(p + 1);
        break;
    case CLOSE:
        if (w->inode[part[0]].owner == p + 1) w->inode[part[0]].owner = 0;
        break;
    case MAKE_FIRST: return make_file(w, p, ++w->images, answered);
    case NAME_FILE:
        if (w->file) *answered = answer(REFUSED, 0, 0);
        else name_file(w, part[0] + 1);
        break;
    case LOOK_LOG: *answered = look_log(w); break;
    case OPEN_LOG: *answered = open_log(w, part[0]); break;
    case REMOVE_LOG: name_log(w, 0); break;
    case REMOVE_FILE: name_file(w, 0); break;
    case SYNC_NAMES: sync_names(w); break;
    case MAKE_LOG:
        if (w->log) *answered = answer(REFUSED, 0, 0);
        else return make_log(w, NULL, answered);
        break;
    case RENEW_LOG: return make_log(w, &w->inode[part[1]].seen, answered);
    case WRITE_BODY: {
        struct cells *log = &w->inode[part[1]].seen;
        int n = records_of(log), image = w->inode[part[0]].image, before = image_with(image, log);
        if (n == RECORDS) return false;
        log->body[n] = (struct body){ n ? log->body[0].base : (uint8_t)image, (uint8_t)before, part[2] };
        log->gate[n + 1] = 0;
        break;
    }
    case OPEN_GATE: {
        struct cells *log = &w->inode[part[1]].seen;
        int n = 0;
        while (log->gate[n] == 1) n++;
        log->gate[n] = 1;
        w->trying = part[2];
        break;
    }
    case SYNC_LOG:
        if (!w->inode[part[0]].is_broken) w->inode[part[0]].disk = w->inode[part[0]].seen;
        break;
    case MAKE_FILE:
        if (part[0] == SAVE) w->trying = part[3];
        return make_file(w, p, image_for(w, call), answered);
    case RENAME_FILE: name_file(w, part[0] + 1); break;
    default: break;
    }
    return true;
}

/* ---- each state once */

enum { SLOTS = 1 << 27 };
static uint64_t *seen;

static bool is_new(const struct world *w) {
    const uint8_t *bytes = (const uint8_t *)w;
    uint64_t hash = 0xcbf29ce484222325;
    for (size_t i = 0; i < sizeof *w; i++) hash = (hash ^ bytes[i]) * 0x100000001b3;
    if (!hash) hash = 1;
    uint64_t at = hash % SLOTS;
    while (seen[at]) {
        if (seen[at] == hash) return false;
        at = (at + 1) % SLOTS;
    }
    seen[at] = hash;
    return true;
}

static void wrong(const struct world *w, const char *what, int depth) {
    printf("WRONG: %s. An opening finds %d; answered last: %d; without an answer: %d. After %llu states, by these %d events:\n",
           what, found(w), w->promised, w->trying, (unsigned long long)states, depth);
    for (int i = 0; i < depth; i++) printf("  %s\n", trail[i]);
    exit(1);
}

static bool is_safe(const struct world *w) {
    int image = found(w);
    return w->promised == 0 || image == w->promised || (w->trying && image == w->trying);
}

static void explore(const struct world *w, int depth);

/* ---- power cuts */

static void end_reading(struct world *w) { memset(&w->reader, 0, sizeof w->reader), w->found_since = 0; }

static void after_cut(const struct world *left, int depth) {
    struct world w = *left;
    cut_states++;
    if (!is_safe(&w)) wrong(&w, "after a power cut", depth);
    if (w.cuts == 0) return;
    w.cuts--;
    for (int i = 0; i < w.count; i++) w.inode[i].owner = w.inode[i].is_broken = 0, w.inode[i].disk = w.inode[i].seen;
    for (int p = 0; p < processes; p++) w.process[p].state = made(ENDED, zero, zero, zero, zero), w.process[p].image = 0;
    sync_names(&w);
    end_reading(&w);
    snprintf(trail[depth], sizeof trail[0], "the power fails: FILE %d, FILE-log %d", w.file - 1, w.log - 1);
    explore(&w, depth + 1);
}

/* Tries each state of the cells of the log from `cell` on: as it is seen, as on the disk, and of a body anything. */
static void cut_cells(struct world *w, int cell, int depth) {
    if (!log_of(w) || cell == 2 * RECORDS + 1) { after_cut(w, depth); return; }
    struct inode *log = &w->inode[w->log - 1];
    cut_cells(w, cell + 1, depth);
    if (cell <= RECORDS) {
        uint8_t kept = log->seen.gate[cell];
        if (kept == log->disk.gate[cell]) return;
        log->seen.gate[cell] = log->disk.gate[cell];
        cut_cells(w, cell + 1, depth);
        log->seen.gate[cell] = kept;
        return;
    }
    struct body *body = &log->seen.body[cell - RECORDS - 1], kept = *body, old = log->disk.body[cell - RECORDS - 1];
    if (memcmp(&kept, &old, sizeof kept) == 0) return;
    *body = old;
    cut_cells(w, cell + 1, depth);
    *body = (struct body){ TORN, TORN, TORN };
    cut_cells(w, cell + 1, depth);
    *body = kept;
}

static void cut_power(const struct world *w, int depth) {
    for (int file = 0; file <= w->count; file++)
        for (int log = 0; log <= w->count; log++)
            if ((w->files >> file & 1) && (w->logs >> log & 1)) {
                struct world left = *w;
                left.file = (uint8_t)file, left.log = (uint8_t)log;
                cut_cells(&left, 0, depth);
            }
}

/* ---- a reader, which reads the log in pieces */

enum { IDLE_READER, OPENS_FILE, OPENS_LOG, READS, LOOKS = READS + 2 * RECORDS + 1 };

static void read_again(struct world *w) {
    uint8_t tries = w->reader.tries;
    memset(&w->reader, 0, sizeof w->reader);
    if (tries == 0) { end_reading(w); return; }
    w->reader.tries = (uint8_t)(tries - 1), w->reader.step = OPENS_FILE;
}

/* Returns false if the reader returns an image that an opening did not find since it began. */
static bool read_on(struct world *w) {
    struct reader *r = &w->reader;
    switch (r->step) {
    case OPENS_FILE:
        if (!w->file) { end_reading(w); break; }
        r->file = w->file, r->step = OPENS_LOG;
        break;
    case OPENS_LOG:
        r->log = log_of(w) ? w->log : 0;
        r->step = r->log ? READS : LOOKS;
        break;
    case LOOKS: {
        int image = w->inode[r->file - 1].image;
        if (r->log) image = image_with(image, &r->cells);
        if ((w->file != r->file && !careless) || image == 0) { read_again(w); break; }
        bool is_right = w->found_since >> image & 1;
        returned++;
        end_reading(w);
        return is_right;
    }
    default: {
        const struct cells *log = &w->inode[r->log - 1].seen;
        int cell = r->step - READS;
        if (cell % 2 == 0) r->cells.gate[cell / 2] = log->gate[cell / 2];
        else r->cells.body[cell / 2] = log->body[cell / 2];
        r->step++;
    }
    }
    return true;
}

/* ---- events */

/* What a caller is answered by a call that was done. */
static void tell(struct world *w, int p, const struct value *state, const struct value *answered) {
    int image = 0;
    if (answered->kind != DONE) return;
    switch (state->kind) {
    case SYNCING_NAME:
    case SYNCING_FIRST:
    case SYNCING_END: image = w->inode[state->part[0]].image; break;
    case SYNCING_LOG: image = found(w); break;
    case SYNCING_GATE: image = w->process[p].image; break;
    case SYNCING_RENAME:
        if (state->part[3] != SAVE) return;
        image = w->inode[state->part[2]].image;
        break;
    default: return;
    }
    w->promised = (uint8_t)image, w->trying = 0;
}

enum how { WORKS, FAILS, FAILS_DONE };
static const char *const hows[] = { "", " fails", " fails, and was done" };

static void step(const struct world *before, int p, enum how how, int depth) {
    struct world w = *before;
    struct value state = w.process[p].state, call = call_of(state), answered;
    if (how == FAILS) {
        if (call.kind == SYNC_LOG) w.inode[call.part[0]].is_broken = 1;
    } else if (!make_call(&w, p, &call, &answered)) {
        small++;
        return;
    }
    if (how != WORKS) w.fails--, answered = answer(FAILED, 0, 0);
    tell(&w, p, &state, &answered);
    w.process[p].state = after_answer(state, answered);
    snprintf(trail[depth], sizeof trail[0], "%d: %s: %s%s", p, state_names[state.kind], call_names[call.kind], hows[how]);
    explore(&w, depth + 1);
}

static void ask(const struct world *before, int p, int request, int image, const char *word, int depth) {
    struct world w = *before;
    struct value state = w.process[p].state;
    struct value next = after_request(state, made(request, number(image), zero, zero, zero));
    if (memcmp(&next, &state, sizeof state) == 0) return;
    if (request == COMMIT) w.commits--, w.process[p].image = (uint8_t)image;
    if (request == ASKED_TO_SAVE) w.saves--;
    if (request == ASKED_FOR_CHECKPOINT) w.checkpoints--;
    if ((request == COMMIT || request == ASKED_TO_SAVE) && image > w.images) w.images = (uint8_t)image;
    w.process[p].state = next;
    snprintf(trail[depth], sizeof trail[0], "%d: is asked to %s %d", p, word, image);
    explore(&w, depth + 1);
}

static void ask_all(const struct world *w, int p, int depth) {
    ask(w, p, BEGIN, 0, "begin a log", depth);
    if (w->commits && values == 0) ask(w, p, COMMIT, w->images + 1, "commit", depth);
    for (int image = 1; w->commits && image <= values; image++)
        if (image != found(w)) ask(w, p, COMMIT, image, "commit", depth);
    if (w->saves) ask(w, p, ASKED_TO_SAVE, w->images + 1, "save", depth);
    if (w->checkpoints) ask(w, p, ASKED_FOR_CHECKPOINT, 0, "make a checkpoint", depth);
    ask(w, p, ASKED_TO_MEND, 0, "mend", depth);
    ask(w, p, SYNC_AGAIN, 0, "sync again", depth);
    ask(w, p, ASKED_TO_CLOSE, 0, "close", depth);
}

static void end_process(const struct world *before, int p, int depth) {
    struct world w = *before;
    for (int i = 0; i < w.count; i++)
        if (w.inode[i].owner == p + 1) w.inode[i].owner = 0;
    snprintf(trail[depth], sizeof trail[0], "%d: is killed in %s", p, state_names[w.process[p].state.kind]);
    w.process[p].state = made(ENDED, zero, zero, zero, zero), w.process[p].image = 0;
    explore(&w, depth + 1);
}

static void begin_session(const struct world *before, int p, int depth) {
    struct world w = *before;
    w.process[p].state = made(SEEKING, zero, zero, zero, zero);
    w.process[p].sessions--;
    snprintf(trail[depth], sizeof trail[0], "%d: begins", p);
    explore(&w, depth + 1);
}

static void process_events(const struct world *w, int p, int depth) {
    const struct process *me = &w->process[p];
    if (me->state.kind == ENDED) {
        if (me->sessions) begin_session(w, p, depth);
        return;
    }
    end_process(w, p, depth);
    if (call_of(me->state).kind == NOTHING) {
        ask_all(w, p, depth);
        return;
    }
    step(w, p, WORKS, depth);
    if (w->fails) step(w, p, FAILS, depth), step(w, p, FAILS_DONE, depth);
}

/* Somebody removes FILE, whose lock nobody has; or, where FILE does not exist, the log. */
static void remove_name(const struct world *before, bool is_log, int depth) {
    struct world w = *before;
    w.removals--;
    if (is_log) name_log(&w, 0);
    else name_file(&w, 0), w.promised = w.trying = 0;
    snprintf(trail[depth], sizeof trail[0], "somebody removes %s", is_log ? "FILE-log" : "FILE");
    explore(&w, depth + 1);
}

/* Where FILE does not exist, a file that is not a log gets the log's name. */
static void put_stranger(const struct world *before, int depth) {
    struct world w = *before;
    int made_at = new_inode(&w, false, 0, 0);
    if (made_at < 0) return;
    w.removals--;
    name_log(&w, made_at + 1);
    snprintf(trail[depth], sizeof trail[0], "somebody makes a file FILE-log");
    explore(&w, depth + 1);
}

static void strangers(const struct world *w, int depth) {
    if (w->file && !w->inode[w->file - 1].owner) remove_name(w, false, depth);
    if (!w->file && w->log) remove_name(w, true, depth);
    if (!w->file && !w->log) put_stranger(w, depth);
}

/* What is read of a log whose sync failed falls back to what the disk has. */
static void fall_back(const struct world *before, int i, int depth) {
    struct world w = *before;
    w.inode[i].seen = w.inode[i].disk;
    snprintf(trail[depth], sizeof trail[0], "the log %d falls back", i);
    explore(&w, depth + 1);
}

static void reader_events(const struct world *w, int depth) {
    struct world next = *w;
    if (w->reader.step != IDLE_READER) {
        snprintf(trail[depth], sizeof trail[0], "reader: step %d", w->reader.step);
        if (!read_on(&next)) wrong(w, "a reader returns an image that no opening found meanwhile", depth + 1);
        explore(&next, depth + 1);
    } else if (w->readings && w->file) {
        next.readings--, next.found_since = 0;
        next.reader.step = OPENS_FILE, next.reader.tries = 1;
        snprintf(trail[depth], sizeof trail[0], "a reader begins");
        explore(&next, depth + 1);
    }
}

static bool is_writer(const struct value *state) {
    return (state->kind >= NAMED && state->kind <= CLOSING);
}

static void explore(const struct world *now, int depth) {
    struct world w = *now;
    int image = found(&w), writers = 0;
    if (w.reader.step != IDLE_READER && image > 0) w.found_since |= (uint16_t)(1 << image);
    if (!is_new(&w)) return;
    if (++states > (uint64_t)most * 1000000 || depth > 590) { puts("too many states"); exit(2); }
    if (!is_safe(&w)) wrong(&w, "all processes are killed", depth);
    for (int p = 0; p < processes; p++) writers += is_writer(&w.process[p].state);
    if (writers > 1) wrong(&w, "two sessions hold FILE", depth);
    cut_power(&w, depth);
    for (int p = 0; p < processes; p++) process_events(&w, p, depth);
    for (int i = 0; i < w.count; i++)
        if (w.inode[i].is_broken && memcmp(&w.inode[i].seen, &w.inode[i].disk, sizeof w.inode[i].seen) != 0) fall_back(&w, i, depth);
    if (w.removals) strangers(&w, depth);
    reader_events(&w, depth);
}

static void set(struct world *w, const char *word) {
    const char *value = strchr(word, '=');
    int to = value ? atoi(value + 1) : 0;
    struct { const char *name; int *number; uint8_t *part; } all[] = {
        { "processes", &processes, 0 }, { "sessions", &sessions, 0 }, { "values", &values, 0 }, { "most", &most, 0 }, { "careless", &careless, 0 },
        { "commits", 0, &w->commits }, { "saves", 0, &w->saves }, { "checkpoints", 0, &w->checkpoints }, { "fails", 0, &w->fails },
        { "cuts", 0, &w->cuts }, { "removals", 0, &w->removals }, { "readings", 0, &w->readings },
    };
    for (size_t i = 0; i < sizeof all / sizeof *all; i++)
        if (value && strncmp(word, all[i].name, (size_t)(value - word)) == 0) {
            if (all[i].number) *all[i].number = to;
            else *all[i].part = (uint8_t)to;
            return;
        }
    fprintf(stderr, "explore: %s is not known\n", word);
    exit(3);
}

int main(int count, char **words) {
    struct world w;
    memset(&w, 0, sizeof w);
    w.files = w.logs = 1;
    for (int i = 1; i < count; i++) set(&w, words[i]);
    for (int p = 0; p < processes; p++) w.process[p].state = made(ENDED, zero, zero, zero, zero), w.process[p].sessions = (uint8_t)sessions;
    seen = calloc(SLOTS, sizeof *seen);
    if (!seen) return 3;
    explore(&w, 0);
    printf("%llu states, %llu left by power cuts, %llu readings, %llu ends where the world is too small: 0 wrong, %.1f s\n",
           (unsigned long long)states, (unsigned long long)cut_states, (unsigned long long)returned, (unsigned long long)small,
           (double)clock() / CLOCKS_PER_SEC);
    return 0;
}
