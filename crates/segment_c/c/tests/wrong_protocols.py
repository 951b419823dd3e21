"""wrong_protocols.py FOLDER: writes copies of files.c with a protocol that loses commits, one into each folder 0, 1, ..
below FOLDER, and prints their names. crashes.c must find each."""
import os
import shutil
import sys

HERE = os.path.dirname(os.path.dirname(os.path.abspath(__file__)))

WRONG = [
    ("the mark is written before the data is synced", "durable.h",
     "if (sync_log(held->log) && write_gate(held, true, commits->end) && sync_log(held->log)) return ZX_DONE;",
     "if (write_gate(held, true, commits->end) && sync_log(held->log)) return ZX_DONE;"),
    ("a commit is answered before its mark is synced", "durable.h",
     "write_gate(held, true, commits->end) && sync_log(held->log)) return ZX_DONE;",
     "write_gate(held, true, commits->end)) return ZX_DONE;"),
    ("the log is emptied before the new file has its name", "durable.h",
     "    if (code == ZX_DONE) code = replace(file, held, &image);\n    if (code != ZX_DONE) return code;\n    map_committed",
     "    if (code == ZX_DONE) code = empty_log(file, held);\n    if (code == ZX_DONE) code = replace(file, held, &image);\n"
     "    if (code != ZX_DONE) return code;\n    map_committed"),
    ("a record has no shut gate behind it", "durable.h",
     "    if (!write_at(held->log, commits->buffer.bytes, record->len, (off_t)(commits->end + GATE))) return fault(file);",
     "    if (!write_at(held->log, commits->buffer.bytes, record->len - GATE, (off_t)(commits->end + GATE)))\n"
     "        return fault(file);"),
    ("a log that another process left is added to", "durable.h",
     "    if (!commits->is_left) return ZX_DONE;", "    if (commits) return ZX_DONE;"),
    ("a commit behind a failed sync is taken for done", "durable.h",
     "    commits->is_unsure = true;\n    return faulty(file, ZX_FILE_UNSURE, errno);", "    return ZX_DONE;"),
    ("a page that was committed is forgotten", "durable.h",
     "        memcpy(commits->kept[at / PAGE] + at % PAGE, edit + EDIT, len);",
     "        if (at >= PAGE) memcpy(commits->kept[at / PAGE] + at % PAGE, edit + EDIT, len);"),
    ("of a page the first change alone is written", "durable.h",
     "    while (code == ZX_DONE && next_run(old, now, len, &from, &behind)) {",
     "    if (next_run(old, now, len, &from, &behind)) {"),
    ("what a failed commit had to write is forgotten", "durable.h",
     "    commits->is_untold |= !find_written(held, pages, commits->written);",
     "    memset(commits->written, 0, pages);\n    commits->is_untold = !find_written(held, pages, commits->written);"),
    ("what an opening found is taken for synced", "held.h",
     "    if (code != ZX_DONE || held->state == SAVED) return code;", "    if (code != ZX_DONE || held->commits) return code;"),
    ("the pages that a log changed are not kept", "recovered.h",
     "made->end > 0 && !keep_own(held)) code = ZX_NO_MEMORY;", "len == 0) code = ZX_NO_MEMORY;"),
    ("the folder of a new log is not synced", "durable.h",
     "        take_log_made(held);\n        return synced(sync_name(file, held));", "        take_log_made(held);\n        return ZX_DONE;"),
    ("a new log has its name before its gate is synced", "durable.h",
     "           write_at(held->made, gate, sizeof gate, (off_t)end) && sync_one(held->made);",
     "           write_at(held->made, gate, sizeof gate, (off_t)end);"),
]


def main():
    for number, (what, file, old, new) in enumerate(WRONG):
        folder = os.path.join(sys.argv[1], str(number))
        shutil.copytree(os.path.join(HERE, "files"), os.path.join(folder, "files"))
        shutil.copy(os.path.join(HERE, "files.c"), folder)
        path = os.path.join(folder, "files", file)
        with open(path) as it:
            text = it.read()
        if text.count(old) != 1:
            sys.exit(f"{what}: the text is there {text.count(old)} times")
        with open(path, "w") as it:
            it.write(text.replace(old, new))
        print(f"{number} {what}")


main()
