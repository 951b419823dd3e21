"""counted.py NAMES HEADER..: prints a C library with all functions that the headers declare, and writes their names to
the file NAMES. The library forwards each call to the library at the path LIBRARY_BEHIND. When the program ends, it
appends the names of the functions that were called to the file CALLED. Both are environment variables."""
import re
import sys

names, *headers = sys.argv[1:]
text = ""
for header in headers:
    with open(header) as file:
        text += re.sub(r"/\*.*?\*/", "", file.read(), flags=re.DOTALL)
# an inline function that looks for null slices calls a function whose ZX_NAMED is the name in the library
calls = re.findall(r"^(zx_code|void(?: \*)?|bool|u?int(?:32|64)_t|const char \*) ?(zx_\w+)\(([^()]*)\)"
                   r"(?:\s+ZX_NAMED\((\w+)\))?;", text, flags=re.MULTILINE)
print("""#define _GNU_SOURCE
#include "zaluxhoni_files.h"
#include "zaluxhoni_rows.h"
#include <dlfcn.h>
#include <stdio.h>
#include <stdlib.h>

static void *behind(const char *name) {
    static void *library;
    if (!library) library = dlopen(getenv("LIBRARY_BEHIND"), RTLD_NOW | RTLD_LOCAL);
    void *at = library ? dlsym(library, name) : 0;
    if (!at) exit(98);
    return at;
}
""")
for answer, called, parameters, name in calls:
    name = name or called
    passed = ", ".join(re.search(r"(\w+)$", each.strip())[1] for each in parameters.split(",") if each != "void")
    print(f"""static int {name}_called;
{answer} {called}({parameters}) {{
    static {answer} (*call)({parameters});
    if (!call) *(void **)&call = behind("{name}");
    {name}_called = 1;
    {'' if answer == 'void' else 'return '}call({passed});
}}
""")
print("""__attribute__((destructor)) static void tell(void) {
    FILE *file = fopen(getenv("CALLED"), "a");
    if (!file) return;""")
for _, called, _, name in calls:
    name = name or called
    print(f'    if ({name}_called) fputs("{name}\\n", file);')
print("""    fclose(file);
}""")
with open(names, "w") as file:
    file.write("".join(sorted(f"{name or called}\n" for _, called, _, name in calls)))
