/* Two units of one program, compiled with SECOND and without. The functions that zaluxhoni.h defines are the same in
   both: inline functions of zaluxhoni.hpp, which a program has once, call them. */
#include "zaluxhoni.hpp"

#include <cstdio>

const void *function_of_second();
const void *bytes_of_second();

#ifdef SECOND
const void *function_of_second() { return reinterpret_cast<const void *>(&zx_push_text); }
const void *bytes_of_second() { return zx_no_bytes(); }
#else
int main() {
    const bool is_one_function = function_of_second() == reinterpret_cast<const void *>(&zx_push_text);
    const bool is_one = is_one_function && bytes_of_second() == zx_no_bytes();
    std::puts(is_one ? "two_units.cpp: one function" : "two_units.cpp: WRONG, each unit has a function of its own");
    return is_one ? 0 : 1;
}
#endif
