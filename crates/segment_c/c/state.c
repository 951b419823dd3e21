/* Which state of the repository the library was built of. `package` says it when it compiles this file. */
#include "zaluxhoni.h"

#ifndef ZX_STATE
#define ZX_STATE "state ----------------, logic ----------------"
#endif

const char *zx_state(void) { return ZX_STATE; }
