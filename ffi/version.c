/* The version of the library, which is not proved: ffi/build compiles it into both libraries. */
#include "bogzhami.h"

const char *bogzhami_version(void) {
    return BOGZHAMI_VERSION;
}
