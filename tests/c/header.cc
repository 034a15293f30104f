// The header is read by C++ too.
#include "lamipeonga.h"

// the versions can be asked by the preprocessor
#if LAMIPEONGA_VERSION_MAJOR < 1 || !defined LAMIPEONGA_VERSION_MINOR || LAMIPEONGA_FORMAT_VERSION != 1
#error "a version is missing"
#endif

uint32_t header_in_cxx(uint8_t *ring)
{
    return lamipeonga_create(ring, LAMIPEONGA_RING_BYTES(LAMIPEONGA_LEAST_CAPACITY), 3);
}
