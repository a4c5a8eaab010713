// The part of the library for C that isn't of the proved sources: tools/library compiles it, and puts it into the archive.
#include "lwkt.h"

const char *lwkt_version(void) {
    return LWKT_VERSION;
}
