/* newlib's sort asks for this header, which musl hasn't. */
#ifndef WINDPLAY
#include_next <sys/cdefs.h>
#endif
