/* What lwip asks of a compiler and a processor. */
#include <stdlib.h>
#define BYTE_ORDER BIG_ENDIAN
#define LWIP_NO_UNISTD_H 1
#define LWIP_PLATFORM_DIAG(x)
#define LWIP_PLATFORM_ASSERT(x)
