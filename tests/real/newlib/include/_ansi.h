/* What newlib puts around its functions: nothing, with other headers. */
#define __unused __attribute__((__unused__))
#define _NOINLINE_STATIC static __attribute__((__noinline__))
