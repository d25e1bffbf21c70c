/* What newlib's strings take from its ctype: a type. */
#include <wchar.h>
