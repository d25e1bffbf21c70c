/* symLib.h: symbols (Reference Manual, symLib). */
#ifndef SYM_LIB_H
#define SYM_LIB_H

#include "vxWorks.h"
#include "objLib.h"

typedef struct symtab *SYMTAB_ID;
typedef unsigned char SYM_TYPE;

/* The board has one table. */
#define sysSymTbl ((SYMTAB_ID)0)

/* Types of symbols; the values are the board's. Each symbol that symAdd adds is global. */
#define SYM_GLOBAL 0
#define SYM_TEXT 1
#define SYM_DATA 2
#define SYM_BSS 3
#define SYM_ABS 4

/* Error numbers that only the board has. */
#define S_wind_SYMBOLS_FULL 0x1c0001
#define S_wind_BAD_KIND 0x1c0002

#ifdef __cplusplus
extern "C" {
#endif

/* The group is ignored. */
STATUS symAdd(SYMTAB_ID symTblId, const char *name, char *value, SYM_TYPE type, UINT16 group);

#ifdef __cplusplus
}
#endif

#endif
