/* Normal forms and case of a text.
 *
 * package: utf8proc
 * sources: utf8proc.c
 * flags: -DUTF8PROC_STATIC -I ROOT
 */
#include "real.h"
#include <utf8proc.h>

static void one(const char *name, utf8proc_uint8_t *text)
{
    show(name, sum_of(text, strlen((char *)text)));
    free(text);
}

void drive(void)
{
    static const utf8proc_uint8_t text[] = "\303\205ngstr\303\266m \357\254\201n \343\201\213\343\202\231 \341\272\236";

    one("NFC", utf8proc_NFC(text));
    one("NFD", utf8proc_NFD(text));
    one("NFKC", utf8proc_NFKC(text));
    one("NFKD", utf8proc_NFKD(text));
    one("fold", utf8proc_NFKC_Casefold(text));
    show("upper", utf8proc_toupper(0xe9));
    show("width", utf8proc_charwidth(0x3042));
    show("category", utf8proc_category(0x1f600));
}
