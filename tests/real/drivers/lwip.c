/* Checksums of the Internet protocols, at each alignment.
 *
 * package: lwip
 * sources: src/core/inet_chksum.c src/core/def.c
 * flags: -I ROOT/src/include -I HERE/lwip
 */
#include "real.h"
#include <lwip/def.h>
#include <lwip/inet_chksum.h>

static char text[1500];

void drive(void)
{
    int at;

    write_text(text, sizeof text);
    for (at = 0; at < 5; at++) {
        show("even", inet_chksum(text + at, 1400));
        show("odd", inet_chksum(text + at, 1401));
        show("header", inet_chksum(text + at, 20));
    }
    show("htonl", lwip_htonl(0x12345678));
    show("htons", lwip_htons(0x1234));
    show("stricmp", lwip_stricmp("Board", "bOARD"));
}
