/* The library's own self tests.
 *
 * package: mbedtls
 * sources: library/aes.c library/md5.c library/sha1.c library/sha256.c library/sha512.c library/base64.c library/des.c library/camellia.c library/chacha20.c library/poly1305.c library/chachapoly.c library/xtea.c library/ripemd160.c library/arc4.c library/bignum.c library/platform_util.c library/constant_time.c library/md.c
 * flags: -I ROOT/include -I ROOT/library -UMBEDTLS_HAVE_ASM
 */
#include "real.h"
#include <mbedtls/aes.h>
#include <mbedtls/base64.h>
#include <mbedtls/bignum.h>
#include <mbedtls/camellia.h>
#include <mbedtls/chacha20.h>
#include <mbedtls/chachapoly.h>
#include <mbedtls/des.h>
#include <mbedtls/md5.h>
#include <mbedtls/poly1305.h>
#include <mbedtls/ripemd160.h>
#include <mbedtls/sha1.h>
#include <mbedtls/sha256.h>
#include <mbedtls/xtea.h>

void drive(void)
{
    unsigned char digest[32];
    static const unsigned char text[] = "the board's text";

    show("aes", mbedtls_aes_self_test(0));
    show("base64", mbedtls_base64_self_test(0));
    show("bignum", mbedtls_mpi_self_test(0));
    show("camellia", mbedtls_camellia_self_test(0));
    show("chacha20", mbedtls_chacha20_self_test(0));
    show("chachapoly", mbedtls_chachapoly_self_test(0));
    show("des", mbedtls_des_self_test(0));
    show("md5", mbedtls_md5_self_test(0));
    show("poly1305", mbedtls_poly1305_self_test(0));
    show("ripemd160", mbedtls_ripemd160_self_test(0));
    show("xtea", mbedtls_xtea_self_test(0));
    show("sha256", mbedtls_sha256_ret(text, sizeof text, digest, 0));
    show("digest", sum_of(digest, sizeof digest));
}
