/* Powers, quotients and primes of large numbers.
 *
 * package: libtommath
 * sources: bn_*.c
 * without: bn_s_mp_rand_platform.c bn_mp_fread.c bn_mp_fwrite.c
 * joined: yes
 * flags: -I ROOT
 */
#include "real.h"
#include <tommath.h>

static char digits[700];

/* Numbers that are the same in each run. */
mp_err s_mp_rand_platform(void *bytes, size_t count)
{
    static unsigned state = 1;
    unsigned char *byte = bytes;

    while (count--)
        *byte++ = (state = state * 1103515245u + 12345u) >> 16;
    return MP_OKAY;
}

static void one(const char *name, mp_int *number)
{
    size_t written;

    show(name, mp_to_radix(number, digits, sizeof digits, &written, 10));
    show("digits", sum_of(digits, strlen(digits)));
}

void drive(void)
{
    mp_int a, b, c, d;
    mp_bool prime;

    mp_init_multi(&a, &b, &c, &d, NULL);
    show("read", mp_read_radix(&a, "123456789012345678901234567890123456789", 10));
    mp_read_radix(&b, "fedcba98765432100123456789abcdef01234567", 16);
    mp_2expt(&c, 521);
    mp_sub_d(&c, 1, &c);
    mp_exptmod(&a, &b, &c, &d);
    one("exptmod", &d);
    mp_mul(&a, &b, &d);
    one("mul", &d);
    mp_div(&c, &a, &d, &b);
    one("div", &d);
    one("mod", &b);
    mp_gcd(&c, &a, &d);
    one("gcd", &d);
    mp_read_radix(&a, "170141183460469231731687303715884105727", 10);
    show("prime", mp_prime_is_prime(&a, 8, &prime));
    show("is", prime);
    mp_clear_multi(&a, &b, &c, &d, NULL);
}
