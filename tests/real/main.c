/* The reference: the driver with the C library of the compiler. */
#include "real.h"

int main(void)
{
    use_all();
    drive();
    return 0;
}
