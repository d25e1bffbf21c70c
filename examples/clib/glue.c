/* What the C library asks of a system, where the kernel of the board has it or there is nothing to do: the error number, the
 * locks and the locale of streams, and blocks of memory beside malloc and free. */

#include <errno.h>
#include <locale.h>
#include <stdlib.h>
#include <string.h>
#include <wchar.h>

static int last_error;

int *__errno_location(void)
{
    return &last_error;
}

/* Its name inside musl. */
int *___errno_location(void)
{
    return &last_error;
}

/* One locale, "C", in which a character is a byte. */
int wctomb(char *bytes, wchar_t character)
{
    if (bytes)
        *bytes = (char)character;
    return bytes != 0;
}

size_t mbrtowc(wchar_t *character, const char *bytes, size_t count, mbstate_t *state)
{
    (void)state;
    if (!bytes || count == 0)
        return bytes ? (size_t)-2 : 0;
    if (character)
        *character = (unsigned char)*bytes;
    return *bytes != 0;
}

int mbsinit(const mbstate_t *state)
{
    (void)state;
    return 1;
}

struct lconv *localeconv(void)
{
    static struct lconv conventions = {.decimal_point = "."};

    return &conventions;
}

int strcoll(const char *left, const char *right)
{
    return strcmp(left, right);
}

char *strerror(int number)
{
    (void)number;
    return "error";
}

/* Streams are strings alone, which nobody else uses. */
int __lockfile(void *stream)
{
    (void)stream;
    return 0;
}

void __unlockfile(void *stream)
{
    (void)stream;
}

void __stdio_exit_needed(void)
{
}

/* musl's setjmp asks the system for the kind of the unit for floating point; this one saves what the board has: the link
 * register, the stack pointer, the condition register, and r13 to r31. */
__asm__(".globl setjmp, _setjmp, longjmp, _longjmp\n"
        "setjmp: _setjmp:\n"
        " mflr 0\n stw 0, 0(3)\n stw 1, 4(3)\n mfcr 0\n stw 0, 8(3)\n stmw 13, 12(3)\n li 3, 0\n blr\n"
        "longjmp: _longjmp:\n"
        " lwz 0, 0(3)\n mtlr 0\n lwz 1, 4(3)\n lwz 0, 8(3)\n mtcr 0\n lmw 13, 12(3)\n"
        " cmpwi 4, 0\n mr 3, 4\n bnelr\n li 3, 1\n blr\n");

/* The end of a program: its task is suspended where it stands, by an instruction that no processor has. */
_Noreturn void abort(void)
{
    for (;;)
        __asm__ volatile(".long 0");
}

void *calloc(size_t count, size_t size)
{
    void *block = size && count > (size_t)-1 / size ? 0 : malloc(count * size);

    return block ? memset(block, 0, count * size) : 0;
}

/* The kernel does not tell the size of a block, so this copies as many bytes as the new one has. What it copies beyond the
 * old block is never read, and lies in RAM unless memory is full to its end. */
void *realloc(void *old, size_t size)
{
    void *block = malloc(size);

    if (block && old) {
        memcpy(block, old, size);
        free(old);
    }
    return block;
}
