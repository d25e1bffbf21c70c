/* Five loops, each a function of how often it goes round, and one function that does nothing. */
typedef unsigned int word;

static word from[1024], to[1024];
static unsigned char bytes[256];
static word cell;

/* What a run takes besides its loop. */
word nothing(word rounds)
{
    return rounds;
}

/* Four instructions: a load, an add, a store and a branch. */
word four(word rounds)
{
    volatile word *at = &cell;
    do
        *at = *at + 1;
    while (--rounds);
    return cell;
}

/* A copy of 1,024 words. */
word copy(word rounds)
{
    do {
        word *source = from, *target = to;
        for (int i = 0; i < 1024; i++)
            target[i] = source[i];
        __asm__ volatile("" ::: "memory");
    } while (--rounds);
    return to[3];
}

/* The CRC-32 of 256 bytes, bit by bit. */
word crc(word rounds)
{
    word sum = ~0u;
    do {
        for (int i = 0; i < 256; i++) {
            sum ^= bytes[i];
            for (int bit = 0; bit < 8; bit++)
                sum = sum & 1 ? (sum >> 1) ^ 0xedb88320u : sum >> 1;
        }
    } while (--rounds);
    return ~sum;
}

static word __attribute__((noinline)) fibonacci(word n)
{
    return n < 2 ? n : fibonacci(n - 1) + fibonacci(n - 2);
}

/* The 16th Fibonacci number, by calls of itself. */
word calls(word rounds)
{
    word sum = 0;
    do
        sum += fibonacci(16);
    while (--rounds);
    return sum;
}

static word __attribute__((noinline)) one_of_eight(word x)
{
    switch (x & 7) {
    case 0: return x + 3;
    case 1: return x ^ 0x55;
    case 2: return x * 5;
    case 3: return x >> 2;
    case 4: return ~x;
    case 5: return x - 9;
    case 6: return x / 3;
    default: return x << 1;
    }
}

/* 256 branches by a table, to one of eight places each. */
word branches(word rounds)
{
    word x = 12345;
    rounds *= 256;
    do {
        x = x * 1103515245u + 12345u;
        x += one_of_eight(x >> 16);
    } while (--rounds);
    return x;
}
