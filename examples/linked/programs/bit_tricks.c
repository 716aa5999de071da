/* Counts, orders and permutations of bits, each in two ways. */

#include "show.h"

static int ones_by_loop(u64 x)
{
    int count = 0;
    for (; x; x &= x - 1)
        count++;
    return count;
}

static int ones_by_sums(u64 x)
{
    x -= x >> 1 & 0x5555555555555555UL;
    x = (x & 0x3333333333333333UL) + (x >> 2 & 0x3333333333333333UL);
    x = (x + (x >> 4)) & 0x0f0f0f0f0f0f0f0fUL;
    return (int)(x * 0x0101010101010101UL >> 56);
}

static u64 mirrored(u64 x)
{
    x = (x >> 1 & 0x5555555555555555UL) | (x & 0x5555555555555555UL) << 1;
    x = (x >> 2 & 0x3333333333333333UL) | (x & 0x3333333333333333UL) << 2;
    x = (x >> 4 & 0x0f0f0f0f0f0f0f0fUL) | (x & 0x0f0f0f0f0f0f0f0fUL) << 4;
    return __builtin_bswap64(x);
}

static u64 mirrored_by_loop(u64 x)
{
    u64 result = 0;
    for (int i = 0; i < 64; i++)
        result |= (x >> i & 1) << (63 - i);
    return result;
}

static u64 turned(u64 x, int by)
{
    return x << by | x >> (-by & 63);
}

static u32 turned_word(u32 x, int by)
{
    return x << by | x >> (-by & 31);
}

/* The bits of two numbers, one after the other. */
static u64 interleaved(u32 a, u32 b)
{
    u64 result = 0;
    for (int i = 0; i < 32; i++)
        result |= (u64)(a >> i & 1) << 2 * i | (u64)(b >> i & 1) << (2 * i + 1);
    return result;
}

static u64 from_gray(u64 x)
{
    for (int by = 1; by < 64; by *= 2)
        x ^= x >> by;
    return x;
}

static void show_bits(u64 x)
{
    show_hex(x, 16);
    show_byte(' ');
    show_signed(ones_by_loop(x) - ones_by_sums(x) + __builtin_popcountl(x));
    show_byte(' ');
    show_signed(x ? __builtin_clzl(x) : 64);
    show_byte(' ');
    show_signed(x ? __builtin_ctzl(x) : 64);
    show_byte(' ');
    show_signed((u32)x ? __builtin_clz((u32)x) : 32);
    show_byte(' ');
    show_signed(__builtin_parityl(x));
    show_byte(' ');
    show_hex(mirrored(x) ^ mirrored_by_loop(x) ^ x, 16);
    show_byte(' ');
    show_hex(turned(x, (int)(x & 63)) ^ turned_word((u32)x, (int)(x >> 7 & 31)), 16);
    show_byte(' ');
    show_hex(from_gray(x ^ x >> 1) - x, 1);
    show_line();
}

PROGRAM
{
    u64 state = 1181783497276652981UL;
    show_bits(0);
    show_bits(1);
    show_bits(~0UL);
    show_bits(1UL << 63);
    for (int i = 0; i < 20; i++)
        show_bits(next_number(&state) >> (i & 3) * 17);
    show_hex(interleaved(0x12345678, 0x9abcdef0), 16);
    show_byte(' ');
    show_hex(__builtin_bswap32(0x12345678), 8);
    show_byte(' ');
    show_hex(__builtin_bswap16(0x1234), 4);
    show_line();
}
