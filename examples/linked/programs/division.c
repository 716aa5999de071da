/* Quotients and remainders of every width, divisors, powers, roots, and products of 128 bits. */

#include "show.h"

static u64 common_divisor(u64 a, u64 b)
{
    while (b) {
        u64 rest = a % b;
        a = b;
        b = rest;
    }
    return a;
}

static u64 root_of(u64 number)
{
    if (number < 2)
        return number;
    u64 guess = 1UL << (33 - __builtin_clzl(number) / 2);
    for (;;) {
        u64 next = (guess + number / guess) / 2;
        if (next >= guess)
            return guess;
        guess = next;
    }
}

/* The high half of a product, and by halves of words. */
static u64 high_product(u64 a, u64 b)
{
    return (u64)((unsigned __int128)a * b >> 64);
}

static u64 high_product_by_halves(u64 a, u64 b)
{
    u64 low = (u32)a * (u64)(u32)b, one = (a >> 32) * (u32)b, other = (u32)a * (b >> 32);
    u64 middle = (low >> 32) + (u32)one + (u32)other;
    return (a >> 32) * (b >> 32) + (one >> 32) + (other >> 32) + (middle >> 32);
}

/* The quotient of 128 bits by 64, bit by bit. */
static u64 long_quotient(u64 high, u64 low, u64 by)
{
    for (int i = 0; i < 64; i++) {
        u64 top = high >> 63;
        high = high << 1 | low >> 63;
        low <<= 1;
        if (top || high >= by) {
            high -= by;
            low |= 1;
        }
    }
    return low;
}

static void show_quotients(i64 a, i64 b)
{
    i32 a32 = (i32)a, b32 = (i32)b;
    if (b32 == 0 || (a32 == -a32 && a32 && b32 == -1))
        b32 = 3;
    show_signed(a / b);
    show_byte(' ');
    show_signed(a % b);
    show_byte(' ');
    show_unsigned((u64)a / (u64)b);
    show_byte(' ');
    show_unsigned((u64)a % (u64)b);
    show_byte(' ');
    show_signed(a32 / b32);
    show_byte(' ');
    show_signed(a32 % b32);
    show_byte(' ');
    show_unsigned((u32)a32 / (u32)b32);
    show_byte(' ');
    show_unsigned((u32)a32 % (u32)b32);
    show_byte(' ');
    show_signed(a / 7 + a % 10 + (a32 / -12) + (i16)a / 100 + (i8)a % 11);
    show_line();
}

PROGRAM
{
    u64 state = 7046029254386353131UL;
    for (int i = 0; i < 16; i++) {
        i64 a = (i64)next_number(&state) >> i % 4 * 9, b = (i64)next_number(&state) >> i * 4;
        show_quotients(a, b ? b : 1);
    }
    show_quotients(-(i64)(~0UL >> 1) - 1, 2);
    show_quotients(-1, 5);
    u64 sum = 0;
    for (int i = 0; i < 20; i++) {
        u64 a = next_number(&state), b = next_number(&state);
        sum = sum * 3 + (high_product(a, b) ^ high_product_by_halves(a, b)) + high_product(b, a);
        sum += long_quotient(a % b, a ^ b, b) + common_divisor(a >> 20, b >> 20) + root_of(a);
        sum += (u64)((__int128)(i64)a * (i64)b >> 64);
    }
    show_hex(sum, 16);
    show_line();
    show_named("root", (i64)root_of(1000000007UL * 1000000007UL));
    show_named("divisor", (i64)common_divisor(6469693230UL * 1024, 223092870UL * 1000000));
}
