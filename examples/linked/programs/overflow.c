/* Sums, differences and products that overflow: found, saturated, carried on; and numbers that change their width. */

#include "show.h"

static i64 saturated_sum(i64 a, i64 b)
{
    i64 result;
    if (!__builtin_add_overflow(a, b, &result))
        return result;
    return a < 0 ? -(i64)(~0UL >> 1) - 1 : (i64)(~0UL >> 1);
}

static i32 saturated_product(i32 a, i32 b)
{
    i32 result;
    if (!__builtin_mul_overflow(a, b, &result))
        return result;
    return (a < 0) != (b < 0) ? (i32)0x80000000 : 0x7fffffff;
}

/* How many of the operations on two numbers overflow, as bits. */
static int overflows(i64 a, i64 b)
{
    i64 wide;
    u64 unsigned_wide;
    i32 word;
    u32 unsigned_word;
    i16 half;
    int bits = __builtin_add_overflow(a, b, &wide);
    bits = bits * 2 + __builtin_sub_overflow(a, b, &wide);
    bits = bits * 2 + __builtin_mul_overflow(a, b, &wide);
    bits = bits * 2 + __builtin_add_overflow((u64)a, (u64)b, &unsigned_wide);
    bits = bits * 2 + __builtin_sub_overflow((u64)a, (u64)b, &unsigned_wide);
    bits = bits * 2 + __builtin_mul_overflow((u64)a, (u64)b, &unsigned_wide);
    bits = bits * 2 + __builtin_add_overflow((i32)a, (i32)b, &word);
    bits = bits * 2 + __builtin_sub_overflow((u32)a, (u32)b, &unsigned_word);
    bits = bits * 2 + __builtin_mul_overflow((i32)a, (i32)b, &word);
    return bits * 2 + __builtin_add_overflow((i16)a, (i16)b, &half);
}

/* A sum of 256 bits, with its carry. */
static int long_sum(u64 result[4], const u64 a[4], const u64 b[4])
{
    int carry = 0;
    for (int i = 0; i < 4; i++) {
        u64 sum = a[i] + b[i];
        int first = sum < a[i];
        result[i] = sum + (u64)carry;
        carry = first | (result[i] < sum);
    }
    return carry;
}

static i64 widths(u64 x)
{
    i64 sum = (i8)x;
    sum = sum * 5 + (i16)x;
    sum = sum * 5 + (i32)x;
    sum = sum * 5 + (u8)(x >> 3);
    sum = sum * 5 + (u16)(x >> 5);
    sum = sum * 5 + (u32)(x >> 7);
    sum = sum * 5 + ((i32)x >> (x >> 59));
    sum = sum * 5 + ((i64)x >> (x >> 58));
    return sum * 5 + (i64)((u32)x >> (x >> 59));
}

static i64 middle_of(i64 a, i64 b, i64 c)
{
    i64 low = a < b ? a : b, high = a < b ? b : a;
    return c < low ? low : c > high ? high : c;
}

PROGRAM
{
    u64 state = 6364136223846793005UL, a[4], b[4], sum[4];
    for (int i = 0; i < 24; i++) {
        i64 x = (i64)next_number(&state) >> i, y = (i64)next_number(&state) >> i * 2;
        show_hex((u64)overflows(x, y), 3);
        show_byte(' ');
        show_signed(saturated_sum(x, y));
        show_byte(' ');
        show_signed(saturated_product((i32)x, (i32)y));
        show_byte(' ');
        show_signed(widths((u64)(x ^ y)));
        show_byte(' ');
        show_signed(middle_of(x, y, x + y));
        show_line();
    }
    for (int i = 0; i < 4; i++) {
        a[i] = next_number(&state) | 1UL << 63;
        b[i] = ~a[i] + (i == 0);
    }
    show_named("carry", long_sum(sum, a, b));
    show_hex(sum[0] | sum[1] | sum[2] | sum[3], 16);
    show_line();
    b[3] -= 1;
    show_named("carry", long_sum(sum, a, b));
    show_hex(sum[3], 16);
    show_line();
}
