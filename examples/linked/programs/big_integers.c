/* Natural numbers of many digits: sums, products, powers, factorials, and their decimal digits. */

#include "show.h"

#define LIMBS 24

/* The lowest limb first. */
typedef struct {
    u32 limb[LIMBS];
} big;

static big of_small(u32 number)
{
    big result = {{number}};
    return result;
}

static big sum_of(const big *a, const big *b)
{
    big result;
    u64 carry = 0;
    for (int i = 0; i < LIMBS; i++) {
        carry += (u64)a->limb[i] + b->limb[i];
        result.limb[i] = (u32)carry;
        carry >>= 32;
    }
    return result;
}

static big product_of(const big *a, const big *b)
{
    big result = {{0}};
    for (int i = 0; i < LIMBS; i++) {
        u64 carry = 0;
        for (int k = 0; i + k < LIMBS; k++) {
            carry += (u64)a->limb[i] * b->limb[k] + result.limb[i + k];
            result.limb[i + k] = (u32)carry;
            carry >>= 32;
        }
    }
    return result;
}

/* Divides by a small number, and gives the remainder. */
static u32 divide(big *a, u32 by)
{
    u64 rest = 0;
    for (int i = LIMBS; i-- > 0;) {
        rest = rest << 32 | a->limb[i];
        a->limb[i] = (u32)(rest / by);
        rest %= by;
    }
    return (u32)rest;
}

static int is_zero(const big *a)
{
    for (int i = 0; i < LIMBS; i++)
        if (a->limb[i])
            return 0;
    return 1;
}

static void show_big(const char *name, big number)
{
    u32 groups[LIMBS * 32 / 29 + 1];
    int count = 0;
    do
        groups[count++] = divide(&number, 1000000000);
    while (!is_zero(&number));
    show_text(name);
    show_byte(' ');
    show_unsigned(groups[--count]);
    while (count-- > 0)
        for (u32 unit = 100000000; unit; unit /= 10)
            show_byte((u8)('0' + groups[count] / unit % 10));
    show_line();
}

static big power_of(u32 base, u32 exponent)
{
    big result = of_small(1), square = of_small(base);
    for (; exponent; exponent /= 2) {
        if (exponent % 2)
            result = product_of(&result, &square);
        square = product_of(&square, &square);
    }
    return result;
}

PROGRAM
{
    big factorial = of_small(1), one = of_small(0), other = of_small(1);
    for (u32 i = 2; i <= 60; i++) {
        big factor = of_small(i);
        factorial = product_of(&factorial, &factor);
    }
    show_big("60!", factorial);
    for (int i = 0; i < 300; i++) {
        big next = sum_of(&one, &other);
        one = other;
        other = next;
    }
    show_big("the 300th sum", one);
    show_big("7^211", power_of(7, 211));
    show_big("2^767", power_of(2, 767));
    show_named("60! modulo 1000003", divide(&factorial, 1000003));
    show_big("and its quotient", factorial);
}
