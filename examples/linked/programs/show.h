/* What each program of this folder shows its results with. For this machine a byte is shown by a store to the console; for another system,
   by its library. A program ends with PROGRAM { .. }, which is its main function. */

#ifndef SHOW_H
#define SHOW_H

typedef unsigned char u8;
typedef unsigned short u16;
typedef unsigned int u32;
typedef unsigned long u64;
typedef signed char i8;
typedef short i16;
typedef int i32;
typedef long i64;

void show_all(void);

#ifdef __powerpc64__

static void show_byte(u8 byte)
{
    *(volatile u8 *)0x10000000 = byte;
}

/* Begins the main function of a program. start.s calls show_all, whose store behind the program stops the machine. */
#define PROGRAM                           \
    void show_program(void);              \
    void show_all(void)                   \
    {                                     \
        show_program();                   \
        *(volatile u8 *)0x10001000 = 0;   \
    }                                     \
    void show_program(void)

#else

#include <stdio.h>

static void show_byte(u8 byte)
{
    putchar(byte);
}

#define PROGRAM              \
    void show_program(void); \
    int main(void)           \
    {                        \
        show_program();      \
        return 0;            \
    }                        \
    void show_program(void)

#endif

#define UNUSED __attribute__((unused))

UNUSED static void show_text(const char *text)
{
    while (*text)
        show_byte((u8)*text++);
}

UNUSED static void show_line(void)
{
    show_byte('\n');
}

UNUSED static void show_unsigned(u64 number)
{
    u8 digits[20];
    int count = 0;
    do {
        digits[count++] = (u8)('0' + number % 10);
        number /= 10;
    } while (number);
    while (count)
        show_byte(digits[--count]);
}

UNUSED static void show_signed(i64 number)
{
    if (number < 0)
        show_byte('-');
    show_unsigned(number < 0 ? -(u64)number : (u64)number);
}

UNUSED static void show_hex(u64 number, int digits)
{
    while (digits)
        show_byte((u8)"0123456789abcdef"[number >> 4 * --digits & 15]);
}

/* A name, a space, a number, and a new line. */
UNUSED static void show_named(const char *name, i64 number)
{
    show_text(name);
    show_byte(' ');
    show_signed(number);
    show_line();
}

/* The next of a fixed row of numbers that look random. */
UNUSED static u64 next_number(u64 *state)
{
    u64 x = *state;
    x ^= x << 13;
    x ^= x >> 7;
    x ^= x << 17;
    *state = x;
    return x * 0x2545f4914f6cdd1dUL;
}

#endif
