/* Functions that call themselves and each other. */

#include "show.h"

static u32 ackermann(u32 m, u32 n)
{
    if (m == 0)
        return n + 1;
    return ackermann(m - 1, n == 0 ? 1 : ackermann(m, n - 1));
}

static int moves;
static u8 pegs[3][12];
static int heights[3];

static void move_tower(int height, int from, int to)
{
    if (height == 0)
        return;
    int other = 3 - from - to;
    move_tower(height - 1, from, other);
    pegs[to][heights[to]++] = pegs[from][--heights[from]];
    moves++;
    move_tower(height - 1, other, to);
}

static int queens(int size, int row, u32 columns, u32 left, u32 right)
{
    if (row == size)
        return 1;
    int count = 0;
    for (u32 free = ~(columns | left | right) & ((1u << size) - 1); free; free &= free - 1) {
        u32 bit = free & -free;
        count += queens(size, row + 1, columns | bit, (left | bit) << 1, (right | bit) >> 1);
    }
    return count;
}

static int is_odd(int number);

static int is_even(int number)
{
    return number == 0 ? 1 : is_odd(number - 1);
}

static int is_odd(int number)
{
    return number == 0 ? 0 : is_even(number - 1);
}

static u64 sum_of_orders;

/* All orders of the letters from a place on, in a sum. */
static void permute(u8 *letters, int from, int count)
{
    if (from == count) {
        u64 number = 0;
        for (int i = 0; i < count; i++)
            number = number * 7 + letters[i];
        sum_of_orders = sum_of_orders * 3 + number;
        return;
    }
    for (int i = from; i < count; i++) {
        u8 old = letters[from];
        letters[from] = letters[i];
        letters[i] = old;
        permute(letters, from + 1, count);
        letters[i] = letters[from];
        letters[from] = old;
    }
}

static u64 deep(int depth, u64 a, u64 b, u64 c, u64 d, u64 e, u64 f, u64 g, u64 h, u64 i, u64 k)
{
    if (depth == 0)
        return a + 2 * b + 3 * c + 4 * d + 5 * e + 6 * f + 7 * g + 8 * h + 9 * i + 10 * k;
    return deep(depth - 1, k, a, b + (u64)depth, c, d, e ^ 5, f, g, h, i) + (u64)depth;
}

PROGRAM
{
    show_named("a function that grows", ackermann(2, 40));
    heights[0] = 9;
    for (int i = 0; i < 9; i++)
        pegs[0][i] = (u8)(9 - i);
    move_tower(9, 0, 2);
    show_named("moves", moves);
    show_named("the top", pegs[2][8]);
    show_named("queens", queens(7, 0, 0, 0, 0));
    show_named("is even", is_even(501) * 2 + is_odd(501));
    u8 letters[6] = {1, 2, 3, 4, 5, 6};
    permute(letters, 0, 6);
    show_hex(sum_of_orders, 16);
    show_line();
    show_named("eleven arguments", (i64)deep(57, 1, 2, 3, 4, 5, 6, 7, 8, 9, 10));
}
