/* Matrices of numbers modulo a prime: products, powers, transposes, and determinants by elimination. */

#include "show.h"

#define SIZE 8
#define PRIME 2147483647L

typedef i64 matrix[SIZE][SIZE];

static i64 power_of(i64 base, i64 exponent)
{
    i64 result = 1;
    for (; exponent; exponent >>= 1) {
        if (exponent & 1)
            result = result * base % PRIME;
        base = base * base % PRIME;
    }
    return result;
}

static void multiply(matrix result, matrix a, matrix b)
{
    matrix product;
    for (int i = 0; i < SIZE; i++)
        for (int k = 0; k < SIZE; k++) {
            i64 sum = 0;
            for (int m = 0; m < SIZE; m++)
                sum = (sum + a[i][m] * b[m][k]) % PRIME;
            product[i][k] = sum;
        }
    for (int i = 0; i < SIZE; i++)
        for (int k = 0; k < SIZE; k++)
            result[i][k] = product[i][k];
}

static void transpose(matrix a)
{
    for (int i = 0; i < SIZE; i++)
        for (int k = 0; k < i; k++) {
            i64 old = a[i][k];
            a[i][k] = a[k][i];
            a[k][i] = old;
        }
}

static void swap_rows(matrix a, int one, int other)
{
    for (int k = 0; k < SIZE; k++) {
        i64 old = a[one][k];
        a[one][k] = a[other][k];
        a[other][k] = old;
    }
}

/* Destroys the matrix. */
static i64 determinant_of(matrix a)
{
    i64 result = 1;
    for (int i = 0; i < SIZE; i++) {
        int row = i;
        while (row < SIZE && a[row][i] == 0)
            row++;
        if (row == SIZE)
            return 0;
        if (row != i) {
            swap_rows(a, row, i);
            result = -result;
        }
        result = result * a[i][i] % PRIME;
        i64 inverse = power_of(a[i][i], PRIME - 2);
        for (row = i + 1; row < SIZE; row++) {
            i64 factor = a[row][i] * inverse % PRIME;
            for (int k = i; k < SIZE; k++)
                a[row][k] = (a[row][k] - factor * a[i][k]) % PRIME;
        }
    }
    return (result % PRIME + PRIME) % PRIME;
}

static void fill(matrix a, u64 *state)
{
    for (int i = 0; i < SIZE; i++)
        for (int k = 0; k < SIZE; k++)
            a[i][k] = (i64)(next_number(state) % (u64)PRIME);
}

static void show_trace(const char *name, matrix a)
{
    i64 sum = 0;
    for (int i = 0; i < SIZE; i++)
        sum += a[i][i];
    show_named(name, sum);
}

static matrix one, other, product;

PROGRAM
{
    u64 state = 2685821657736338717UL;
    fill(one, &state);
    fill(other, &state);
    multiply(product, one, other);
    show_trace("trace of a product", product);
    multiply(product, other, one);
    show_trace("and the other way", product);
    transpose(product);
    show_named("a corner", product[0][SIZE - 1]);
    multiply(product, one, one);
    for (int i = 0; i < 5; i++)
        multiply(product, product, product);
    show_trace("trace of a power", product);
    i64 first = determinant_of(one), second = determinant_of(other);
    show_named("a determinant", first);
    show_named("of the power", determinant_of(product));
    show_named("by powers", power_of(first, 64));
    show_named("another", second);
}
