/* A calculator: its tokens by a table of states, its operations by a switch and by a table of functions. */

#include "show.h"

typedef i64 operation(i64 a, i64 b);

static i64 add(i64 a, i64 b) { return a + b; }
static i64 subtract(i64 a, i64 b) { return a - b; }
static i64 multiply(i64 a, i64 b) { return a * b; }
static i64 divide(i64 a, i64 b) { return b ? a / b : 0; }
static i64 rest(i64 a, i64 b) { return b ? a % b : 0; }
static i64 conjoin(i64 a, i64 b) { return a & b; }
static i64 disjoin(i64 a, i64 b) { return a | b; }
static i64 shift(i64 a, i64 b) { return (i64)((u64)a << (b & 63)); }

static operation *const operations[] = {add, subtract, multiply, divide, rest, conjoin, disjoin, shift};

static int number_of(u8 sign)
{
    switch (sign) {
    case '+': return 0;
    case '-': return 1;
    case '*': return 2;
    case '/': return 3;
    case '%': return 4;
    case '&': return 5;
    case '|': return 6;
    case '<': return 7;
    default: return -1;
    }
}

static int strength_of(int number)
{
    switch (number) {
    case 0: case 1: return 4;
    case 2: case 3: case 4: return 5;
    case 7: return 3;
    case 5: return 2;
    case 6: return 1;
    default: return 0;
    }
}

static const char *at;

static i64 value(int strength);

static i64 atom(void)
{
    i64 sum = 0;
    switch (*at) {
    case '(':
        at++;
        sum = value(1);
        at++;
        return sum;
    case '-':
        at++;
        return -atom();
    case '~':
        at++;
        return ~atom();
    default:
        while (*at >= '0' && *at <= '9')
            sum = sum * 10 + *at++ - '0';
        return sum;
    }
}

static i64 value(int strength)
{
    i64 left = atom();
    for (;;) {
        int number = number_of((u8)*at), own = strength_of(number);
        if (number < 0 || own < strength)
            return left;
        at++;
        left = operations[number](left, value(own + 1));
    }
}

/* The kinds of tokens of a text: 0 a blank, 1 a number, 2 a name, 3 another sign. */
static const u8 next_state[4][4] = {{0, 1, 2, 3}, {0, 1, 2, 3}, {0, 2, 2, 3}, {0, 1, 2, 3}};

static int kind_of(u8 byte)
{
    switch (byte >> 4) {
    case 0: case 1: case 2:
        return byte == ' ' ? 0 : 3;
    case 3:
        return byte <= '9' ? 1 : 3;
    case 4: case 5: case 6: case 7:
        return (byte & 31) - 1u < 26 ? 2 : 3;
    default:
        return 3;
    }
}

static void count_tokens(const char *text)
{
    int counts[4] = {0}, state = 0;
    for (; *text; text++) {
        int next = next_state[state][kind_of((u8)*text)];
        if (next != state || next == 3)
            counts[next]++;
        state = next;
    }
    for (int i = 0; i < 4; i++) {
        show_signed(counts[i]);
        show_byte(i < 3 ? ' ' : '\n');
    }
}

static void calculate(const char *text)
{
    at = text;
    show_text(text);
    show_text(" = ");
    show_signed(value(1));
    show_line();
}

PROGRAM
{
    calculate("1+2*3");
    calculate("(1+2)*3-10/4");
    calculate("-7%4+-7/4");
    calculate("1<40|255&1023<3");
    calculate("~5*(3-8)-9000000000%7");
    calculate("5/(2-2)+((((8))))");
    count_tokens("the 2nd of 3 tokens: x1+22*y (a b) ~7");
    count_tokens("");
}
