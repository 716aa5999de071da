/* A small machine with a stack, and three programs for it. */

#include "show.h"

enum { PUSH, LOAD, STORE, ADD, SUB, MUL, DIV, MOD, LESS, JUMP, UNLESS, SHOW, CALL, BACK, HALT };

static i64 stack[64], variables[16];
static int calls[32];

/* Runs a program, and gives how many instructions it was. */
static int run(const int *code)
{
    i64 *top = stack;
    int at = 0, depth = 0, count = 0;
    for (;;) {
        count++;
        switch (code[at++]) {
        case PUSH: *top++ = code[at++]; break;
        case LOAD: *top++ = variables[code[at++]]; break;
        case STORE: variables[code[at++]] = *--top; break;
        case ADD: top--; top[-1] += top[0]; break;
        case SUB: top--; top[-1] -= top[0]; break;
        case MUL: top--; top[-1] *= top[0]; break;
        case DIV: top--; top[-1] /= top[0]; break;
        case MOD: top--; top[-1] %= top[0]; break;
        case LESS: top--; top[-1] = top[-1] < top[0]; break;
        case JUMP: at = code[at]; break;
        case UNLESS: at = *--top ? at + 1 : code[at]; break;
        case SHOW: show_signed(*--top); show_byte(' '); break;
        case CALL: calls[depth++] = at + 1; at = code[at]; break;
        case BACK: at = calls[--depth]; break;
        default: return count;
        }
    }
}

/* The primes below 100: variable 0 is the number, 1 the divisor. Behind each line stands the place of its first number. */
static const int primes[] = {
    PUSH, 2, STORE, 0,                                /* 0 */
    LOAD, 0, PUSH, 100, LESS, UNLESS, 55,             /* 4 */
    PUSH, 2, STORE, 1,                                /* 11 */
    LOAD, 0, LOAD, 1, LOAD, 1, MUL, LESS, UNLESS, 30, /* 15 */
    LOAD, 0, SHOW, JUMP, 46,                          /* 25 */
    LOAD, 0, LOAD, 1, MOD, UNLESS, 46,                /* 30 */
    LOAD, 1, PUSH, 1, ADD, STORE, 1,                  /* 37 */
    JUMP, 15,                                         /* 44 */
    LOAD, 0, PUSH, 1, ADD, STORE, 0,                  /* 46 */
    JUMP, 4,                                          /* 53 */
    HALT};

/* A factorial by calls: variable 4 falls, 5 is the product. */
static const int factorial[] = {
    PUSH, 1, STORE, 5, PUSH, 15, STORE, 4,                        /* 0 */
    CALL, 20, LOAD, 4, UNLESS, 16, JUMP, 8,                       /* 8 */
    LOAD, 5, SHOW, HALT,                                          /* 16 */
    LOAD, 5, LOAD, 4, MUL, STORE, 5, LOAD, 4, PUSH, 1, SUB, STORE, 4, BACK}; /* 20 */

/* The greatest common divisor of variables 2 and 3, and a quotient below 0. */
static const int divisor[] = {
    LOAD, 3, UNLESS, 16,
    LOAD, 2, LOAD, 3, MOD, LOAD, 3, STORE, 2, STORE, 3,
    HALT,
    LOAD, 2, SHOW, PUSH, -1000000007, PUSH, 97, DIV, SHOW, HALT};

PROGRAM
{
    show_named("instructions", run(primes));
    show_named("instructions", run(factorial));
    variables[2] = 123456789012L;
    variables[3] = 9876543210L;
    int rounds = 0;
    while (variables[3]) {
        run(divisor);
        rounds++;
    }
    show_named("rounds", rounds);
    show_named("instructions", run(divisor));
}
