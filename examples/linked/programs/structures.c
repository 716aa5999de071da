/* Structures that are copied, passed, given back, compared, packed into bits, and seen as others. */

#include "show.h"

typedef struct {
    i32 x, y;
} point;

typedef struct {
    point from, to;
    u8 name[7];
    i16 weight;
    u64 marks;
} edge;

typedef struct {
    u32 kind : 3;
    i32 level : 5;
    u32 size : 11;
    i64 offset : 40;
} packed_bits;

typedef union {
    u64 whole;
    u32 halves[2];
    u8 bytes[8];
} view;

typedef struct {
    edge edges[6];
    int count;
} path;

static edge edge_of(point from, point to, u8 letter)
{
    edge result = {from, to, {letter, (u8)(letter + 1), 0}, (i16)(letter * 300), (u64)letter << 56};
    return result;
}

static edge reversed(edge it)
{
    point old = it.from;
    it.from = it.to;
    it.to = old;
    it.weight = (i16)-it.weight;
    return it;
}

static path with_edge(path before, edge it)
{
    before.edges[before.count++] = it;
    return before;
}

static path reversed_path(const path *it)
{
    path result = {.count = 0};
    for (int i = it->count; i-- > 0;)
        result = with_edge(result, reversed(it->edges[i]));
    return result;
}

static int same_point(point a, point b)
{
    return a.x == b.x && a.y == b.y;
}

static void show_path(const path *it)
{
    for (int i = 0; i < it->count; i++) {
        edge e = it->edges[i];
        show_text((const char *)e.name);
        show_byte(' ');
        show_signed(e.from.x);
        show_byte(',');
        show_signed(e.from.y);
        show_byte('>');
        show_signed(e.to.x);
        show_byte(',');
        show_signed(e.to.y);
        show_byte(' ');
        show_signed(e.weight);
        show_byte(' ');
        show_hex(e.marks, 16);
        show_byte(' ');
        show_signed(i > 0 && same_point(it->edges[i - 1].to, e.from));
        show_line();
    }
}

static void show_packed(packed_bits it)
{
    show_signed(it.kind);
    show_byte(' ');
    show_signed(it.level);
    show_byte(' ');
    show_signed(it.size);
    show_byte(' ');
    show_signed(it.offset);
    show_line();
}

PROGRAM
{
    path there = {.count = 0};
    for (i32 i = 0; i < 6; i++) {
        point from = {i * 1000, -i * i * 70000}, to = {(i + 1) * 1000, -(i + 1) * (i + 1) * 70000};
        there = with_edge(there, edge_of(from, to, (u8)('A' + 2 * i)));
    }
    path back = reversed_path(&there);
    show_path(&there);
    show_path(&back);
    packed_bits bits = {5, -7, 1999, -123456789012L};
    show_packed(bits);
    bits.kind += 4;
    bits.level -= 10;
    bits.size += 100;
    bits.offset *= 3;
    show_packed(bits);
    view it = {.whole = 0x0123456789abcdefUL};
    it.halves[0] += 0x11111111;
    it.bytes[7] ^= 0xff;
    show_hex(it.whole, 16);
    show_line();
}
