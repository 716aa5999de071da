/* The four functions that a compiler calls by itself, also where no library is linked. */

typedef unsigned char u8;
typedef unsigned long size;
typedef unsigned long doubleword __attribute__((may_alias, aligned(1)));

/* By doublewords, which need not be aligned, and then by bytes. */
void *memcpy(void *to, const void *from, size count)
{
    u8 *out = to;
    const u8 *in = from;
    for (; count >= 8; count -= 8, out += 8, in += 8)
        *(doubleword *)out = *(const doubleword *)in;
    while (count--)
        *out++ = *in++;
    return to;
}

void *memmove(void *to, const void *from, size count)
{
    u8 *out = to;
    const u8 *in = from;
    if (out <= in || out >= in + count)
        return memcpy(to, from, count);
    while (count--)
        out[count] = in[count];
    return to;
}

void *memset(void *to, int byte, size count)
{
    u8 *out = to;
    for (; count >= 8; count -= 8, out += 8)
        *(doubleword *)out = (u8)byte * 0x0101010101010101UL;
    while (count--)
        *out++ = (u8)byte;
    return to;
}

int memcmp(const void *one, const void *other, size count)
{
    const u8 *a = one, *b = other;
    for (; count--; a++, b++)
        if (*a != *b)
            return *a < *b ? -1 : 1;
    return 0;
}
