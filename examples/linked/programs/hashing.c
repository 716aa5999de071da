/* A digest of 256 bits, two checksums, and a table of words that is found by a hash. */

#include "show.h"

static const u32 constants[64] = {
    0x428a2f98, 0x71374491, 0xb5c0fbcf, 0xe9b5dba5, 0x3956c25b, 0x59f111f1, 0x923f82a4, 0xab1c5ed5, 0xd807aa98, 0x12835b01, 0x243185be,
    0x550c7dc3, 0x72be5d74, 0x80deb1fe, 0x9bdc06a7, 0xc19bf174, 0xe49b69c1, 0xefbe4786, 0x0fc19dc6, 0x240ca1cc, 0x2de92c6f, 0x4a7484aa,
    0x5cb0a9dc, 0x76f988da, 0x983e5152, 0xa831c66d, 0xb00327c8, 0xbf597fc7, 0xc6e00bf3, 0xd5a79147, 0x06ca6351, 0x14292967, 0x27b70a85,
    0x2e1b2138, 0x4d2c6dfc, 0x53380d13, 0x650a7354, 0x766a0abb, 0x81c2c92e, 0x92722c85, 0xa2bfe8a1, 0xa81a664b, 0xc24b8b70, 0xc76c51a3,
    0xd192e819, 0xd6990624, 0xf40e3585, 0x106aa070, 0x19a4c116, 0x1e376c08, 0x2748774c, 0x34b0bcb5, 0x391c0cb3, 0x4ed8aa4a, 0x5b9cca4f,
    0x682e6ff3, 0x748f82ee, 0x78a5636f, 0x84c87814, 0x8cc70208, 0x90befffa, 0xa4506ceb, 0xbef9a3f7, 0xc67178f2};

static u32 turned(u32 word, int by)
{
    return word >> by | word << (32 - by);
}

static void take_block(u32 state[8], const u8 *block)
{
    u32 w[64], s[8];
    for (int i = 0; i < 16; i++)
        w[i] = (u32)block[4 * i] << 24 | (u32)block[4 * i + 1] << 16 | (u32)block[4 * i + 2] << 8 | block[4 * i + 3];
    for (int i = 16; i < 64; i++) {
        u32 low = turned(w[i - 15], 7) ^ turned(w[i - 15], 18) ^ w[i - 15] >> 3;
        u32 high = turned(w[i - 2], 17) ^ turned(w[i - 2], 19) ^ w[i - 2] >> 10;
        w[i] = w[i - 16] + low + w[i - 7] + high;
    }
    for (int i = 0; i < 8; i++)
        s[i] = state[i];
    for (int i = 0; i < 64; i++) {
        u32 high = turned(s[4], 6) ^ turned(s[4], 11) ^ turned(s[4], 25);
        u32 one = s[7] + high + ((s[4] & s[5]) ^ (~s[4] & s[6])) + constants[i] + w[i];
        u32 low = turned(s[0], 2) ^ turned(s[0], 13) ^ turned(s[0], 22);
        u32 two = low + ((s[0] & s[1]) ^ (s[0] & s[2]) ^ (s[1] & s[2]));
        for (int k = 7; k > 0; k--)
            s[k] = s[k - 1];
        s[4] += one;
        s[0] = one + two;
    }
    for (int i = 0; i < 8; i++)
        state[i] += s[i];
}

/* The digest of a text of less than 56 bytes behind some whole blocks of zeros. */
static void show_digest(const char *text, int blocks)
{
    u32 state[8] = {0x6a09e667, 0xbb67ae85, 0x3c6ef372, 0xa54ff53a, 0x510e527f, 0x9b05688c, 0x1f83d9ab, 0x5be0cd19};
    u8 block[64] = {0};
    int length = 0;
    for (int i = 0; i < blocks; i++)
        take_block(state, block);
    for (; text[length]; length++)
        block[length] = (u8)text[length];
    block[length] = 0x80;
    u64 bits = 8 * (u64)(64 * blocks + length);
    for (int i = 0; i < 8; i++)
        block[63 - i] = (u8)(bits >> 8 * i);
    take_block(state, block);
    for (int i = 0; i < 8; i++)
        show_hex(state[i], 8);
    show_line();
}

static u64 hash_of(const char *text)
{
    u64 hash = 0xcbf29ce484222325UL;
    for (; *text; text++)
        hash = (hash ^ (u8)*text) * 0x100000001b3UL;
    return hash;
}

static u32 checksum_of(const char *text)
{
    u32 sum = ~0u;
    for (; *text; text++) {
        sum ^= (u8)*text;
        for (int i = 0; i < 8; i++)
            sum = sum >> 1 ^ (sum & 1 ? 0xedb88320u : 0);
    }
    return ~sum;
}

static const char *const words[] = {"add", "subf", "mulld", "divd", "and", "or", "xor", "nand", "nor", "eqv", "slw", "srw", "cmp", "b", "bc"};
static const char *table[32];

static int place_of(const char *word)
{
    int place = (int)(hash_of(word) % 32);
    while (table[place] && hash_of(table[place]) != hash_of(word))
        place = (place + 1) % 32;
    return place;
}

PROGRAM
{
    show_digest("abc", 0);
    show_digest("", 0);
    show_digest("a message behind three blocks of zeros", 3);
    show_hex(checksum_of("123456789"), 8);
    show_line();
    for (u32 i = 0; i < sizeof words / sizeof words[0]; i++)
        table[place_of(words[i])] = words[i];
    for (int i = 0; i < 32; i++)
        if (table[i])
            show_named(table[i], i);
    show_hex(hash_of("the machine"), 16);
    show_line();
}
