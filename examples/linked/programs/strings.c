/* Functions on strings of one's own: lengths, copies, comparisons, moves, numbers, words and their order. */

#include "show.h"

static u64 length_of(const char *text)
{
    const char *end = text;
    while (*end)
        end++;
    return (u64)(end - text);
}

static char *copy(char *to, const char *from)
{
    char *out = to;
    while ((*out++ = *from++))
        ;
    return to;
}

static char *append(char *to, const char *from)
{
    copy(to + length_of(to), from);
    return to;
}

static int compare(const char *a, const char *b)
{
    while (*a && *a == *b)
        a++, b++;
    return (u8)*a < (u8)*b ? -1 : (u8)*a > (u8)*b;
}

static const char *find(const char *text, const char *word)
{
    for (; *text; text++) {
        u64 i = 0;
        while (word[i] && text[i] == word[i])
            i++;
        if (!word[i])
            return text;
    }
    return 0;
}

static void move(u8 *to, const u8 *from, u64 count)
{
    if (to < from)
        for (u64 i = 0; i < count; i++)
            to[i] = from[i];
    else
        while (count--)
            to[count] = from[count];
}

static void reverse(char *text)
{
    u64 length = length_of(text);
    for (u64 i = 0; i < length / 2; i++) {
        char old = text[i];
        text[i] = text[length - 1 - i];
        text[length - 1 - i] = old;
    }
}

static i64 number_of(const char *text, int base)
{
    int is_negative = *text == '-';
    i64 result = 0;
    for (text += is_negative; *text; text++) {
        int digit = *text <= '9' ? *text - '0' : (*text | 32) - 'a' + 10;
        result = result * base + digit;
    }
    return is_negative ? -result : result;
}

/* The next word of a text, which is cut there. */
static char *next_word(char **rest)
{
    while (**rest == ' ')
        (*rest)++;
    char *begin = *rest;
    while (**rest && **rest != ' ')
        (*rest)++;
    if (**rest)
        *(*rest)++ = 0;
    return *begin ? begin : 0;
}

static void show_sorted_words(char *text)
{
    char *words[24], *word;
    int count = 0;
    while ((word = next_word(&text))) {
        int i = count++;
        for (; i > 0 && compare(words[i - 1], word) > 0; i--)
            words[i] = words[i - 1];
        words[i] = word;
    }
    for (int i = 0; i < count; i++) {
        show_text(words[i]);
        show_byte(i + 1 < count ? ' ' : '\n');
    }
}

PROGRAM
{
    char text[160], other[160] = "";
    copy(text, "a machine is a thing that does what it is told and no more than that");
    show_named("length", (i64)length_of(text));
    show_named("found at", find(text, "that") - text);
    show_named("found", find(text, "thaw") != 0);
    append(append(append(other, "<"), text), ">");
    show_text(other);
    show_line();
    show_named("order", compare(text, other) * 100 + compare(other, text) * 10 + compare(text, text));
    reverse(other);
    show_text(other);
    show_line();
    show_sorted_words(text);
    move((u8 *)other + 3, (u8 *)other, 20);
    move((u8 *)other, (u8 *)other + 5, 30);
    show_text(other);
    show_line();
    show_named("ten", number_of("-9223372036854775807", 10));
    show_named("sixteen", number_of("7fffFFFFffff0000", 16));
    show_named("two", number_of("-1011010111", 2));
    show_named("thirty-six", number_of("rattle", 36));
}
