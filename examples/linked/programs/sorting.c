/* Four ways to sort numbers, which must agree. */

#include "show.h"

#define COUNT 200

static i64 numbers[COUNT], copy[COUNT], spare[COUNT];

static void swap(i64 *a, i64 *b)
{
    i64 old = *a;
    *a = *b;
    *b = old;
}

static void sort_by_insertion(i64 *row, int count)
{
    for (int i = 1; i < count; i++)
        for (int k = i; k > 0 && row[k - 1] > row[k]; k--)
            swap(&row[k - 1], &row[k]);
}

static void sort_quickly(i64 *row, int first, int last)
{
    if (first >= last)
        return;
    i64 middle = row[(first + last) / 2];
    int i = first, k = last;
    while (i <= k) {
        while (row[i] < middle)
            i++;
        while (row[k] > middle)
            k--;
        if (i <= k)
            swap(&row[i++], &row[k--]);
    }
    sort_quickly(row, first, k);
    sort_quickly(row, i, last);
}

static void sift_down(i64 *row, int root, int count)
{
    while (2 * root + 1 < count) {
        int child = 2 * root + 1;
        if (child + 1 < count && row[child] < row[child + 1])
            child++;
        if (row[root] >= row[child])
            return;
        swap(&row[root], &row[child]);
        root = child;
    }
}

static void sort_by_heap(i64 *row, int count)
{
    for (int i = count / 2; i-- > 0;)
        sift_down(row, i, count);
    for (int left = count - 1; left > 0; left--) {
        swap(&row[0], &row[left]);
        sift_down(row, 0, left);
    }
}

static void sort_by_merging(i64 *row, int count)
{
    for (int width = 1; width < count; width *= 2) {
        for (int first = 0; first < count; first += 2 * width) {
            int middle = first + width < count ? first + width : count;
            int last = first + 2 * width < count ? first + 2 * width : count;
            for (int i = first, k = middle, at = first; at < last; at++)
                spare[at] = k >= last || (i < middle && row[i] <= row[k]) ? row[i++] : row[k++];
        }
        for (int i = 0; i < count; i++)
            row[i] = spare[i];
    }
}

static void refill(void)
{
    for (int i = 0; i < COUNT; i++)
        copy[i] = numbers[i];
}

/* A sum in which each place counts. */
static u64 sum_of(const i64 *row)
{
    u64 sum = 0;
    for (int i = 0; i < COUNT; i++)
        sum = sum * 31 + (u64)row[i];
    return sum;
}

static void show_sum(const char *name)
{
    show_text(name);
    show_byte(' ');
    show_hex(sum_of(copy), 16);
    show_line();
}

PROGRAM
{
    u64 state = 88172645463325252UL;
    for (int i = 0; i < COUNT; i++)
        numbers[i] = (i64)next_number(&state) >> (i % 5 * 13);
    refill();
    show_sum("unsorted");
    sort_by_insertion(copy, COUNT);
    show_sum("insertion");
    refill();
    sort_quickly(copy, 0, COUNT - 1);
    show_sum("quick");
    refill();
    sort_by_heap(copy, COUNT);
    show_sum("heap");
    refill();
    sort_by_merging(copy, COUNT);
    show_sum("merging");
    show_named("least", copy[0]);
    show_named("greatest", copy[COUNT - 1]);
    show_named("middle", copy[COUNT / 2]);
}
