/* Lists in a pool: their elements name each other by pointers, and go back to the pool. */

#include "show.h"

#define POOL 120

typedef struct element {
    struct element *next;
    i64 key;
    u16 visits;
} element;

static element pool[POOL];
static element *unused;
static int taken;

static void open_pool(void)
{
    for (int i = 0; i < POOL; i++) {
        pool[i].next = unused;
        unused = &pool[i];
    }
}

static element *take(i64 key, element *next)
{
    element *it = unused;
    if (!it)
        return 0;
    unused = it->next;
    taken++;
    it->next = next;
    it->key = key;
    it->visits = 0;
    return it;
}

static void give_back(element *it)
{
    it->next = unused;
    unused = it;
    taken--;
}

static element *reversed(element *list)
{
    element *result = 0;
    while (list) {
        element *next = list->next;
        list->next = result;
        result = list;
        list = next;
    }
    return result;
}

static element *merged(element *a, element *b)
{
    element *result = 0, **end = &result;
    while (a && b) {
        element **least = a->key <= b->key ? &a : &b;
        *end = *least;
        end = &(*least)->next;
        *least = *end;
    }
    *end = a ? a : b;
    return result;
}

static element *sorted(element *list)
{
    if (!list || !list->next)
        return list;
    element *slow = list, *fast = list->next;
    while (fast && fast->next) {
        slow = slow->next;
        fast = fast->next->next;
    }
    element *second = slow->next;
    slow->next = 0;
    return merged(sorted(list), sorted(second));
}

/* Takes out each element whose key is a multiple of a number. */
static void remove_multiples(element **list, i64 of)
{
    while (*list) {
        element *it = *list;
        it->visits++;
        if (it->key % of == 0) {
            *list = it->next;
            give_back(it);
        } else {
            list = &it->next;
        }
    }
}

static void show_list(const char *name, const element *list)
{
    int count = 0;
    u64 sum = 0, visits = 0;
    for (; list; list = list->next) {
        count++;
        sum = sum * 17 + (u64)list->key;
        visits += list->visits;
    }
    show_text(name);
    show_byte(' ');
    show_signed(count);
    show_byte(' ');
    show_hex(sum, 16);
    show_byte(' ');
    show_unsigned(visits);
    show_byte(' ');
    show_signed(taken);
    show_line();
}

PROGRAM
{
    u64 state = 3037000493UL;
    element *list = 0;
    open_pool();
    for (int i = 0; i < 100; i++)
        list = take((i64)(next_number(&state) >> 44) - 500000, list);
    show_list("taken", list);
    list = reversed(list);
    show_list("reversed", list);
    list = sorted(list);
    show_list("sorted", list);
    show_named("least", list->key);
    remove_multiples(&list, 3);
    show_list("without multiples of 3", list);
    remove_multiples(&list, 5);
    show_list("without multiples of 5", list);
    int more = 0;
    for (element *it; (it = take(more, list)); more++)
        list = it;
    show_named("more", more);
    list = sorted(list);
    show_list("sorted again", list);
    remove_multiples(&list, 1);
    show_list("none", list);
}
