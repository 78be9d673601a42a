/* How much stack each call of the static library takes: it runs on a thread whose stack was painted before, and the paint that is gone is counted.
 *
 *   stack < CALLS        bench/stack.py writes the calls and builds this
 *
 * A call is a line: its name, behind ! where it must be refused, then the list and the row, each with the number of its words in front. Prints the
 * most that a call of each name took. */
#include <pthread.h>
#include <stdio.h>
#include <stdlib.h>
#include <string.h>

#include "rows.h"
#include "sogbayile.h"

enum { STACK = 4 << 20, PAINT = 0xA5, NAMES = 16 };

struct call {
    char name[16];
    uint32_t *list, *row;
    size_t list_len, len;
    uint64_t answer;
};

static unsigned char *stack;
static uint32_t out[SGB_MAX_WORDS], work[SGB_WORK_WORDS];

static void *nothing(void *p) { return p; }

static void *run(void *p)
{
    struct call *c = p;
    switch (c->name[0] << 8 | c->name[1]) {
    case 's' << 8 | 'h': c->answer = sgb_shift(c->row, c->len, 1, out, SGB_MAX_WORDS); break;
    case 'b' << 8 | 'i': c->answer = sgb_bind(c->list, c->list_len, c->row, c->len, out, SGB_MAX_WORDS); break;
    case 'f' << 8 | 'r':
        c->answer = sgb_free(c->list, c->list_len, c->row, c->len, work, SGB_WORK_WORDS, out, SGB_MAX_WORDS);
        break;
    case 'f' << 8 | 'i':
        c->answer = sgb_fill(c->list, c->list_len, c->row, c->len, work, SGB_WORK_WORDS, out, SGB_MAX_WORDS);
        break;
    case 'p' << 8 | 'r': c->answer = sgb_prune(c->row, c->len, out, SGB_MAX_WORDS); break;
    case 'p' << 8 | 'o': c->answer = sgb_point(c->row, c->len, work, SGB_WORK_WORDS, out, SGB_MAX_WORDS); break;
    case 'm' << 8 | 'e': c->answer = sgb_member(c->row, c->len, work, SGB_WORK_WORDS, out, SGB_MAX_WORDS); break;
    case 'n' << 8 | 'a': c->answer = sgb_named(c->row, c->len, out, SGB_MAX_WORDS); break;
    case 'd' << 8 | 'a': c->answer = sgb_dangling(c->row, c->len, out, SGB_MAX_WORDS); break;
    case 'l' << 8 | 'i': c->answer = sgb_lift(c->row, c->len, 1, work, SGB_WORK_WORDS) ? 0 : ~0ull; break;
    default: c->answer = sgb_check(c->row, c->len);
    }
    return 0;
}

static size_t taken(void *(*f)(void *), void *p)
{
    pthread_attr_t attr;
    pthread_t thread;
    memset(stack, PAINT, STACK);
    if (pthread_attr_init(&attr) || pthread_attr_setstack(&attr, stack, STACK) || pthread_create(&thread, &attr, f, p) || pthread_join(thread, 0))
        exit(1);
    size_t clean = 0;
    while (clean < STACK && stack[clean] == PAINT)
        clean++;
    return STACK - clean;
}

int main(void)
{
    struct call c;
    char names[NAMES][16];
    size_t most[NAMES] = {0}, calls[NAMES] = {0}, count = 0;
    stack = aligned_alloc(4096, STACK);
    size_t base = taken(nothing, 0);
    while (scanf("%15s", c.name) == 1) {
        c.list = words(&c.list_len);
        c.row = words(&c.len);
        int refused = c.name[0] == '!';
        memmove(c.name, c.name + refused, strlen(c.name + refused) + 1);
        size_t i = 0, took = taken(run, &c) - base;
        if (refused != (c.answer >> 32 != 0))
            return fprintf(stderr, "%s: refused by %u\n", c.name, (unsigned)(c.answer >> 32)), 1;
        while (i < count && strcmp(names[i], c.name))
            i++;
        if (i == count)
            strcpy(names[count++], c.name);
        if (most[i] < took)
            most[i] = took;
        calls[i]++;
        free(c.list);
        free(c.row);
    }
    for (size_t i = 0; i < count; i++)
        printf("%-8s %4zu KB at most, in %zu calls\n", names[i], (most[i] + 1023) / 1024, calls[i]);
    return 0;
}
