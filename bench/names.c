/* Named forms beside bind: for each set of rows the time of named and of bind through the static library, and of both in plain C (bench/plain.c).
 * Nanoseconds a word, the least of all rounds.
 *
 *   names ROUNDS < SETS        bench/names.py writes the sets and builds this
 *
 * A set is a line "NAME COUNT", then for each row the list of bind, the row with indices and the row with names, each with the number of its words
 * in front. Before anything is timed the answers of the library are held against those of plain C. */
#include <stdio.h>
#include <stdlib.h>
#include <string.h>

#include "rows.h"
#include "sogbayile.h"

enum { MOST = 64, WAYS = 4, WORDS_A_ROUND = 20000 };

uint64_t plain_named(const uint32_t *row, size_t n, uint32_t *out, size_t room);
uint64_t plain_bind(const uint32_t *names, size_t k, const uint32_t *row, size_t n, uint32_t *out, size_t room);

struct row {
    uint32_t *list, *indices, *names;
    size_t list_len, len, names_len;
};

static uint32_t out[SGB_MAX_WORDS], other[SGB_MAX_WORDS];
static volatile uint64_t sink;

static uint64_t run(int way, const struct row *r, uint32_t *to)
{
    switch (way) {
    case 0: return sgb_named(r->names, r->names_len, to, SGB_MAX_WORDS);
    case 1: return sgb_bind(r->list, r->list_len, r->indices, r->len, to, SGB_MAX_WORDS);
    case 2: return plain_named(r->names, r->names_len, to, SGB_MAX_WORDS);
    default: return plain_bind(r->list, r->list_len, r->indices, r->len, to, SGB_MAX_WORDS);
    }
}

static int agree(const struct row *r)
{
    for (int way = 0; way < 2; way++) {
        uint64_t a = run(way, r, out), b = run(way + 2, r, other);
        if (a != b || sgb_number(a) || memcmp(out, other, sgb_length(a) * sizeof *out))
            return 0;
    }
    return r->len == r->names_len;
}

int main(int argc, char **argv)
{
    int rounds = argc > 1 ? atoi(argv[1]) : 300, count;
    char name[32];
    static struct row rows[MOST];
    while (scanf("%31s %d", name, &count) == 2 && count <= MOST) {
        double best[WAYS] = {1e18, 1e18, 1e18, 1e18}, total = 0;
        for (int i = 0; i < count; i++) {
            struct row *r = &rows[i];
            r->list = words(&r->list_len);
            r->indices = words(&r->len);
            r->names = words(&r->names_len);
            total += r->len;
            if (!agree(r))
                return fprintf(stderr, "%s: the answers differ\n", name), 1;
        }
        int turns = 1 + (int)(WORDS_A_ROUND / total);
        for (int k = 0; k < WAYS * rounds; k++) {
            int way = (k + k / WAYS) % WAYS;
            double start = now();
            for (int j = 0; j < turns; j++)
                for (int i = 0; i < count; i++)
                    sink += run(way, &rows[i], out);
            double taken = now() - start;
            if (taken < best[way])
                best[way] = taken;
        }
        printf("%s,%.0f", name, total / count);
        for (int way = 0; way < WAYS; way++)
            printf(",%.3f", best[way] / turns / total);
        printf("\n");
        fflush(stdout);
    }
    return 0;
}
