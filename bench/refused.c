/* What a refusal by 2 costs. For each set of rows it measures the check of the rows (good), the check of the same rows with their last word
 * damaged (broken), the same two of plain C (bench/plain.c), and the call on both. Nanoseconds a word, the least of all rounds.
 *
 *   refused ROUNDS < SETS        bench/refused.py writes the sets and builds this
 *
 * A set is a line "COMMAND SIZE COUNT", then for each row its list and itself, each with the number of its words in front. */
#include <stdio.h>
#include <stdlib.h>
#include <string.h>

#include "rows.h"
#include "sogbayile.h"

enum { MOST = 64, WAYS = 6 };

uint64_t plain_check(const uint32_t *row, size_t n);
uint64_t plain_position(const uint32_t *row, size_t n);

struct row {
    uint32_t *list, *good, *broken;
    size_t list_len, len;
};

static uint32_t out[SGB_MAX_WORDS], work[SGB_WORK_WORDS];
static volatile uint64_t sink;

/* The check of the rows of a set: of forms, or of one of the lists. */
static uint64_t check(const char *command, const struct row *r, const uint32_t *row)
{
    if (strcmp(command, "pairs") == 0)
        return sgb_check_pairs(row, r->len);
    if (strcmp(command, "places") == 0)
        return sgb_check_places(row, r->len, 0);
    return sgb_check(row, r->len);
}

static uint64_t call(const char *command, const struct row *r, const uint32_t *row)
{
    switch (command[0] << 8 | command[1]) {
    case 's' << 8 | 'h': return sgb_shift(row, r->len, 1, out, SGB_MAX_WORDS);
    case 'f' << 8 | 'r': return sgb_free(r->list, r->list_len, row, r->len, work, SGB_WORK_WORDS, out, SGB_MAX_WORDS);
    case 'b' << 8 | 'i': return sgb_bind(r->list, r->list_len, row, r->len, out, SGB_MAX_WORDS);
    case 'f' << 8 | 'i': return sgb_fill(r->list, r->list_len, row, r->len, work, SGB_WORK_WORDS, out, SGB_MAX_WORDS);
    case 'p' << 8 | 'r': return sgb_prune(row, r->len, out, SGB_MAX_WORDS);
    case 'p' << 8 | 'o': return sgb_point(row, r->len, work, SGB_WORK_WORDS, out, SGB_MAX_WORDS);
    case 'm' << 8 | 'e': return sgb_member(row, r->len, work, SGB_WORK_WORDS, out, SGB_MAX_WORDS);
    case 'n' << 8 | 'a': return command[4] == 'd' ? sgb_named(row, r->len, out, SGB_MAX_WORDS) : check(command, r, row);
    default: return check(command, r, row);
    }
}

int main(int argc, char **argv)
{
    int rounds = argc > 1 ? atoi(argv[1]) : 200;
    char command[16];
    int size, count;
    static struct row rows[MOST];
    printf("command,words,check,broken,call,call broken,C check,C broken\n");
    while (scanf("%15s %d %d", command, &size, &count) == 3 && count <= MOST) {
        double best[WAYS] = {1e18, 1e18, 1e18, 1e18, 1e18, 1e18}, total = 0;
        for (int i = 0; i < count; i++) {
            struct row *r = &rows[i];
            r->list = words(&r->list_len);
            r->good = words(&r->len);
            r->broken = malloc(r->len * sizeof *r->broken);
            memcpy(r->broken, r->good, r->len * sizeof *r->broken);
            r->broken[r->len - 1] = 70000;
            total += r->len;
            if (sgb_number(check(command, r, r->good)) == SGB_NOT_A_FORM || sgb_number(call(command, r, r->good)) == SGB_NOT_A_FORM)
                return fprintf(stderr, "%s: a good row is refused\n", command), 1;
            uint64_t want = (uint64_t)SGB_NOT_A_FORM << 32 | (r->len - 1);
            if (check(command, r, r->broken) != want || call(command, r, r->broken) != want || (command[0] != 'p' && plain_position(r->broken, r->len) != want))
                return fprintf(stderr, "%s: another position\n", command), 1;
        }
        for (int k = 0; k < rounds * (size < 200 ? 10 : 1); k++)
            for (int way = 0; way < WAYS; way++) {
                double start = now();
                for (int i = 0; i < count; i++) {
                    const struct row *r = &rows[i];
                    const uint32_t *row = way % 2 ? r->broken : r->good;
                    sink += way < 2 ? check(command, r, row) : way < 4 ? call(command, r, row) : plain_position(row, r->len);
                }
                double taken = now() - start;
                if (taken < best[way])
                    best[way] = taken;
            }
        printf("%s,%d", command, size);
        for (int way = 0; way < WAYS; way++)
            printf(",%.2f", best[way] / total);
        printf("\n");
    }
    return 0;
}
