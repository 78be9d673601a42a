/* Two static libraries in one run: for each set of rows, the time of the call in the library of an earlier landing, whose functions are named
 * before_ instead of sgb_, and in the present one. Nanoseconds a row, the least of all rounds; the two take turns in going first.
 *
 *   before ROUNDS < SETS        bench/before.py writes the sets and builds this
 *
 * A set is a line "COMMAND SIZE COUNT", then for each row its list and itself, each with the number of its words in front. The sets "good" and
 * "broken" are rows for the check, which takes the ones and refuses the others. The set "missing" is for fill: the earlier library is given the
 * whole list, the present one the list without the kept places at its end. */
#include <stdio.h>
#include <stdlib.h>
#include <string.h>

#include "rows.h"
#include "sogbayile.h"

enum { MOST = 64, WORDS_A_ROUND = 20000 };

#define EARLIER(f) extern __typeof__(sgb_##f) before_##f
EARLIER(shift);
EARLIER(free);
EARLIER(bind);
EARLIER(fill);
EARLIER(prune);
EARLIER(point);
EARLIER(member);
EARLIER(check);

struct row {
    uint32_t *list, *words;
    size_t list_len, len;
    size_t before_len, sgb_len; /* of the list of "missing" */
};

static uint32_t out[SGB_MAX_WORDS], work[SGB_WORK_WORDS];
static volatile uint64_t sink;

#define CALL(name, lib)                                                                                                     \
    static uint64_t name(const char *command, const struct row *r)                                                          \
    {                                                                                                                       \
        switch (command[0] << 8 | command[1]) {                                                                             \
        case 's' << 8 | 'h': return lib##_shift(r->words, r->len, 1, out, SGB_MAX_WORDS);                                   \
        case 'f' << 8 | 'r':                                                                                                \
            return lib##_free(r->list, r->list_len, r->words, r->len, work, SGB_WORK_WORDS, out, SGB_MAX_WORDS);            \
        case 'b' << 8 | 'i': return lib##_bind(r->list, r->list_len, r->words, r->len, out, SGB_MAX_WORDS);                 \
        case 'f' << 8 | 'i':                                                                                                \
            return lib##_fill(r->list, r->list_len, r->words, r->len, work, SGB_WORK_WORDS, out, SGB_MAX_WORDS);            \
        case 'm' << 8 | 'i':                                                                                                \
            return lib##_fill(r->list, r->lib##_len, r->words, r->len, work, SGB_WORK_WORDS, out, SGB_MAX_WORDS);           \
        case 'p' << 8 | 'r': return lib##_prune(r->words, r->len, out, SGB_MAX_WORDS);                                      \
        case 'p' << 8 | 'o': return lib##_point(r->words, r->len, work, SGB_WORK_WORDS, out, SGB_MAX_WORDS);                \
        case 'm' << 8 | 'e': return lib##_member(r->words, r->len, work, SGB_WORK_WORDS, out, SGB_MAX_WORDS);               \
        default: return lib##_check(r->words, r->len);                                                                      \
        }                                                                                                                   \
    }
CALL(earlier, before)
CALL(present, sgb)

int main(int argc, char **argv)
{
    int rounds = argc > 1 ? atoi(argv[1]) : 200;
    char command[16];
    int size, count;
    static struct row rows[MOST];
    while (scanf("%15s %d %d", command, &size, &count) == 3 && count <= MOST) {
        double best[2] = {1e18, 1e18}, total = 0;
        for (int i = 0; i < count; i++) {
            rows[i].list = words(&rows[i].list_len);
            rows[i].words = words(&rows[i].len);
            rows[i].before_len = rows[i].sgb_len = rows[i].list_len;
            while (rows[i].sgb_len > 0 && rows[i].list[rows[i].sgb_len - 1] == 0)
                rows[i].sgb_len--;
            total += rows[i].len;
            uint32_t refusal = sgb_number(present(command, &rows[i]));
            if (strncmp(command, "broken", 6) ? refusal == SGB_NOT_A_FORM || refusal == SGB_BAD_COUNT : refusal != SGB_NOT_A_FORM)
                return fprintf(stderr, "%s: a row is taken or refused that should not be\n", command), 1;
        }
        int turns = 1 + (int)(WORDS_A_ROUND / total);
        for (int k = 0; k < 2 * rounds; k++) {
            int way = (k + k / 2) % 2;
            double start = now();
            for (int j = 0; j < turns; j++)
                for (int i = 0; i < count; i++)
                    sink += way ? present(command, &rows[i]) : earlier(command, &rows[i]);
            double taken = now() - start;
            if (taken < best[way])
                best[way] = taken;
        }
        printf("%s,%d,%.0f,%.1f,%.1f\n", command, size, total / count, best[0] / turns / count, best[1] / turns / count);
        fflush(stdout);
    }
    return 0;
}
