/* Shifts one form by -1, and by -2 with the command's number; reads a form written with names; fills one of two
 * declarations; asks where a row breaks, and offers one equality to a set of places. Its output is example.out. */
#include <stdio.h>

#include "sogbayile.h"

static void show(const char *what, uint64_t answer, const uint32_t *out)
{
    printf("%s:", what);
    if (sgb_number(answer) == SGB_NOT_A_FORM)
        printf(" refused by 2 at word %u", sgb_position(answer));
    else if (sgb_number(answer) != 0)
        printf(" refused by %u", sgb_number(answer));
    else
        for (uint32_t i = 0; i < sgb_length(answer); i++)
            printf(" %u", out[i]);
    printf("\n");
}

int main(void)
{
    /* there is a v9 with: index 0 equals index 2, which dangles as 1 */
    const uint32_t row[] = {852, 1, 9, 101, 2, 0, 2, 2};
    static uint32_t out[SGB_MAX_WORDS], work[SGB_WORK_WORDS];
    size_t n = sizeof row / sizeof *row;

    show("shift -1", sgb_shift(row, n, -1, out, SGB_MAX_WORDS), out);
    show("shift -2", sgb_run(SGB_SHIFT, -2, row, 0, row, n, work, 0, out, SGB_MAX_WORDS), out);
    show("no command", sgb_run(0, 0, row, 0, row, n, work, 0, out, SGB_MAX_WORDS), out);

    /* there are a v4 and a v5 with: v4 equals v6 */
    const uint32_t named[] = {852, 2, 4, 5, 101, 1, 4, 1, 6};
    show("named", sgb_named(named, 9, out, SGB_MAX_WORDS), out);
    show("an index", sgb_named(row, n, out, SGB_MAX_WORDS), out);

    /* the first declaration is filled; the second has no place in the list and is kept */
    const uint32_t two[] = {852, 2, 4, 5, 101, 2, 1, 2, 0}, first[] = {1, 1, 7};
    show("fill", sgb_fill(first, 3, two, 9, work, SGB_WORK_WORDS, out, SGB_MAX_WORDS), out);

    /* the right side of the equality is a predicate */
    const uint32_t broken[] = {852, 1, 9, 101, 2, 0, 610};
    show("check", sgb_check(broken, 7), out);

    const uint32_t equality[] = {101, 2, 0, 1, 7};
    size_t starts[SGB_PLACES], ends[SGB_PLACES];
    show("places", sgb_places(2, starts, ends), out);
    show("offer", sgb_offer(2, starts, ends, equality, 5), out);
    printf("place 1: words %zu to %zu\n", starts[1], ends[1]);
    show("again", sgb_offer(2, starts, ends, equality, 5), out);
    return 0;
}
