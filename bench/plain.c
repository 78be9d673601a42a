/* The same checks and the same rewritings as the library's, written straight down in C: a walk that checks the form
 * and measures what the rewriting would give, then a walk that writes it. For measurements alone. */
#include <stddef.h>
#include <stdint.h>
#include <string.h>

typedef uint32_t u32;

/* what annotations need stands apart, so that rows without them do not pay for it */
#define APART __attribute__((noinline))

enum { WORDS = 8192, DEPTH = 64, NAME = 65535, DECLS = 32, WORK = 16384, SORT = 1024 };

enum kind { CHECK, SHIFT, BIND, FREE, FILL, PRUNE, POINT, NAMED };

/* A replacement: where it stands, its depth, whether an index dangles in it, and the largest that does. */
struct piece {
    u32 word;
    const u32 *row;
    size_t len;
    u32 depth;
    u32 high;
    int dangles;
};

struct op {
    enum kind kind;
    u32 up, down;            /* shift */
    const u32 *names;        /* bind */
    u32 n;                   /* names, pairs or declarations; point: the target */
    u32 kept;                /* fill: how many declarations are kept */
    u32 fall;                /* point: by how much more the annotations of a joined quantifier fall */
    u32 rank[DECLS];         /* fill: the new index of a kept declaration, by old index */
    struct piece piece[DECLS]; /* free: by pair; fill: by declaration, word 0 for a kept one */
    int used[DECLS];         /* prune: by index */
    /* measured */
    u32 low, high, deepest;
    int dangles, over;
    size_t len;
};

static uint64_t refuse(u32 k) { return (uint64_t)k << 32; }

static int name_at(const struct op *op, u32 v)
{
    for (u32 j = 0; j < op->n; j++)
        if ((op->kind == BIND ? op->names[j] : op->piece[j].word) == v)
            return (int)j;
    return -1;
}

static void put_measured(struct op *op, const struct piece *p, u32 depth, u32 lift)
{
    op->len += p->len - 2;
    if (depth + p->depth - 1 > DEPTH || (p->dangles && p->high + lift > NAME))
        op->over = 1;
}

/* An identifier under so many declarations, at a depth. */
static void seen(struct op *op, u32 tag, u32 v, u32 depth, u32 under)
{
    int j;
    if (depth > op->deepest)
        op->deepest = depth;
    switch (op->kind) {
    case CHECK:
    case SHIFT:
    case BIND:
        if (tag == 2 && v >= under) {
            if (!op->dangles || v - under < op->low)
                op->low = v - under;
            if (!op->dangles || v > op->high)
                op->high = v;
            op->dangles = 1;
        }
        if (op->kind == BIND && tag == 1 && (j = name_at(op, v)) >= 0 && under + op->n - 1 - (u32)j > NAME)
            op->over = 1;
        break;
    case FREE:
        if (tag == 1 && (j = name_at(op, v)) >= 0)
            put_measured(op, &op->piece[j], depth, under);
        break;
    case FILL:
        if (tag == 2 && v >= under && v - under < op->n && op->piece[op->n - 1 - (v - under)].word)
            put_measured(op, &op->piece[op->n - 1 - (v - under)], depth, under + op->kept);
        break;
    case PRUNE:
        if (tag == 2 && v >= under && v - under < op->n)
            op->used[v - under] = 1;
        break;
    case POINT:
        if (tag == 2 && v >= under && v - under == op->n)
            put_measured(op, &op->piece[0], depth, under - 1 - op->fall);
        break;
    case NAMED:
        if (tag == 2)
            op->over = 1;
        break;
    }
}

static u32 noted_decls(struct op *op, const u32 *row, size_t n, size_t *at, u32 depth, u32 under);

/* Checks the form at `at` and measures it; 0 where it is none. */
static int form(struct op *op, const u32 *row, size_t n, size_t *at, int expr, u32 depth, u32 under)
{
    if (depth > DEPTH || *at >= n || row[*at] >= SORT)
        return 0;
    u32 tag = row[(*at)++], preds = 0, exprs = 0, bound = 0, noted = 0;
    if (depth > op->deepest)
        op->deepest = depth;
    switch (expr ? tag : tag + SORT) {
    case 1: case 2:
        if (*at >= n || row[*at] > NAME)
            return 0;
        seen(op, tag, row[(*at)++], depth, under);
        return 1;
    case 3:
        return (*at)++ < n;
    case 401 ... 412: case SORT + 610: case SORT + 611:
        return 1;
    case 4: case 301 ... 307: case SORT + 10:
        if (*at >= n || row[*at] < (tag == 4 ? 0u : tag == 10 ? 1u : 2u))
            return 0;
        exprs = row[(*at)++];
        break;
    case 5: case SORT + 8:
        preds = 1;
        break;
    case 6: case 201 ... 227: case SORT + 101 ... SORT + 112:
        exprs = 2;
        break;
    case 751 ... 757: case 761 ... 764: case SORT + 9:
        exprs = 1;
        break;
    case 801 ... 803: case 871 ... 873:
        if (*at >= n || row[(*at)++] > 3)
            return 0;
        bound = preds = exprs = 1;
        noted = tag > 803;
        break;
    case SORT + 7:
        return *at < n && row[(*at)++] <= NAME;
    case SORT + 11:
        if (*at + 1 >= n || row[*at] > NAME)
            return 0;
        exprs = row[*at + 1];
        *at += 2;
        break;
    case SORT + 251: case SORT + 252:
        preds = 2;
        break;
    case SORT + 351: case SORT + 352:
        if (*at >= n || row[*at] < 2)
            return 0;
        preds = row[(*at)++];
        break;
    case SORT + 851: case SORT + 852:
        bound = preds = 1;
        break;
    case SORT + 861: case SORT + 862:
        bound = preds = noted = 1;
        break;
    default:
        return 0;
    }
    if (noted) {
        bound = noted_decls(op, row, n, at, depth, under);
        if (!bound)
            return 0;
    } else if (bound) {
        if (*at >= n || row[*at] < 1 || row[*at] > DECLS)
            return 0;
        bound = row[(*at)++];
        for (u32 j = 0; j < bound; j++)
            if (*at >= n || row[(*at)++] > NAME)
                return 0;
    }
    for (u32 j = 0; j < preds; j++)
        if (!form(op, row, n, at, 0, depth + 1, under + bound))
            return 0;
    for (u32 j = 0; j < exprs; j++)
        if (!form(op, row, n, at, 1, depth + 1, under + bound))
            return 0;
    return 1;
}

/* Checks and measures the declarations of a quantifier with annotations, which are rewritten outside it; their number, or 0. */
static APART u32 noted_decls(struct op *op, const u32 *row, size_t n, size_t *at, u32 depth, u32 under)
{
    if (*at >= n || row[*at] < 1 || row[*at] > DECLS)
        return 0;
    u32 bound = row[(*at)++], came = 0;
    for (u32 j = 0; j < bound; j++) {
        if (*at + 1 >= n || row[*at] > NAME || row[*at + 1] > 1)
            return 0;
        u32 flag = row[*at + 1];
        *at += 2;
        came |= flag;
        if (flag && !form(op, row, n, at, 1, depth + 1, under))
            return 0;
    }
    return came ? bound : 0;
}

static int is_expr(u32 tag)
{
    return (1 <= tag && tag <= 6) || (201 <= tag && tag <= 227) || (301 <= tag && tag <= 307) ||
           (401 <= tag && tag <= 412) || (751 <= tag && tag <= 757) || (761 <= tag && tag <= 764) ||
           (801 <= tag && tag <= 803) || (871 <= tag && tag <= 873);
}

/* 0, or the refusal of a row that must be one form. */
static u32 whole(struct op *op, const u32 *row, size_t n, int pred_only)
{
    size_t at = 0;
    if (n > WORDS)
        return 1;
    if (n == 0 || !form(op, row, n, &at, !pred_only && is_expr(row[0]), 1, 0) || at != n)
        return 2;
    return 0;
}

/* The check of a row that is to be one form of either kind. */
uint64_t plain_check(const u32 *row, size_t n)
{
    struct op op = {.kind = CHECK};
    return refuse(whole(&op, row, n, 0));
}

/* Where a row breaks: a word is taken if the fewest words that must come after it have room. */
struct seek {
    const u32 *row;
    size_t n, at;
};

/* Takes the next word, which is between the limits, if so many words at least must come after it. */
static int next(struct seek *s, u32 low, u32 high, uint64_t after)
{
    if (s->at >= s->n || s->row[s->at] < low || s->row[s->at] > high || s->at + 1 + after > WORDS)
        return 0;
    s->at++;
    return 1;
}

/* The fewest words of so many children of a node at a depth. */
static uint64_t least(u32 depth, uint64_t children) { return children == 0 || depth < DEPTH ? children : WORDS + 1; }

/* A form from here on, after which so many words must come; where it breaks, s->at is the position. */
static int seek(struct seek *s, int expr, u32 depth, uint64_t need)
{
    if (s->at >= s->n)
        return 0;
    u32 tag = s->row[s->at], names = 0, counted = 0, first = 0, low = 0, bound = 0, noted = 0;
    uint64_t preds = 0, exprs = 0;
    if (expr != is_expr(tag))
        return 0;
    switch (tag) {
    case 1: case 2: case 7: names = 1; first = NAME; break;
    case 3: names = 1; first = UINT32_MAX; break;
    case 4: counted = 1; break;
    case 5: case 8: preds = 1; break;
    case 6: exprs = 2; break;
    case 9: exprs = 1; break;
    case 10: counted = 1; low = 1; break;
    case 11: names = 1; first = NAME; counted = 1; break;
    case 610: case 611: break;
    case 251: case 252: preds = 2; break;
    case 351: case 352: counted = 2; low = 2; break;
    case 851: case 852: bound = 1; preds = 1; break;
    case 861: case 862: bound = 2; preds = 1; noted = 1; break;
    default:
        if ((101 <= tag && tag <= 112) || (201 <= tag && tag <= 227))
            exprs = 2;
        else if (301 <= tag && tag <= 307)
            counted = 1, low = 2;
        else if (expr && 751 <= tag && tag <= 764)
            exprs = 1;
        else if (801 <= tag && tag <= 803)
            names = 1, first = 3, bound = 1, preds = exprs = 1;
        else if (871 <= tag && tag <= 873)
            names = 1, first = 3, bound = 2, preds = exprs = 1, noted = 1;
        else if (tag < 401 || tag > 412)
            return 0;
    }
    uint64_t kids = preds + exprs + (counted ? low : 0);
    if (!next(s, 0, UINT32_MAX, names + (counted != 0) + 2 * bound + least(depth, kids) + need))
        return 0;
    if (names && !next(s, 0, first, (counted != 0) + 2 * bound + least(depth, kids) + need))
        return 0;
    if (counted) {
        uint64_t n = s->at < s->n ? s->row[s->at] : 0;
        if (!next(s, low, UINT32_MAX, least(depth, n) + need))
            return 0;
        *(counted == 1 ? &exprs : &preds) = n;
    }
    if (noted) {
        /* n declarations left take two words each, and one more while no annotation has come */
        uint64_t n = s->at < s->n ? s->row[s->at] : 0;
        u32 came = 0;
        if (!next(s, 1, DECLS, 2 * n + 1 + kids + need))
            return 0;
        while (n-- > 0) {
            u32 flag = s->at + 1 < s->n ? s->row[s->at + 1] : 0;
            if (!next(s, 0, NAME, 1 + 2 * n + !came + kids + need) ||
                !next(s, !came && n == 0, 1, (flag || !came) + 2 * n + kids + need))
                return 0;
            if (flag && !seek(s, 1, depth + 1, 2 * n + kids + need))
                return 0;
            came |= flag;
        }
    } else if (bound) {
        u32 n = s->at < s->n ? s->row[s->at] : 0;
        if (!next(s, 1, DECLS, n + least(depth, kids) + need))
            return 0;
        while (n-- > 0)
            if (!next(s, 0, NAME, n + least(depth, kids) + need))
                return 0;
    }
    for (uint64_t left = preds + exprs; left-- > 0;)
        if (!seek(s, left < exprs, depth + 1, left + need))
            return 0;
    return 1;
}

/* The check, with the position where it is 2. */
uint64_t plain_position(const u32 *row, size_t n)
{
    uint64_t answer = plain_check(row, n);
    if (answer >> 32 != 2)
        return answer;
    struct seek e = {row, n, 0}, p = {row, n, 0};
    seek(&e, 1, 1, 0);
    seek(&p, 0, 1, 0);
    return answer | (e.at > p.at ? e.at : p.at);
}

/* The own words after the tag of a checked form without annotations, its children and its declarations. */
static void shape(const u32 *row, u32 *own, u32 *children, u32 *bound)
{
    u32 tag = row[0];
    *own = *children = *bound = 0;
    if (tag <= 11)
        switch (tag) {
        case 1: case 2: case 3: case 7: *own = 1; break;
        case 4: case 10: *own = 1; *children = row[1]; break;
        case 5: case 8: case 9: *children = 1; break;
        case 6: *children = 2; break;
        default: *own = 2; *children = row[2];
        }
    else if (tag <= 252)
        *children = 2;
    else if (tag <= 352) {
        *own = 1;
        *children = row[1];
    } else if (tag <= 611)
        ;
    else if (tag <= 764)
        *children = 1;
    else if (tag <= 803) {
        *bound = row[2];
        *own = 2 + *bound;
        *children = 2;
    } else {
        *bound = row[1];
        *own = 1 + *bound;
        *children = 1;
    }
}

/* Of a checked form: whether its declarations have annotations, and which word is their number. */
static int is_noted(u32 tag) { return tag > 852; }
static u32 counter(u32 tag) { return tag > 862 ? 2 : 1; }

static const u32 *skip_noted(const u32 *row);

/* Where the checked form ends. */
static const u32 *skip(const u32 *row)
{
    u32 own, children, bound;
    if (is_noted(row[0]))
        return skip_noted(row);
    shape(row, &own, &children, &bound);
    row += 1 + own;
    while (children--)
        row = skip(row);
    return row;
}

/* Where a declaration with its flag and annotation ends. */
static const u32 *skip_decl(const u32 *decl) { return decl[1] ? skip(decl + 2) : decl + 2; }

static APART const u32 *skip_noted(const u32 *row)
{
    u32 two = row[0] > 862, bound = row[counter(row[0])];
    row += counter(row[0]) + 1;
    while (bound--)
        row = skip_decl(row);
    row = skip(row);
    return two ? skip(row) : row;
}

static void emit(const struct op *op, const u32 **row, u32 **out, u32 under);

/* Writes a declaration with its flag and annotation, which is rewritten. */
static APART void emit_decl(const struct op *op, const u32 **row, u32 **out, u32 under)
{
    u32 flag = (*row)[1];
    *(*out)++ = *(*row)++;
    *(*out)++ = *(*row)++;
    if (flag)
        emit(op, row, out, under);
}

/* Writes a quantifier with annotations, rewritten. */
static APART void emit_noted(const struct op *op, const u32 **row, u32 **out, u32 under)
{
    u32 two = **row > 862, own = counter(**row), bound = (*row)[own];
    for (u32 i = 0; i <= own; i++)
        *(*out)++ = *(*row)++;
    for (u32 i = 0; i < bound; i++)
        emit_decl(op, row, out, under);
    emit(op, row, out, under + bound);
    if (two)
        emit(op, row, out, under + bound);
}

/* Writes a replacement, lifted. */
static void put(const struct piece *p, u32 up_by, u32 down_by, u32 **out)
{
    if (up_by == down_by || !p->dangles) {
        memcpy(*out, p->row, p->len * sizeof **out);
        *out += p->len;
        return;
    }
    struct op up = {.kind = SHIFT, .up = up_by, .down = down_by};
    const u32 *row = p->row;
    emit(&up, &row, out, 0);
}

/* Writes a checked form, rewritten. */
static void emit(const struct op *op, const u32 **row, u32 **out, u32 under)
{
    const u32 *r = *row;
    u32 *o = *out, own, children, bound;
    int j;
    if (r[0] == 1 || r[0] == 2) {
        u32 v = r[1];
        *row += 2;
        if (r[0] == 2 && v >= under) {
            if (op->kind == SHIFT)
                v = v + op->up - op->down;
            else if (op->kind == BIND)
                v += op->n;
            else if (op->kind == FILL) {
                u32 d = v - under;
                if (d >= op->n)
                    v -= op->n - op->kept;
                else if (op->piece[op->n - 1 - d].word) {
                    put(&op->piece[op->n - 1 - d], under + op->kept, 0, out);
                    return;
                } else
                    v = under + op->rank[d];
            } else if (op->kind == POINT) {
                if (v - under == op->n) {
                    put(&op->piece[0], under, 1 + op->fall, out);
                    return;
                }
                if (v - under > op->n)
                    v -= 1 + op->fall;
            }
        } else if (r[0] == 1 && op->kind == BIND && (j = name_at(op, v)) >= 0) {
            o[0] = 2;
            o[1] = under + op->n - 1 - (u32)j;
            *out += 2;
            return;
        } else if (r[0] == 1 && op->kind == FREE && (j = name_at(op, v)) >= 0) {
            put(&op->piece[j], under, 0, out);
            return;
        }
        o[0] = r[0];
        o[1] = v;
        *out += 2;
        return;
    }
    if (is_noted(r[0])) {
        emit_noted(op, row, out, under);
        return;
    }
    shape(r, &own, &children, &bound);
    for (u32 i = 0; i <= own; i++)
        o[i] = r[i];
    *row += own + 1;
    *out += own + 1;
    for (u32 i = 0; i < children; i++)
        emit(op, row, out, under + bound);
}

uint64_t plain_shift(const u32 *row, size_t n, int32_t offset, u32 *out, size_t room)
{
    struct op op = {.kind = SHIFT};
    op.up = offset > 0 ? (u32)offset : 0;
    op.down = offset < 0 ? 0u - (u32)offset : 0;
    u32 k = whole(&op, row, n, 0);
    if (k)
        return refuse(k);
    if (op.dangles && op.low < op.down)
        return refuse(6);
    if (op.dangles && (uint64_t)op.high + op.up > NAME)
        return refuse(7);
    if (room < n)
        return refuse(14);
    emit(&op, &row, &out, 0);
    return n;
}

static int good(struct op *op)
{
    if (op->n > DECLS)
        return 0;
    for (u32 i = 0; i < op->n; i++) {
        u32 v = op->kind == BIND ? op->names[i] : op->piece[i].word;
        if (v > NAME || name_at(op, v) != (int)i)
            return 0;
    }
    return 1;
}

uint64_t plain_bind(const u32 *names, size_t count, const u32 *row, size_t n, u32 *out, size_t room)
{
    struct op op = {.kind = BIND, .names = names, .n = (u32)(count > DECLS ? 0 : count)};
    u32 k = whole(&op, row, n, 0);
    if (k)
        return refuse(k);
    if (count > WORDS)
        return refuse(1);
    if (count > DECLS || !good(&op))
        return refuse(4);
    if (op.over || (op.dangles && op.high + op.n > NAME))
        return refuse(7);
    if (room < n)
        return refuse(14);
    emit(&op, &row, &out, 0);
    return n;
}

/* Reads a list of pairs or places: 0, or the refusal. The number of its entries may pass 32. */
static u32 entries(struct op *op, const u32 *list, size_t n, int places)
{
    size_t at = 0;
    if (n > WORDS)
        return 1;
    op->n = 0;
    while (at < n) {
        struct piece p = {.word = list[at++]};
        if (places && p.word > 1)
            return 2;
        if (!places || p.word) {
            struct op seen = {.kind = CHECK};
            size_t start = at;
            if (!form(&seen, list, n, &at, 1, 1, 0))
                return 2;
            p.row = list + start;
            p.len = at - start;
            p.depth = seen.deepest;
            p.dangles = seen.dangles;
            p.high = seen.high;
        }
        if (op->n < DECLS)
            op->piece[op->n] = p;
        op->n++;
    }
    return 0;
}

uint64_t plain_free(const u32 *list, size_t count, const u32 *row, size_t n, u32 *work, size_t work_n, u32 *out,
                    size_t room)
{
    struct op check = {.kind = CHECK}, op = {.kind = FREE};
    size_t at = 0;
    u32 k;
    (void)work;
    if (work_n < WORK)
        return refuse(15);
    if ((k = whole(&check, row, n, 0)) || (k = entries(&op, list, count, 0)))
        return refuse(k);
    if (!good(&op))
        return refuse(4);
    op.len = n;
    form(&op, row, n, &at, is_expr(row[0]), 1, 0);
    if (op.over || op.len > WORDS)
        return refuse(7);
    if (room < op.len)
        return refuse(14);
    emit(&op, &row, &out, 0);
    return op.len;
}

/* A quantified predicate: its operator, whether it has annotations, where each declaration starts and, behind the last, the body. */
struct quantified {
    u32 tag, n;
    int noted;
    const u32 *decl[DECLS + 1];
};

/* 0 where a checked row is not quantified. */
static int quantified(struct quantified *q, const u32 *row)
{
    q->noted = row[0] == 861 || row[0] == 862;
    if (!q->noted && row[0] != 851 && row[0] != 852)
        return 0;
    q->tag = row[0] - (q->noted ? 10 : 0);
    q->n = row[1];
    q->decl[0] = row + 2;
    for (u32 j = 0; j < q->n; j++)
        q->decl[j + 1] = q->noted ? skip_decl(q->decl[j]) : q->decl[j] + 1;
    return 1;
}

/* Writes a declaration with what belongs to it, where annotations are written; where not, its name. */
static void put_decl(const struct quantified *q, u32 j, int noted, u32 **out)
{
    const u32 *d = q->decl[j];
    *(*out)++ = *d;
    if (noted && !q->noted)
        *(*out)++ = 0;
    else if (noted)
        while (++d < q->decl[j + 1])
            *(*out)++ = *d;
}

/* The quantified predicate with the pieces that op has, from a checked row. */
static uint64_t filled(struct op *op, const struct quantified *q, const u32 *row, size_t n, u32 *out, size_t room)
{
    const u32 *body = q->decl[q->n];
    size_t at = (size_t)(body - row), words = 0;
    int noted = 0;
    op->kind = FILL;
    op->kept = 0;
    for (u32 d = 0; d < op->n; d++)
        if (!op->piece[op->n - 1 - d].word) {
            u32 j = op->n - 1 - d;
            op->rank[d] = op->kept++;
            noted |= q->noted && q->decl[j][1];
            words += (size_t)(q->decl[j + 1] - q->decl[j]);
        }
    op->len = n - at + (op->kept ? 2 : 0) + (noted ? words : op->kept);
    form(op, row, n, &at, 0, op->kept ? 2 : 1, 0);
    if (op->over || op->len > WORDS)
        return refuse(7);
    if (room < op->len)
        return refuse(14);
    if (op->kept) {
        *out++ = q->tag + (noted ? 10 : 0);
        *out++ = op->kept;
        for (u32 j = 0; j < op->n; j++)
            if (!op->piece[j].word)
                put_decl(q, j, noted, &out);
    }
    emit(op, &body, &out, 0);
    return op->len;
}

uint64_t plain_fill(const u32 *list, size_t count, const u32 *row, size_t n, u32 *work, size_t work_n, u32 *out,
                    size_t room)
{
    struct op check = {.kind = CHECK}, op = {.kind = FILL};
    struct quantified q;
    u32 k;
    (void)work;
    if (work_n < WORK)
        return refuse(15);
    if ((k = whole(&check, row, n, 1)) || (k = entries(&op, list, count, 1)))
        return refuse(k);
    if (!quantified(&q, row))
        return refuse(3);
    if (op.n > q.n)
        return refuse(5);
    op.n = q.n; /* places that are missing have the word 0 and are kept */
    return filled(&op, &q, row, n, out, room);
}

uint64_t plain_prune(const u32 *row, size_t n, u32 *out, size_t room)
{
    struct op op = {.kind = CHECK};
    struct quantified q;
    u32 k = whole(&op, row, n, 1), unused = 0;
    if (k)
        return refuse(k);
    if (!quantified(&q, row))
        return refuse(3);
    op.kind = PRUNE;
    op.n = q.n;
    size_t at = (size_t)(q.decl[q.n] - row);
    form(&op, row, n, &at, 0, 2, 0);
    for (u32 j = 0; j < op.n; j++) {
        op.piece[j].word = !op.used[op.n - 1 - j];
        unused += op.piece[j].word;
    }
    if (!unused)
        return refuse(9);
    return filled(&op, &q, row, n, out, room);
}

/* One point's scan: the number of declarations, and what was taken, with the lowest index that dangles in it. */
struct point {
    u32 n, target, low;
    int taken;
    struct piece piece;
};

/* Whether the equality of l and r is taken. */
static int take(struct point *t, const u32 *l, const u32 *r)
{
    struct op seen = {.kind = CHECK};
    int left = l[0] == 2, right = r[0] == 2;
    size_t at = 0;
    if (t->taken || (!left && !right))
        return 0;
    int by_right = left && (!right || l[1] < r[1]);
    u32 target = by_right ? l[1] : r[1];
    const u32 *e = by_right ? r : l;
    size_t len = (size_t)(skip(e) - e);
    form(&seen, e, len, &at, 1, 1, 0);
    if (target >= t->n || (seen.dangles && seen.low <= target))
        return 0;
    t->taken = 1;
    t->target = target;
    t->low = seen.low;
    t->piece = (struct piece){1, e, len, seen.deepest, seen.high, seen.dangles};
    return 1;
}

static void copy(const u32 *from, const u32 *end, u32 **out)
{
    memcpy(*out, from, (size_t)(end - from) * sizeof *from);
    *out += end - from;
}

/* Takes the first k words of what was written from head away. */
static void drop(u32 *head, u32 k, u32 **out)
{
    memmove(head, head + k, (size_t)(*out - head - k) * sizeof *head);
    *out -= k;
}

/* Writes the parts of an equality of pairs that are not taken, and counts them. */
static u32 split(struct point *t, const u32 *l, const u32 *r, u32 **out)
{
    if (l[0] == 201 && r[0] == 201) {
        u32 k = split(t, l + 1, r + 1, out);
        return k + split(t, skip(l + 1), skip(r + 1), out);
    }
    if (take(t, l, r))
        return 0;
    *(*out)++ = 101;
    copy(l, skip(l), out);
    copy(r, skip(r), out);
    return 1;
}

/* Writes the predicate without the equality taken in it; 0 where nothing is left. */
static int scan(struct point *t, const u32 **row, u32 **out, int polarity)
{
    const u32 *r = *row;
    u32 *head = *out, kids = 0, tag = r[0];
    if (!t->taken && tag == (polarity ? 351 : 352)) {
        *row += 2;
        *out += 2;
        for (u32 i = 0; i < r[1]; i++)
            kids += (u32)scan(t, row, out, polarity);
        head[0] = tag;
        head[1] = kids;
        if (kids == 1)
            drop(head, 2, out);
        return 1;
    }
    if (!t->taken && tag == 251 && !polarity) {
        *(*out)++ = 251;
        *row += 1;
        int left = scan(t, row, out, 1);
        int right = scan(t, row, out, 0);
        if (!left)
            drop(head, 1, out);
        else if (!right && head[1] == 8)
            drop(head, 2, out);
        else if (!right)
            head[0] = 8;
        return 1;
    }
    if (!t->taken && tag == 8) {
        *(*out)++ = 8;
        *row += 1;
        if (!scan(t, row, out, !polarity)) {
            *out = head;
            return 0;
        }
        if (head[1] == 8)
            drop(head, 2, out);
        return 1;
    }
    *row = skip(r);
    if (!t->taken && tag == 101 && polarity) {
        const u32 *l = r + 1;
        r = skip(l);
        if (l[0] == 201 && r[0] == 201) {
            *out += 2;
            kids = split(t, l, r, out);
            head[0] = 351;
            head[1] = kids;
            if (kids == 1)
                drop(head, 2, out);
            return 1;
        }
        if (take(t, l, r))
            return 0;
        r = l - 1;
    }
    copy(r, *row, out);
    return 1;
}

/* Whether an expression mentions, after the piece is filled in for index 0, one of the declarations in front, which are 1 to n - 1. */
static int mentions(const struct piece *p, u32 n, const u32 *e, const u32 *end, u32 low)
{
    struct op front = {.kind = PRUNE, .n = n};
    size_t at = 0;
    form(&front, e, (size_t)(end - e), &at, 1, 1, 0);
    for (u32 i = 1; i < n; i++)
        if (front.used[i])
            return 1;
    return front.used[0] && p->dangles && low < n;
}

uint64_t plain_point(const u32 *row, size_t n, u32 *work, size_t work_n, u32 *out, size_t room)
{
    struct op op = {.kind = CHECK};
    struct quantified q, in = {.n = 0};
    u32 k;
    if (work_n < WORK)
        return refuse(15);
    if ((k = whole(&op, row, n, 1)))
        return refuse(k);
    if (!quantified(&q, row))
        return refuse(9);
    struct point t = {.n = q.n};
    const u32 *body = q.decl[q.n], *rest = work;
    u32 *end = work;
    if (!scan(&t, &body, &end, q.tag == 852))
        *end++ = q.tag == 852 ? 610 : 611;
    if (!t.taken)
        return refuse(9);
    op = (struct op){.kind = POINT, .n = t.target};
    op.piece[0] = t.piece;
    u32 left = t.n - 1;
    /* the body's own quantifier is joined where none of the rest is kept */
    if (!left || t.target != 0 || !quantified(&in, work) || in.tag != q.tag)
        in.n = 0;
    if (in.noted)
        for (u32 j = 0; j < in.n; j++)
            if (in.decl[j][1] && mentions(&t.piece, t.n, in.decl[j] + 2, in.decl[j + 1], t.low)) {
                in.n = 0;
                break;
            }
    int noted = in.n && in.noted;
    for (u32 j = 0; j < q.n; j++)
        noted |= q.noted && j != q.n - 1 - t.target && q.decl[j][1];
    if (in.n)
        rest = in.decl[in.n];
    if (left + in.n > DECLS)
        return refuse(7);
    size_t at = 0, words = (size_t)(end - rest);
    op.len = words;
    form(&op, rest, words, &at, 0, left ? 2 : 1, in.n);
    if (left) {
        op.len += 2;
        for (u32 j = 0; j < q.n; j++)
            if (j != q.n - 1 - t.target)
                op.len += !noted ? 1 : q.noted ? (size_t)(q.decl[j + 1] - q.decl[j]) : 2;
        op.fall = left;
        for (u32 j = 0; j < in.n; j++) {
            size_t part = (size_t)(in.decl[j + 1] - in.decl[j]);
            op.len += !noted ? 1 : in.noted ? part : 2;
            at = 2;
            if (in.noted && in.decl[j][1])
                form(&op, in.decl[j], part, &at, 1, 2, 0);
        }
    }
    if (op.over || op.len > WORDS)
        return refuse(7);
    if (room < op.len)
        return refuse(14);
    if (left) {
        *out++ = q.tag + (noted ? 10 : 0);
        *out++ = left + in.n;
        for (u32 j = 0; j < q.n; j++)
            if (j != q.n - 1 - t.target)
                put_decl(&q, j, noted, &out);
        for (u32 j = 0; j < in.n; j++) {
            const u32 *d = in.decl[j];
            if (in.noted)
                emit_decl(&op, &d, &out, 0);
            else
                put_decl(&in, j, noted, &out);
        }
    }
    op.fall = 0;
    emit(&op, &rest, &out, in.n);
    return op.len;
}

/* Forms written with names: for each name the innermost open declaration that bears it, counted from the outside and from 1, or 0. Between two
 * calls all are 0. */
static u32 last[NAME + 1];

static void put_names(const u32 **row, u32 **out, u32 under);

/* The children of a quantifier, in which its names are open. */
static APART void put_inside(const u32 *names, u32 bound, u32 children, const u32 **row, u32 **out, u32 under)
{
    u32 old[DECLS];
    for (u32 j = 0; j < bound; j++) {
        old[j] = last[names[j]];
        last[names[j]] = under + j + 1;
    }
    while (children--)
        put_names(row, out, under + bound);
    while (bound--)
        last[names[bound]] = old[bound];
}

/* A quantifier with annotations, whose names are not open in these. */
static APART void put_noted(const u32 **row, u32 **out, u32 under)
{
    u32 names[DECLS], two = **row > 862, own = counter(**row), bound = (*row)[own];
    for (u32 i = 0; i <= own; i++)
        *(*out)++ = *(*row)++;
    for (u32 i = 0; i < bound; i++) {
        u32 flag = (*row)[1];
        names[i] = **row;
        *(*out)++ = *(*row)++;
        *(*out)++ = *(*row)++;
        if (flag)
            put_names(row, out, under);
    }
    put_inside(names, bound, 1 + two, row, out, under);
}

/* Writes a checked form under so many declarations, with an index for each name that one of them bears. */
static void put_names(const u32 **row, u32 **out, u32 under)
{
    const u32 *r = *row;
    u32 *o = *out, own, children, bound;
    if (r[0] == 1) {
        u32 found = last[r[1]];
        o[0] = found ? 2 : 1;
        o[1] = found ? under - found : r[1];
        *row += 2;
        *out += 2;
        return;
    }
    if (is_noted(r[0])) {
        put_noted(row, out, under);
        return;
    }
    shape(r, &own, &children, &bound);
    for (u32 i = 0; i <= own; i++)
        o[i] = r[i];
    *row += own + 1;
    *out += own + 1;
    if (bound) {
        put_inside(r + 1 + own - bound, bound, children, row, out, under);
        return;
    }
    for (u32 i = 0; i < children; i++)
        put_names(row, out, under);
}

uint64_t plain_named(const u32 *row, size_t n, u32 *out, size_t room)
{
    struct op op = {.kind = NAMED};
    u32 k = whole(&op, row, n, 0);
    if (k || op.over)
        return refuse(k ? k : 2);
    if (room < n)
        return refuse(14);
    put_names(&row, &out, 0);
    return n;
}
