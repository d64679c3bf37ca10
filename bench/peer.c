/* The elimination that rx_shadow::solve makes and the walk that rx_prover::prove makes, in plain C without proofs: what
 * one processor can do.
 *
 * Reads the queries of rows.py from standard input, and solves each as often as the first word says, or walks it where
 * the second word is `walk`. Prints what they came to, the steps (rows combined), the cases and halvings of the walks,
 * and the processor time of one round in microseconds. It counts the points but does not work them out, and keeps no
 * derivations and no proofs. Built with -DVARIABLES=N for queries of at most N variables. */
#include <stdio.h>
#include <stdlib.h>
#include <string.h>
#include <time.h>

#ifndef VARIABLES
#define VARIABLES 192
#endif

enum { MOST = 1024, OPEN = 4096, POINT = 0, CLOSED = 1, NOT_SIMPLE = 2 };
typedef __int128 wide;
struct row { wide least; long c[VARIABLES]; };
struct system { int rows, full, clash; struct row row[MOST]; };
struct query { int rows, eithers; struct row *row; struct either *either; };
struct either { int branches; struct query *branch; };

static int nv;
static long steps, nodes;
static wide low[VARIABLES], high[VARIABLES];
static char has_low[VARIABLES], has_high[VARIABLES], occurs[VARIABLES];

static wide up(wide a, wide b) { wide q = a / b; return q * b < a ? q + 1 : q; }

static long divisor(const struct row *r)
{
    long g = 0;
    for (int v = 0; v < nv && g != 1; v++) { long a = labs(r->c[v]); while (a) { long t = g % a; g = a; a = t; } }
    return g;
}

/* Tightens a row and joins it, where it is not there yet. */
static void join(struct system *s, const struct row *given)
{
    struct row r = *given;
    long g = divisor(&r);
    if (!g) { if (r.least > 0) s->clash = 1; return; }
    if (g > 1) { for (int v = 0; v < nv; v++) r.c[v] /= g; r.least = up(r.least, g); }
    for (int i = 0; i < s->rows; i++)
        if (s->row[i].least == r.least && !memcmp(s->row[i].c, r.c, (size_t)nv * sizeof *r.c)) return;
    if (s->rows < MOST) s->row[s->rows++] = r; else s->full = 1;
}

static void join_all(struct system *s, const struct query *q)
{
    for (int i = 0; i < q->rows; i++) join(s, &q->row[i]);
}

/* Finds the bounds of each variable, and whether the rows clash. */
static int clashes(const struct system *s)
{
    if (s->clash) return 1;
    memset(has_low, 0, sizeof has_low); memset(has_high, 0, sizeof has_high); memset(occurs, 0, sizeof occurs);
    for (int i = 0; i < s->rows; i++) {
        int one = -1, count = 0;
        for (int v = 0; v < nv; v++) if (s->row[i].c[v]) { one = v; count++; occurs[v] = 1; }
        if (count != 1) continue;
        wide k = s->row[i].least;
        if (s->row[i].c[one] > 0) { if (!has_low[one] || k > low[one]) low[one] = k, has_low[one] = 1; }
        else if (!has_high[one] || -k < high[one]) high[one] = -k, has_high[one] = 1;
    }
    for (int v = 0; v < nv; v++) if (has_low[v] && has_high[v] && low[v] > high[v]) return 1;
    return 0;
}

static int fixed(int v) { return has_low[v] && has_high[v] && low[v] == high[v]; }

static int exact(const struct system *s, int v)
{
    int wide_up = 0, wide_down = 0;
    if (!occurs[v] || fixed(v)) return occurs[v];
    for (int i = 0; i < s->rows; i++) { wide_up |= s->row[i].c[v] > 1; wide_down |= s->row[i].c[v] < -1; }
    return !(wide_up && wide_down);
}

static void combine(struct system *to, const struct row *a, long x, const struct row *b, long y)
{
    struct row r;
    for (int v = 0; v < nv; v++) r.c[v] = a->c[v] * x + b->c[v] * y;
    r.least = a->least * x + b->least * y;
    steps++;
    join(to, &r);
}

static void put_value(struct system *to, const struct row *a, int v)
{
    struct row r = *a;
    r.c[v] = 0; r.least -= (wide)a->c[v] * low[v];
    steps++;
    join(to, &r);
}

static void eliminate(const struct system *s, struct system *t, int v)
{
    t->rows = t->full = t->clash = 0;
    for (int i = 0; i < s->rows; i++) if (!s->row[i].c[v]) t->row[t->rows++] = s->row[i];
    for (int i = 0; i < s->rows; i++) {
        const struct row *a = &s->row[i];
        if (fixed(v)) { if (a->c[v]) put_value(t, a, v); continue; }
        for (int j = 0; a->c[v] > 0 && j < s->rows && !t->full; j++)
            if (s->row[j].c[v] < 0) combine(t, a, -s->row[j].c[v], &s->row[j], a->c[v]);
    }
}

/* Eliminates exact variables, the greatest-numbered first. */
static int solve(const struct system *given)
{
    static struct system pool[2];
    const struct system *s = given;
    struct system *t = &pool[0];
    for (;;) {
        int v = nv - 1, any = 0;
        if (clashes(s)) return CLOSED;
        for (int u = 0; u < nv; u++) any |= occurs[u];
        if (!any) return POINT;
        while (v >= 0 && !exact(s, v)) v--;
        if (v < 0) return NOT_SIMPLE;
        eliminate(s, t, v);
        if (t->full) return NOT_SIMPLE;
        s = t; t = s == &pool[0] ? &pool[1] : &pool[0];
    }
}

static int walk(struct system *s, const struct either **open, int next, int count);

static int walk_cases(struct system *s, const struct either **open, int next, int count)
{
    int answer = CLOSED, rows = s->rows;
    for (int b = 0; b < open[next]->branches && answer == CLOSED; b++) {
        const struct query *branch = &open[next]->branch[b];
        if (count + branch->eithers > OPEN) { fprintf(stderr, "too many disjunctions\n"); exit(2); }
        join_all(s, branch);
        for (int i = 0; i < branch->eithers; i++) open[count + i] = &branch->either[i];
        answer = walk(s, open, next + 1, count + branch->eithers);
        s->rows = rows; s->clash = 0;
    }
    return answer;
}

static int walk_half(struct system *s, const struct either **open, int next, int count, int v, long c, wide least)
{
    int answer, rows = s->rows;
    struct row r;
    memset(&r, 0, sizeof r);
    r.c[v] = c; r.least = least;
    join(s, &r);
    answer = walk(s, open, next, count);
    s->rows = rows;
    return answer;
}

/* Halves the narrowest variable; the bounds are those that `clashes` found. */
static int walk_halves(struct system *s, const struct either **open, int next, int count)
{
    int best = -1;
    for (int v = 0; v < nv; v++)
        if (has_low[v] && has_high[v] && high[v] > low[v] && (best < 0 || high[v] - low[v] < high[best] - low[best])) best = v;
    if (best < 0) { fprintf(stderr, "past the limits\n"); exit(2); }
    wide middle = low[best] + (high[best] - low[best]) / 2;
    int answer = walk_half(s, open, next, count, best, -1, -middle);
    return answer == CLOSED ? walk_half(s, open, next, count, best, 1, middle + 1) : answer;
}

/* Walks a node of these rows and the open disjunctions from `next` on. */
static int walk(struct system *s, const struct either **open, int next, int count)
{
    int answer;
    if (clashes(s)) return CLOSED;
    if (next < count) { nodes++; return walk_cases(s, open, next, count); }
    answer = solve(s);
    if (answer != NOT_SIMPLE) return answer;
    nodes++;
    clashes(s);
    return walk_halves(s, open, next, count);
}

static int decide(const struct query *q, int walks)
{
    static struct system s;
    static const struct either *open[OPEN];
    s.rows = s.full = s.clash = 0;
    join_all(&s, q);
    if (!walks) return solve(&s);
    for (int i = 0; i < q->eithers; i++) open[i] = &q->either[i];
    return walk(&s, open, 0, q->eithers);
}

static long number(void) { long v = 0; return scanf("%ld", &v) == 1 ? v : 0; }

static void read_list(struct query *q)
{
    q->rows = (int)number();
    if (q->rows > MOST) { fprintf(stderr, "too large\n"); exit(2); }
    q->row = calloc((size_t)q->rows + 1, sizeof *q->row);
    for (int i = 0; i < q->rows; i++) {
        for (int v = 0; v < nv; v++) q->row[i].c[v] = number();
        q->row[i].least = number();
    }
    q->eithers = (int)number();
    if (q->eithers > OPEN) { fprintf(stderr, "too many disjunctions\n"); exit(2); }
    q->either = calloc((size_t)q->eithers + 1, sizeof *q->either);
    for (int i = 0; i < q->eithers; i++) {
        q->either[i].branches = (int)number();
        q->either[i].branch = calloc((size_t)q->either[i].branches + 1, sizeof *q->either[i].branch);
        for (int b = 0; b < q->either[i].branches; b++) read_list(&q->either[i].branch[b]);
    }
}

int main(int count, char **words)
{
    struct query query;
    long answers[3] = {0, 0, 0}, rounds = count > 1 ? atol(words[1]) : 1;
    int walks = count > 2 && !strcmp(words[2], "walk");
    clock_t spent = 0;
    for (char q; scanf(" %c", &q) == 1 && q == 'q';) {
        int answer = POINT;
        nv = (int)number();
        if (nv > VARIABLES) { fprintf(stderr, "too large\n"); return 2; }
        read_list(&query);
        if (!walks && query.eithers) { fprintf(stderr, "a disjunction\n"); return 2; }
        clock_t start = clock();
        for (long i = 0; i < rounds; i++) answer = decide(&query, walks);
        spent += clock() - start;
        answers[answer]++;
    }
    printf("points %ld\nclosed %ld\nnot simple %ld\nsteps %ld\n", answers[POINT], answers[CLOSED], answers[NOT_SIMPLE], steps / rounds);
    if (walks) printf("nodes %ld\n", nodes / rounds);
    printf("walk us %.1f\n", (double)spent * 1e6 / CLOCKS_PER_SEC / (double)rounds);
    return 0;
}
