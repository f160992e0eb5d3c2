/* The least solver there is, to begin one's own from: a body that cools by radiation, x' = -x^4, from x = 1. It writes
   how the last temperature depends on the first.

       cc -std=c99 cooling.c -o cooling
       cooling BOOK SCHEDULE

   The schedule is for 100 steps, and the book has one level of three slots. */
#include "reverse.h"

enum { STEPS = 100, SLOTS = 3, FREE = -1 };

struct cooling {
    double x, taped, slope; /* the temperature, the one before the step that is taped, and the adjoint */
    double kept[SLOTS];
    long held[SLOTS]; /* which state each slot has, or FREE */
};

/* The slot that holds state n, or with FREE one that holds none; SLOTS where there is no such slot. */
static int find(const struct cooling *body, long n) {
    int slot = 0;
    while (slot < SLOTS && body->held[slot] != n)
        slot++;
    return slot;
}

static int advance(void *user, long from, long to) {
    struct cooling *body = user;
    for (; from < to; from++)
        body->x -= 0.01 * body->x * body->x * body->x * body->x;
    return 0;
}

static int store(void *user, int level, long n) {
    struct cooling *body = user;
    int slot = find(body, FREE);
    if (level != 0 || slot == SLOTS)
        return 1;
    body->held[slot] = n;
    body->kept[slot] = body->x;
    return 0;
}

static int load(void *user, int level, long n, int keep) {
    struct cooling *body = user;
    int slot = find(body, n);
    if (level != 0 || slot == SLOTS)
        return 2;
    body->x = body->kept[slot];
    if (!keep)
        body->held[slot] = FREE;
    return 0;
}

static int tape(void *user, long n) {
    struct cooling *body = user;
    body->taped = body->x;
    return advance(user, n, n + 1);
}

static int reverse(void *user, long n) {
    struct cooling *body = user;
    (void)n;
    body->slope *= 1 - 0.04 * body->taped * body->taped * body->taped;
    return 0;
}

static int at_end(void *user) {
    struct cooling *body = user;
    printf("x %.6f\n", body->x);
    body->slope = 1;
    return 0;
}

int main(int count, char **words) {
    struct cooling body = {.x = 1, .held = {FREE, FREE, FREE}};
    struct reverse_solver solver = {STEPS, &body, advance, store, load, tape, reverse, at_end, NULL};
    struct reverse_book book;
    FILE *levels = count == 3 ? fopen(words[1], "rb") : NULL, *plan = count == 3 ? fopen(words[2], "rb") : NULL;
    if (levels == NULL || plan == NULL || !reverse_read_book(levels, &book))
        return 1;
    struct reverse_report report = reverse_drive(plan, &book, &solver);
    reverse_print_end(stdout, &report);
    printf("slope %.6f, by %lld forward steps\n", body.slope, report.counts.forward);
    fclose(levels);
    fclose(plan);
    return report.status != REVERSE_DONE;
}
