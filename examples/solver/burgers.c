/* The gradient of a misfit at the end of a run of Burgers' equation, by a checkpoint schedule.

       cc -std=c99 -O2 burgers.c -o burgers -lm
       burgers BOOK SCHEDULE N [FOLDER]

   The equation is u_t + u u_x = nu u_xx for x from 0 to 1, where u is 0 at both ends. N explicit steps lead from the
   start to the last field. The misfit is half the square of the distance of that field from a target, and the gradient
   is with respect to the start. States on the level RAM are kept in memory, and those on other levels in files of
   FOLDER, which is the current folder where nothing is said.

   It writes the norm of the gradient, how far it is from that of a run that keeps all states, how far it is from
   central differences, and the counts. It ends with status 1 where the schedule is refused or a gradient differs. */
#include "reverse.h"
#include <math.h>
#include <stdlib.h>

enum { POINTS = 64 };

static const double VISCOSITY = 0.01, TIME_STEP = 0.001, SPACING = 1.0 / (POINTS + 1);
static const double SMALL_CHANGE = 1e-4, TOLERANCE = 1e-6;

/* The values at the points, with the ends before and behind them, which stay 0. */
struct field {
    double at[POINTS + 2];
};

/* ---- the equation, and the adjoint of a step */

static struct field start(void) {
    struct field u = {{0}};
    for (int i = 1; i <= POINTS; i++)
        u.at[i] = 6.75 * (i * SPACING) * (i * SPACING) * (1 - i * SPACING);
    return u;
}

static struct field direction(void) {
    struct field d = {{0}};
    for (int i = 1; i <= POINTS; i++)
        d.at[i] = (i * SPACING) * (1 - i * SPACING);
    return d;
}

static double target(int i) {
    return 2 * (i * SPACING) * (1 - i * SPACING);
}

static void take_step(struct field *u) {
    const double convection = TIME_STEP / (4 * SPACING), diffusion = VISCOSITY * TIME_STEP / (SPACING * SPACING);
    const struct field old = *u;
    for (int i = 1; i <= POINTS; i++) {
        double left = old.at[i - 1], middle = old.at[i], right = old.at[i + 1];
        u->at[i] = middle - convection * (right * right - left * left) + diffusion * (right - 2 * middle + left);
    }
}

/* From the gradient with respect to the field behind a step to that with respect to u, the field before it. */
static void step_adjoint(const struct field *u, struct field *gradient) {
    const double convection = TIME_STEP / (4 * SPACING), diffusion = VISCOSITY * TIME_STEP / (SPACING * SPACING);
    const struct field old = *gradient;
    for (int i = 1; i <= POINTS; i++) {
        double slope = 2 * convection * u->at[i];
        gradient->at[i] = (1 - 2 * diffusion) * old.at[i] + (diffusion - slope) * old.at[i - 1]
                          + (diffusion + slope) * old.at[i + 1];
    }
}

static double misfit(const struct field *u) {
    double sum = 0;
    for (int i = 1; i <= POINTS; i++)
        sum += (u->at[i] - target(i)) * (u->at[i] - target(i));
    return sum * SPACING / 2;
}

static struct field misfit_gradient(const struct field *u) {
    struct field gradient = {{0}};
    for (int i = 1; i <= POINTS; i++)
        gradient.at[i] = (u->at[i] - target(i)) * SPACING;
    return gradient;
}

/* ---- checkpoints */

enum { FREE = -1, FULL = 4, ALREADY_HELD = 5, NOT_HELD = 6, FILE_FAILED = 100 };

/* The slots of a level: the number of the state in each or FREE, and the states, or NULL where these are in files. */
struct shelf {
    long slots, *held;
    struct field *states;
};

struct run {
    struct reverse_book book;
    const char *folder;
    struct shelf shelves[REVERSE_LEVELS];
    struct field work, taped, gradient;
};

static long find(const struct shelf *shelf, long n) {
    for (long slot = 0; slot < shelf->slots; slot++)
        if (shelf->held[slot] == n)
            return slot;
    return -1;
}

static void name_file(const struct run *run, int level, long n, char name[FILENAME_MAX]) {
    snprintf(name, FILENAME_MAX, "%s/%s-%ld.state", run->folder, run->book.level[level].name, n);
}

static int write_file(const struct run *run, int level, long n, const struct field *u) {
    char name[FILENAME_MAX];
    name_file(run, level, n, name);
    FILE *file = fopen(name, "wb");
    if (file == NULL)
        return FILE_FAILED;
    size_t written = fwrite(u, sizeof *u, 1, file);
    return fclose(file) == 0 && written == 1 ? 0 : FILE_FAILED;
}

static int read_file(const struct run *run, int level, long n, int keep, struct field *u) {
    char name[FILENAME_MAX];
    name_file(run, level, n, name);
    FILE *file = fopen(name, "rb");
    if (file == NULL)
        return FILE_FAILED;
    size_t read = fread(u, sizeof *u, 1, file);
    fclose(file);
    return read == 1 && (keep || remove(name) == 0) ? 0 : FILE_FAILED;
}

static int put(struct run *run, int level, long n, const struct field *u) {
    struct shelf *shelf = &run->shelves[level];
    long slot = find(shelf, FREE);
    if (slot < 0)
        return FULL;
    if (find(shelf, n) >= 0)
        return ALREADY_HELD;
    shelf->held[slot] = n;
    if (shelf->states == NULL)
        return write_file(run, level, n, u);
    shelf->states[slot] = *u;
    return 0;
}

static int take(struct run *run, int level, long n, int keep, struct field *u) {
    struct shelf *shelf = &run->shelves[level];
    long slot = find(shelf, n);
    if (slot < 0)
        return NOT_HELD;
    if (!keep)
        shelf->held[slot] = FREE;
    if (shelf->states == NULL)
        return read_file(run, level, n, keep, u);
    *u = shelf->states[slot];
    return 0;
}

static int make_shelf(struct shelf *shelf, const struct reverse_level *level, long steps) {
    shelf->slots = level->slots == REVERSE_UNLIMITED || level->slots > steps ? steps + 1 : level->slots;
    shelf->held = malloc(((size_t)shelf->slots + 1) * sizeof *shelf->held);
    shelf->states = NULL;
    if (strcmp(level->name, "RAM") == 0)
        shelf->states = malloc(((size_t)shelf->slots + 1) * sizeof *shelf->states);
    for (long slot = 0; shelf->held != NULL && slot < shelf->slots; slot++)
        shelf->held[slot] = FREE;
    return shelf->held != NULL && (strcmp(level->name, "RAM") != 0 || shelf->states != NULL);
}

/* ---- the functions that the driver calls */

static int advance(void *user, long from, long to) {
    struct run *run = user;
    for (; from < to; from++)
        take_step(&run->work);
    return 0;
}

static int store(void *user, int level, long n) {
    struct run *run = user;
    return put(run, level, n, &run->work);
}

static int load(void *user, int level, long n, int keep) {
    struct run *run = user;
    return take(run, level, n, keep, &run->work);
}

static int transfer(void *user, int level, int to, long n, int keep) {
    struct field u;
    int code = take(user, level, n, keep, &u);
    return code != 0 ? code : put(user, to, n, &u);
}

static int tape(void *user, long n) {
    struct run *run = user;
    run->taped = run->work;
    return advance(user, n, n + 1);
}

static int reverse(void *user, long n) {
    struct run *run = user;
    (void)n;
    step_adjoint(&run->taped, &run->gradient);
    return 0;
}

static int at_end(void *user) {
    struct run *run = user;
    run->gradient = misfit_gradient(&run->work);
    return 0;
}

/* ---- what the gradient is compared with */

/* The gradient by a run that keeps all states. Returns 0 where memory runs out. */
static int keep_all(long steps, struct field *gradient) {
    struct field *states = malloc(((size_t)steps + 1) * sizeof *states);
    if (states == NULL)
        return 0;
    states[0] = start();
    for (long n = 0; n < steps; n++) {
        states[n + 1] = states[n];
        take_step(&states[n + 1]);
    }
    *gradient = misfit_gradient(&states[steps]);
    for (long n = steps; n-- > 0;)
        step_adjoint(&states[n], gradient);
    free(states);
    return 1;
}

static double misfit_of(long steps, double change) {
    struct field u = start(), d = direction();
    for (int i = 1; i <= POINTS; i++)
        u.at[i] += change * d.at[i];
    for (long n = 0; n < steps; n++)
        take_step(&u);
    return misfit(&u);
}

static double product(const struct field *a, const struct field *b) {
    double sum = 0;
    for (int i = 1; i <= POINTS; i++)
        sum += a->at[i] * b->at[i];
    return sum;
}

/* How far the gradient is from central differences along the direction, relative to them. */
static double from_differences(long steps, const struct field *gradient) {
    const struct field d = direction();
    double slope = (misfit_of(steps, SMALL_CHANGE) - misfit_of(steps, -SMALL_CHANGE)) / (2 * SMALL_CHANGE);
    return fabs(product(gradient, &d) - slope) / fabs(slope);
}

static double distance(const struct field *a, const struct field *b) {
    double most = 0;
    for (int i = 1; i <= POINTS; i++)
        most = fmax(most, fabs(a->at[i] - b->at[i]));
    return most;
}

/* Writes what there is to say of the gradient, and tells whether it is right. */
static int judge(long steps, const struct field *gradient) {
    struct field other;
    double differences = from_differences(steps, gradient);
    if (!keep_all(steps, &other))
        return 0;
    printf("gradient norm %.17g\n", sqrt(product(gradient, gradient)));
    printf("from all states %.3g\n", distance(gradient, &other));
    printf("from differences %.3g\n", differences);
    return memcmp(gradient, &other, sizeof other) == 0 && differences <= TOLERANCE;
}

/* ---- the program */

static int fail(const char *what) {
    fprintf(stderr, "burgers: %s\n", what);
    return 1;
}

static int read_book(const char *name, struct reverse_book *book) {
    FILE *file = fopen(name, "rb");
    int found = file != NULL && reverse_read_book(file, book);
    if (file != NULL)
        fclose(file);
    return found;
}

static int make_run(struct run *run, long steps) {
    run->work = start();
    for (int level = 0; level < run->book.levels; level++)
        if (!make_shelf(&run->shelves[level], &run->book.level[level], steps))
            return 0;
    return 1;
}

static void free_run(struct run *run) {
    for (int level = 0; level < run->book.levels; level++) {
        free(run->shelves[level].held);
        free(run->shelves[level].states);
    }
}

static int drive(struct run *run, FILE *schedule, long steps) {
    struct reverse_solver solver = {steps, run, advance, store, load, tape, reverse, at_end, transfer};
    struct reverse_report report = reverse_drive(schedule, &run->book, &solver);
    int right = 0;
    if (report.status != REVERSE_DONE) {
        fprintf(stderr, "burgers: ");
        reverse_print_end(stderr, &report);
    } else {
        right = judge(steps, &run->gradient);
        reverse_print_counts(stdout, &run->book, &report.counts);
    }
    return right ? 0 : 1;
}

int main(int count, char **words) {
    struct run run = {0};
    FILE *schedule;
    long steps;
    int status;
    if (count != 4 && count != 5)
        return fail("say BOOK SCHEDULE N [FOLDER]");
    steps = strtol(words[3], NULL, 10);
    run.folder = count == 5 ? words[4] : ".";
    if (steps < 0 || steps > REVERSE_GREATEST)
        return fail("N is out of bounds");
    if (!read_book(words[1], &run.book))
        return fail("there is no such book");
    schedule = fopen(words[2], "rb");
    if (schedule == NULL)
        return fail("there is no such schedule");
    status = make_run(&run, steps) ? drive(&run, schedule, steps) : fail("memory ran out");
    free_run(&run);
    fclose(schedule);
    return status;
}
