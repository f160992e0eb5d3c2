/* Drives a solver by a checkpoint schedule: reads the schedule a line at a time, and calls the solver's functions.

   Read the book by reverse_read_book, fill in a struct reverse_solver, and call reverse_drive. Books and schedules are
   those of docs/FORMATS.md, and rules go by their numbers in docs/ENDINGS.md. It wants C99 and nothing else.

   The driver knows which state is in work, which step is reversed next, and whether one is taped. It keeps no list of
   the states on a level, so rules 4 to 6 are the solver's to tell: its `store` sees a level that is full, or that holds
   the state already, and its `load` a state that isn't there. */
#ifndef REVERSE_H
#define REVERSE_H

#include <ctype.h>
#include <stdio.h>
#include <stdlib.h>
#include <string.h>

enum { REVERSE_LEVELS = 4, REVERSE_NAME = 16, REVERSE_LINE = 64, REVERSE_GREATEST = 1000000, REVERSE_UNLIMITED = -1 };

struct reverse_level {
    char name[REVERSE_NAME + 1];
    long slots; /* or REVERSE_UNLIMITED */
};

/* What a solver needs of a book: its levels, the fastest first. */
struct reverse_book {
    int levels;
    struct reverse_level level[REVERSE_LEVELS];
};

/* The functions of a solver for `steps` steps. State 0 is in work at the start, and step n leads from state n to n + 1.
   A level goes by its place in the book. Each function returns 0, or a code of the solver's own that ends the run. */
struct reverse_solver {
    long steps;
    void *user; /* handed to each function */

    /* Take the steps from one state to the other. */
    int (*advance)(void *user, long from, long to);
    /* Keep the state in work, which is n, on the level. */
    int (*store)(void *user, int level, long n);
    /* Bring state n from the level to work, and free its slot unless `keep` is 1. */
    int (*load)(void *user, int level, long n, int keep);
    /* Take step n, and keep what its reversal needs. */
    int (*tape)(void *user, long n);
    /* Reverse step n, the one that is taped. */
    int (*reverse)(void *user, long n);
    /* The last state is in work: begin the adjoint. */
    int (*at_end)(void *user);
    /* Copy state n to another level, and free its slot unless `keep` is 1. No plan does so: NULL will do. */
    int (*transfer)(void *user, int level, int target, long n, int keep);
};

enum reverse_kind {
    REVERSE_FORWARD, REVERSE_REVERSE, REVERSE_COPY, REVERSE_MOVE, REVERSE_END_FORWARD, REVERSE_END_REVERSE
};

/* A place is a level of the book, or one of these. */
enum reverse_place { REVERSE_WORK = -1, REVERSE_NONE = -2, REVERSE_UNKNOWN = -3 };

/* An action, by the words of its line. The state of a Copy and of a Move is `from`. */
struct reverse_action {
    enum reverse_kind kind;
    long from, to;
    int stores, tapes;
    int place, target;
};

enum reverse_status {
    REVERSE_DONE,        /* the schedule was done to its end */
    REVERSE_READ,        /* an action was read; no run ends so */
    REVERSE_UNREADABLE,  /* the file can't be read */
    REVERSE_NO_ACTION,   /* the line is no action */
    REVERSE_NO_LEVEL,    /* the line names a level that the book doesn't have */
    REVERSE_NO_TRANSFER, /* the action goes from level to level, and `transfer` is NULL */
    REVERSE_RULE,        /* the action breaks the rule with the number `code` */
    REVERSE_STOPPED      /* a function of the solver returned `code` */
};

struct reverse_counts {
    long long forward, taped, reversed;
    long long writes[REVERSE_LEVELS], reads[REVERSE_LEVELS];
};

/* How a run ended. Lines and actions are counted from 1. */
struct reverse_report {
    enum reverse_status status;
    int code;
    long line, action;
    struct reverse_counts counts;
};

/* ---- books */

/* The next token of a JSON text, by its first byte; what a string or another word says is put into `text`. A string
   with an escape comes out empty, and so does one that is too long for a name. */
static inline int reverse_token(FILE *json, char text[REVERSE_NAME + 1]) {
    int length = 0, plain = 1, quoted, first, c;
    do
        first = getc(json);
    while (first == ' ' || first == '\t' || first == '\r' || first == '\n');
    if (first == EOF || strchr("{}[]:,", first) != NULL)
        return first;
    quoted = first == '"';
    c = quoted ? getc(json) : first;
    for (; c != EOF && strchr(quoted ? "\"" : "{}[]:,\" \t\r\n", c) == NULL; c = getc(json)) {
        plain = plain && c != '\\' && length < REVERSE_NAME;
        if (plain)
            text[length++] = (char)c;
        if (c == '\\')
            getc(json);
    }
    text[plain ? length : 0] = '\0';
    if (!quoted)
        ungetc(c, json);
    return first;
}

/* Passes over a value, whatever it is. */
static inline int reverse_skip_value(FILE *json) {
    char text[REVERSE_NAME + 1];
    int depth = 0;
    do {
        int token = reverse_token(json, text);
        if (token == EOF)
            return 0;
        depth += (token == '{' || token == '[') - (token == '}' || token == ']');
    } while (depth > 0);
    return depth == 0;
}

/* The next key of an object. Returns 0 behind the last one. */
static inline int reverse_key(FILE *json, char key[REVERSE_NAME + 1]) {
    char colon[REVERSE_NAME + 1];
    int token = reverse_token(json, key);
    if (token == ',')
        token = reverse_token(json, key);
    return token == '"' && reverse_token(json, colon) == ':';
}

static inline int reverse_read_level(FILE *json, struct reverse_level *level) {
    char key[REVERSE_NAME + 1], slots[REVERSE_NAME + 1];
    int fits = 1;
    level->name[0] = '\0';
    level->slots = REVERSE_UNLIMITED;
    while (fits && reverse_key(json, key)) {
        if (strcmp(key, "name") == 0) {
            fits = reverse_token(json, level->name) == '"';
        } else if (strcmp(key, "slots") == 0) {
            int token = reverse_token(json, slots);
            fits = token == 'n' || isdigit(token);
            if (isdigit(token))
                level->slots = strtol(slots, NULL, 10);
        } else {
            fits = reverse_skip_value(json);
        }
    }
    return fits && level->name[0] != '\0';
}

static inline int reverse_read_levels(FILE *json, struct reverse_book *book) {
    char text[REVERSE_NAME + 1];
    int token = reverse_token(json, text);
    if (token != '[')
        return 0;
    for (book->levels = 0; token != ']'; book->levels++) {
        if (book->levels == REVERSE_LEVELS || reverse_token(json, text) != '{')
            return 0;
        if (!reverse_read_level(json, &book->level[book->levels]))
            return 0;
        token = reverse_token(json, text);
    }
    return 1;
}

/* Reads the levels of a book that `reversal_cli check` accepts, where no key stands twice and no name has an escape.
   Returns 0 where there are no levels, or one has no name. */
static inline int reverse_read_book(FILE *json, struct reverse_book *book) {
    char key[REVERSE_NAME + 1];
    book->levels = 0;
    if (reverse_token(json, key) != '{')
        return 0;
    while (reverse_key(json, key))
        if (strcmp(key, "levels") == 0 ? !reverse_read_levels(json, book) : !reverse_skip_value(json))
            return 0;
    return book->levels > 0;
}

/* ---- schedules */

static inline int reverse_in_word(int c) {
    return isalnum(c) || c == '_';
}

/* The next line, without blanks but for one between two words; a comment comes as `#` alone. What is too long for an
   action is cut, and so is none. Returns 0 behind the last line. */
static inline int reverse_next_line(FILE *text, char line[REVERSE_LINE]) {
    int length = 0, after_blank = 0, c;
    line[0] = '\0';
    while ((c = getc(text)) != EOF && c != '\n') {
        int blank = c == ' ' || c == '\t' || c == '\r';
        if (!blank && line[0] != '#' && length < REVERSE_LINE - 2) {
            if (after_blank && length > 0 && reverse_in_word((unsigned char)line[length - 1]) && reverse_in_word(c))
                line[length++] = ' ';
            line[length++] = c == '\0' ? '?' : (char)c;
        }
        after_blank = blank;
    }
    line[length] = '\0';
    return length > 0 || c != EOF;
}

/* Each of these reads what it is named for, and tells whether it stands there. */
static inline int reverse_number(const char **at, long *number) {
    const char *first = *at;
    for (*number = 0; isdigit((unsigned char)**at) && *number <= REVERSE_GREATEST; ++*at)
        *number = *number * 10 + (**at - '0');
    return *at > first && *number <= REVERSE_GREATEST && (*first != '0' || *at == first + 1);
}

static inline int reverse_truth(const char **at, int *truth) {
    *truth = strncmp(*at, "True", 4) == 0;
    if (!*truth && strncmp(*at, "False", 5) != 0)
        return 0;
    *at += *truth ? 4 : 5;
    return 1;
}

static inline int reverse_place(const char **at, const struct reverse_book *book, int *place) {
    const char *name = *at;
    size_t length = strspn(name, "ABCDEFGHIJKLMNOPQRSTUVWXYZ0123456789_");
    *at += length;
    *place = REVERSE_UNKNOWN;
    if (length == 4 && strncmp(name, "WORK", 4) == 0)
        *place = REVERSE_WORK;
    if (length == 4 && strncmp(name, "NONE", 4) == 0)
        *place = REVERSE_NONE;
    for (int level = 0; level < book->levels; level++)
        if (strlen(book->level[level].name) == length && strncmp(name, book->level[level].name, length) == 0)
            *place = level;
    return length > 0;
}

/* Whether a line has a shape, in which `#` stands for a number, `?` for a truth, and `@` for a place. */
static inline int reverse_match(const char *line, const char *shape, const struct reverse_book *book,
                                struct reverse_action *action) {
    long *number = &action->from;
    int *truth = &action->stores, *place = &action->place, fits = 1;
    for (; fits && *shape != '\0'; shape++) {
        if (*shape == '#') {
            fits = reverse_number(&line, number);
            number = &action->to;
        } else if (*shape == '?') {
            fits = reverse_truth(&line, truth);
            truth = &action->tapes;
        } else if (*shape == '@') {
            fits = reverse_place(&line, book, place);
            place = &action->target;
        } else {
            fits = *line++ == *shape;
        }
    }
    return fits && *line == '\0';
}

/* Whether the words of an action fit each other. */
static inline int reverse_fits(const struct reverse_action *action) {
    switch (action->kind) {
    case REVERSE_FORWARD:
        if (action->stores)
            return !action->tapes && action->place >= 0;
        if (action->tapes)
            return action->place == REVERSE_WORK && action->to == action->from + 1;
        return action->place < 0;
    case REVERSE_REVERSE:
        return action->from == action->to + 1;
    case REVERSE_COPY:
    case REVERSE_MOVE:
        return action->place >= 0 && action->target != REVERSE_NONE;
    default:
        return 1;
    }
}

static inline enum reverse_status reverse_parse(const char *line, const struct reverse_book *book,
                                                struct reverse_action *action) {
    static const char *const shapes[] = {"Forward(#,#,?,?,@)", "Reverse(#,#,True)", "Copy(#,@,@)",
                                         "Move(#,@,@)",        "EndForward()",      "EndReverse()"};
    for (int kind = REVERSE_FORWARD; kind <= REVERSE_END_REVERSE; kind++) {
        struct reverse_action found = {(enum reverse_kind)kind, 0, 0, 0, 0, REVERSE_NONE, REVERSE_NONE};
        if (reverse_match(line, shapes[kind], book, &found)) {
            *action = found;
            if (found.place == REVERSE_UNKNOWN || found.target == REVERSE_UNKNOWN)
                return REVERSE_NO_LEVEL;
            return reverse_fits(&found) ? REVERSE_READ : REVERSE_NO_ACTION;
        }
    }
    return REVERSE_NO_ACTION;
}

/* Reads the next action, passes over comments and empty lines, and counts the lines: REVERSE_READ where there is one,
   REVERSE_DONE behind the last, and else what is wrong. */
static inline enum reverse_status reverse_next(FILE *text, const struct reverse_book *book, long *lines,
                                               struct reverse_action *action) {
    char line[REVERSE_LINE];
    while (reverse_next_line(text, line)) {
        ++*lines;
        if (line[0] != '\0' && line[0] != '#')
            return reverse_parse(line, book, action);
    }
    return ferror(text) ? REVERSE_UNREADABLE : REVERSE_DONE;
}

/* ---- the run */

struct reverse_position {
    long steps, work, left; /* the number of steps, the state in work, and how many steps are still to be reversed */
    int taped, forward_ended, over;
};

/* The lowest rule that the action breaks and that can be told without a list of what is held, or 0. */
static inline int reverse_rule(const struct reverse_position *now, const struct reverse_action *action) {
    if (now->over)
        return 15;
    switch (action->kind) {
    case REVERSE_FORWARD:
        if (action->from != now->work)
            return 1;
        if (action->from >= action->to || action->to > now->steps)
            return 2;
        if (action->to > now->left)
            return 3;
        if (action->tapes && action->to != now->left)
            return 8;
        return action->tapes && now->taped ? 9 : 0;
    case REVERSE_REVERSE:
        return !now->taped ? 10 : action->from != now->left ? 11 : !now->forward_ended ? 12 : 0;
    case REVERSE_END_FORWARD:
        return now->forward_ended ? 13 : now->work != now->steps ? 14 : 0;
    case REVERSE_END_REVERSE:
        return !now->forward_ended ? 12 : now->left > 0 ? 16 : 0;
    default:
        return action->place == action->target ? 7 : 0;
    }
}

/* Calls the functions of the solver that do the action. */
static inline int reverse_perform(const struct reverse_solver *solver, const struct reverse_action *action) {
    int code, keep = action->kind == REVERSE_COPY;
    switch (action->kind) {
    case REVERSE_FORWARD:
        if (action->tapes)
            return solver->tape(solver->user, action->from);
        code = action->stores ? solver->store(solver->user, action->place, action->from) : 0;
        return code ? code : solver->advance(solver->user, action->from, action->to);
    case REVERSE_REVERSE:
        return solver->reverse(solver->user, action->to);
    case REVERSE_END_FORWARD:
        return solver->at_end(solver->user);
    case REVERSE_END_REVERSE:
        return 0;
    default:
        if (action->target == REVERSE_WORK)
            return solver->load(solver->user, action->place, action->from, keep);
        return solver->transfer(solver->user, action->place, action->target, action->from, keep);
    }
}

/* Where the run is behind the action, and what it counts. */
static inline void reverse_move_on(struct reverse_position *now, struct reverse_counts *counts,
                                   const struct reverse_action *action) {
    switch (action->kind) {
    case REVERSE_FORWARD:
        now->work = action->to;
        now->taped += action->tapes;
        counts->forward += action->to - action->from;
        counts->taped += action->tapes;
        if (action->stores)
            counts->writes[action->place]++;
        break;
    case REVERSE_REVERSE:
        now->left = action->to;
        now->taped = 0;
        counts->reversed++;
        break;
    case REVERSE_END_FORWARD:
        now->forward_ended = 1;
        break;
    case REVERSE_END_REVERSE:
        now->over = 1;
        break;
    default:
        counts->reads[action->place]++;
        if (action->target == REVERSE_WORK)
            now->work = action->from;
        else
            counts->writes[action->target]++;
    }
}

/* Does an action: REVERSE_READ where that is done, and else what is wrong. */
static inline enum reverse_status reverse_act(const struct reverse_solver *solver, const struct reverse_action *action,
                                              struct reverse_position *now, struct reverse_report *report) {
    int loads = action->kind == REVERSE_COPY || action->kind == REVERSE_MOVE;
    report->code = reverse_rule(now, action);
    if (report->code != 0)
        return REVERSE_RULE;
    if (loads && action->target != REVERSE_WORK && solver->transfer == NULL)
        return REVERSE_NO_TRANSFER;
    report->code = reverse_perform(solver, action);
    if (report->code != 0)
        return REVERSE_STOPPED;
    reverse_move_on(now, &report->counts, action);
    return REVERSE_READ;
}

/* Does the schedule up to its end, or to the first line that is wrong. What stands before that line is done by then, so
   let `reversal_cli check` judge the schedule before. */
static inline struct reverse_report reverse_drive(FILE *text, const struct reverse_book *book,
                                                  const struct reverse_solver *solver) {
    struct reverse_report report = {0};
    struct reverse_position now = {0};
    struct reverse_action action;
    now.steps = now.left = solver->steps;
    while ((report.status = reverse_next(text, book, &report.line, &action)) == REVERSE_READ) {
        report.action++;
        report.status = reverse_act(solver, &action, &now, &report);
        if (report.status != REVERSE_READ)
            return report;
    }
    if (report.status != REVERSE_DONE || !now.over)
        report.action++;
    if (report.status == REVERSE_DONE && !now.over) {
        report.status = REVERSE_RULE;
        report.code = 16;
    }
    return report;
}

/* Writes the counts as `reversal_cli cost` does, but for the total. */
static inline void reverse_print_counts(FILE *out, const struct reverse_book *book,
                                        const struct reverse_counts *counts) {
    fprintf(out, "forward %lld\ntaped %lld\nreversed %lld\n", counts->forward, counts->taped, counts->reversed);
    for (int k = 0; k < book->levels; k++)
        fprintf(out, "%s writes %lld reads %lld\n", book->level[k].name, counts->writes[k], counts->reads[k]);
}

/* Writes why a run ended, in one line. */
static inline void reverse_print_end(FILE *out, const struct reverse_report *report) {
    static const char *const why[] = {"done", "read", "it can't be read", "this is no action",
                                      "the book has no such level", "this solver copies from no level to another",
                                      "this breaks rule", "the solver ended it with code"};
    fprintf(out, "line %ld, action %ld: %s", report->line, report->action, why[report->status]);
    if (report->code != 0)
        fprintf(out, " %d", report->code);
    fprintf(out, "\n");
}

#endif
