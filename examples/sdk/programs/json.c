/* Reads JSON, and prints it with a member or an entry on each line and the members of an object in the order of their names. Then it
   prints how much there was of each kind, and the sum of the numbers. It ends with 0, or with 1 where it read no JSON. */
#include <ctype.h>
#include <errno.h>
#include <math.h>
#include <setjmp.h>
#include <stdarg.h>
#include <stdbool.h>
#include <stdio.h>
#include <stdlib.h>
#include <string.h>

enum kind { NOTHING, TRUTH, NUMBER, TEXT, LIST, OBJECT, KINDS };

static const char *const kind_names[KINDS] = {"null", "truths", "numbers", "texts", "lists", "objects"};

struct value {
    enum kind kind;
    union {
        bool truth;
        double number;
        char *text;
        struct {
            struct member *members;
            size_t count, room;
        };
    };
};

struct member {
    char *name; /* NULL in a list */
    struct value value;
};

struct text {
    char *letters;
    size_t count, room;
};

enum { DEEPEST = 64 };

static struct {
    unsigned line, column, depth;
    jmp_buf refused;
} reading = {1, 1, 0};

static void refuse(const char *format, ...) {
    va_list words;
    va_start(words, format);
    fprintf(stderr, "line %u, column %u: ", reading.line, reading.column);
    vfprintf(stderr, format, words);
    fputc('\n', stderr);
    va_end(words);
    longjmp(reading.refused, 1);
}

static void *resized(void *old, size_t count, size_t size) {
    void *bytes = realloc(old, count * size);
    if (bytes == NULL)
        refuse("there is no memory for %u things of %u bytes", (unsigned)count, (unsigned)size);
    return bytes;
}

/* ---- letters */

static int next_letter(void) {
    int letter = getchar();
    if (letter == '\n') {
        reading.line++;
        reading.column = 1;
    } else if (letter != EOF)
        reading.column++;
    return letter;
}

static int peek(void) {
    int letter = getchar();
    if (letter != EOF)
        ungetc(letter, stdin);
    return letter;
}

static int peek_behind_blanks(void) {
    while (peek() != EOF && isspace(peek()))
        next_letter();
    return peek();
}

static void expect(char letter) {
    int found = peek_behind_blanks();
    if (found == EOF)
        refuse("the text ends before a %c", letter);
    if (found != letter)
        refuse("there is a %c in place of a %c", found, letter);
    next_letter();
}

static void append(struct text *text, int letter) {
    if (text->count == text->room)
        text->letters = resized(text->letters, text->room = text->room ? 2 * text->room : 16, 1);
    text->letters[text->count++] = letter;
}

static char *finished(struct text *text) {
    append(text, 0);
    return resized(text->letters, text->count, 1);
}

/* ---- reading */

static unsigned four_digits(void) {
    char digits[5] = "", *end;
    for (int place = 0; place < 4 && isxdigit(peek()); place++)
        digits[place] = next_letter();
    unsigned long code = strtoul(digits, &end, 16);
    if (end != digits + 4)
        refuse("\\u wants four digits");
    return code;
}

static void append_code(struct text *text, unsigned long code) {
    if (code < 0x80)
        append(text, code);
    else if (code < 0x800) {
        append(text, 0xc0 | code >> 6);
        append(text, 0x80 | (code & 0x3f));
    } else {
        append(text, 0xe0 | code >> 12);
        append(text, 0x80 | (code >> 6 & 0x3f));
        append(text, 0x80 | (code & 0x3f));
    }
}

static void read_escape(struct text *text) {
    static const char escapes[] = "\"\\/bfnrt", meant[] = "\"\\/\b\f\n\r\t";
    int letter = next_letter();
    const char *found = letter > 0 ? strchr(escapes, letter) : NULL;
    if (letter == 'u')
        append_code(text, four_digits());
    else if (found)
        append(text, meant[found - escapes]);
    else
        refuse("no escape begins so");
}

static char *read_text(void) {
    struct text text = {0};
    expect('"');
    for (int letter; (letter = next_letter()) != '"';)
        if (letter == EOF || iscntrl(letter))
            refuse("a text isn't closed");
        else if (letter == '\\')
            read_escape(&text);
        else
            append(&text, letter);
    return finished(&text);
}

static double read_number(void) {
    struct text text = {0};
    while (peek() != EOF && (isalnum(peek()) || strchr("+-.", peek())))
        append(&text, next_letter());
    char *digits = finished(&text), *end;
    errno = 0;
    double number = strtod(digits, &end);
    if (end == digits || *end != 0 || errno == ERANGE || !isfinite(number))
        refuse("%s is no number", digits);
    free(digits);
    return number;
}

static struct value read_value(void);

static void add_member(struct value *to, char *name, struct value value) {
    if (to->count == to->room)
        to->members = resized(to->members, to->room = to->room ? 2 * to->room : 4, sizeof *to->members);
    to->members[to->count++] = (struct member){name, value};
}

static struct value read_members(enum kind kind, char open, char close) {
    struct value value = {.kind = kind};
    if (++reading.depth > DEEPEST)
        refuse("this is deeper than %d", DEEPEST);
    expect(open);
    if (peek_behind_blanks() != close)
        for (;;) {
            char *name = NULL;
            if (kind == OBJECT) {
                name = read_text();
                expect(':');
            }
            add_member(&value, name, read_value());
            if (peek_behind_blanks() != ',')
                break;
            next_letter();
        }
    expect(close);
    reading.depth--;
    return value;
}

static struct value read_word(void) {
    static const struct {
        const char *letters;
        struct value value;
    } words[] = {{"null", {NOTHING}}, {"true", {TRUTH, .truth = true}}, {"false", {TRUTH}}};
    char word[8] = "";
    for (size_t count = 0; count + 1 < sizeof word && peek() != EOF && isalpha(peek()); count++)
        word[count] = next_letter();
    for (size_t place = 0; place < sizeof words / sizeof *words; place++)
        if (strcmp(word, words[place].letters) == 0)
            return words[place].value;
    refuse("'%s' is no value", word);
    return words[0].value;
}

static struct value read_value(void) {
    int letter = peek_behind_blanks();
    if (letter == '{')
        return read_members(OBJECT, '{', '}');
    if (letter == '[')
        return read_members(LIST, '[', ']');
    if (letter == '"')
        return (struct value){TEXT, .text = read_text()};
    if (letter == '-' || isdigit(letter))
        return (struct value){NUMBER, .number = read_number()};
    return read_word();
}

/* ---- printing */

static void print_text(const char *text) {
    putchar('"');
    for (; *text; text++)
        if (*text == '"' || *text == '\\')
            printf("\\%c", *text);
        else if (*text == '\n')
            fputs("\\n", stdout);
        else if (iscntrl((unsigned char)*text))
            printf("\\u%04x", (unsigned char)*text);
        else
            putchar(*text);
    putchar('"');
}

static void print_value(const struct value *value, int indent);

static void print_members(const struct value *value, int indent, const char *brackets) {
    putchar(brackets[0]);
    for (size_t place = 0; place < value->count; place++) {
        printf("%s\n%*s", place ? "," : "", indent + 2, "");
        if (value->members[place].name) {
            print_text(value->members[place].name);
            fputs(": ", stdout);
        }
        print_value(&value->members[place].value, indent + 2);
    }
    if (value->count)
        printf("\n%*s", indent, "");
    putchar(brackets[1]);
}

static void print_value(const struct value *value, int indent) {
    switch (value->kind) {
    case TRUTH:
        fputs(value->truth ? "true" : "false", stdout);
        break;
    case NUMBER:
        printf("%.12g", value->number);
        break;
    case TEXT:
        print_text(value->text);
        break;
    case LIST:
        print_members(value, indent, "[]");
        break;
    case OBJECT:
        print_members(value, indent, "{}");
        break;
    default:
        fputs("null", stdout);
    }
}

/* ---- the whole */

static int by_name(const void *one, const void *other) {
    return strcmp(((const struct member *)one)->name, ((const struct member *)other)->name);
}

static struct {
    unsigned of[KINDS];
    double sum;
} counted;

static void sort_and_count(struct value *value) {
    counted.of[value->kind]++;
    if (value->kind == NUMBER)
        counted.sum += value->number;
    if (value->kind == OBJECT)
        qsort(value->members, value->count, sizeof *value->members, by_name);
    if (value->kind == LIST || value->kind == OBJECT)
        for (size_t place = 0; place < value->count; place++)
            sort_and_count(&value->members[place].value);
}

static void release(struct value *value) {
    if (value->kind == TEXT)
        free(value->text);
    if (value->kind != LIST && value->kind != OBJECT)
        return;
    for (size_t place = 0; place < value->count; place++) {
        free(value->members[place].name);
        release(&value->members[place].value);
    }
    free(value->members);
}

int main(void) {
    if (setjmp(reading.refused))
        return 1;
    struct value value = read_value();
    if (peek_behind_blanks() != EOF)
        refuse("something follows the value");
    sort_and_count(&value);
    print_value(&value, 0);
    putchar('\n');
    for (int kind = 0; kind < KINDS; kind++)
        printf("%-8s %3u\n", kind_names[kind], counted.of[kind]);
    printf("sum      %g\n", counted.sum);
    release(&value);
    return 0;
}
