/* A small adventure: it reads orders, a line each, and prints what comes of them. It ends with the score, and with 255 where taking
   back all orders doesn't lead to the start. */
#include <ctype.h>
#include <stdbool.h>
#include <stdio.h>
#include <stdlib.h>
#include <string.h>

/* ---- words */

enum sort { VERB, DIRECTION, THING, FILLER };

enum verb { GO, TAKE, DROP, LOOK, INVENTORY, LIGHT, PUT_OUT, READ, DIG, SCORE, WAIT, UNDO, QUIT };

enum direction { NORTH, EAST, SOUTH, WEST, UP, DOWN, DIRECTIONS };

enum thing { LAMP, COIN, ROPE, LETTER, SPADE, CHEST, THINGS };

struct entry {
    const char *word;
    enum sort sort;
    int meaning;
};

static struct entry entries[] = {
    {"go", VERB, GO}, {"walk", VERB, GO}, {"climb", VERB, GO}, {"take", VERB, TAKE}, {"get", VERB, TAKE}, {"drop", VERB, DROP},
    {"look", VERB, LOOK}, {"l", VERB, LOOK}, {"inventory", VERB, INVENTORY}, {"i", VERB, INVENTORY}, {"light", VERB, LIGHT},
    {"extinguish", VERB, PUT_OUT}, {"read", VERB, READ}, {"dig", VERB, DIG}, {"score", VERB, SCORE}, {"wait", VERB, WAIT},
    {"z", VERB, WAIT}, {"undo", VERB, UNDO}, {"quit", VERB, QUIT}, {"north", DIRECTION, NORTH}, {"n", DIRECTION, NORTH},
    {"east", DIRECTION, EAST}, {"e", DIRECTION, EAST}, {"south", DIRECTION, SOUTH}, {"s", DIRECTION, SOUTH},
    {"west", DIRECTION, WEST}, {"w", DIRECTION, WEST}, {"up", DIRECTION, UP}, {"u", DIRECTION, UP}, {"down", DIRECTION, DOWN},
    {"d", DIRECTION, DOWN}, {"lamp", THING, LAMP}, {"coin", THING, COIN}, {"rope", THING, ROPE}, {"letter", THING, LETTER},
    {"spade", THING, SPADE}, {"shovel", THING, SPADE}, {"chest", THING, CHEST}, {"the", FILLER, 0}, {"a", FILLER, 0},
    {"to", FILLER, 0}, {"with", FILLER, 0}, {"and", FILLER, 0}, {"at", FILLER, 0},
};

enum { ENTRIES = sizeof entries / sizeof *entries };

static int by_word(const void *one, const void *other) {
    return strcmp(((const struct entry *)one)->word, ((const struct entry *)other)->word);
}

static const struct entry *found(const char *word) {
    struct entry wanted = {word, FILLER, 0};
    return bsearch(&wanted, entries, ENTRIES, sizeof *entries, by_word);
}

/* ---- places and things */

enum { NOWHERE = -1, MEADOW, MOUTH, HALL, SHAFT, LAKE, PLACES, CARRIED = 100 };

static const struct {
    const char *name, *told;
    bool dark;
    int to[DIRECTIONS];
} places[PLACES] = {
    {"Meadow", "Grass, and a path that goes north to a cave.", false, {MOUTH, NOWHERE, NOWHERE, NOWHERE, NOWHERE, NOWHERE}},
    {"Mouth of the cave", "It is cool here. The cave goes on to the north.", false, {HALL, NOWHERE, MEADOW, NOWHERE, NOWHERE, NOWHERE}},
    {"Hall", "A hall of stone. A shaft leads down, and water drips in the east.", true, {NOWHERE, LAKE, MOUTH, NOWHERE, NOWHERE, SHAFT}},
    {"Shaft", "The bottom of a shaft. The sand is soft.", true, {NOWHERE, NOWHERE, NOWHERE, NOWHERE, HALL, NOWHERE}},
    {"Lake", "Black water, and a shore of pebbles.", true, {NOWHERE, NOWHERE, NOWHERE, HALL, NOWHERE, NOWHERE}},
};

static const struct {
    const char *name;
    int weight, worth;
} things[THINGS] = {{"a lamp", 2, 5}, {"a gold coin", 1, 10}, {"a coil of rope", 4, 0}, {"a letter", 1, 3}, {"a spade", 5, 0}, {"an iron chest", 6, 30}};

static struct game {
    int place, where[THINGS], turns, oil;
    bool lit, over;
} game = {MEADOW, {MOUTH, LAKE, MEADOW, MEADOW, MOUTH, NOWHERE}, 0, 20, false, false};

static const struct game start = {MEADOW, {MOUTH, LAKE, MEADOW, MEADOW, MOUTH, NOWHERE}, 0, 20, false, false};

/* What the game was before each order, the newest first. */
struct past {
    struct past *before;
    struct game game;
};

static struct past *past;

static void remember(void) {
    struct past *now = malloc(sizeof *now);
    if (now == NULL)
        return;
    *now = (struct past){past, game};
    past = now;
}

static bool recall(void) {
    struct past *newest = past;
    if (newest == NULL)
        return false;
    game = newest->game;
    past = newest->before;
    free(newest);
    return true;
}

static bool is_here(int thing) {
    return game.where[thing] == CARRIED || game.where[thing] == game.place;
}

static bool is_dark(void) {
    return places[game.place].dark && !(game.lit && is_here(LAMP));
}

static int carried_weight(void) {
    int weight = 0;
    for (int thing = 0; thing < THINGS; thing++)
        weight += game.where[thing] == CARRIED ? things[thing].weight : 0;
    return weight;
}

static int score(void) {
    int sum = 0;
    for (int thing = 0; thing < THINGS; thing++)
        if (game.where[thing] == MEADOW || (game.where[thing] == CARRIED && game.place == MEADOW))
            sum += things[thing].worth;
    return sum;
}

/* A list of the things at a place, in new memory: "a lamp, a letter and a spade". */
static char *listed(int where) {
    char *list = calloc(1, 1);
    int left = 0;
    for (int thing = 0; thing < THINGS; thing++)
        left += game.where[thing] == where;
    for (int thing = 0; thing < THINGS && list; thing++) {
        if (game.where[thing] != where)
            continue;
        const char *link = --left > 1 ? ", " : left == 1 ? " and " : "";
        size_t length = strlen(list) + strlen(things[thing].name) + strlen(link) + 1;
        list = realloc(list, length);
        strcat(strcat(list, things[thing].name), link);
    }
    return list;
}

/* ---- orders */

static void look(void) {
    if (is_dark()) {
        puts("It is dark. You can see nothing.");
        return;
    }
    char *list = listed(game.place);
    printf("[%s]\n%s\n", places[game.place].name, places[game.place].told);
    if (*list)
        printf("There is %s here.\n", list);
    free(list);
}

static void go(int direction) {
    static const char *const names[DIRECTIONS] = {"north", "east", "south", "west", "up", "down"};
    if (direction < 0)
        puts("Where to?");
    else if (places[game.place].to[direction] == NOWHERE)
        printf("There is no way %s from here.\n", names[direction]);
    else if ((direction == DOWN || direction == UP) && game.where[ROPE] != CARRIED)
        puts("You would need a rope.");
    else {
        game.place = places[game.place].to[direction];
        look();
    }
}

static void take(int thing) {
    if (thing < 0)
        puts("Take what?");
    else if (game.where[thing] == CARRIED)
        printf("You have %s.\n", things[thing].name);
    else if (!is_here(thing) || is_dark())
        puts("You don't see that here.");
    else if (carried_weight() + things[thing].weight > 14)
        printf("That is too heavy: you carry %d pounds.\n", carried_weight());
    else {
        game.where[thing] = CARRIED;
        printf("You take %s.\n", things[thing].name);
    }
}

static void drop(int thing) {
    if (thing < 0 || game.where[thing] != CARRIED)
        puts("You don't have that.");
    else {
        game.where[thing] = game.place;
        printf("You drop %s.\n", things[thing].name);
    }
}

static void light(bool on) {
    if (game.where[LAMP] != CARRIED)
        puts("With what?");
    else if (on && game.oil == 0)
        puts("There is no oil left.");
    else {
        game.lit = on;
        printf("The lamp is %s, with oil for %d turns.\n", on ? "lit" : "out", game.oil);
    }
}

static void read_thing(int thing) {
    if (thing != LETTER || !is_here(LETTER) || is_dark())
        puts("There is nothing to read.");
    else
        puts("\"What I hid lies where the rope ends. Dig!\"");
}

static void dig(void) {
    if (game.where[SPADE] != CARRIED)
        puts("You have no spade.");
    else if (game.place != SHAFT || game.where[CHEST] != NOWHERE)
        puts("You find nothing.");
    else {
        game.where[CHEST] = SHAFT;
        puts("Your spade hits iron: a chest!");
    }
}

static void show_inventory(void) {
    char *list = listed(CARRIED);
    printf("You carry %s, %d pounds.\n", *list ? list : "nothing", carried_weight());
    free(list);
}

static void burn(void) {
    if (game.lit && --game.oil == 0) {
        game.lit = false;
        puts("The lamp goes out.");
    }
}

static void obey(enum verb verb, int direction, int thing) {
    switch (verb) {
    case GO: go(direction); break;
    case TAKE: take(thing); break;
    case DROP: drop(thing); break;
    case LOOK: look(); break;
    case INVENTORY: show_inventory(); break;
    case LIGHT: light(true); break;
    case PUT_OUT: light(false); break;
    case READ: read_thing(thing); break;
    case DIG: dig(); break;
    case SCORE: printf("%d of %d points in %d turns.\n", score(), 48, game.turns); break;
    case WAIT: puts("Time passes."); break;
    case QUIT: game.over = true; break;
    case UNDO: break;
    }
    game.turns++;
    burn();
}

/* ---- the parser */

static void lower(char *line) {
    for (; *line; line++)
        *line = ispunct((unsigned char)*line) ? ' ' : tolower((unsigned char)*line);
}

/* One order is a verb with a direction or some things; a direction alone is an order to go there. */
static void parse(char *order) {
    int verb = -1, direction = -1, named[THINGS], count = 0;
    char *rest = NULL;
    for (char *word = strtok_r(order, " \t", &rest); word; word = strtok_r(NULL, " \t", &rest)) {
        const struct entry *entry = found(word);
        if (entry == NULL) {
            printf("I don't know the word \"%s\".\n", word);
            return;
        }
        if (entry->sort == VERB && verb < 0)
            verb = entry->meaning;
        else if (entry->sort == DIRECTION)
            direction = entry->meaning;
        else if (entry->sort == THING && count < THINGS)
            named[count++] = entry->meaning;
    }
    if (verb < 0 && direction >= 0)
        verb = GO;
    if (verb == UNDO)
        puts(recall() ? "It never happened." : "There is nothing to undo.");
    else if (verb < 0)
        puts("Please begin with a verb.");
    else {
        remember();
        for (int place = 0; place == 0 || place < count; place++)
            obey(verb, direction, count ? named[place] : -1);
    }
}

static void read_line(char *line) {
    unsigned times = 1;
    int skipped = 0;
    line[strcspn(line, "\n")] = 0;
    sscanf(line, "%u times %n", &times, &skipped);
    for (; times > 0 && times < 100 && !game.over; times--) {
        char *copy = strdup(line + skipped), *rest = NULL;
        for (char *order = strtok_r(copy, ".;", &rest); order && !game.over; order = strtok_r(NULL, ".;", &rest)) {
            lower(order);
            parse(order);
        }
        free(copy);
    }
}

int main(void) {
    char line[120];
    qsort(entries, ENTRIES, sizeof *entries, by_word);
    look();
    while (!game.over && fputs("> ", stdout) >= 0 && fgets(line, sizeof line, stdin))
        read_line(line);
    printf("You scored %d points in %d turns (%.1f a turn).\n", score(), game.turns, game.turns ? (double)score() / game.turns : 0.0);
    int end = score();
    while (recall())
        continue;
    return game.place == start.place && game.turns == start.turns && memcmp(game.where, start.where, sizeof game.where) == 0 ? end : 255;
}
