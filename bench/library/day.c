/* day AIRPORT COMMANDS [TIMES [VERB [WORD]]]: opens an engine, answers the commands of a file as `taxi route` does, and closes it,
   so many times over. What it writes is of the last time. With a verb it writes what `taxi-tools VERB AIRPORT COMMANDS [WORD]` writes:
   plan, figures, explain, checkpoint or json. */
#include "rusboqan.h"

#include <stdio.h>
#include <stdlib.h>
#include <string.h>

struct text {
    uint8_t *bytes;
    size_t length;
};

static void stop(const char *why) {
    fprintf(stderr, "day: %s\n", why);
    exit(1);
}

static struct text whole(const char *name) {
    struct text text = {0, 0};
    FILE *file = fopen(name, "rb");
    if (!file || fseek(file, 0, SEEK_END)) stop("a file can't be read");
    text.length = (size_t)ftell(file);
    text.bytes = malloc(text.length + 1);
    rewind(file);
    if (!text.bytes || fread(text.bytes, 1, text.length, file) != text.length) stop("a file can't be read");
    fclose(file);
    return text;
}

/* What is written of a run: the replies, the objects, or what the call of another verb makes in the end. */
struct wanted {
    const char *verb, *word;
};

static bool is(const char *word, const char *other) { return !strcmp(word, other); }

/* The next line without its end, which is taken off the text; false if there is none. */
static bool next(struct text *left, struct text *line) {
    if (!left->length) return false;
    const uint8_t *feed = memchr(left->bytes, '\n', left->length);
    line->bytes = left->bytes;
    line->length = feed ? (size_t)(feed - left->bytes) : left->length;
    const size_t taken = line->length + (feed ? 1 : 0);
    left->bytes += taken;
    left->length -= taken;
    if (line->length && line->bytes[line->length - 1] == '\r') line->length--;
    return true;
}

static bool is_command(struct text line) {
    size_t blanks = 0;
    while (blanks < line.length && strchr(" \t", line.bytes[blanks])) blanks++;
    return blanks < line.length && line.bytes[0] != '#';
}

/* Writes the text of that length that a call has made. */
static void write_told(struct rusboqan *engine, size_t length) {
    const uint8_t *text = 0;
    if (length == RUSBOQAN_NO_MEMORY) stop("memory ran out");
    if (length == RUSBOQAN_NO_START) stop("the start is no civil time");
    if (rusboqan_told(engine, &text) != length) stop("a text changed its length");
    fwrite(text, 1, length, stdout);
}

static void write_reply(struct rusboqan *engine, size_t length) {
    const uint8_t *text = 0;
    if (rusboqan_text(engine, &text) != length) stop("a reply changed its length");
    fwrite(text, 1, length, stdout);
}

/* Answers each line, writes the replies or objects if they are wanted, and gives the number of commands. */
static size_t answer_all(struct rusboqan *engine, struct text commands, const char *verb) {
    size_t count = 0, number = 0;
    for (struct text line; next(&commands, &line);) {
        const size_t reply = rusboqan_answer(engine, line.bytes, line.length);
        number++;
        if (!reply) continue;
        count++;
        if (is(verb, "route")) write_reply(engine, reply);
        if (is(verb, "json")) write_told(engine, rusboqan_json(engine, number));
    }
    return count;
}

/* Answers the commands before the one of that number, and explains it. */
static void explain(struct rusboqan *engine, struct text commands, unsigned long wanted) {
    unsigned long count = 0;
    for (struct text line; next(&commands, &line); rusboqan_answer(engine, line.bytes, line.length)) {
        if (is_command(line) && ++count == wanted) {
            write_told(engine, rusboqan_explain(engine, line.bytes, line.length));
            return;
        }
    }
    printf("no command %lu\n", wanted);
}

static void write_day(struct rusboqan *engine, struct text commands, struct wanted wanted) {
    if (is(wanted.verb, "explain")) {
        explain(engine, commands, strtoul(wanted.word, 0, 10));
        return;
    }
    const size_t count = answer_all(engine, commands, wanted.verb);
    if (is(wanted.verb, "route")) printf("done %zu\n", count);
    if (is(wanted.verb, "json")) printf("{\"done\":%zu}\n", count);
    if (is(wanted.verb, "figures")) write_told(engine, rusboqan_figures(engine));
    if (is(wanted.verb, "checkpoint")) write_told(engine, rusboqan_checkpoint(engine));
    if (is(wanted.verb, "plan")) write_told(engine, rusboqan_plan(engine, (const uint8_t *)wanted.word, strlen(wanted.word)));
}

int main(int argc, char **argv) {
    /* A reply is one piece: a buffer would copy it once more. */
    setvbuf(stdout, 0, _IONBF, 0);
    if (argc < 3 || argc > 6) stop("day AIRPORT COMMANDS [TIMES [VERB [WORD]]]");
    struct wanted wanted = {argc > 4 ? argv[4] : "route", argc > 5 ? argv[5] : ""}, nothing = {"", ""};
    struct text airport = whole(argv[1]), commands = whole(argv[2]);
    long times = argc > 3 ? atol(argv[3]) : 1;
    for (long time = 1; time <= times; time++) {
        struct rusboqan *engine = 0;
        if (!rusboqan_open(airport.bytes, airport.length, &engine)) {
            uint32_t record = 0;
            unsigned why = rusboqan_why(airport.bytes, airport.length, &record);
            fprintf(stderr, "day: no engine, why %u, record %u\n", why, record);
            return 2;
        }
        write_day(engine, commands, time == times ? wanted : nothing);
        rusboqan_close(engine);
    }
    free(airport.bytes);
    free(commands.bytes);
    return 0;
}
