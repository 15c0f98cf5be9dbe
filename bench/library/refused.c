/* refused AIRPORT COMMANDS: opens an engine and answers the commands with each allocation refused in turn. After a refused
   one, the engine's timetable must be that of the commands that were answered; what was not opened must say why. Then each call
   that makes a text is tried so: if it makes none, the text before it must still be lent, and nothing else may have changed. */
#define _GNU_SOURCE
#include "rusboqan.h"

#include <dlfcn.h>
#include <stdio.h>
#include <stdlib.h>
#include <string.h>

static uint8_t airport[1 << 20], commands[1 << 20], room[1 << 22], before[1 << 22], after[1 << 22], kept[1 << 22];

static size_t whole(const char *name, uint8_t *bytes, size_t size) {
    FILE *file = fopen(name, "rb");
    size_t length = file ? fread(bytes, 1, size, file) : 0;
    if (file) fclose(file);
    return length;
}

static size_t ask(struct rusboqan *engine, const uint8_t *line, size_t length) {
    size_t reply = rusboqan_answer(engine, line, length);
    const uint8_t *text = 0;
    if (reply > sizeof room) abort();
    if (!reply) return 0;
    /* The reply that is copied is the one that is lent. */
    if (rusboqan_reply(engine, room, sizeof room) != reply) abort();
    if (rusboqan_text(engine, &text) != reply || memcmp(text, room, reply)) abort();
    return reply;
}

static size_t timetable(struct rusboqan *engine, uint8_t *into) {
    size_t length = ask(engine, (const uint8_t *)"timetable", 9);
    memcpy(into, room, length);
    return length;
}

static void (*refuse)(long);

/* How many opens were refused memory, each allocation of an open in turn; below 0 where one said something else. */
static long refuse_opens(size_t size) {
    for (long number = 1;; number++) {
        struct rusboqan *engine = 0;
        uint32_t record;
        refuse(number);
        bool is_open = rusboqan_open(airport, size, &engine);
        refuse(-1);
        if (is_open) {
            rusboqan_close(engine);
            return number - 1;
        }
        if (rusboqan_why(airport, size, &record) != RUSBOQAN_SOUND) return -1;
    }
}

/* Whether the answer to a line is refused memory where the allocation of that number is refused: 1 if it is and nothing else
   has changed, 0 if it is answered, -1 if something has changed. */
static int refuse_answer(struct rusboqan *engine, const uint8_t *line, size_t length, long number) {
    size_t was = timetable(engine, before);
    refuse(number);
    size_t reply = ask(engine, line, length);
    refuse(-1);
    if (reply != 15 || memcmp(room, "refused memory\n", 15)) return 0;
    return timetable(engine, after) == was && !memcmp(before, after, was) ? 1 : -1;
}

/* How many answers were refused memory, each allocation of each line in turn; below 0 where one changed something. */
static long refuse_answers(size_t size, size_t length) {
    struct rusboqan *engine = 0;
    long refused = 0;
    if (!rusboqan_open(airport, size, &engine)) return -1;
    for (const uint8_t *line = commands, *end = commands + length; line < end;) {
        const uint8_t *feed = memchr(line, '\n', (size_t)(end - line)), *stops = feed ? feed : end;
        for (long number = 1;; number++) {
            int said = refuse_answer(engine, line, (size_t)(stops - line), number);
            if (said < 0) return -1;
            if (!said) break;
            refused++;
        }
        line = feed ? feed + 1 : end;
    }
    rusboqan_close(engine);
    return refused;
}

static const char *verbs[] = {"json", "plan", "figures", "checkpoint", "explain", "plan at a time"};

static size_t make(struct rusboqan *engine, int verb) {
    static const uint8_t line[] = "cancel NOBODY", start[] = "2026-11-30T06:00:00Z";
    switch (verb) {
    case 0: return rusboqan_json(engine, 1);
    case 1: return rusboqan_plan(engine, start, 0);
    case 2: return rusboqan_figures(engine);
    case 3: return rusboqan_checkpoint(engine);
    case 4: return rusboqan_explain(engine, line, sizeof line - 1);
    default: return rusboqan_plan(engine, start, sizeof start - 1);
    }
}

/* Whether a call makes its text where the allocation of that number is refused: 1 if it makes none and nothing else has changed,
   0 if it makes it, -1 if something has changed. */
static int refuse_text(struct rusboqan *engine, int verb, long number) {
    const uint8_t *text = 0;
    const size_t was = timetable(engine, before), length = rusboqan_checkpoint(engine);
    if (length > sizeof kept || rusboqan_told(engine, &text) != length) return -1;
    memcpy(kept, text, length);
    refuse(number);
    const size_t made = make(engine, verb);
    refuse(-1);
    if (made != RUSBOQAN_NO_MEMORY) return 0;
    if (rusboqan_told(engine, &text) != length || memcmp(text, kept, length)) return -1;
    return timetable(engine, after) == was && !memcmp(before, after, was) ? 1 : -1;
}

/* How many texts were refused memory, each allocation of each call in turn; below 0 where one changed something. */
static long refuse_texts(size_t size, size_t length) {
    struct rusboqan *engine = 0;
    long refused = 0;
    if (!rusboqan_open(airport, size, &engine)) return -1;
    for (const uint8_t *line = commands, *end = commands + length; line < end;) {
        const uint8_t *feed = memchr(line, '\n', (size_t)(end - line)), *stops = feed ? feed : end;
        ask(engine, line, (size_t)(stops - line));
        line = feed ? feed + 1 : end;
    }
    for (int verb = 0; verb < 6; verb++) {
        int said;
        for (long number = 1; (said = refuse_text(engine, verb, number)) > 0; number++) refused++;
        if (said < 0) {
            fprintf(stderr, "%s without memory changed something\n", verbs[verb]);
            return -1;
        }
    }
    rusboqan_close(engine);
    return refused;
}

int main(int argc, char **argv) {
    void *found = dlsym(RTLD_DEFAULT, "refuse_from_here");
    if (argc != 3 || !found) return 64;
    memcpy(&refuse, &found, sizeof found);
    size_t size = whole(argv[1], airport, sizeof airport), length = whole(argv[2], commands, sizeof commands);
    long opens = refuse_opens(size), answers = refuse_answers(size, length), texts = refuse_texts(size, length);
    printf("%ld opens, %ld answers and %ld texts were refused memory, and nothing else changed\n", opens, answers, texts);
    return opens > 0 && answers > 0 && texts > 0 ? 0 : 1;
}
