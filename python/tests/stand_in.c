/* A library with the calls of rusboqan.h that knows no router. Its replies have fixed texts with the names that it was asked for, so
   that a test sees whose reply it got. It counts what no caller may do: two calls for one engine at a time, and a closed engine. */
#include "rusboqan.h"

#include <sched.h>
#include <stdatomic.h>
#include <stdio.h>
#include <stdlib.h>
#include <string.h>
#include <sys/mman.h>
#include <unistd.h>

#ifndef STAND_IN_VERSION
#define STAND_IN_VERSION 10300
#endif

#define MOST_FLIGHTS 64
#define IN_FORCE "flight %s filed M 0 30\n"

static const size_t HUGE_REPLY = ((size_t)1 << 31) + 5;
static atomic_long faults, engines;

struct rusboqan {
    atomic_int calls_inside;
    char flights[MOST_FLIGHTS][17];
    int count;
    uint8_t *text;
    size_t length;
    int is_mapped;
    int ran_out;
    int commands;
    char told[1024];
};

long stand_in_faults(void) { return faults; }
long stand_in_engines(void) { return engines; }

uint32_t rusboqan_version(void) { return STAND_IN_VERSION; }

bool rusboqan_open(const uint8_t *airport, size_t length, struct rusboqan **engine) {
    if (length < 12 || memcmp(airport, "taxi-airport", 12)) return false;
    *engine = calloc(1, sizeof **engine);
    atomic_fetch_add(&engines, 1);
    return *engine != 0;
}

/* Bytes that begin with `memory` are those for which memory ran out. */
uint8_t rusboqan_why(const uint8_t *airport, size_t length, uint32_t *record) {
    if (length > 4194304) return RUSBOQAN_TOO_LARGE;
    if (length >= 6 && !memcmp(airport, "memory", 6)) return RUSBOQAN_MEMORY;
    *record = 2;
    return RUSBOQAN_REFUSED;
}

static void enter(struct rusboqan *engine) {
    if (atomic_fetch_add(&engine->calls_inside, 1)) atomic_fetch_add(&faults, 1);
    sched_yield();
}

static void leave(struct rusboqan *engine) { atomic_fetch_sub(&engine->calls_inside, 1); }

static void forget(struct rusboqan *engine) {
    if (engine->is_mapped) munmap(engine->text, engine->length);
    else free(engine->text);
    engine->text = 0;
    engine->length = 0;
    engine->is_mapped = 0;
}

static void reply_with(struct rusboqan *engine, const char *text) {
    engine->length = strlen(text);
    engine->text = malloc(engine->length);
    memcpy(engine->text, text, engine->length);
}

static int place_of(const struct rusboqan *engine, const char *flight) {
    for (int place = 0; place < engine->count; place++)
        if (!strcmp(engine->flights[place], flight)) return place;
    return -1;
}

static void file(struct rusboqan *engine, const char *flight) {
    char text[64];
    if (place_of(engine, flight) >= 0) {
        reply_with(engine, "refused in-force\n");
    } else if (engine->count == MOST_FLIGHTS) {
        reply_with(engine, "refused full\n");
    } else {
        strcpy(engine->flights[engine->count++], flight);
        snprintf(text, sizeof text, "filed %s 0 30\n", flight);
        reply_with(engine, text);
    }
}

static void cancel(struct rusboqan *engine, const char *flight) {
    char text[64];
    const int place = place_of(engine, flight);
    if (place < 0) {
        reply_with(engine, "refused not-in-force\n");
        return;
    }
    memmove(engine->flights[place], engine->flights[--engine->count], sizeof engine->flights[0]);
    snprintf(text, sizeof text, "cancelled %s\n", flight);
    reply_with(engine, text);
}

static void timetable(struct rusboqan *engine) {
    char text[MOST_FLIGHTS * 48];
    size_t length = (size_t)sprintf(text, "timetable %d\n", engine->count);
    for (int place = 0; place < engine->count; place++)
        length += (size_t)sprintf(text + length, IN_FORCE, engine->flights[place]);
    reply_with(engine, text);
}

/* A reply of 2^31 + 5 bytes: all are zero but the first and the last. */
static void huge(struct rusboqan *engine) {
    engine->length = HUGE_REPLY;
    engine->text = mmap(0, HUGE_REPLY, PROT_READ | PROT_WRITE, MAP_PRIVATE | MAP_ANONYMOUS | MAP_NORESERVE, -1, 0);
    engine->is_mapped = 1;
    engine->text[0] = 'a';
    engine->text[HUGE_REPLY - 1] = '\n';
}

/* An arrival or an arrival-any is led over A to J and over B to S1. */
static void route(struct rusboqan *engine, const char *flight) {
    char text[160];
    snprintf(text, sizeof text, "route %s 150 2 1\nstep A+ 100 130\nstep B+ 130 150\nlabel A+ 0 3600 130\n", flight);
    reply_with(engine, text);
}

size_t rusboqan_answer(struct rusboqan *engine, const uint8_t *line, size_t length) {
    char words[128] = "", word[32] = "", name[32] = "";
    memcpy(words, line, length < 127 ? length : 127);
    if (sscanf(words, "%31s %16s", word, name) < 1 || word[0] == '#') return 0;
    enter(engine);
    forget(engine);
    engine->commands++;
    engine->ran_out |= !strcmp(word, "memory");
    if (!strcmp(word, "file")) file(engine, name);
    else if (!strcmp(word, "cancel")) cancel(engine, name);
    else if (!strcmp(word, "timetable")) timetable(engine);
    else if (!strncmp(word, "arrival", 7)) route(engine, name);
    else if (!strcmp(word, "memory")) reply_with(engine, "refused memory\n");
    else if (!strcmp(word, "huge")) huge(engine);
    else if (!strcmp(word, "slow")) usleep(200000), reply_with(engine, "cancelled SLOW\n");
    else reply_with(engine, "refused bad-line\n");
    leave(engine);
    return engine->length;
}

size_t rusboqan_text(struct rusboqan *engine, const uint8_t **text) {
    enter(engine);
    *text = engine->text ? engine->text : (const uint8_t *)"";
    leave(engine);
    return engine->length;
}

size_t rusboqan_reply(struct rusboqan *engine, uint8_t *room, size_t size) {
    if (engine->length <= size) memcpy(room, engine->text, engine->length);
    return engine->length;
}

#ifndef STAND_IN_IS_OLD
size_t rusboqan_rule(const uint8_t *airport, size_t length, uint8_t *room, size_t size) {
    (void)airport, (void)length;
    if (size < 10) return 10;
    memcpy(room, "no-horizon", 10);
    return 10;
}

static size_t tell(struct rusboqan *engine, const char *text) {
    enter(engine);
    snprintf(engine->told, sizeof engine->told, "%s", text);
    leave(engine);
    return strlen(text);
}

size_t rusboqan_json(struct rusboqan *engine, uint64_t line) {
    char text[80];
    if (engine->ran_out) return RUSBOQAN_NO_MEMORY;
    if (!engine->commands) return tell(engine, "");
    snprintf(text, sizeof text, "{\"command\":%d,\"line\":%llu}\n", engine->commands, (unsigned long long)line);
    return tell(engine, text);
}

/* Two rows of a plan, of a flight and of a work party. The civil time of second 0 is taken if it begins with 2. */
size_t rusboqan_plan(struct rusboqan *engine, const uint8_t *start, size_t length) {
    const char *first = "name,kind,class,from,to,step,segment,direction,tail,head,enter,leave,until,least,wait,slack\n";
    const char *seconds = "F2,arrival,M,R,S1,1,A,forward,R,J,130,160,160,30,0,340\nW1,work,,J,K,1,C,,J,K,500,560,560,60,0,3040\n";
    const char *civil = "X1,filed,M,R,J,1,A,forward,R,J,2024-02-29T00:00:10Z,2024-02-29T00:01:10Z,2024-02-29T00:01:10Z,30,30,3440\n";
    char text[512];
    if (length && *start != '2') return RUSBOQAN_NO_START;
    snprintf(text, sizeof text, "%s%s", first, length ? civil : seconds);
    return tell(engine, text);
}

size_t rusboqan_figures(struct rusboqan *engine) {
    return engine->ran_out ? RUSBOQAN_NO_MEMORY : tell(engine, "commands 3\nreply no-route 0\nflights arrival M 2\n");
}

size_t rusboqan_checkpoint(struct rusboqan *engine) {
    return tell(engine, engine->count ? "# arrival F1 M R S1 100 0\nfile F1 M 100 A+ 130 B+ 150\n" : "");
}

size_t rusboqan_explain(struct rusboqan *engine, const uint8_t *line, size_t length) {
    if (engine->ran_out) return RUSBOQAN_NO_MEMORY;
    if (length >= 4 && !memcmp(line, "file", 4)) return tell(engine, "refused step 1 taken 150 W1\nheld 150 160 W1 C\n");
    if (length < 7 || memcmp(line, "arrival", 7)) return tell(engine, "nothing to explain\n");
    if (memcmp(line, "arrival F1", 10)) return tell(engine, "answer none\nalone 150\nwithout F1 150\nlater 130 180\n");
    return tell(engine, "answer 320\nalone 150\nwithout X2 150\nhold 130 X1\nwait 1 A+ 40 X2\nwait 2 C+ 15\n");
}

size_t rusboqan_told(struct rusboqan *engine, const uint8_t **text) {
    enter(engine);
    *text = (const uint8_t *)engine->told;
    leave(engine);
    return strlen(engine->told);
}
#endif

void rusboqan_close(struct rusboqan *engine) {
    enter(engine);
    forget(engine);
    memset(engine, 255, sizeof *engine);
    free(engine);
    atomic_fetch_sub(&engines, 1);
}
