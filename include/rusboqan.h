/* Rusboqan, a verified airport taxi router: the engine in your own process. For C99 and C++.

   An engine answers commands over one airport, as the program `taxi route` does. docs/FORMATS.md has the commands and replies.
   It also tells of its run what the program `taxi-tools` writes. docs/TOOLS.md has those texts.

   You owe:
   - a handle that rusboqan_open wrote and rusboqan_close has not taken;
   - one call at a time for each engine. Engines are apart from one another, so each thread may have its own, and may hand it on;
   - no call for an engine from a signal handler that may have interrupted a call for it;
   - bytes that stay readable during the call. The library keeps no pointer to them when a call has returned;
   - a lent text that is only read, and only until the next call for its engine, whichever that is.

   A variable or a room that a call writes may be uninitialised before. No pointer may be null, and each length may be 0.
   After fork, parent and child have engines that go apart from there, if no other thread was in a call.
   Memory comes from malloc. A length may be 2^31 or more, so keep it in a size_t. */
#ifndef RUSBOQAN_H
#define RUSBOQAN_H

#include <stdbool.h>
#include <stddef.h>
#include <stdint.h>

#ifdef __cplusplus
extern "C" {
#endif

/* The version that this header is of: 10000 * major + 100 * minor + patch. */
#define RUSBOQAN_VERSION 10300

/* What a call that makes a text gives in place of a length, if it makes none. No text is so long. Nothing has changed then. */
#define RUSBOQAN_NO_MEMORY SIZE_MAX      /* memory runs out, for the text or for a command before: see rusboqan_json */
#define RUSBOQAN_NO_START (SIZE_MAX - 1) /* of rusboqan_plan alone: the start is no civil time of a year before 2999 */

/* An engine. It is read and written by these calls alone. */
struct rusboqan;

/* The version of the library, as RUSBOQAN_VERSION has it. */
uint32_t rusboqan_version(void);

/* Opens an engine over the bytes of an airport file, and writes its handle to *engine. Gives false and opens nothing if the
   bytes are not an airport, if there are more than 4,194,304 of them, or if memory runs out. Then *engine stays what it was. */
bool rusboqan_open(const uint8_t *airport, size_t length, struct rusboqan **engine);

/* What rusboqan_why gives. */
enum {
    RUSBOQAN_SOUND = 0,     /* nothing is wrong with the bytes: it was memory that ran out, try again */
    RUSBOQAN_REFUSED = 1,   /* a record breaks a rule */
    RUSBOQAN_TOO_LARGE = 2, /* there are more than 4,194,304 bytes */
    RUSBOQAN_MEMORY = 3     /* memory runs out */
};

/* Why no engine was opened over these bytes. If a record breaks a rule, its number is written to *record; the first is 1.
   Otherwise *record stays what it was. */
uint8_t rusboqan_why(const uint8_t *airport, size_t length, uint32_t *record);

/* Copies the word of the rule that this record breaks, as `no-horizon`, to room if it fits in size bytes. Gives its length in any
   case, which is at most 64. Gives 0 if no record breaks a rule, if there are too many bytes, or if memory runs out. A room
   that is too small stays as it was. No zero byte is added. */
size_t rusboqan_rule(const uint8_t *airport, size_t length, uint8_t *room, size_t size);

/* Answers one command: a line without its line feed, and without a carriage return before it. It need not end in a zero byte.
   Gives the length of the reply, or 0 if the line is a comment or blank; such a line changes nothing. A line that has a line feed
   or a carriage return in it is a comment as a whole, if it begins with `#`, or is answered "refused bad-line\n". A refused command
   changes nothing but the reply. If memory runs out the reply is "refused memory\n". */
size_t rusboqan_answer(struct rusboqan *engine, const uint8_t *line, size_t length);

/* Lends the reply to the last command: writes to *text where it begins, and gives its length. Each of its lines ends with a
   line feed; no zero byte follows. Before the first command the length is 0; *text is never null. */
size_t rusboqan_text(struct rusboqan *engine, const uint8_t **text);

/* Copies the reply to the last command to room, if it fits in size bytes, and gives its length in any case. A room that is too
   small stays as it was. No zero byte is added, and what lies behind the reply stays. Nothing else may use the room during the call. */
size_t rusboqan_reply(struct rusboqan *engine, uint8_t *room, size_t size);

/* Each of the next five calls makes a text, keeps it with the engine, and gives its length. rusboqan_told lends it. None of them
   changes what is in force, the reply, or any later answer. Each line of a text ends with a line feed. */

/* The last command and its reply as a JSON object, as `taxi-tools json` writes it. Its "line" is the number given here, and its
   "command" counts the commands that the engine answered. Before the first command the text is empty.

   For this call, rusboqan_figures and rusboqan_explain an engine keeps the line of each command, some 100 bytes for each. Once a
   reply was "refused memory\n", or memory ran out for a line to keep, these three give RUSBOQAN_NO_MEMORY for good. So do they after
   2^30 - 1 commands. */
size_t rusboqan_json(struct rusboqan *engine, uint64_t line);

/* What is in force as a table, as `taxi-tools plan` writes it. With length 0 its times are seconds; otherwise start is the civil
   time of second 0, as 2026-07-01T04:00:00+02:00. */
size_t rusboqan_plan(struct rusboqan *engine, const uint8_t *start, size_t length);

/* The figures of all commands that were answered, as `taxi-tools figures` writes them. */
size_t rusboqan_figures(struct rusboqan *engine);

/* What is in force as a command file, as `taxi-tools checkpoint` writes it. The text is empty if nothing is in force. */
size_t rusboqan_checkpoint(struct rusboqan *engine);

/* Why this line would be answered as it would if it came next, as `taxi-tools explain` writes it. The line is not answered. A second
   engine answers all commands for this and is given back, so it takes as long as they took, and as much memory. */
size_t rusboqan_explain(struct rusboqan *engine, const uint8_t *line, size_t length);

/* Lends the text that was made last by one of these five: writes to *text where it begins, and gives its length. Before the first the
   length is 0; *text is never null. A text that was not made leaves the one before. */
size_t rusboqan_told(struct rusboqan *engine, const uint8_t **text);

/* Closes an engine and gives back its memory. Call it once for each handle, which is worth nothing from then on. */
void rusboqan_close(struct rusboqan *engine);

#ifdef __cplusplus
}
#endif
#endif
