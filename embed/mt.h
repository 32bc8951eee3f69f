/* The controller mt as a C library: docs/EMBED.md says how it is built and linked, and what is promised of it.
 *
 * A session is a run of the script language (docs/SCRIPT.md) whose lines a program hands in one at a time; mt_run runs a script
 * as a whole. Sessions know nothing of each other, and nothing is kept when one is closed. The library reads and writes no file,
 * starts no thread, sets no signal handler and never ends the program. It calls malloc, realloc and free of the program, and
 * memcpy, memmove and memset.
 *
 * What a caller owes. Nothing checks it, and what comes of a breach is undefined:
 *
 * - Each pointer is valid, is not NULL, and is aligned for its type. One that has a length beside it has so many bytes behind
 *   it, at most PTRDIFF_MAX; with a length of 0 it is not NULL either. The text behind it needs no zero byte at its end, and may
 *   have some.
 * - What a call writes (the session, the answer or the output, and the number at written) overlaps nothing else that it is
 *   given.
 * - A session begins as MT_NONE, and only the library writes to its fields.
 * - A session isn't copied: after a call one copy would name what the other has freed. It may be moved, if the place where it
 *   was isn't used again.
 * - A session is in one call at a time. It may be used by one thread after the other, if they take turns as they would for any
 *   object, as by a lock. Different sessions, and calls of mt_run, may be in calls at the same time.
 * - No call is made from a signal handler, nor in the child of a fork of a program with several threads before it calls exec:
 *   malloc is not allowed there.
 * - malloc and realloc return memory that is aligned for every type of C (max_align_t), or NULL; they and free return to their
 *   caller, and may be called by several threads at once if the library is. A session is used and closed with the same free as
 *   it was opened with the malloc of.
 * - There are 128 KiB of stack left at each call.
 */
#ifndef MT_H
#define MT_H

#include <stdbool.h>
#include <stddef.h>
#include <stdint.h>

#ifdef __cplusplus
extern "C" {
#endif

/* A session. It begins as MT_NONE, which is one that isn't open. */
struct mt_session {
    void *at;
    bool open;
};

#define MT_NONE {0, false}

/* How a call ends. After any status but MT_DONE nothing was done, and nothing is written to the answer or the output. */
enum mt_status {
    MT_DONE = 0,    /* what was asked for is done */
    MT_MEMORY = 1,  /* there was no memory for it; the same may be asked again */
    MT_ROOM = 2,    /* there is no room for the answer; *written says how much it takes, or is 0 if there is less than MT_ANSWER */
    MT_CLOSED = 3,  /* the session isn't open */
    MT_OPEN = 4,    /* the session is open already, and stays so */
    MT_NAMES = 5,   /* a word is no name of a keyspace, or there are more than 31 */
    MT_TOO_LONG = 6 /* the script has more than 1,048,576 bytes */
};

/* The least room for the answer to a line. Only the documents, which the lines rules and dump are answered with, may take more. */
#define MT_ANSWER 2416

/* Opens a session: a run that begins with nothing. The primaries of these keyspaces are watched in it, as those of the words
 * behind mt run are: up to 31 names with spaces between them, or none.
 *
 * MT_DONE; MT_MEMORY, MT_OPEN, MT_NAMES. */
int32_t mt_open(struct mt_session *session, const char *keyspaces, size_t length);

/* Answers a line, which has no line end: no line feed, and no carriage return before one. The answer is what mt run writes for
 * it, with a line feed at its end and no zero byte, or nothing for a silent line (an empty one, one of blanks, a comment).
 * *written says how many bytes it has. A line that is refused is answered too, with MT_DONE.
 *
 * MT_DONE; MT_MEMORY, MT_ROOM, MT_CLOSED. After MT_ROOM *written is the room that the document takes, or 0 if room is less than
 * MT_ANSWER; after MT_MEMORY and MT_CLOSED it is 0. A document that finds no memory says MT_MEMORY. Any other line is then answered, with
 * MT_DONE, as docs/SCRIPT.md says: refused F0 Memory, which did nothing, an advance that was cut short, a switch that was abandoned or
 * stopped. */
int32_t mt_command(struct mt_session *session, const char *line, size_t length, char *answer, size_t room, size_t *written);

/* Closes a session and gives its memory back; does nothing if it isn't open. It may be opened again. */
void mt_close(struct mt_session *session);

/* Runs a script of at most 1,048,576 bytes from its first line to its last, in a session of its own, and gives what mt run writes:
 * the answers to its lines. *written says how many bytes that is.
 *
 * MT_DONE; MT_MEMORY, MT_ROOM, MT_NAMES, MT_TOO_LONG. After MT_ROOM *written is the room that the output takes; after any other
 * it is 0. The script begins with nothing, so that it may be run again. */
int32_t mt_run(const char *keyspaces, size_t keyspaces_length, const char *script, size_t length, char *output, size_t room, size_t *written);

/* The version: major * 1,000,000 + minor * 1,000 + patch, so 1000000 for 1.0.0. */
int32_t mt_version(void);

#ifdef __cplusplus
}
#endif

#endif
