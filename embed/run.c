/* Plays a script by the library, as `mt run [KEYSPACE].. < SCRIPT` does: line by line, or with -w first as a whole.
 *
 *     cc -I embed -o run embed/run.c out/libmt.a
 */
#include "mt.h"

#include <stdio.h>
#include <stdlib.h>
#include <string.h>

enum { LONGEST = 1 << 20 };

/* The longest script that mt_run takes, and a byte more, to tell a longer one. */
static char script[LONGEST + 1];

/* Room for answers, which grows if a document takes more. */
struct room {
    char *at;
    size_t size;
};

static int grow(struct room *room, size_t size) {
    char *at = realloc(room->at, size);
    if (at) *room = (struct room){at, size};
    return at != NULL;
}

/* Answers a line. A call that says MT_ROOM did nothing, so that it may be made again with the room that it asks for. */
static int32_t answered(struct mt_session *session, const char *line, size_t length, struct room *room) {
    size_t written;
    int32_t status = mt_command(session, line, length, room->at, room->size, &written);
    if (status == MT_ROOM && grow(room, written)) status = mt_command(session, line, length, room->at, room->size, &written);
    if (status == MT_DONE) fwrite(room->at, 1, written, stdout);
    return status;
}

/* Hands in the lines one by one, each without its line end. */
static int32_t by_lines(const char *keyspaces, size_t size, struct room *room) {
    struct mt_session session = MT_NONE;
    int32_t status = mt_open(&session, keyspaces, strlen(keyspaces));
    for (size_t at = 0; status == MT_DONE && at < size;) {
        const char *line = script + at, *end = memchr(line, '\n', size - at);
        size_t length = end ? (size_t)(end - line) : size - at;
        size_t has_return = end && length && line[length - 1] == '\r';
        status = answered(&session, line, length - has_return, room);
        at += length + 1;
    }
    mt_close(&session);
    return status;
}

static int32_t as_a_whole(const char *keyspaces, size_t size, struct room *room) {
    size_t written;
    int32_t status = mt_run(keyspaces, strlen(keyspaces), script, size, room->at, room->size, &written);
    if (status == MT_ROOM && grow(room, written)) status = mt_run(keyspaces, strlen(keyspaces), script, size, room->at, room->size, &written);
    if (status == MT_DONE) fwrite(room->at, 1, written, stdout);
    return status;
}

int main(int count, char **words) {
    int is_whole = count > 1 && !strcmp(words[1], "-w");
    char keyspaces[4096] = "";
    for (int it = 1 + is_whole; it < count; it++) {
        size_t used = strlen(keyspaces);
        snprintf(keyspaces + used, sizeof keyspaces - used, " %s", words[it]);
    }
    struct room room = {NULL, 0};
    int32_t status = MT_MEMORY;
    if (grow(&room, is_whole ? LONGEST : MT_ANSWER)) {
        size_t size = fread(script, 1, sizeof script, stdin);
        status = (is_whole ? as_a_whole : by_lines)(keyspaces, size, &room);
        free(room.at);
    }
    if (status != MT_DONE) fprintf(stderr, "status %d\n", (int)status);
    return status != MT_DONE;
}
