/* Plays scripts line by line, and as wholes, and writes what is answered to NAME.lines and NAME.whole: play NAME..
 *
 * Each thing that the library is handed stands in a block of its own, of its exact size, so that a tool which looks at each access sees one beyond it. */
#include "trying.h"

static char *block(const void *from, size_t length) {
    char *made = malloc(length);
    if (!made) exit(2);
    if (from) memcpy(made, from, length);
    return made;
}

/* The answer to a line, asked for with the least room; a document is asked for again with what it takes. */
static int32_t tell(struct mt_session *session, struct text line, FILE *to) {
    size_t room = MT_ANSWER, *written = (size_t *)block(NULL, sizeof *written);
    char *asked = block(line.at, line.length), *answer = block(NULL, room);
    int32_t status = mt_command(session, asked, line.length, answer, room, written);
    if (status == MT_ROOM) {
        free(answer);
        answer = block(NULL, room = *written);
        status = mt_command(session, asked, line.length, answer, room, written);
    }
    if (status == MT_DONE) fwrite(answer, 1, *written, to);
    free(answer), free(asked), free(written);
    return status;
}

static void by_lines(struct script script, FILE *to) {
    struct mt_session none = MT_NONE, *session = (struct mt_session *)block(&none, sizeof none);
    char *keyspaces = block(script.keyspaces.at, script.keyspaces.length);
    is("a session is opened", mt_open(session, keyspaces, script.keyspaces.length) == MT_DONE);
    free(keyspaces);
    int32_t status = MT_DONE;
    while (status == MT_DONE && script.lines.length) status = tell(session, next_line(&script.lines), to);
    is("each line is answered", status == MT_DONE);
    mt_close(session);
    is("a closed session is none", !session->open);
    free(session);
}

static void as_a_whole(struct script script, FILE *to) {
    size_t room = 0, *written = (size_t *)block(NULL, sizeof *written);
    char *keyspaces = block(script.keyspaces.at, script.keyspaces.length), *lines = block(script.lines.at, script.lines.length);
    char *output = block(NULL, room);
    int32_t status = mt_run(keyspaces, script.keyspaces.length, lines, script.lines.length, output, room, written);
    is("a script without room says what it takes", status == MT_ROOM || (status == MT_DONE && !*written));
    free(output);
    output = block(NULL, room = *written);
    status = mt_run(keyspaces, script.keyspaces.length, lines, script.lines.length, output, room, written);
    is("a script runs", status == MT_DONE && *written == room);
    fwrite(output, 1, *written, to);
    free(output), free(lines), free(keyspaces), free(written);
}

static FILE *opened(const char *name, const char *end) {
    char path[4096];
    snprintf(path, sizeof path, "%s.%s", name, end);
    FILE *file = fopen(path, "wb");
    if (!file) exit(2);
    return file;
}

int main(int count, char **names) {
    for (int it = 1; it < count; it++) {
        struct script script = script_in(names[it]);
        FILE *lines = opened(names[it], "lines"), *whole = opened(names[it], "whole");
        by_lines(script, lines);
        as_a_whole(script, whole);
        fclose(lines), fclose(whole), free(script.whole.at);
    }
    return counted();
}
