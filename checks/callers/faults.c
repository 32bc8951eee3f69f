/* The library with a fault, by the linker's --wrap: checks/embed has to see each. FAULT says which. */
#include "mt.h"

#include <stdlib.h>
#include <string.h>

int32_t __real_mt_open(struct mt_session *session, const char *keyspaces, size_t length);
int32_t __real_mt_command(struct mt_session *session, const char *line, size_t length, char *answer, size_t room, size_t *written);
void __real_mt_close(struct mt_session *session);
int32_t __real_mt_run(const char *keyspaces, size_t keyspaces_length, const char *script, size_t length, char *output, size_t room, size_t *written);

enum {
    CUT = 1,       /* an answer lacks its last byte */
    CUT_RUN,       /* the output of a script does */
    TURNED,        /* the first byte of an answer is another */
    DONE_NO_ROOM,  /* a line is done although MT_ROOM is said */
    DONE_REFUSED,  /* a line is done although it is refused for memory */
    WRITTEN,       /* something is written although MT_MEMORY is said */
    LEAK,          /* 8 bytes are lost at each line */
    OPEN_LEAK,     /* the session isn't freed */
    READ_BEYOND,   /* a byte behind the line is read */
    WRITE_BEYOND,  /* a byte behind the room is written */
    SHARED,        /* threads count in one place */
    DEEP,          /* a call takes much of the stack */
    STAYS_OPEN,    /* a session that is closed still says that it is open */
    LOOSE_ROOM     /* a room of one byte too few is taken for enough */
};

static long lines;
static void *volatile lost;

/* Takes as much of the stack as mt.h asks for. */
static void go_deep(void) {
    volatile char place[128 << 10];
    for (size_t at = 0; at < sizeof place; at += 4096) place[at] = 0;
}

static int32_t spoilt(int32_t status, struct mt_session *session, const char *line, size_t length, char *answer, size_t room, size_t *written) {
    static char own[1 << 20];
    if (FAULT == CUT && status == MT_DONE && *written) --*written;
    if (FAULT == TURNED && status == MT_DONE && *written) answer[0] ^= 1;
    if (FAULT == DONE_NO_ROOM && status == MT_ROOM && !*written) {
        __real_mt_command(session, line, length, own, sizeof own, written);
        *written = 0;
    }
    if (FAULT == DONE_REFUSED && status == MT_DONE && *written == 18 && !memcmp(answer, "refused F0 Memory", 17)) {
        __real_mt_command(session, line, length, own, sizeof own, written);
        *written = 18;
    }
    if (FAULT == WRITTEN && status == MT_MEMORY) answer[0] = '!';
    if (FAULT == WRITE_BEYOND && status == MT_DONE) answer[room] = 0;
    return status;
}

int32_t __wrap_mt_command(struct mt_session *session, const char *line, size_t length, char *answer, size_t room, size_t *written) {
    if (FAULT == LEAK) lost = malloc(8);
    if (FAULT == READ_BEYOND && line[length] == 1) return MT_CLOSED;
    if (FAULT == SHARED) lines++;
    if (FAULT == DEEP) go_deep();
    if (FAULT == LOOSE_ROOM && room == MT_ANSWER - 1) room++;
    int32_t status = __real_mt_command(session, line, length, answer, room, written);
    return spoilt(status, session, line, length, answer, room, written);
}

int32_t __wrap_mt_run(const char *keyspaces, size_t keyspaces_length, const char *script, size_t length, char *output, size_t room, size_t *written) {
    int32_t status = __real_mt_run(keyspaces, keyspaces_length, script, length, output, room, written);
    if (FAULT == CUT_RUN && status == MT_DONE && *written) --*written;
    if (FAULT == WRITTEN && status == MT_MEMORY) output[0] = '!';
    return status;
}

void __wrap_mt_close(struct mt_session *session) {
    struct mt_session was = *session;
    if (FAULT == OPEN_LEAK) *session = (struct mt_session)MT_NONE;
    else __real_mt_close(session);
    if (FAULT == STAYS_OPEN) session->open = was.open;
}
