/* Sessions in threads, with the stack that mt.h asks for: each plays its script as if it were alone, line by line and as a whole; and one is handed on from
 * thread to thread. threads TIMES NAME.. */
#include "trying.h"

#include <pthread.h>

/* The stack is what mt.h says of a call's; this program's own functions and the system's part are in it. */
enum { MOST_THREADS = 8, MOST_OUTPUT = 1 << 18, STACK = 128 << 10 };

/* What a thread does, and what it finds. */
struct work {
    pthread_t thread;
    struct script script;
    int times, so;
    char *wanted, *got, *answer;
    size_t length;
};

static size_t answered(struct mt_session *session, struct text line, struct work *to, size_t at) {
    size_t written;
    if (mt_command(session, line.at, line.length, to->answer, MOST_OUTPUT, &written) != MT_DONE || at + written > MOST_OUTPUT) return MOST_OUTPUT + 1;
    memcpy(to->got + at, to->answer, written);
    return at + written;
}

static size_t played(struct work *of) {
    struct mt_session session = MT_NONE;
    struct text lines = of->script.lines;
    size_t at = 0;
    if (mt_open(&session, of->script.keyspaces.at, of->script.keyspaces.length) != MT_DONE) return 0;
    while (lines.length && at <= MOST_OUTPUT) at = answered(&session, next_line(&lines), of, at);
    mt_close(&session);
    return at;
}

/* Line by line, and as a whole, as often as it is told to. */
static void *works(void *given) {
    struct work *of = given;
    for (int it = 0; it < of->times && of->so; it++) {
        struct script script = of->script;
        size_t length = played(of);
        of->so = length == of->length && !memcmp(of->got, of->wanted, length);
        int32_t status = mt_run(script.keyspaces.at, script.keyspaces.length, script.lines.at, script.lines.length, of->got, MOST_OUTPUT, &length);
        of->so = of->so && status == MT_DONE && length == of->length && !memcmp(of->got, of->wanted, length);
    }
    return NULL;
}

static struct work work_on(const char *name, int times) {
    struct work made = {.script = script_in(name), .times = times, .so = 1, .wanted = malloc(MOST_OUTPUT), .got = malloc(MOST_OUTPUT), .answer = malloc(MOST_OUTPUT)};
    if (!made.wanted || !made.got || !made.answer) exit(2);
    made.length = played(&made);
    if (made.length > MOST_OUTPUT) exit(2);
    memcpy(made.wanted, made.got, made.length);
    return made;
}

/* A session that each thread answers one line of, and hands on. */
struct handed {
    struct mt_session session;
    const char *line, *want;
    int so;
};

static void *answers(void *given) {
    struct handed *of = given;
    char answer[MT_ANSWER];
    size_t written;
    of->so = mt_command(&of->session, of->line, strlen(of->line), answer, sizeof answer, &written) == MT_DONE && is_same((struct text){answer, written}, text_of(of->want));
    return NULL;
}

static int is_handed_on(void) {
    static const char *const lines[][2] = {{"keyspace a", "ok\n"}, {"table a t", "ok\n"}, {"insert t 1 v", "ok\n"}, {"get t 1", "row v\n"}};
    struct handed handed = {MT_NONE, "", "", 1};
    pthread_t thread;
    int so = mt_open(&handed.session, "", 0) == MT_DONE;
    for (size_t it = 0; it < sizeof lines / sizeof *lines; it++) {
        handed.line = lines[it][0], handed.want = lines[it][1];
        if (pthread_create(&thread, NULL, answers, &handed) || pthread_join(thread, NULL)) exit(2);
        so = so && handed.so;
    }
    mt_close(&handed.session);
    return so;
}

int main(int count, char **words) {
    struct work works_on[MOST_THREADS];
    pthread_attr_t small;
    if (pthread_attr_init(&small) || pthread_attr_setstacksize(&small, STACK)) exit(2);
    for (int it = 0; it < MOST_THREADS; it++) works_on[it] = work_on(words[2 + it % (count - 2)], atoi(words[1]));
    for (int it = 0; it < MOST_THREADS; it++) {
        if (pthread_create(&works_on[it].thread, &small, works, &works_on[it])) exit(2);
    }
    for (int it = 0; it < MOST_THREADS; it++) {
        pthread_join(works_on[it].thread, NULL);
        is("a thread with sessions of its own", works_on[it].so);
        free(works_on[it].wanted), free(works_on[it].got), free(works_on[it].answer), free(works_on[it].script.whole.at);
    }
    is("a session that is handed on", is_handed_on());
    return counted();
}
