/* A million lines in one session, behind which there are no more rows, and none whose changes a stream has still to read: its memory doesn't grow. */
#include "memory.h"
#include "trying.h"

enum { FIRST = 10000, LINES = 1000000 };

static const char *const begun[] = {"keyspace a", "keyspace b", "table a t", "rule r a.t", "insert r 1 v", "create w a b t", "advance w forward 1 100",
                                    "keyspace c", "table c u"};
static const char *const asked_for[] = {"get r 1", "get t@replica 2", "rules", "dump", "show w", "# nothing", "insert r 1 v", "advance w forward 1 100",
                                        "rule s a.t", "rule s -", "table b t", "step w 3", "keyspace a", "at a.t get 1", "no line",
                                        "insert u 1 v", "update u 1 w", "append u 1 x", "delete u 1", "create x c b u", "cancel x", "dump"};

static char answer[1 << 16];

static int is_asked(struct mt_session *session, const char *line) {
    size_t written;
    return mt_command(session, line, strlen(line), answer, sizeof answer, &written) == MT_DONE && (written || line[0] == '#');
}

int main(void) {
    struct mt_session session = MT_NONE;
    long most_blocks = 0, most_bytes = 0;
    int so = mt_open(&session, "a b", 3) == MT_DONE;
    for (size_t it = 0; it < sizeof begun / sizeof *begun; it++) so = so && is_asked(&session, begun[it]);
    for (long it = 0; so && it < LINES; it++) {
        so = is_asked(&session, asked_for[it % (long)(sizeof asked_for / sizeof *asked_for)]);
        if (it < FIRST && blocks > most_blocks) most_blocks = blocks;
        if (it < FIRST && bytes > most_bytes) most_bytes = bytes;
        so = so && (it < FIRST || (blocks <= most_blocks && bytes <= most_bytes));
        if (it == FIRST || it + 1 == LINES) printf("%ld lines: %ld blocks, %ld bytes\n", it + 1, blocks, bytes);
    }
    is("no more memory than behind the first lines", so);
    mt_close(&session);
    is("no block is left", !blocks && !bytes);
    return counted();
}
