/* What a caller may do wrong and is told of, and the bounds of what it may ask for. */
#include "trying.h"

#include <stdint.h>

enum { MOST = 1 << 20, MOST_DOCUMENT = 1 << 16 };

static char place[MOST_DOCUMENT];
static size_t written;

static int32_t ask(struct mt_session *session, const char *line, size_t room) {
    written = SIZE_MAX;
    memset(place, '?', sizeof place);
    return mt_command(session, line, strlen(line), place, room, &written);
}

static int opens(struct mt_session *session, const char *keyspaces) { return mt_open(session, keyspaces, strlen(keyspaces)); }

/* Whether just these bytes were written, and that many told. */
static int has_written(const char *answer) {
    return written == strlen(answer) && !memcmp(place, answer, written) && place[written] == '?';
}

/* Whether nothing was written, and this number told. */
static int has_told(size_t number) { return written == number && place[0] == '?'; }

static int is_closed(const struct mt_session *session) { return !session->open; }

static void closed_and_open(void) {
    struct mt_session session = MT_NONE;
    is("a line of a session that was never open", ask(&session, "keyspace a", MT_ANSWER) == MT_CLOSED && has_told(0));
    mt_close(&session);
    is("one that was never open is closed", is_closed(&session));
    is("it is opened", opens(&session, "") == MT_DONE && session.open);
    is("a line", ask(&session, "keyspace a", MT_ANSWER) == MT_DONE && has_written("ok\n"));
    is("it is opened twice", opens(&session, "") == MT_OPEN && session.open);
    is("it stays as it was", ask(&session, "keyspace a", MT_ANSWER) == MT_DONE && has_written("refused F30 Exists\n"));
    mt_close(&session);
    is("a line of one that is closed", ask(&session, "rules", MT_ANSWER) == MT_CLOSED && has_told(0));
    mt_close(&session);
    is("it is closed twice, and opened again", is_closed(&session) && opens(&session, "a") == MT_DONE);
    is("it begins with nothing", ask(&session, "keyspace a", MT_ANSWER) == MT_DONE && has_written("ok\n"));
    mt_close(&session);
}

static void rooms_of_lines(void) {
    struct mt_session session = MT_NONE;
    opens(&session, "");
    for (size_t room = 0; room < MT_ANSWER; room += room < 8 ? 1 : 301) is("less room than any answer", ask(&session, "keyspace a", room) == MT_ROOM && has_told(0));
    is("a byte too few", ask(&session, "keyspace a", MT_ANSWER - 1) == MT_ROOM && has_told(0));
    is("nothing was done", ask(&session, "keyspace a", MT_ANSWER) == MT_DONE && has_written("ok\n"));
    for (int table = 0; table < 200; table++) {
        char line[64];
        snprintf(line, sizeof line, "table a a_table_with_a_long_name_%d", table);
        ask(&session, line, MT_ANSWER);
    }
    is("a document and no room", ask(&session, "dump", MT_ANSWER) == MT_ROOM && written > MT_ANSWER && place[0] == '?');
    size_t whole = written;
    is("one byte too few", ask(&session, "dump", whole - 1) == MT_ROOM && has_told(whole));
    is("just enough", ask(&session, "dump", whole) == MT_DONE && written == whole && place[whole - 1] == '\n' && place[whole] == '?');
    is("no room but for lines, and a line", ask(&session, "keyspace b", MT_ANSWER) == MT_DONE && has_written("ok\n"));
    mt_close(&session);
}

/* So many names of keyspaces, `k0 k1 ..`. */
static const char *names(int count) {
    static char words[512];
    words[0] = 0;
    for (int it = 0; it < count; it++) snprintf(words + strlen(words), sizeof words - strlen(words), " k%d", it);
    return words;
}

static void keyspaces(void) {
    static const char *const none[] = {"a.b", "a b!", "-a", "a\tb", "a,b", "\xc3\xa4", "\xff", "a\n",
                                       "12345678901234567890123456789012345678901234567890123456789012345"};
    struct mt_session session = MT_NONE;
    char output[64];
    size_t count;
    for (size_t it = 0; it < sizeof none / sizeof *none; it++) {
        is("a word that is no name", opens(&session, none[it]) == MT_NAMES && is_closed(&session));
        is("the same for a script", mt_run(none[it], strlen(none[it]), "keyspace a\n", 11, output, sizeof output, &count) == MT_NAMES && !count);
    }
    is("a zero byte is none of a name", mt_open(&session, "a\0b", 3) == MT_NAMES && is_closed(&session));
    for (int many = 32; many < 36; many++) is("too many names", opens(&session, names(many)) == MT_NAMES && is_closed(&session));
    is("too many for a script", mt_run(names(32), strlen(names(32)), "", 0, output, sizeof output, &count) == MT_NAMES && !count);
    is("31 names", opens(&session, names(31)) == MT_DONE);
    mt_close(&session);
    is("a name twice, and blanks", opens(&session, "  a   a ") == MT_DONE);
    mt_close(&session);
}

static int32_t run(const char *script, size_t length, size_t room) {
    written = SIZE_MAX;
    memset(place, '?', sizeof place);
    return mt_run("", 0, script, length, place, room, &written);
}

static void scripts(void) {
    static char script[MOST + 1];
    memset(script, '#', sizeof script);
    memcpy(script, "keyspace a\n", 11);
    script[MOST - 1] = '\n';
    is("a script of the most bytes", run(script, MOST, 64) == MT_DONE && has_written("ok\n"));
    is("one of a byte more", run(script, MOST + 1, 64) == MT_TOO_LONG && has_told(0));
    is("an empty one, and no room", run("", 0, 0) == MT_DONE && has_told(0));
    is("two answers and no room", run("keyspace a\nkeyspace b", 21, 0) == MT_ROOM && has_told(6));
    is("two answers and a byte too few", run("keyspace a\nkeyspace b", 21, 5) == MT_ROOM && has_told(6));
    is("two answers and just enough", run("keyspace a\r\nkeyspace b", 22, 6) == MT_DONE && has_written("ok\nok\n"));
}

static void lines(void) {
    struct mt_session session = MT_NONE;
    static char longest[4098];
    memset(longest, 'x', sizeof longest - 1);
    opens(&session, "");
    is("a line with its line feed", ask(&session, "keyspace a\n", MT_ANSWER) == MT_DONE && has_written("refused X1 BadLine\n"));
    is("a line with a carriage return", ask(&session, "keyspace a\r", MT_ANSWER) == MT_DONE && has_written("refused X1 BadLine\n"));
    is("a line too long", ask(&session, longest, MT_ANSWER) == MT_DONE && has_written("refused X2 LineTooLong\n"));
    is("one of the most bytes", ask(&session, longest + 1, MT_ANSWER) == MT_DONE && has_written("refused X1 BadLine\n"));
    is("silent lines", ask(&session, "", MT_ANSWER) == MT_DONE && has_told(0) && ask(&session, " \t", MT_ANSWER) == MT_DONE && has_told(0));
    written = SIZE_MAX;
    is("a zero byte", mt_command(&session, "keyspace a\0", 11, place, MT_ANSWER, &written) == MT_DONE && has_written("refused X1 BadLine\n"));
    is("nothing was done", ask(&session, "keyspace a", MT_ANSWER) == MT_DONE && has_written("ok\n"));
    mt_close(&session);
}

int main(void) {
    closed_and_open();
    rooms_of_lines();
    keyspaces();
    scripts();
    lines();
    is("the version", mt_version() == 1000000);
    return counted();
}
