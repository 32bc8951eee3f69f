/* Plays scripts with each allocation failing in turn, and with all failing from each one on: failing NAME..
 *
 * A line that says MT_MEMORY did nothing: with memory it is then answered as ever. So is one that is answered refused for memory, or a switch that was
 * abandoned; of a switch that was stopped, and of an advance that was cut short, what is left is asked for. All lines behind are answered as ever. */
#include "memory.h"
#include "trying.h"

enum { MOST_LINES = 1024, MOST_OUTPUT = 1 << 20 };

static char answer[MOST_OUTPUT];
static struct text wanted[MOST_LINES];
static long runs, lines_without_memory;

static const struct text nothing = {"", 0};

/* The answer to a line, with what fails as it is set; status is how the call ends. After any but MT_DONE nothing may be written. */
static struct text told(struct mt_session *session, struct text line, int32_t *status) {
    size_t written = 1;
    answer[0] = '?';
    *status = mt_command(session, line.at, line.length, answer, sizeof answer, &written);
    if (*status != MT_DONE && (written || answer[0] != '?')) is("nothing is written where nothing is done", 0);
    return *status == MT_DONE ? (struct text){answer, written} : nothing;
}

/* The same with memory. */
static struct text told_with_memory(struct mt_session *session, struct text line) {
    long one = one_fails, all = all_fail;
    int32_t status;
    one_fails = all_fail = 0;
    struct text said = told(session, line, &status);
    one_fails = one, all_fail = all;
    return said;
}

static int is_done(struct text said) { return is_same(said, text_of("ok\n")); }

/* Whether the steps behind those that a stopped switch made are done with memory, up to the last. */
static int steps_on(struct mt_session *session, struct text line, struct text said) {
    char workflow[65], asked_for[128], last[128];
    unsigned long done = strtoul(said.at + (strrchr(said.at, ' ') - said.at), NULL, 10);
    if (sscanf(line.at, "%*s %64s", workflow) != 1) return 0;
    do snprintf(asked_for, sizeof asked_for, "step %s %lu", workflow, done++);
    while (is_done(told_with_memory(session, text_of(asked_for))));
    snprintf(last, sizeof last, "undo %s %lu", workflow, done - 1);
    return begins(told_with_memory(session, text_of(last)), "refused ");
}

/* Whether what an advance that was cut short left is done with memory. */
static int advances_on(struct mt_session *session, struct text line, struct text said, struct text want) {
    char workflow[65], stream[65], rest[256];
    unsigned long at, most, events, rows, all_events, all_rows, more_events, more_rows;
    if (sscanf(line.at, "advance %64s %64s %lu %lu", workflow, stream, &at, &most) != 4) return 0;
    if (sscanf(said.at, "events %lu rows %lu", &events, &rows) != 2 || sscanf(want.at, "events %lu rows %lu", &all_events, &all_rows) != 2) return 0;
    snprintf(rest, sizeof rest, "advance %s %s %lu %lu", workflow, stream, at + events, most - events - rows);
    if (sscanf(told_with_memory(session, text_of(rest)).at, "events %lu rows %lu", &more_events, &more_rows) != 2) return 0;
    return events + more_events == all_events && rows + more_rows == all_rows;
}

static int begins_one(struct text said, const char *const *starts, size_t count) {
    for (size_t it = 0; it < count; it++) {
        if (begins(said, starts[it])) return 1;
    }
    return 0;
}

/* Whether an answer says that the line did nothing but turns of streams, as it wanted memory, or a watcher did. */
static int is_refused_for_memory(struct text said) {
    static const char *const starts[] = {"refused F0 Memory", "refused F23 WatcherRefused", "abandoned F0 Memory", "abandoned F23 WatcherRefused"};
    return begins_one(said, starts, sizeof starts / sizeof *starts);
}

/* Whether a line is answered as it is with memory, or what it left is done with memory. */
static int is_answered(struct mt_session *session, struct text line, struct text want) {
    int32_t status;
    struct text said = told(session, line, &status);
    answer[said.length] = 0;
    if (status == MT_DONE && is_same(said, want)) return 1;
    lines_without_memory++;
    if (status == MT_MEMORY || (status == MT_DONE && is_refused_for_memory(said))) return is_same(told_with_memory(session, line), want);
    if (status == MT_DONE && begins(said, "stopped F")) return steps_on(session, line, said);
    return status == MT_DONE && begins(said, "events ") && advances_on(session, line, said, want);
}

/* A session that is open, whatever fails; without memory none is opened, and nothing is written to the handle. */
static int opens(struct mt_session *session, struct text keyspaces) {
    long one = one_fails, all = all_fail;
    int32_t status = mt_open(session, keyspaces.at, keyspaces.length);
    if (status == MT_MEMORY && !session->open) {
        one_fails = all_fail = 0;
        status = mt_open(session, keyspaces.at, keyspaces.length);
        one_fails = one, all_fail = all;
    }
    return status == MT_DONE;
}

/* Plays a script once, in which allocations fail that are told by their numbers in this run. */
static int plays(struct script script, long one, long all) {
    struct mt_session session = MT_NONE;
    long before = blocks;
    asked = 0, one_fails = one, all_fail = all, runs++;
    int so = opens(&session, script.keyspaces);
    for (int at = 0; so && script.lines.length; at++) so = is_answered(&session, next_line(&script.lines), wanted[at]);
    mt_close(&session);
    one_fails = all_fail = 0;
    return so && blocks == before;
}

/* Whether the first answer of an output that isn't as ever says that its line wanted memory. */
static int wanted_memory(struct text output, struct text want) {
    static const char *const parts[] = {"stopped F0 Memory", "stopped F23 WatcherRefused", "events "};
    struct text line = nothing, as_ever = nothing;
    while (output.length && is_same(line, as_ever)) line = next_line(&output), as_ever = next_line(&want);
    return is_refused_for_memory(line) || begins_one(line, parts, sizeof parts / sizeof *parts);
}

/* Runs a script as a whole once: it is done as ever, or as far as memory was there, or not at all, and then nothing is written. */
static int runs_whole(struct script script, struct text want, long one, long all) {
    long before = blocks;
    size_t written = 1;
    asked = 0, one_fails = one, all_fail = all, answer[0] = '?', runs++;
    int32_t status = mt_run(script.keyspaces.at, script.keyspaces.length, script.lines.at, script.lines.length, answer, sizeof answer, &written);
    one_fails = all_fail = 0;
    if (blocks != before) return 0;
    if (status == MT_MEMORY) return !written && answer[0] == '?';
    struct text output = {answer, written};
    return status == MT_DONE && (is_same(output, want) || wanted_memory(output, want));
}

/* Notes what each line is answered with memory; gives how many allocations that takes. */
static long note_wanted(struct script script) {
    static char kept[MOST_OUTPUT];
    struct mt_session session = MT_NONE;
    char *to = kept;
    asked = 0;
    if (!opens(&session, script.keyspaces)) exit(2);
    for (int at = 0; script.lines.length; at++) {
        struct text said = told_with_memory(&session, next_line(&script.lines));
        if (at == MOST_LINES || to + said.length + 1 > kept + sizeof kept) exit(2);
        wanted[at] = (struct text){memcpy(to, said.at, said.length), said.length};
        to[said.length] = 0;
        to += said.length + 1;
    }
    mt_close(&session);
    return asked;
}

static void try_whole(struct script script) {
    static char kept[MOST_OUTPUT];
    struct text want = {kept, 0};
    asked = 0;
    int so = mt_run(script.keyspaces.at, script.keyspaces.length, script.lines.at, script.lines.length, kept, sizeof kept, &want.length) == MT_DONE;
    for (long number = asked; so && number; number--) so = runs_whole(script, want, number, 0) && runs_whole(script, want, 0, number);
    is("a script as a whole, whichever allocation fails", so);
}

int main(int count, char **names) {
    for (int it = 1; it < count; it++) {
        struct script script = script_in(names[it]);
        int so = 1;
        for (long number = note_wanted(script); so && number; number--) so = plays(script, number, 0) && plays(script, 0, number);
        if (!so) printf("%s: ", names[it]);
        is("a script line by line, whichever allocation fails", so);
        try_whole(script);
        free(script.whole.at);
    }
    is("some lines had no memory", lines_without_memory > 0);
    printf("%ld runs, and %ld lines that had no memory\n", runs, lines_without_memory);
    return counted();
}
