/*
 * merge [--cut N] [--callers N] [--instances] DIRECTORY STREAM LABEL PLACES [FUNCTION ..]: puts the files of a
 * recording together as one stream of traces, and says on standard error how much it was. An empty LABEL is each
 * program's name. With 1 for PLACES the places at which locks were taken go to STREAM.places, each with as many
 * callers as are wanted. The functions are those through which the program makes its locks. The status is 0 if the
 * stream was written, 1 if no process was recorded.
 */
#define _GNU_SOURCE
#include <errno.h>
#include <inttypes.h>
#include <stdlib.h>
#include <string.h>
#include <sys/stat.h>

#include "merger.h"

enum status { WRITTEN, NOTHING_RECORDED, NOT_WRITTEN };

FILE *stream;
struct totals totals;

static void say_ends(const struct recording *all, size_t count)
{
    for (size_t number = 0; number < count; number++) {
        const struct process *process = all[number].process;
        if (process->ended == ENDED_NO_SPACE)
            say("process %zu: recording ended before it did: no space on the disk", number + 1);
        if (process->ended == ENDED_NO_MEMORY)
            say("process %zu: recording ended before it did: no address space", number + 1);
        if (process->ended == ENDED_BY_VALGRIND)
            say("process %zu ran under valgrind, and the recorder can't", number + 1);
        if (process->lost_children)
            say("process %zu: %" PRIu64 " of its children couldn't be recorded", number + 1,
                process->lost_children);
        if (still_runs(all, count, number))
            say("process %zu still runs: its trace ends here", number + 1);
    }
}

static void say_limits(int64_t bytes)
{
    if (totals.events == 0)
        say("no process took a lock that the recorder sees: no report on the stream says anything");
    if (totals.too_deep)
        say("%" PRIu64 " locks were left out: their task held %d already", totals.too_deep, MOST_HELD);
    if (totals.not_taken_up)
        say("%" PRIu64 " held locks were left out where a new trace began", totals.not_taken_up);
    if (totals.damaged)
        say("%" PRIu64 " records were damaged and left out", totals.damaged);
    if (totals.traces > MOST_TRACES)
        say("the stream has %" PRIu64 " traces, and lockcheck reads no more than 65535", totals.traces);
    if (bytes > MOST_STREAM_BYTES)
        say("the stream has more than 2147483648 bytes, and lockcheck reads no more");
}

static void say_maker(const struct class *class)
{
    if (class->has_several_callers && class->under_itself)
        say("%" PRIu64 " times a lock of %s was taken under another one; all calls of %s are one class: if "
            "its locks are of several kinds, say --through %s",
            class->under_itself, class->name, class->maker, class->maker);
}

static void say_classes(void)
{
    size_t by_address = classes_told(TOLD_BY_ADDRESS), by_first = classes_told(TOLD_BY_FIRST);
    if (by_address)
        say("%zu of %zu classes go by the address of a call, for want of %s: one line may be several "
            "classes, and orders are missed",
            by_address, class_count(),
            has_addr2line ? "debug information (compile with -g)" : "addr2line (install binutils)");
    if (by_first)
        say("%zu of %zu classes go by the line that took a lock first, since no call initialised it: "
            "locks of a kind may be several classes, and orders are missed",
            by_first, class_count());
    if (lost_places())
        say("%zu places are in functions of --through, since their callers aren't known", lost_places());
    each_class(say_maker);
    for (size_t number = 0; number < through_count; number++)
        if (!through_met[number])
            say("no lock was made through %s", through[number]);
}

/* Says which program a process was, and its arguments. */
static void write_process(const struct process *process, size_t number)
{
    static char text[8 * PROCESS_BYTES];
    size_t length =
        process->argument_bytes < MOST_ARGUMENT_BYTES ? process->argument_bytes : MOST_ARGUMENT_BYTES;
    const char *end = process->arguments + length;
    text[0] = 0;
    append_clean(text, sizeof text, process->program, "");
    const char *argument = process->arguments + strnlen(process->arguments, length);
    while (argument + 1 < end) {
        char *own = must(strndup(argument + 1, (size_t)(end - argument - 1)));
        strcat(text, " ");
        append_clean(text, sizeof text, own, "");
        argument += 1 + strlen(own);
        free(own);
    }
    fprintf(stream, "# process %zu %s%s\n", number, text, length == MOST_ARGUMENT_BYTES ? " .." : "");
    end_line(0, NULL);
}

static void replay_all(struct recording *all, size_t count, const char *label)
{
    for (size_t number = 0; number < count; number++) {
        char clean[1024] = "";
        append_clean(clean, sizeof clean, label[0] ? label : all[number].process->name, "");
        write_process(all[number].process, number + 1);
        replay(all, count, number, clean);
    }
    write_classes();
    write_instances();
}

static bool is_file(FILE *file)
{
    struct stat status;
    return fstat(fileno(file), &status) == 0 && S_ISREG(status.st_mode);
}

/* Gives how long the stream is, or -1 if it isn't whole. A pipe doesn't tell how much went into it. */
static int64_t close_stream(const char *path)
{
    int64_t bytes = is_file(stream) ? ftello(stream) : 0;
    bool whole = !ferror(stream);
    if (fclose(stream) == 0 && whole)
        return bytes;
    say("%s: the stream couldn't be written", path);
    return -1;
}

static void say_all(const struct recording *all, size_t count, const char *path, int64_t bytes)
{
    say_ends(all, count);
    say_limits(bytes);
    say_classes();
    say_misuse();
    say("%s: %" PRIu64 " events, %zu classes, %zu processes, %" PRIu64 " traces", path, totals.events,
        class_count(), count, totals.traces);
}

int main(int argument_count, char **arguments)
{
    struct recording *all;
    int first = read_settings(argument_count, arguments);
    if (first == 0 || argument_count - first < 4)
        return NOT_WRITTEN;
    arguments += first - 1;
    argument_count -= first - 1;
    through = arguments + 5;
    through_count = (size_t)argument_count - 5;
    through_met = must(calloc(through_count + 1, sizeof *through_met));
    size_t count = read_recordings(arguments[1], &all);
    if (count == 0)
        return NOTHING_RECORDED;
    stream = fopen(arguments[2], "we");
    if (!stream) {
        say("%s: %s", arguments[2], strerror(errno));
        return NOT_WRITTEN;
    }
    setvbuf(stream, NULL, _IOFBF, 1 << 20);
    bool wants_places = strcmp(arguments[4], "1") == 0 && is_file(stream);
    survey(all, count);
    find_frames();
    bool has_places = wants_places && open_places(arguments[1]);
    replay_all(all, count, arguments[3]);
    int64_t bytes = close_stream(arguments[2]);
    if (bytes < 0)
        return NOT_WRITTEN;
    if (!(wants_places ? has_places && close_places(arguments[2]) : remove_places(arguments[2])))
        say("%s.places couldn't be %s", arguments[2], wants_places ? "written" : "removed");
    say_all(all, count, arguments[2], bytes);
    return WRITTEN;
}
