/*
 * The functions and source lines of places in code. All places of a recording are asked for first, and
 * then `addr2line` is called once for each file. Where it isn't there, or the file has no debug
 * information, no lines are known.
 */
#define _GNU_SOURCE
#include <inttypes.h>
#include <stdlib.h>
#include <string.h>
#include <sys/mman.h>
#include <sys/wait.h>
#include <fcntl.h>
#include <unistd.h>

#include "merger.h"

bool has_addr2line = true;

/* What stands in the place of a program that isn't there. */
#define NO_PROGRAM 127

static void add_site(struct binary *binary, struct site site)
{
    binary->sites = grown(binary->sites, binary->site_count, &binary->site_room, sizeof *binary->sites);
    binary->sites[binary->site_count++] = site;
}

void ask_for(struct binary *binary, uint64_t offset)
{
    add_site(binary, (struct site){.offset = offset});
}

void ask_for_init(struct binary *binary, uint64_t offset)
{
    add_site(binary, (struct site){.offset = offset, .is_init = true});
}

static int by_offset(const void *left, const void *right)
{
    const struct site *a = left, *b = right;
    return a->offset < b->offset ? -1 : a->offset > b->offset;
}

/* Those where locks are initialised stand before others of the same place, and are kept. */
static int by_offset_and_kind(const void *left, const void *right)
{
    const struct site *a = left, *b = right;
    int order = by_offset(left, right);
    return order ? order : (int)b->is_init - (int)a->is_init;
}

static void sort_sites(struct binary *binary)
{
    size_t kept = 0;
    qsort(binary->sites, binary->site_count, sizeof *binary->sites, by_offset_and_kind);
    for (size_t number = 0; number < binary->site_count; number++)
        if (kept == 0 || binary->sites[kept - 1].offset != binary->sites[number].offset)
            binary->sites[kept++] = binary->sites[number];
    binary->site_count = kept;
}

const struct site *site_at(const struct binary *binary, uint64_t offset)
{
    struct site wanted = {.offset = offset};
    if (binary->site_count == 0)
        return NULL;
    return bsearch(&wanted, binary->sites, binary->site_count, sizeof wanted, by_offset);
}

/* Gives a file from which all places of a binary can be read, or -1. */
static int questions(const struct binary *binary)
{
    int file = memfd_create("places", MFD_CLOEXEC);
    FILE *text = file < 0 ? NULL : fdopen(dup(file), "w");
    if (!text)
        return -1;
    for (size_t number = 0; number < binary->site_count; number++)
        fprintf(text, "0x%" PRIx64 "\n", binary->sites[number].offset);
    fclose(text);
    lseek(file, 0, SEEK_SET);
    return file;
}

static void run_addr2line(const char *path, int input, int output)
{
    int nowhere = open("/dev/null", O_WRONLY);
    dup2(input, STDIN_FILENO);
    dup2(output, STDOUT_FILENO);
    dup2(nowhere, STDERR_FILENO);
    execlp("addr2line", "addr2line", "-a", "-f", "-i", "-C", "-e", path, (char *)NULL);
    _exit(NO_PROGRAM);
}

static void add_frame(struct site *site, const char *function, char *place)
{
    struct frame frame = {NULL, NULL, 0, 0};
    char *more = strstr(place, " (");
    if (more)
        *more = 0;
    char *line = strrchr(place, ':');
    if (line)
        *line++ = 0;
    if (strcmp(function, "??") != 0)
        frame.function = must(strdup(function));
    if (strcmp(place, "??") != 0) {
        frame.file = must(strdup(place));
        frame.line = line ? (unsigned)strtoul(line, NULL, 10) : 0;
    }
    site->frames = must(realloc(site->frames, (site->frame_count + 1) * sizeof frame));
    site->frames[site->frame_count++] = frame;
}

/* An answer is a line with the address, and for each frame one with the function and one with the file
   and the line. */
static void read_answers(struct binary *binary, FILE *answers)
{
    char *line = NULL, *function = NULL;
    size_t room = 0;
    ssize_t length;
    struct site *site = NULL;
    while ((length = getline(&line, &room, answers)) > 0) {
        if (line[length - 1] == '\n')
            line[length - 1] = 0;
        if (!function && strncmp(line, "0x", 2) == 0) {
            site = (struct site *)site_at(binary, strtoull(line, NULL, 16));
        } else if (!function) {
            function = must(strdup(line));
        } else {
            if (site)
                add_frame(site, function, line);
            free(function);
            function = NULL;
        }
    }
    free(function);
    free(line);
}

static void ask(struct binary *binary)
{
    int ends[2], status;
    int input = questions(binary);
    if (input < 0 || pipe2(ends, O_CLOEXEC) != 0)
        return;
    pid_t child = fork();
    if (child == 0)
        run_addr2line(binary->path, input, ends[1]);
    close(input);
    close(ends[1]);
    FILE *answers = must(fdopen(ends[0], "r"));
    read_answers(binary, answers);
    fclose(answers);
    if (child > 0 && waitpid(child, &status, 0) == child && WIFEXITED(status) &&
        WEXITSTATUS(status) == NO_PROGRAM)
        has_addr2line = false;
}

/* The innermost frame's line is that of the table of lines. Its function can't be trusted where it is
   also the outermost: that is what `addr2line` says of a C function in the middle of C++. Where there is
   no line the function is the nearest symbol, maybe of other code: there the symbols are asked. */
static void mend(const struct binary *binary, struct site *site)
{
    uint64_t offset;
    if (site->frame_count == 0 && (site->line || symbol_at(binary, site->offset, &offset)))
        add_frame(site, "??", (char[]){"??"});
    if (site->frame_count == 0)
        return;
    struct frame *first = &site->frames[0];
    if (site->line) {
        if (!first->file || strcmp(base_of(first->file), base_of(site->file)) != 0)
            first->file = site->file;
        first->line = site->line;
        first->column = site->column;
    }
    const struct frame *last = &site->frames[site->frame_count - 1];
    if (last != first && first->function && last->function) {
        char inner[256], outer[256];
        short_function(inner, sizeof inner, first->function);
        short_function(outer, sizeof outer, last->function);
        if (strcmp(inner, outer) == 0)
            first->function = NULL;
    }
    const char *symbol = symbol_at(binary, site->offset, &offset);
    if (first->line == 0 && !symbol)
        first->function = NULL;
    else if (last == first && !first->function)
        first->function = symbol;
}

/* Finds the frames of all places that were asked for. */
void find_frames(void)
{
    for (size_t number = 0; number < binary_count; number++) {
        struct binary *binary = binaries[number];
        if (binary->site_count == 0)
            continue;
        sort_sites(binary);
        if (binary->bytes && has_addr2line)
            ask(binary);
        if (!binary->bytes || !has_addr2line)
            continue;
        find_lines(binary);
        for (size_t site = 0; site < binary->site_count; site++) {
            mend(binary, &binary->sites[site]);
            mend_by_entries(binary, &binary->sites[site]);
            for (size_t frame = 0; frame < binary->sites[site].frame_count; frame++)
                know_function(&binary->sites[site].frames[frame]);
        }
    }
}
