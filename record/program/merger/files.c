/* Reads the files that the library left. Any of them may be cut off or damaged at any place. */
#define _GNU_SOURCE
#include <dirent.h>
#include <errno.h>
#include <fcntl.h>
#include <signal.h>
#include <stdlib.h>
#include <string.h>
#include <sys/mman.h>
#include <sys/stat.h>
#include <unistd.h>

#include "merger.h"

/* Gives where the last bytes that were written end: most of the file is a hole. */
static uint64_t end_of_data(int file)
{
    off_t end = 0, data;
    while ((data = lseek(file, end, SEEK_DATA)) >= 0) {
        end = lseek(file, data, SEEK_HOLE);
        if (end <= data)
            break;
    }
    return end > 0 ? (uint64_t)end : 0;
}

/* Gives how much of the file there is to read, by what the process says and by what there is. */
static uint64_t length_of(int file)
{
    struct stat status;
    uint64_t chunks = 0;
    ssize_t got = pread(file, &chunks, sizeof chunks, offsetof(struct process, chunks));
    if (got != sizeof chunks || fstat(file, &status) != 0 || !S_ISREG(status.st_mode))
        return 0;
    uint64_t length = (uint64_t)status.st_size;
    uint64_t written = (end_of_data(file) / CHUNK_BYTES + 1) * CHUNK_BYTES;
    if (length > written)
        length = written;
    if (chunks < length / CHUNK_BYTES)
        length = (chunks + 1) * CHUNK_BYTES;
    return length;
}

static bool map_file(int directory, const char *name, struct recording *recording)
{
    int file = openat(directory, name, O_RDONLY | O_CLOEXEC | O_NOFOLLOW);
    if (file < 0)
        return false;
    recording->length = (size_t)length_of(file);
    void *bytes = MAP_FAILED;
    if (recording->length >= PROCESS_BYTES)
        bytes = mmap(NULL, recording->length, PROT_READ, MAP_SHARED, file, 0);
    close(file);
    recording->bytes = bytes;
    recording->process = bytes;
    return bytes != MAP_FAILED && recording->process->magic == PROCESS_MAGIC;
}

static int by_start(const void *left, const void *right)
{
    const struct process *a = ((const struct recording *)left)->process;
    const struct process *b = ((const struct recording *)right)->process;
    if (a->started != b->started)
        return a->started < b->started ? -1 : 1;
    return a->pid < b->pid ? -1 : a->pid > b->pid;
}

/* Gives the recordings in the order in which their processes began. */
size_t read_recordings(const char *directory, struct recording **recordings)
{
    size_t count = 0, room = 0;
    DIR *entries = opendir(directory);
    struct dirent *entry;
    *recordings = NULL;
    while (entries && (entry = readdir(entries))) {
        *recordings = grown(*recordings, count, &room, sizeof **recordings);
        memset(&(*recordings)[count], 0, sizeof **recordings);
        if (map_file(dirfd(entries), entry->d_name, &(*recordings)[count]))
            count++;
    }
    if (entries)
        closedir(entries);
    if (count)
        qsort(*recordings, count, sizeof **recordings, by_start);
    return count;
}

/* Answers whether a process has not ended. One that went on to another program has a later recording. */
bool still_runs(const struct recording *all, size_t count, size_t which)
{
    uint64_t pid = all[which].process->pid;
    for (size_t later = which + 1; later < count; later++)
        if (all[later].process->pid == pid)
            return false;
    return kill((pid_t)pid, 0) == 0 || errno == EPERM;
}

const struct unit *unit_at(const struct recording *recording, uint32_t unit)
{
    return (const struct unit *)recording->bytes + unit;
}

static void place_record(struct recording *recording, uint64_t head, struct place place)
{
    uint64_t number = HEAD_NUMBER(head);
    if (place.task == 0 || number >= recording->place_count || recording->places[number].unit) {
        totals.damaged++;
        return;
    }
    recording->places[number] = place;
    if (HEAD_OPERATION(head) == RECORD_REFUSED)
        note_refused(number);
}

/* Keeps a record, with the others in the order in which they stand in the file. */
static void add_record(struct recording *recording, struct place place)
{
    recording->places =
        grown(recording->places, recording->place_count, &recording->place_room, sizeof place);
    recording->places[recording->place_count++] = place;
}

/* Gives the number of a task, or 0 if it is damaged: a recording has no more tasks than units. */
static uint32_t task_numbered(const struct recording *recording, uint64_t number)
{
    return number <= recording->length / sizeof(struct unit) ? (uint32_t)number : 0;
}

static void place_chunk(struct recording *recording, size_t at, bool only_long)
{
    const struct chunk *chunk = (const struct chunk *)(recording->bytes + at);
    uint64_t used = chunk->used < UNITS_OF_CHUNK ? chunk->used : UNITS_OF_CHUNK;
    uint32_t task = 0;
    uint32_t base = (uint32_t)(at / sizeof(struct unit)) + 1;
    for (uint64_t unit = 0; unit < used; unit++) {
        uint64_t head = __atomic_load_n(&chunk->units[unit].head, __ATOMIC_ACQUIRE);
        unsigned following = HEAD_FOLLOWING(head);
        struct place place = {base + (uint32_t)unit, task};
        if (HEAD_OPERATION(head) == RECORD_TASK)
            task = task_numbered(recording, chunk->units[unit].value);
        else if (only_long && following && unit + following < used)
            add_record(recording, place);
        else if (!only_long && head && unit + following < used)
            place_record(recording, head, place);
        unit += following;
    }
}

/* Puts the records of all threads in the order of their numbers, but for releases that were refused. Each record
   drew one number, so there are no more numbers than units. */
void place_records(struct recording *recording)
{
    recording->place_count = 0;
    for (size_t at = CHUNK_BYTES; at + CHUNK_BYTES <= recording->length; at += CHUNK_BYTES)
        recording->place_count += UNITS_OF_CHUNK;
    recording->places = must(calloc(recording->place_count + 1, sizeof *recording->places));
    for (size_t at = CHUNK_BYTES; at + CHUNK_BYTES <= recording->length; at += CHUNK_BYTES)
        place_chunk(recording, at, false);
    leave_out_refused(recording);
}

static const struct recording *sorted;

static int by_number(const void *left, const void *right)
{
    uint64_t a = HEAD_NUMBER(unit_at(sorted, ((const struct place *)left)->unit)->head);
    uint64_t b = HEAD_NUMBER(unit_at(sorted, ((const struct place *)right)->unit)->head);
    return a < b ? -1 : a > b;
}

/* Does so with those records alone that are more than one unit. They are few, and the others say nothing
   of the program's code. */
void place_long_records(struct recording *recording)
{
    recording->places = NULL;
    recording->place_count = recording->place_room = 0;
    for (size_t at = CHUNK_BYTES; at + CHUNK_BYTES <= recording->length; at += CHUNK_BYTES)
        place_chunk(recording, at, true);
    sorted = recording;
    if (recording->place_count)
        qsort(recording->places, recording->place_count, sizeof *recording->places, by_number);
}
