/* Releases that were refused. The library notes a release before the call, since another thread may take the lock
   before that is back. If the call fails, nothing was given back, so no trace shows it. */
#include <stdlib.h>

#include "merger.h"

static uint64_t *refused; /* the numbers of the records that say so, in the recording that is read */
static size_t refused_count, refused_room;

void note_refused(uint64_t number)
{
    refused = grown(refused, refused_count, &refused_room, sizeof *refused);
    refused[refused_count++] = number;
}

static bool is_release(enum operation operation)
{
    return operation == RECORD_RELEASE || operation == RECORD_RELEASE_OTHER ||
           operation == RECORD_RELEASE_ANY || operation == RECORD_CONDITION;
}

/* Gives the number of the task's latest record of the lock before this one, which is the release that was refused,
   or the number itself if there is none. */
static uint64_t release_before(const struct recording *recording, uint64_t number)
{
    struct place own = recording->places[number];
    uint64_t lock = unit_at(recording, own.unit)->value;
    for (uint64_t at = number; at-- > 0;) {
        struct place place = recording->places[at];
        if (!place.unit || place.task != own.task || unit_at(recording, place.unit)->value != lock)
            continue;
        return is_release(HEAD_OPERATION(unit_at(recording, place.unit)->head)) ? at : number;
    }
    return number;
}

/* Leaves out each release that was refused, and the record that says so. */
void leave_out_refused(struct recording *recording)
{
    for (size_t at = 0; at < refused_count; at++) {
        uint64_t number = refused[at];
        if (!recording->places[number].unit)
            continue;
        recording->places[release_before(recording, number)].unit = 0;
        recording->places[number].unit = 0;
    }
    refused_count = 0;
}
