/* Mistakes with locks that aren't ones of order: each is said once, with how often it was seen. */
#include <inttypes.h>
#include <stdlib.h>

#include "merger.h"

/* More kinds of mistakes than these aren't told one by one. */
#define MOST_SAID 100

struct misused {
    enum misuse how;
    const struct class *class;
    const struct class *other; /* that of another lock, or NULL */
    uint32_t place;
    uint64_t count;
};

static struct misused *all;
static size_t count, room;
static uint64_t more;

void note_misuse(enum misuse how, const struct class *class, const struct class *other, uint32_t place)
{
    for (size_t number = 0; number < count; number++)
        if (all[number].how == how && all[number].class == class && all[number].other == other &&
            all[number].place == place) {
            all[number].count++;
            return;
        }
    if (count == MOST_SAID) {
        more++;
        return;
    }
    all = grown(all, count, &room, sizeof *all);
    all[count++] = (struct misused){how, class, other, place, 1};
}

static void say_one(const struct misused *misused)
{
    char place[1024];
    const char *class = misused->class ? misused->class->name : "a lock that nobody was seen to take";
    const char *other = misused->other ? misused->other->name : "";
    name_place(place, sizeof place, misused->place);
    switch (misused->how) {
    case MISUSE_OTHER:
        say("%" PRIu64 " times %s was given back by another thread than its holder, %s", misused->count,
            class, place);
        break;
    case MISUSE_UNTOLD:
        say("%" PRIu64 " times %s was given back by another thread than its holder, which took it %s",
            misused->count, class, place);
        break;
    case MISUSE_FREE:
        say("%" PRIu64 " times %s was given back while nobody held it, %s", misused->count, class, place);
        break;
    case MISUSE_DESTROYED:
        say("%" PRIu64 " times %s was destroyed while it was held, %s", misused->count, class, place);
        break;
    case MISUSE_ENDED:
        say("%" PRIu64 " times a thread ended while it held %s, taken %s", misused->count, class, place);
        break;
    case MISUSE_CONDITION:
        say("%" PRIu64 " times a condition of %s was waited for while %s was held, %s", misused->count, class,
            other, place);
        break;
    }
}

void say_misuse(void)
{
    for (size_t number = 0; number < count; number++)
        say_one(&all[number]);
    if (more)
        say("%" PRIu64 " times locks were misused in still other places", more);
}
