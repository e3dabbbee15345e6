/* Which calls led to a place in the program, and the modules in which they are. Nothing here takes a
   lock or memory: the loader's table of modules is read without one. */
#define _GNU_SOURCE
#include <dlfcn.h>
#include <link.h>
#include <string.h>
#include <unwind.h>

#include "recorder.h"

/* The modules that were told; one whose place here holds another is told again. */
#define TOLD_PLACES 1024
struct told {
    uint64_t start;
    uint64_t end_and_map;
};
static struct told told[TOLD_PLACES];

static struct dl_find_object own;

void find_own_place(void)
{
    memset(told, 0, sizeof told);
    forget_stacks();
    if (own.dlfo_map_start)
        return;
    find_program();
    _dl_find_object((void *)find_own_place, &own);
}

struct walk {
    uint64_t *places;
    unsigned count;
    unsigned most;
};

static _Unwind_Reason_Code step(struct _Unwind_Context *context, void *argument)
{
    struct walk *walk = argument;
    uint64_t place = _Unwind_GetIP(context);
    if (place >= (uint64_t)own.dlfo_map_start && place < (uint64_t)own.dlfo_map_end)
        return _URC_NO_REASON;
    if (place == 0)
        return _URC_NORMAL_STOP;
    walk->places[walk->count++] = place;
    return walk->count < walk->most ? _URC_NO_REASON : _URC_NORMAL_STOP;
}

/* Gives the return addresses of the calls that led into the library, the innermost first. */
unsigned callers(uint64_t *places, unsigned most)
{
    struct walk walk = {places, 0, most};
    _Unwind_Backtrace(step, &walk);
    return walk.count;
}

bool is_in_module(uint64_t address)
{
    struct dl_find_object object;
    return _dl_find_object((void *)address, &object) == 0;
}

static struct told *told_place_of(const struct loaded *module)
{
    return &told[module->start * UINT64_C(0x9e3779b97f4a7c15) >> 54];
}

static uint64_t end_and_map_of(const struct loaded *module)
{
    return module->last ^ (uint64_t)module->map << 16;
}

/* Gives the module of an address where it has one that wasn't told. */
bool must_tell_module(uint64_t address, struct loaded *module)
{
    struct dl_find_object object;
    if (_dl_find_object((void *)address, &object) != 0)
        return false;
    const struct link_map *map = object.dlfo_link_map;
    *module = (struct loaded){(uint64_t)object.dlfo_map_start, (uint64_t)object.dlfo_map_end - 1, map->l_addr,
                              map, map->l_name && map->l_name[0] ? map->l_name : program_path()};
    const struct told *place = told_place_of(module);
    return __atomic_load_n(&place->start, __ATOMIC_ACQUIRE) != module->start ||
           __atomic_load_n(&place->end_and_map, __ATOMIC_ACQUIRE) != end_and_map_of(module);
}

/* Notes that a module was told. That is noted behind its record: a thread that sees the note may go on, and its next
   record has a later number. Others tell the module again. */
void told_module(const struct loaded *module)
{
    struct told *place = told_place_of(module);
    __atomic_store_n(&place->start, module->start, __ATOMIC_RELEASE);
    __atomic_store_n(&place->end_and_map, end_and_map_of(module), __ATOMIC_RELEASE);
}
