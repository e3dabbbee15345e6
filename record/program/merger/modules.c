/* The modules of a process: which file stands where. */
#define _GNU_SOURCE
#include <stdlib.h>
#include <string.h>

#include "merger.h"

/* A module that is loaded where another one was takes its place from here on. */
void add_module(struct modules *modules, const struct unit *first, unsigned following)
{
    if (following < 2)
        return;
    struct module module = {.start = first->value, .last = first[1].head, .load = first[1].value};
    const char *path = (const char *)&first[2];
    module.path = must(strndup(path, (following - 1) * sizeof(struct unit)));
    module.binary = binary_of(module.path);
    module.name = module.binary->name;
    if (modules->process && strcmp(module.path, modules->process->program) == 0)
        module.name = modules->process->name;
    modules->all = grown(modules->all, modules->count, &modules->room, sizeof module);
    modules->all[modules->count++] = module;
}

const struct module *module_at(const struct modules *modules, uint64_t address)
{
    for (size_t number = modules->count; number > 0; number--) {
        const struct module *module = &modules->all[number - 1];
        if (address >= module->start && address <= module->last)
            return module;
    }
    return NULL;
}
