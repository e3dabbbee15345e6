/* The types of debug information: their names, their sizes, and what stands in them at an offset. */
#include <stdlib.h>
#include <string.h>

#include "dwarf.h"

#define MOST_DEPTH 24
#define NAME_BYTES 1024

static bool has_name_of_its_own(const struct entry *entry)
{
    return entry->tag == TAG_NAMESPACE || entry->tag == TAG_STRUCTURE || entry->tag == TAG_CLASS ||
           entry->tag == TAG_UNION;
}

/* Writes the names of the entries in which another one stands, and its own. */
static void write_path(const struct debug *debug, const struct entry *wanted, char *text, size_t size)
{
    struct entry inside, child, found;
    size_t length = 0;
    if (!read_entry(debug, wanted->unit, wanted->unit->first, &inside))
        return;
    for (unsigned depth = 0; depth < MOST_DEPTH; depth++) {
        found = (struct entry){.at = 0};
        child = (struct entry){.at = 0};
        while (next_child(debug, &inside, &child) && child.at <= wanted->at)
            found = child;
        if (!found.at)
            return;
        if (has_name_of_its_own(&found)) {
            const char *name = found.name ? found.name : "(anonymous namespace)";
            bool is_nameless = !found.name && found.tag != TAG_NAMESPACE;
            if (!is_nameless && length + strlen(name) + 3 < size)
                length += (size_t)snprintf(text + length, size - length, "%s%s", length ? "::" : "", name);
        }
        if (found.at == wanted->at)
            return;
        inside = found;
    }
}

static void *slot_of(void *all, size_t room, const void *element)
{
    struct type_name *names = all;
    const struct type_name *wanted = element;
    size_t slot = wanted->at * UINT64_C(0x9e3779b97f4a7c15) >> 20;
    for (slot %= room; names[slot].text && names[slot].at != wanted->at; slot = (slot + 1) % room)
        continue;
    return &names[slot];
}

/* Gives the name of a type with those of what it stands in; one that has no name has an empty one. */
const char *qualified_name(struct debug *debug, const struct entry *type)
{
    char text[NAME_BYTES] = "";
    debug->names =
        grown_table(debug->names, debug->name_count, &debug->name_room, sizeof *debug->names, slot_of);
    struct type_name *slot = slot_of(debug->names, debug->name_room, &(struct type_name){.at = type->at});
    if (!slot->text) {
        struct entry declared;
        bool is_elsewhere = type->origin && entry_at(debug, type->origin, &declared);
        if (type->name || is_elsewhere)
            write_path(debug, is_elsewhere ? &declared : type, text, sizeof text);
        *slot = (struct type_name){type->at, must(strdup(text))};
        debug->name_count++;
    }
    return slot->text;
}

static bool is_qualifier(enum tag tag)
{
    return tag == TAG_CONST || tag == TAG_VOLATILE || tag == TAG_RESTRICT || tag == TAG_ATOMIC;
}

/* Gives a type without `const` and its like. */
bool type_at(const struct debug *debug, uint64_t at, struct entry *type)
{
    for (unsigned depth = 0; depth < MOST_DEPTH; depth++) {
        if (!entry_at(debug, at, type))
            return false;
        if (!is_qualifier(type->tag))
            return true;
        at = type->type;
    }
    return false;
}

/* Gives how many elements an array has. */
static uint64_t length_of(const struct debug *debug, const struct entry *array)
{
    struct entry range = {.at = 0};
    uint64_t count = 1;
    while (next_child(debug, array, &range))
        if (range.tag == TAG_RANGE)
            count *= range.has_count && range.count < UINT32_MAX ? range.count : 0;
    return count;
}

/* Gives the size of a type, or 0 where it isn't known. */
uint64_t size_of(const struct debug *debug, uint64_t at)
{
    struct entry type;
    uint64_t count = 1;
    for (unsigned depth = 0; depth < MOST_DEPTH && type_at(debug, at, &type); depth++) {
        if (type.tag == TAG_ARRAY)
            count *= length_of(debug, &type);
        else if (type.has_size)
            return type.size < UINT32_MAX && count < UINT32_MAX ? count * type.size : 0;
        else if (type.tag == TAG_POINTER || type.tag == TAG_REFERENCE || type.tag == TAG_RVALUE_REFERENCE)
            return count < UINT32_MAX ? count * sizeof(uint64_t) : 0;
        else if (type.tag != TAG_TYPEDEF)
            return 0;
        at = type.type;
    }
    return 0;
}

static bool is_lock_name(const char *name)
{
    static const char *const names[] = {"pthread_mutex_t", "pthread_rwlock_t", "pthread_spinlock_t", "mtx_t"};
    for (size_t number = 0; name && number < sizeof names / sizeof *names; number++)
        if (strcmp(name, names[number]) == 0)
            return true;
    return false;
}

static bool is_record(enum tag tag)
{
    return tag == TAG_STRUCTURE || tag == TAG_CLASS || tag == TAG_UNION;
}

bool is_of_library(const char *name)
{
    return strncmp(name, "std::", 5) == 0 || strncmp(name, "__gnu_cxx::", 11) == 0;
}

static bool find_at(struct debug *debug, uint64_t at, uint64_t offset, const char *given, unsigned depth,
                    struct member *member);

/* Names a lock by a record in which it is, and by the part of that in which it is, where it has no name by then or
   one that tells no more: that of a record which has nothing but the lock. */
static void name_part(const struct entry *record, const struct entry *part, const char *name, uint64_t size,
                      struct member *member)
{
    bool is_own = name[0] && !is_of_library(name);
    bool is_member = part->tag == TAG_MEMBER && part->name;
    if (is_member && is_own && member->type && member->is_alone)
        *member = (struct member){.name = NULL};
    if (!member->name && is_member && !is_of_library(name))
        member->name = part->name;
    if (member->type || !member->name || !is_own)
        return;
    member->type = name;
    member->is_alone = (record->size == size && part->offset == 0) || is_through_type(name);
}

/* Goes on in the member or the base of a record in which an offset is. Of a library's record that has no name that
   tells anything, and of one without a name, what stands around it has. */
static bool find_in_record(struct debug *debug, const struct entry *record, uint64_t offset,
                           const char *given, unsigned depth, struct member *member)
{
    struct entry part = {.at = 0};
    const char *name = qualified_name(debug, record);
    if (!name[0] && given)
        name = given;
    while (next_child(debug, record, &part)) {
        uint64_t size = size_of(debug, part.type);
        bool is_part = part.tag == TAG_MEMBER || part.tag == TAG_INHERITANCE;
        uint64_t start = part.has_offset ? part.offset : 0;
        if (!is_part || offset < start || offset - start >= size)
            continue;
        struct member inner = {.name = NULL};
        if (!find_at(debug, part.type, offset - start, NULL, depth + 1, &inner))
            continue;
        name_part(record, &part, name, size, &inner);
        *member = inner;
        return true;
    }
    return false;
}

static bool find_at(struct debug *debug, uint64_t at, uint64_t offset, const char *given, unsigned depth,
                    struct member *member)
{
    struct entry type;
    if (depth > MOST_DEPTH || !type_at(debug, at, &type))
        return false;
    if (type.tag == TAG_TYPEDEF && is_lock_name(type.name))
        return offset == 0;
    if (type.tag == TAG_TYPEDEF)
        return find_at(debug, type.type, offset, type.name, depth + 1, member);
    if (type.tag == TAG_ARRAY) {
        uint64_t size = size_of(debug, type.type);
        return size && find_at(debug, type.type, offset % size, NULL, depth + 1, member);
    }
    return is_record(type.tag) && find_in_record(debug, &type, offset, given, depth, member);
}

/* Finds the lock that stands at an offset in a type: the innermost record of the program that it is a member of. */
bool member_at(struct debug *debug, uint64_t at, uint64_t offset, struct member *member)
{
    *member = (struct member){.name = NULL};
    return find_at(debug, at, offset, NULL, 0, member) && member->type;
}
