/* Where the debug information of a file stands: in itself, or in another file that it names. */
#define _GNU_SOURCE
#include <string.h>
#include <unistd.h>

#include "merger.h"

#define DEBUG_DIRECTORY "/usr/lib/debug"

enum { NOTE_HEAD = 12, NOTE_GNU = 4 };

static const struct binary *there(const char *path)
{
    return access(path, R_OK) == 0 ? binary_of(path) : NULL;
}

/* The file that is named by the checksum of its build. */
static const struct binary *by_build(const struct binary *binary)
{
    struct bytes note = section_of(binary, ".note.gnu.build-id");
    char path[512] = DEBUG_DIRECTORY "/.build-id/";
    if (!note.at || note.end - note.at <= NOTE_HEAD + NOTE_GNU + 1 || note.end - note.at > 64)
        return NULL;
    size_t length = strlen(path);
    for (const unsigned char *byte = note.at + NOTE_HEAD + NOTE_GNU; byte < note.end; byte++)
        length += (size_t)snprintf(path + length, sizeof path - length, "%02x%s", *byte,
                                   byte == note.at + NOTE_HEAD + NOTE_GNU ? "/" : "");
    snprintf(path + length, sizeof path - length, ".debug");
    return there(path);
}

/* The file whose name the binary has, in the places where debuggers look for it. */
static const struct binary *by_link(const struct binary *binary)
{
    static const char *const forms[] = {"%.*s%s", "%.*s.debug/%s", DEBUG_DIRECTORY "%.*s%s"};
    struct bytes link = section_of(binary, ".gnu_debuglink");
    const struct binary *found = NULL;
    char path[8192];
    if (!link.at || !memchr(link.at, 0, (size_t)(link.end - link.at)))
        return NULL;
    int directory = (int)(base_of(binary->path) - binary->path);
    for (size_t form = 0; !found && form < sizeof forms / sizeof *forms; form++) {
        snprintf(path, sizeof path, forms[form], directory, binary->path, (const char *)link.at);
        found = there(path);
    }
    return found;
}

/* Gives the file that has the debug information of a binary: itself, where there is no other. */
const struct binary *debug_file_of(const struct binary *binary)
{
    const struct binary *other = NULL;
    if (!section_of(binary, ".debug_line").at)
        other = by_build(binary);
    if (!other && !section_of(binary, ".debug_line").at)
        other = by_link(binary);
    return other ? other : binary;
}
