/* Names of functions, and those through which others make and take their locks. */
#include <ctype.h>
#include <stdlib.h>
#include <string.h>

#include "merger.h"

char **through;
size_t through_count;
bool *through_met;

/* Beginnings of names. What stands in these is never the program's own. */
static const char *const known_starts[] = {"__gthread_", "__gthrw_", "std::", "__gnu_cxx::"};

static const char *const inits[] = {"pthread_mutex_init", "pthread_spin_init", "pthread_rwlock_init",
                                    "mtx_init"};

/* A name a line would fill a page. */
/* clang-format off */
static const char *const known[] = {
    /* glib */
    "g_mutex_init", "g_mutex_lock", "g_mutex_trylock", "g_mutex_impl_new", "g_mutex_get_impl",
    "g_rec_mutex_init", "g_rec_mutex_lock", "g_rec_mutex_trylock", "g_rec_mutex_impl_new",
    "g_rec_mutex_get_impl", "g_rw_lock_init", "g_rw_lock_writer_lock", "g_rw_lock_writer_trylock",
    "g_rw_lock_reader_lock", "g_rw_lock_reader_trylock", "g_rw_lock_impl_new", "g_rw_lock_get_impl", "g_cond_wait", "g_cond_wait_until",
    /* apr */
    "apr_thread_mutex_create", "apr_thread_mutex_lock", "apr_thread_mutex_trylock",
    "apr_thread_mutex_timedlock", "apr_thread_rwlock_create", "apr_thread_rwlock_wrlock",
    "apr_thread_rwlock_trywrlock", "apr_thread_rwlock_rdlock",
    "apr_thread_rwlock_tryrdlock", "apr_thread_cond_wait", "apr_thread_cond_timedwait",
    "apr_proc_mutex_create", "apr_proc_mutex_lock", "apr_global_mutex_create",
    "apr_global_mutex_lock",
    /* libuv */
    "uv_mutex_init", "uv_mutex_init_recursive", "uv_mutex_lock", "uv_mutex_trylock",
    "uv_rwlock_init", "uv_rwlock_wrlock", "uv_rwlock_trywrlock", "uv_rwlock_rdlock",
    "uv_rwlock_tryrdlock", "uv_cond_wait",
    "uv_cond_timedwait",
    /* OpenSSL */
    "CRYPTO_THREAD_lock_new", "CRYPTO_THREAD_write_lock", "CRYPTO_THREAD_read_lock",
    /* boost */
    "boost::mutex::mutex", "boost::mutex::lock", "boost::mutex::try_lock",
    "boost::recursive_mutex::recursive_mutex", "boost::recursive_mutex::lock",
    "boost::recursive_mutex::try_lock", "boost::timed_mutex::timed_mutex",
    "boost::timed_mutex::lock", "boost::unique_lock::lock", "boost::unique_lock::unique_lock",
    "boost::lock_guard::lock_guard", "boost::posix::pthread_mutex_init",
    "boost::posix::pthread_mutex_lock", "boost::posix::pthread_mutex_trylock",
};
/* clang-format on */

/* Gives where a bracket that opens at `at` closes, or the end of the text. */
static const char *behind_bracket(const char *at, char open, char close)
{
    unsigned depth = 0;
    for (; *at; at++) {
        depth += *at == open;
        depth -= *at == close;
        if (depth == 0)
            return at + 1;
    }
    return at;
}

static bool is_word(char byte)
{
    return isalnum((unsigned char)byte) || byte == '_';
}

static bool is_operator(const char *start, const char *at)
{
    return strncmp(at, "operator", 8) == 0 && !is_word(at[8]) && (at == start || !is_word(at[-1]));
}

/* Gives what stands behind a round bracket of a name, or NULL where the name ends before it: behind the
   parameters of a function that has functions of its own it goes on. */
static const char *behind_parameters(const char *at, bool in_braces)
{
    static const char nameless[] = "(anonymous namespace)::";
    if (strncmp(at, nameless, strlen(nameless)) == 0)
        return at + strlen(nameless);
    const char *behind = behind_bracket(at, '(', ')');
    return in_braces || strncmp(behind, "::", 2) == 0 ? behind : NULL;
}

/* Gives a function's name as the source has it, without what the compiler adds: parameters, results and
   arguments of templates, and the numbers of its copies. */
void short_function(char *text, size_t size, const char *function)
{
    size_t length = 0;
    bool in_braces = false;
    for (const char *at = function; at && *at && length + 10 < size;) {
        if (is_operator(function, at)) {
            length += (size_t)snprintf(text + length, size - length, "operator");
            break;
        }
        if (*at == '(')
            at = behind_parameters(at, in_braces);
        else if (*at == '<')
            at = behind_bracket(at, '<', '>');
        else if (*at == '[')
            at = behind_bracket(at, '[', ']');
        else if (*at == '.' && length)
            break;
        else {
            if (*at == ' ' && !in_braces)
                length = 0;
            else
                text[length++] = *at;
            in_braces = *at == '{' || (in_braces && *at != '}');
            at++;
        }
    }
    text[length] = 0;
}

static struct frame *lines;
static size_t line_count, line_room;
static bool lines_are_sorted;

static int by_line(const void *left, const void *right)
{
    const struct frame *a = left, *b = right;
    int order = strcmp(a->file, b->file);
    return order ? order : a->line < b->line ? -1 : a->line > b->line;
}

static int by_line_and_function(const void *left, const void *right)
{
    int order = by_line(left, right);
    return order ? order
                 : strcmp(((const struct frame *)left)->function, ((const struct frame *)right)->function);
}

/* Keeps which function a source line is in. */
void know_function(const struct frame *frame)
{
    if (!frame->line || !frame->function)
        return;
    lines = grown(lines, line_count, &line_room, sizeof *lines);
    lines[line_count++] = *frame;
    lines_are_sorted = false;
}

/* Gives the function that a source line is in: the same for all places in it, also for one whose own
   function isn't known. */
const char *function_of(const struct frame *frame)
{
    if (!lines_are_sorted && line_count)
        qsort(lines, line_count, sizeof *lines, by_line_and_function);
    lines_are_sorted = true;
    size_t low = 0, high = line_count;
    while (frame->line && low < high) {
        size_t middle = low + (high - low) / 2;
        if (by_line(&lines[middle], frame) < 0)
            low = middle + 1;
        else
            high = middle;
    }
    bool is_known = frame->line && low < line_count && by_line(&lines[low], frame) == 0;
    return is_known ? lines[low].function : frame->function;
}

static bool is_in(const char *const *names, size_t count, const char *name)
{
    for (size_t number = 0; number < count; number++)
        if (strcmp(name, names[number]) == 0)
            return true;
    return false;
}

/* Answers whether the caller's line counts and not that of this place. */
bool is_maker(const struct frame *frame)
{
    char name[256];
    short_function(name, sizeof name, frame->function ? frame->function : "");
    const char *include = frame->file ? strstr(frame->file, "/include/") : NULL;
    if (include && strstr(include, "/c++/"))
        return true;
    for (size_t number = 0; number < sizeof known_starts / sizeof *known_starts; number++)
        if (strncmp(name, known_starts[number], strlen(known_starts[number])) == 0)
            return true;
    return is_in(known, sizeof known / sizeof *known, name);
}

/* Answers whether the user said that the program makes its locks through a function, by either of its names,
   and notes in `is_met`, if there is one, that it was met. */
bool is_through(const char *function, const char *short_name, bool *is_met)
{
    bool is_any = false;
    for (size_t number = 0; number < through_count; number++) {
        if (strcmp(through[number], short_name) != 0 && (!function || strcmp(through[number], function) != 0))
            continue;
        is_any = true;
        if (is_met)
            is_met[number] = true;
    }
    return is_any;
}

/* Gives how a symbol of C++ has a name: each part of it behind its length. */
static void coded_name(char *text, size_t size, const char *name)
{
    char plain[256];
    size_t length = 0;
    short_function(plain, sizeof plain, name);
    for (const char *at = plain; *at && length < size;) {
        const char *end = strstr(at, "::");
        int part = (int)(end ? (size_t)(end - at) : strlen(at));
        length += (size_t)snprintf(text + length, size - length, "%d%.*s", part, part, at);
        at += part + (end ? 2 : 0);
    }
}

/* Answers whether a call of the function with this symbol may make a lock. */
bool may_be_maker(const char *symbol)
{
    char coded[512];
    if (is_in(inits, sizeof inits / sizeof *inits, symbol) ||
        is_in(known, sizeof known / sizeof *known, symbol))
        return true;
    for (size_t number = 0; number < through_count; number++) {
        coded[0] = 0;
        coded_name(coded, sizeof coded, through[number]);
        if (strcmp(symbol, through[number]) == 0 || (symbol[0] == '_' && strstr(symbol, coded)))
            return true;
    }
    return false;
}

static char **through_types;
static size_t through_type_count, through_type_room;

/* Notes that a function which the user named takes records of this type, which are locks to the program then. */
void add_through_type(const char *type)
{
    if (is_through_type(type))
        return;
    through_types = grown(through_types, through_type_count, &through_type_room, sizeof *through_types);
    through_types[through_type_count++] = must(strdup(type));
}

/* Answers whether a type is as good as a lock to the program: what a function takes that the user named, or the type
   of such a function. */
bool is_through_type(const char *type)
{
    size_t length = strlen(type);
    for (size_t number = 0; length && number < through_count; number++)
        if (strncmp(through[number], type, length) == 0 && strncmp(through[number] + length, "::", 2) == 0)
            return true;
    return length && is_in((const char *const *)through_types, through_type_count, type);
}
