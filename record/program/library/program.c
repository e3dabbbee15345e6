/* What is known of the program that runs: its file, how it was started, and with which arguments. */
#define _GNU_SOURCE
#include <fcntl.h>
#include <stdio.h>
#include <string.h>
#include <sys/auxv.h>
#include <sys/stat.h>
#include <sys/syscall.h>
#include <unistd.h>

#include "recorder.h"

static char program[2048];
static char name[256];
static char arguments[MOST_ARGUMENT_BYTES];
static size_t argument_bytes;

const char *program_path(void)
{
    return program;
}

const char *program_name(void)
{
    return name;
}

const char *program_arguments(size_t *length)
{
    *length = argument_bytes;
    return arguments;
}

/* Gives what the program was started as, maybe by a link, where that leads to it. Of a script it leads to another
   file, and of a descriptor it is no name. */
static const char *started_as(void)
{
    const char *path = (const char *)getauxval(AT_EXECFN);
    struct stat started, own_file;
    if (!path || strncmp(path, "/proc/", 6) == 0 || strncmp(path, "/dev/", 5) == 0 ||
        stat(path, &started) != 0 || stat("/proc/self/exe", &own_file) != 0)
        return program;
    return started.st_dev == own_file.st_dev && started.st_ino == own_file.st_ino ? path : program;
}

/* The calls of libc to open, read and close are places where a thread can be cancelled. */
static void find_arguments(void)
{
    int file = (int)syscall(SYS_openat, AT_FDCWD, "/proc/self/cmdline", O_RDONLY | O_CLOEXEC);
    if (file < 0)
        return;
    long length;
    while (argument_bytes < sizeof arguments && (length = syscall(SYS_read, file, arguments + argument_bytes,
                                                                  sizeof arguments - argument_bytes)) > 0)
        argument_bytes += (size_t)length;
    syscall(SYS_close, file);
}

void find_program(void)
{
    ssize_t length = readlink("/proc/self/exe", program, sizeof program - 1);
    program[length > 0 ? length : 0] = 0;
    const char *path = started_as();
    const char *base = strrchr(path, '/');
    snprintf(name, sizeof name, "%s", base ? base + 1 : path);
    find_arguments();
}
