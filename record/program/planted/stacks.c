/*
 * Locks that are taken first on another stack than the thread's, behind whose end nothing can be read: on one that a
 * function changes to, and on that of a signal handler. The program goes on as it does alone.
 *
 * Report:
 * traces 1 refused 0 events 4 classes 1 dependencies 0
 * clean
 *
 * Class: entry::lock
 */
#define _GNU_SOURCE
#include <signal.h>
#include <sys/mman.h>

#include "planted.h"

#define STACK_BYTES 65536

struct entry {
    long count;
    pthread_mutex_t lock;
};

static struct entry *wanted;

static void take(void *entry)
{
    struct entry *own = entry;
    must(pthread_mutex_lock(&own->lock) == 0);
    own->count++;
    must(pthread_mutex_unlock(&own->lock) == 0);
}

#ifdef __x86_64__
/* Calls a function on another stack. Whoever goes over the calls finds the way back to the first one. */
void call_on(void (*function)(void *), void *argument, void *stack_end);
__asm__(".text\n"
        "call_on:\n"
        ".cfi_startproc\n"
        "push %rbp\n"
        ".cfi_def_cfa_offset 16\n"
        ".cfi_offset %rbp, -16\n"
        "mov %rsp, %rbp\n"
        ".cfi_def_cfa_register %rbp\n"
        "mov %rdx, %rsp\n"
        "mov %rdi, %rax\n"
        "mov %rsi, %rdi\n"
        "call *%rax\n"
        "mov %rbp, %rsp\n"
        "pop %rbp\n"
        ".cfi_def_cfa %rsp, 8\n"
        "ret\n"
        ".cfi_endproc\n");
#else
static void call_on(void (*function)(void *), void *argument, void *stack_end)
{
    (void)stack_end;
    function(argument);
}
#endif

/* Gives a stack with nothing behind its end. */
static char *make_stack(void)
{
    char *stack = mmap(NULL, 2 * STACK_BYTES, PROT_READ | PROT_WRITE, MAP_PRIVATE | MAP_ANONYMOUS, -1, 0);
    must(stack != MAP_FAILED);
    must(mprotect(stack + STACK_BYTES, STACK_BYTES, PROT_NONE) == 0);
    return stack;
}

static struct entry *make_entry(void)
{
    struct entry *entry = calloc(1, sizeof *entry);
    must(entry != NULL);
    entry->lock = (pthread_mutex_t)PTHREAD_MUTEX_INITIALIZER;
    return entry;
}

static void handle(int number)
{
    (void)number;
    take(wanted);
}

int main(void)
{
    stack_t other = {.ss_sp = make_stack(), .ss_size = STACK_BYTES};
    struct sigaction action = {.sa_handler = handle, .sa_flags = SA_ONSTACK};
    must(sigaltstack(&other, NULL) == 0);
    must(sigaction(SIGUSR1, &action, NULL) == 0);
    wanted = make_entry();
    must(raise(SIGUSR1) == 0);
    call_on(take, make_entry(), make_stack() + STACK_BYTES);
    return 0;
}
