/*
 * Locks of one class that are taken under one another. Of the accounts the one with the lower address is always first,
 * and of the cells they go round in a ring: what tells them apart stands in a comment.
 *
 * Flags: -O0
 * Flags: -O2
 *
 * Report:
 * traces 1 refused 0 events 36 classes 2 dependencies 2
 * recursion new_account:accounts.c at accounts-1:4
 * recursion new_cell:accounts.c at accounts-1:..
 * violations 2
 *
 * Has: # instances new_account:accounts.c 6 3 upwards
 * Has: # instances new_cell:accounts.c 3 3 cycle @1 @2 @3 @1
 */
#include "planted.h"

struct account {
    pthread_mutex_t lock;
};

static struct account accounts[3], cells[3];
static volatile int cell_count;

__attribute__((noinline)) static void new_account(struct account *account)
{
    must(pthread_mutex_init(&account->lock, NULL) == 0);
}

__attribute__((noinline)) static void new_cell(struct account *cell)
{
    must(pthread_mutex_init(&cell->lock, NULL) == 0);
    cell_count++;
}

static void move(struct account *from, struct account *to)
{
    take_both(from < to ? &from->lock : &to->lock, from < to ? &to->lock : &from->lock);
}

int main(void)
{
    for (int number = 0; number < 3; number++) {
        new_account(&accounts[number]);
        new_cell(&cells[number]);
    }
    for (int from = 0; from < 3; from++)
        for (int to = 0; to < 3; to++)
            if (from != to)
                move(&accounts[from], &accounts[to]);
    for (int number = 0; number < 3; number++)
        take_both(&cells[number].lock, &cells[(number + 1) % 3].lock);
    return 0;
}
