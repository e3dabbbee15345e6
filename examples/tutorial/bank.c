/* A bank with a lock for its table and one for each account. One function takes them the wrong way round. */
#include <pthread.h>
#include <stdlib.h>

struct account {
    pthread_mutex_t lock;
    long balance;
};

static pthread_mutex_t table = PTHREAD_MUTEX_INITIALIZER;
static struct account *savings, *closing;

static struct account *account_new(void)
{
    struct account *account = calloc(1, sizeof *account);
    if (!account || pthread_mutex_init(&account->lock, NULL))
        abort();
    return account;
}

static void *audit(void *unused)
{
    pthread_mutex_lock(&table);
    pthread_mutex_lock(&savings->lock);
    savings->balance++;
    pthread_mutex_unlock(&savings->lock);
    pthread_mutex_unlock(&table);
    return unused;
}

static void *close_account(void *unused)
{
    pthread_mutex_lock(&closing->lock);
    pthread_mutex_lock(&table);
    closing->balance = 0;
    pthread_mutex_unlock(&table);
    pthread_mutex_unlock(&closing->lock);
    return unused;
}

static void run(void *(*work)(void *))
{
    pthread_t thread;
    if (pthread_create(&thread, NULL, work, NULL) || pthread_join(thread, NULL))
        abort();
}

int main(void)
{
    savings = account_new();
    closing = account_new();
    run(audit);
    run(close_account);
    return 0;
}
