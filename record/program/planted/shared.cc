/*
 * C++'s shared mutexes are read under a mutex that is taken under them; also by a call that would give up
 * later, and by one that tries, which adds no dependency.
 *
 * Flags: -O0
 * Flags: -O2
 *
 * Report:
 * traces 1 refused 0 events 36 classes 7 dependencies 8
 * inversion shared:mutex -> shared:plain!read at shared-1:4 via shared:plain!read -> shared:mutex
 * inversion shared:mutex -> shared:timed!read at shared-1:18 via shared:timed!read -> shared:mutex
 * inversion shared:plain!read -> shared:mutex at shared-1:13 via shared:mutex -> shared:plain!read
 * inversion shared:timed!read -> shared:mutex at shared-1:25 via shared:mutex -> shared:timed!read
 * violations 4
 */
#include <chrono>
#include <cstdlib>
#include <mutex>
#include <shared_mutex>
#include <thread>

std::mutex mutex;
std::shared_mutex plain;
std::shared_timed_mutex timed, tried;

static void must(bool holds)
{
    if (!holds)
        std::exit(99);
}

template <class Shared>
static void write_over(Shared &shared)
{
    std::unique_lock<Shared> writer(shared);
    std::lock_guard<std::mutex> inner(mutex);
}

int main()
{
    std::thread([] {
        std::lock_guard<std::mutex> outer(mutex);
        std::shared_lock<std::shared_mutex> reader(plain);
        std::shared_lock<std::shared_mutex> again(plain, std::try_to_lock);
        must(again.owns_lock());
    }).join();
    write_over(plain);
    std::thread([] {
        std::lock_guard<std::mutex> outer(mutex);
        must(timed.try_lock_shared_for(std::chrono::hours(1)));
        timed.unlock_shared();
    }).join();
    write_over(timed);
    mutex.lock();
    must(tried.try_lock_shared());
    tried.unlock_shared();
    mutex.unlock();
    write_over(tried);
}
