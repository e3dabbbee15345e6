/*
 * A lock that was told once more, since another one took its place in the recorder's table, and was taken by calls of
 * which nothing was told yet. Locks that these calls take first later are members all the same.
 *
 * Report:
 * traces 1 refused 0 events 8 classes 1 dependencies 0
 * clean
 *
 * Class: Entry::mu
 * Unsaid: go by the line
 */
#include <cstdint>
#include <map>
#include <mutex>
#include <vector>

struct Entry {
    std::mutex mu;
    int count = 0;
};

/* Where the recorder's table has a lock (library/log.c). */
static uint64_t place_of(const Entry &entry)
{
    return reinterpret_cast<uint64_t>(&entry.mu) * UINT64_C(0x9e3779b97f4a7c15) >> 48;
}

static __attribute__((noinline)) void fill(Entry *entry)
{
    entry->mu.lock();
    entry->count = 1;
    entry->mu.unlock();
}

static __attribute__((noinline)) void sweep(Entry *entry)
{
    entry->mu.lock();
    entry->count = 2;
    entry->mu.unlock();
}

int main()
{
    std::vector<Entry> all(200000);
    std::map<uint64_t, Entry *> places;
    for (Entry &entry : all) {
        auto met = places.emplace(place_of(entry), &entry);
        if (met.second)
            continue;
        std::vector<Entry *> swept = {met.first->second, &entry == &all.back() ? &entry - 1 : &all.back()};
        fill(swept[0]);
        fill(&entry);
        for (Entry *one : swept)
            sweep(one);
        return 0;
    }
    return 1;
}
