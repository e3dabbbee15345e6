/*
 * A lock of an object that no variable leads to: the pointer to it stands in a tree on the heap. No call initialises
 * it, so its class is the line that took it first. A lock in the object that has the tree is a member.
 *
 * Flags: -O0
 * Flags: -O2
 *
 * Report:
 * traces 1 refused 0 events 8 classes 2 dependencies 1
 * clean
 *
 * Class: Store::lock
 * Class: Store::sweep:reached.cc:38
 *
 * Says: 1 of 2 classes go by the line that took a lock first, since no call initialised it: locks of a kind may be several classes, and orders are missed
 */
#include <map>
#include <memory>
#include <mutex>
#include <string>

struct Entry {
    std::mutex lock;
    std::string value;
};

struct Store {
    std::mutex lock;
    std::map<int, std::unique_ptr<Entry>> all;

    void sweep();
};

void Store::sweep()
{
    std::lock_guard<std::mutex> outer(lock);
    for (auto &named : all)
        std::lock_guard<std::mutex>(named.second->lock), named.second->value += "x";
}

int main()
{
    auto store = std::make_unique<Store>();
    for (int number = 0; number < 3; number++)
        store->all[number] = std::make_unique<Entry>();
    store->sweep();
    return 0;
}
