// Objects of C++ with a mutex each, of which a guard takes one and a scoped lock two.
#include <cstdio>
#include <cstdlib>
#include <memory>
#include <mutex>
#include <thread>
#include <vector>

constexpr int objects = 32, threads = 4;

struct Object {
    std::mutex lock;
    unsigned long sum = 0;
};

static unsigned long work(unsigned long number)
{
    for (int round = 0; round < 300; round++)
        number = number * 6364136223846793005u + 1442695040888963407u;
    return number;
}

static void change(std::vector<std::unique_ptr<Object>> &all, unsigned long seed, long rounds)
{
    for (long round = 0; round < rounds; round++) {
        seed = work(seed + 1);
        unsigned first = (seed >> 32) % objects, second = (first + 1) % objects;
        if (round % 8 == 0) {
            std::scoped_lock both(all[first]->lock, all[second]->lock);
            all[second]->sum += all[first]->sum;
        } else {
            std::lock_guard<std::mutex> guard(all[first]->lock);
            all[first]->sum += seed & 1;
        }
    }
}

int main(int count, char **words)
{
    std::vector<std::unique_ptr<Object>> all;
    std::vector<std::thread> running;
    long operations = count == 2 ? std::atol(words[1]) : 0;
    for (int object = 0; object < objects; object++)
        all.push_back(std::make_unique<Object>());
    for (int thread = 0; thread < threads; thread++)
        running.emplace_back(change, std::ref(all), thread, operations / threads);
    for (auto &thread : running)
        thread.join();
}
