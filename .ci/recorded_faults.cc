// C++'s own ways of using threads, none with a fault. The first argument names one. .ci/recorded_faults records them.
#include <condition_variable>
#include <cstdlib>
#include <cstring>
#include <future>
#include <memory>
#include <mutex>
#include <semaphore>
#include <shared_mutex>
#include <thread>
#include <vector>

static std::mutex first, second;
static std::shared_mutex shelf;
static int number;

static void runs_this(int turns) {
    for (int i = 0; i < turns; i++) {
        std::lock_guard hold(first);
        number++;
    }
}

// A std::mutex is made and destroyed without a call, and the second one has the memory of the first.
static void heap_used_again() {
    std::thread([] {
        auto own = std::make_unique<std::mutex>();
        std::scoped_lock outer(first);
        std::lock_guard inner(*own);
    }).join();
    std::thread([] {
        auto own = std::make_unique<std::mutex>();
        std::lock_guard outer(*own);
        std::scoped_lock inner(first);
    }).join();
}

// Takes both in any order, by tries.
static void scoped() {
    std::vector<std::thread> all;
    for (int i = 0; i < 4; i++)
        all.emplace_back([i] {
            for (int k = 0; k < 200; k++)
                if (i % 2) {
                    std::scoped_lock both(first, second);
                    number++;
                } else {
                    std::scoped_lock both(second, first);
                    number++;
                }
        });
    for (auto &one : all) one.join();
}

static void modern() {
    std::counting_semaphore<8> units(2);
    std::condition_variable_any full;
    std::vector<std::jthread> all;
    int items = 0;
    for (int i = 0; i < 4; i++)
        all.emplace_back([&](std::stop_token stop) {
            for (int k = 0; k < 50; k++) {
                units.acquire();
                { std::shared_lock read(shelf); }
                units.release();
            }
            std::unique_lock hold(first);
            while (full.wait(hold, stop, [&] { return items > 0; })) items--;
        });
    for (int i = 0; i < 40; i++) {
        { std::lock_guard hold(first); items++; }
        full.notify_one();
    }
    auto later = std::async(std::launch::async, [] { std::unique_lock write(shelf); return 7; });
    if (later.get() != 7) std::exit(1);
}

static void by_function() { std::thread(runs_this, 3).join(); }

int main(int argc, char **argv) {
    const char *name = argc == 2 ? argv[1] : "";
    if (!strcmp(name, "heap_used_again")) heap_used_again();
    else if (!strcmp(name, "scoped")) scoped();
    else if (!strcmp(name, "modern")) modern();
    else if (!strcmp(name, "by_function")) by_function();
    else return 1;
    return 0;
}
