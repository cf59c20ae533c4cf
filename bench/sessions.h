// What the two programs of durable commits by many threads share: it runs so many threads, each of
// which commits so many small transactions one after another, and prints the commits a second.
#include <chrono>
#include <cstdint>
#include <cstdio>
#include <cstdlib>
#include <thread>
#include <vector>

template <class Work> void time_threads(uint64_t threads, uint64_t commits, Work work) {
    auto start = std::chrono::steady_clock::now();
    std::vector<std::thread> running;
    for (uint64_t it = 0; it < threads; it++) {
        running.emplace_back([=] { work(it * commits, commits); });
    }
    for (auto &it : running) it.join();
    auto time = std::chrono::steady_clock::now() - start;
    double seconds = std::chrono::duration<double>(time).count();
    std::printf("%lu threads: %.0f durable commits a second\n", threads, threads * commits / seconds);
}
