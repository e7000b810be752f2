// What can be had of the processors: how long a loop that fills a processor's units takes where N threads share it, as a part of what it takes alone.
//
// Usage: processors [N]      (default: 4). Prints the median time of a thread among N, as a multiple of that of a thread alone: 1.00 where each has
// a processor to itself, and up to 2 where two share the units of one. Then the medians of the same loop shared out among N threads, as a part of the
// time that one takes: in equal parts, and in 256 pieces, of which each thread takes the next one as it gets free. The thread that starts the others is
// one of the N; the last figure is that of pieces where it starts N and waits. With N processors to themselves, which are awake, all are 1 / N.
#include <algorithm>
#include <atomic>
#include <chrono>
#include <cstdint>
#include <cstdio>
#include <cstdlib>
#include <thread>
#include <vector>

static double microseconds() {
    return std::chrono::duration<double, std::micro>(std::chrono::steady_clock::now().time_since_epoch()).count();
}

// Eight sums that don't wait for each other, so many times.
static double loop(long turns) {
    double begun = microseconds();
    std::uint64_t a = 1, b = 2, c = 3, d = 4, e = 5, f = 6, g = 7, h = 8;
    for (long turn = 0; turn < turns; turn++) {
        a += 1, b += 1, c += 1, d += 1, e += 1, f += 1, g += 1, h += 1;
        asm volatile("" : "+r"(a), "+r"(b), "+r"(c), "+r"(d), "+r"(e), "+r"(f), "+r"(g), "+r"(h));
    }
    return microseconds() - begun;
}

// The time of so many threads that each run the work: this one and others, or where this one waits others alone.
template <class Work> static double together(int threads, bool waits, Work work) {
    double begun = microseconds();
    std::vector<std::thread> running;
    for (int thread = waits ? 0 : 1; thread < threads; thread++) running.emplace_back([&work, thread] { work(thread); });
    if (!waits) work(0);
    for (auto& thread : running) thread.join();
    return microseconds() - begun;
}

static double median(std::vector<double> values) {
    std::nth_element(values.begin(), values.begin() + values.size() / 2, values.end());
    return values[values.size() / 2];
}

int main(int count, char** words) {
    const int threads = count > 1 ? std::atoi(words[1]) : 4;
    const long turns = 2'000'000, pieces = 256;
    std::vector<double> alone, among, equal, free, waiting;
    for (int round = 0; round < 41; round++) {
        double one = loop(turns);
        alone.push_back(one);
        std::vector<double> times(threads);
        together(threads, false, [&times](int thread) { times[thread] = loop(turns); });
        among.insert(among.end(), times.begin(), times.end());
        equal.push_back(together(threads, false, [threads](int) { loop(turns / threads); }) / one);
        for (bool waits : {false, true}) {
            std::atomic<long> next{0};
            (waits ? waiting : free).push_back(together(threads, waits, [&next](int) { while (next++ < pieces) loop(turns / pieces); }) / one);
        }
    }
    std::printf("%.2f of one alone; shared out among %d a loop takes %.2f of what it takes alone in equal parts, %.2f in pieces as they get free, %.2f so where "
                "the thread that starts the others waits\n",
                median(among) / median(alone), threads, median(equal), median(free), median(waiting));
}
