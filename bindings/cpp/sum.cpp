// The header from C++: ranks as std::thread, and an engine that is closed where its owner ends.
#include <cstdio>
#include <stdexcept>
#include <thread>
#include <vector>

#include "worzsunab_threads.h"

namespace {

void must(int32_t code) {
    if (code != WZ_DONE) throw std::runtime_error(wz_message(code));
}

class Ranks {
  public:
    explicit Ranks(uint8_t ranks) { must(wz_shared_open_world(&shared_, ranks)); }
    ~Ranks() { wz_shared_close(&shared_); }
    Ranks(const Ranks &) = delete;
    Ranks &operator=(const Ranks &) = delete;

    int64_t sum(uint8_t rank, int64_t mine) {
        const wz_call sum_of_all = { WZ_ALLREDUCE, WZ_SUM, WZ_INT64, 0, 1 };
        wz_request request = WZ_NULL_REQUEST;
        int64_t sum = 0;
        size_t count = 0;
        must(wz_shared_post(&shared_, rank, 0, &sum_of_all, &mine, sizeof mine, &request));
        must(wz_shared_wait(&shared_, rank, &request, &sum, sizeof sum, &count));
        return sum;
    }

  private:
    wz_shared shared_;
};

} // namespace

int main() {
    Ranks ranks(3);
    std::vector<std::thread> threads;
    std::vector<int64_t> sums(3);
    for (uint8_t rank = 0; rank < 3; rank++)
        threads.emplace_back([&, rank] {
            for (int64_t i = 0; i < 100; i++) sums[rank] = ranks.sum(rank, int64_t(rank) * 10 + i);
        });
    for (auto &thread : threads) thread.join();
    for (int64_t sum : sums)
        if (sum != 30 + 3 * 99) return 1;
    std::puts("cpp: all as it should be");
    return 0;
}
