// Solves each file of the command line by libpops in a thread of its own, all at the same time, and writes their reports in order.
// Ends with the greatest status.
#include <pops.h>
#include <pthread.h>

#include <algorithm>
#include <fstream>
#include <iostream>
#include <iterator>
#include <string>
#include <vector>

namespace {

struct Solving {
    std::string input;
    std::vector<std::uint8_t> output = std::vector<std::uint8_t>(POPS_ROOM);
    std::size_t written = 0;
    std::uint32_t status = 0;
    pthread_t thread{};
};

void *solve(void *given) {
    auto &it = *static_cast<Solving *>(given);
    const auto *text = reinterpret_cast<const std::uint8_t *>(it.input.data());
    it.status = pops_report(false, false, text, it.input.size(), it.output.data(), it.output.size(), &it.written);
    return nullptr;
}

std::string text_of(const char *path) {
    std::ifstream file(path, std::ios::binary);
    return {std::istreambuf_iterator<char>(file), {}};
}

} // namespace

int main(int count, char **paths) {
    std::vector<Solving> all(static_cast<std::size_t>(count - 1));
    pthread_attr_t attributes;
    pthread_attr_init(&attributes);
    pthread_attr_setstacksize(&attributes, POPS_STACK);
    for (std::size_t at = 0; at < all.size(); at++) {
        all[at].input = text_of(paths[at + 1]);
        if (pthread_create(&all[at].thread, &attributes, solve, &all[at]) != 0) return 99;
    }
    std::uint32_t status = 0;
    for (auto &it : all) {
        pthread_join(it.thread, nullptr);
        std::cout.write(reinterpret_cast<const char *>(it.output.data()), static_cast<std::streamsize>(it.written));
        status = std::max(status, it.status);
    }
    return static_cast<int>(status);
}
