// Announces routes one by one, and prints how many addresses go to each port. From C++ the header is the C one:
//
//     counts
//
// Compiled with what `pkg-config --cflags --libs maftehon` says.
#include <array>
#include <cstdint>
#include <cstdio>
#include <maftehon.h>
#include <vector>

namespace {

constexpr std::size_t row_words = 5;
constexpr std::size_t ports = 4095;

// A table and its counts, which every update takes and leaves together.
struct Table {
    std::vector<std::uint32_t> rows;
    std::vector<std::uint64_t> counts = std::vector<std::uint64_t>(ports);
    std::uint32_t n = 0;

    explicit Table(std::size_t capacity) : rows(capacity * row_words)
    {
        std::uint32_t place;
        mft_counts_make(rows.data(), rows.size(), n, counts.data(), counts.size(), &place);
    }

    // Gives the number of the refusal, 0 where it is done.
    std::uint32_t announce(std::uint32_t value, std::uint32_t length, std::uint32_t port)
    {
        std::array<std::uint32_t, 2> answer{};
        const auto number = mft_counted_announce(rows.data(), rows.size(), n, value, length, port, counts.data(), counts.size(), answer.data());
        n = answer[1];
        return number;
    }
};

} // namespace

int main()
{
    Table table(2);
    const auto floor = table.announce(0x0A000000, 8, 7);
    const auto bay = table.announce(0x0A010000, 16, 9);
    const auto full = table.announce(0, 0, 1);
    if (floor != MFT_DONE || bay != MFT_DONE || full != MFT_NO_ROOM)
        return 1;
    for (const auto port : {0, 7, 9})
        std::printf("%d %llu\n", port, static_cast<unsigned long long>(table.counts[port]));
    return 0;
}
