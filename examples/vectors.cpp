// From C++: makes a sample file of vectors, first without an arrival, whose vectors are empty, then with three, and prints what
// is counted.

#include <cinttypes>
#include <cstdio>
#include <string>
#include <vector>
#include "krakobran.h"

// The sample file of a label and lists.
static std::vector<uint8_t> sample(const std::string &label, const std::vector<uint16_t> &sizes,
                                   const std::vector<uint32_t> &numbers, const std::vector<uint64_t> &times) {
    std::vector<uint8_t> file(KRAKOBRAN_FILE_OCTETS);
    uint64_t length;
    uint64_t refusal =
        krakobran_sample_write(reinterpret_cast<const uint8_t *>(label.data()), label.size(), sizes.data(), sizes.size(),
                               numbers.data(), numbers.size(), times.data(), times.size(), file.data(), file.size(), &length);
    std::printf("refused %" PRIu64 ", %" PRIu64 " octets\n", refusal, length);
    file.resize(length);
    return file;
}

int main() {
    std::vector<uint8_t> none = sample("", {100, 100, 100}, {}, {});
    std::vector<uint8_t> three = sample("cellar", {100, 100, 100}, {2, 3, 1}, {10, 20, 30});
    for (const std::vector<uint8_t> &file : {none, three}) {
        krakobran_counts_figures counts;
        krakobran_counts(file.data(), file.size(), &counts);
        std::printf("L %" PRIu64 ", reordered %" PRIu64 "\n", counts.arrived, counts.reordered);
    }
    std::vector<uint8_t> empty;
    krakobran_layout layout;
    std::printf("an empty file: refused %" PRIu64 "\n", krakobran_sample_check(empty.data(), empty.size(), &layout));
}
