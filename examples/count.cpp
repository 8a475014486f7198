// Counts the columns, data records and cells of a CSV+ table on standard input.
//
//   count <FILE
#include "words.h"

#include <cstddef>
#include <cstdint>
#include <cstdio>
#include <iostream>
#include <vector>

namespace {

// At most a byte more than a file may have, so that one that is too long is found to be.
std::vector<std::uint8_t> input() {
    std::vector<std::uint8_t> file(HK_FILE_BYTES + 1);
    file.resize(std::fread(file.data(), 1, file.size(), stdin));
    return file;
}

// How many cells a file has is not known before: lists that were too short, and nothing else is wrong then, are doubled.
hk_read_answer read(const std::vector<std::uint8_t> &file) {
    std::vector<std::size_t> starts(64), ends(64);
    std::vector<std::uint8_t> kinds(64);
    for (;;) {
        const hk_read_answer table = hk_read(HK_CSV_PLUS, file.data(), file.size(), starts.data(), starts.size(), ends.data(), ends.size(),
                                             kinds.data(), kinds.size());
        if (table.report.number != HK_ROOM) {
            return table;
        }
        starts.resize(2 * starts.size());
        ends.resize(2 * ends.size());
        kinds.resize(2 * kinds.size());
    }
}

} // namespace

int main() {
    const std::vector<std::uint8_t> file = input();
    if (std::ferror(stdin)) {
        return failed("count: the input could not be read to its end");
    }
    const hk_read_answer table = read(file);
    if (table.report.number != HK_ACCEPTED) {
        explain(table.report);
        return REFUSED;
    }
    std::cout << table.columns << " columns, " << table.records << " data records, " << table.cells << " cells" << std::endl;
    return std::cout ? DONE : failed("count: the output could not be written in full");
}
