// Checks a file and looks up a path in it.
//
//     g++ -std=c++17 -O2 -Iinclude examples/lookup.cpp target/staticlib/libvls.a -o lookup
//     ./lookup evening.vls 'main;serve;parse'
#include <cstdio>
#include <fstream>
#include <sstream>
#include <string>
#include <vector>

#include "vls.hpp"

namespace {

int refused(vls::Refusal r) {
    std::printf("refused: %s, after %d records\n", r.name(), int(r.record));
    return 1;
}

} // namespace

int main(int argc, char **argv) {
    if (argc != 3) return std::fputs("usage: lookup FILE PATH\n", stderr), 2;
    std::ifstream file(argv[1], std::ios::binary);
    if (!file) return std::perror(argv[1]), 2;
    std::ostringstream bytes;
    bytes << file.rdbuf();
    const std::string list = bytes.str();

    // The file is a bundle of one list. To open it is to check it: any bytes get an answer.
    const std::uint32_t lengths[] = {std::uint32_t(list.size())};
    std::vector<std::uint32_t> index(vls::most_records(list.size()));
    vls::Opened opened = vls::open(list, vls::table(lengths), vls::table(index));
    if (opened.refusal) return refused(opened.refusal);
    std::printf("%d records in %d bytes\n", int(opened.records), int(list.size()));

    // From the path to the path, at a snapshot above all: its newest version, unless that says that it is deleted.
    const std::string path = argv[2];
    vls::Reader reader = opened.bundle.read(vls::from(path), vls::to(path), UINT64_MAX);
    std::optional<vls::Entry> found = reader.next();
    if (reader.refusal()) return refused(reader.refusal());
    if (!found) return std::printf("%s: nothing\n", path.c_str()), 1;
    std::printf("%s: %s at %d\n", path.c_str(), std::string(found->value).c_str(), int(found->seqno));
    return 0;
}
