// A heap profiler's day. Each sample is a call path with the bytes it holds; a path that freed all is deleted, and one
// whose samples went to a file of their own points there. Three shifts fill a memtable each, the three lists are read
// as one, and the last is compacted. Where a file is named the compacted list is put there.
//
//     g++ -std=c++17 -O2 -Iinclude examples/profile.cpp target/staticlib/libvls.a -o profile
//     ./profile evening.vls
#include <array>
#include <cstdio>
#include <fstream>
#include <string>
#include <vector>

#include "vls.hpp"

using namespace std::literals;

namespace {

struct Sample {
    std::string_view path;
    std::uint64_t seqno;
    vls::Type type;
    std::string_view bytes;
};
constexpr vls::Type HELD = vls::Type::value, FREED = vls::Type::tombstone, FREED_ONCE = vls::Type::weak_tombstone,
                    FILED = vls::Type::indirection;

const std::vector<Sample> MORNING = {
    {"main;serve;parse", 1, HELD, "512"},
    {"main;load", 2, HELD, "1048576"},
    {"main;serve;cache;grow", 3, HELD, "65536"},
    {"main;serve", 4, HELD, "128"},
};
const std::vector<Sample> NOON = {
    {"main;serve;render", 5, HELD, "8192"},
    {"main;load", 6, FREED, ""},
    {"main;serve;cache;grow", 7, HELD, "131072"},
    {"main;serve;render;font", 8, HELD, "2048"},
};
const std::vector<Sample> EVENING = {
    {"main;serve;render", 9, HELD, "4096"},    {"main;serve;parse", 10, HELD, "768"},
    {"main;serve;parse", 11, HELD, "1024"},    {"main;report", 12, HELD, "300"},
    {"main;serve;render;font", 13, FREED, ""}, {"main;serve;parse", 14, HELD, "640"},
    {"main;report", 15, FREED_ONCE, ""},       {"main;serve;trace", 16, FILED, "trace.bin"},
};

bool refused(const char *what, vls::Refusal r) {
    if (r)
        std::printf("%s: refused %d (%s) list=%d record=%d\n", what, int(r.number()), r.name(), int(r.list),
                    int(r.record));
    return bool(r);
}

std::string shown(const vls::Entry &e) {
    std::string s(e.key);
    s.resize(24, ' ');
    return s + (e.type == FILED ? "in " : "") + std::string(e.value) + " at " + std::to_string(e.seqno) + "  (list " +
           std::to_string(e.list) + ", record " + std::to_string(e.record) + ")";
}

// One shift: its samples go into a memtable, in whatever order they come. At its end the table is flagged for rotation.
bool fill(const char *shift, vls::Memtable &table, const std::vector<Sample> &samples) {
    for (const Sample &s : samples)
        if (refused("insert", table.insert(s.path, s.seqno, s.type, s.bytes))) return false;
    table.flag_rotated();
    vls::Told<std::uint64_t> records = table.len(), size = table.size();
    vls::Told<std::optional<std::uint64_t>> newest = table.highest_seqno();
    if (refused("len", records.refusal) || refused("size", size.refusal) || refused("newest", newest.refusal))
        return false;
    std::printf("%s: table %d%s, %d records of %d bytes in a list of %d, newest %d\n", shift, int(table.id()),
                table.is_flagged_for_rotation() ? ", to be rotated" : "", int(records.value), int(size.value),
                int(table.image().size()), int(newest.value.value_or(0)));
    return true;
}

// The prefix's entries, in turn from the front and from the back.
bool scan(const vls::Bundle &bundle, std::string_view prefix, std::uint64_t snapshot) {
    std::string upper(prefix.size(), ' ');
    vls::Prefixed bounds = vls::prefix(prefix, upper);
    if (refused("prefix", bounds.refusal)) return false;
    std::printf("%s at %d, from both ends:\n", std::string(prefix).c_str(), int(snapshot));
    vls::Reader paths = bundle.read(bounds.lower, bounds.upper, snapshot);
    for (bool front = true;; front = !front) {
        std::optional<vls::Entry> e = front ? paths.next() : paths.next_back();
        if (!e) break;
        std::printf("  %s  %s\n", front ? "first" : "last ", shown(*e).c_str());
    }
    return !refused("read", paths.refusal());
}

void look_up(const vls::Memtable &table, const std::string &path, std::uint64_t seqno) {
    vls::Found f = table.get(path, seqno);
    if (refused("get", f.refusal)) return;
    if (f.found)
        std::printf("%s below %d: %s at %d\n", path.c_str(), int(seqno), std::string(f.value).c_str(), int(f.seqno));
    else std::printf("%s below %d: nothing\n", path.c_str(), int(seqno));
}

} // namespace

int main(int argc, char **argv) {
    if (!vls::archive_fits()) return std::fputs("the archive is of another version than its header\n", stderr), 2;
    std::array<std::uint8_t, 4096> buffers[3];
    const std::vector<Sample> *shifts[] = {&MORNING, &NOON, &EVENING};
    const char *names[] = {"morning", "noon", "evening"};
    std::vector<vls::Memtable> tables;
    std::vector<std::uint8_t> bytes;
    std::vector<std::uint32_t> lengths;
    for (int i = 0; i < 3; ++i) {
        vls::Memtable table = vls::Memtable::create(buffers[i], std::uint64_t(i));
        if (refused("create", table.refusal()) || !fill(names[i], table, *shifts[i])) return 1;
        vls::Bytes image = table.image();
        bytes.insert(bytes.end(), image.begin(), image.end());
        lengths.push_back(std::uint32_t(image.size()));
        tables.push_back(std::move(table));
    }

    std::vector<std::uint32_t> index(vls::most_records(bytes.size()));
    vls::Opened day = vls::open(bytes, vls::table(lengths), vls::table(index));
    if (refused("open", day.refusal)) return 1;
    std::printf("bundle: %d lists, %d records\n", int(lengths.size()), int(day.records));
    if (!scan(day.bundle, "main;serve;"sv, 17) || !scan(day.bundle, "main;serve;"sv, 9)) return 1;

    std::printf("everything at 17, backward:\n");
    vls::Reader all = day.bundle.read(vls::unbounded, vls::unbounded, 17);
    for (vls::Entry e : all.backward()) std::printf("         %s\n", shown(e).c_str());
    if (refused("read", all.refusal())) return 1;

    look_up(tables[2], "main;serve;parse", 16);
    look_up(tables[2], "main;serve;parse", 12);
    look_up(tables[2], "main;serve;parse", 10);

    // No snapshot below 14 is needed any more.
    vls::Bytes evening = tables[2].image();
    std::vector<std::uint8_t> out(evening.size());
    std::vector<std::uint32_t> report(vls::most_records(evening.size()));
    vls::Compacted c = vls::compact(evening, {14, false, false}, out, vls::table(report));
    if (refused("compact", c.refusal)) return 1;
    std::printf("evening compacted below 14: %d of %d bytes, %d records kept, expired:", int(c.list.size()),
                int(evening.size()), int(c.kept));
    for (std::uint64_t i = 0; i < c.reported; ++i)
        if (std::optional<vls::Entry> e = day.bundle.at(2, report[i]))
            std::printf(" %s@%d", std::string(e->key).c_str(), int(e->seqno));
    vls::Checked checked = vls::check(c.list);
    if (refused("\ncheck", checked.refusal)) return 1;
    std::printf("\nthe new list is checked: %d records\n", int(checked.records));
    std::printf("cut by a byte: %s\n", vls::check(c.list.part(0, c.list.size() - 1)).refusal.name());
    if (argc == 1) return 0;
    std::ofstream file(argv[1], std::ios::binary);
    file << c.list.text();
    return file.flush() ? 0 : 1;
}
