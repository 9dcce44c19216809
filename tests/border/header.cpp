// vls.hpp: each of its calls says what the call of vls.h says, and none of them allocates.
#include "vls.hpp"

#include <algorithm>
#include <array>
#include <new>

#include "reading.hpp"

// The structs as they cross.
static_assert(sizeof(vls_checked) == 32 && sizeof(vls_memtable) == 40 && sizeof(vls_changed) == 64);
static_assert(sizeof(vls_found) == 72 && offsetof(vls_found, found) == 24 && offsetof(vls_found, at) == 32);
static_assert(sizeof(vls_cursor) == 136 && sizeof(vls_started) == 160 && offsetof(vls_started, cursor) == 24);
static_assert(sizeof(vls_stepped) == 184 && offsetof(vls_stepped, at_list) == 32 &&
              offsetof(vls_stepped, cursor) == 48);
static_assert(sizeof(vls_figure) == 40 && offsetof(vls_figure, figure) == 32 && sizeof(vls_told) == 32);
static_assert(sizeof(vls_placed) == 56 && offsetof(vls_placed, key_start) == 8 && offsetof(vls_placed, tag) == 32);
static_assert(sizeof(vls_answer) == 48 && offsetof(vls_answer, at_list) == 32);
static_assert(sizeof(vls_part) == 24 && sizeof(vls_prefixed) == 40 && sizeof(vls_compacted) == 48);

using namespace std::literals;

// Tables and bytes that stay may be kept; tests/border/uses has what doesn't compile.
template <class T, class From> inline constexpr bool from = std::is_nothrow_constructible_v<T, From>;
using Octets = std::vector<std::uint8_t>;
static_assert(from<vls::Bytes, Octets &> && from<vls::Bytes, const Octets &> && !from<vls::Bytes, Octets>);
static_assert(from<vls::Bytes, std::vector<std::byte> &> && from<vls::Bytes, const std::vector<char> &>);
static_assert(from<vls::Bytes, std::uint8_t (&)[3]> && from<vls::Bytes, const std::byte (&)[3]>);
static_assert(from<vls::Bytes, std::array<std::uint8_t, 3> &> && !from<vls::Bytes, std::array<std::uint8_t, 3>>);
static_assert(from<vls::Bytes, std::string_view> && from<vls::Bytes, std::string &> && !from<vls::Bytes, std::string>);
static_assert(from<vls::Bytes, vls::Room> && from<vls::Bytes, vls::Room &> && from<vls::Bytes, const vls::Bytes &>);
static_assert(!from<vls::Bytes, const char *> && !from<vls::Bytes, const char (&)[3]> &&
              !from<vls::Bytes, char (&)[3]>);
static_assert(!from<vls::Bytes, std::nullptr_t> && !from<vls::Bytes, std::vector<std::uint32_t> &>);
static_assert(from<vls::Room, Octets &> && from<vls::Room, std::byte (&)[3]> && from<vls::Room, char (&)[3]>);
static_assert(!from<vls::Room, Octets> && !from<vls::Room, const Octets &> && !from<vls::Room, std::string_view>);
static_assert(from<vls::Given, Octets> && from<vls::Given, std::string> && from<vls::Given, std::string_view>);
static_assert(!from<vls::Given, const char *> && !from<vls::Given, vls::Given> && !from<vls::Given, vls::Given &>);
static_assert(!from<vls::Given, const vls::Given &> && !from<vls::Bytes, vls::Given &>);

static_assert(std::is_nothrow_move_constructible_v<vls::Memtable> && std::is_nothrow_move_assignable_v<vls::Memtable>);
static_assert(!std::is_copy_constructible_v<vls::Memtable> && !std::is_copy_assignable_v<vls::Memtable>);
static_assert(from<vls::Lower, vls::Unbounded> && from<vls::Upper, vls::Unbounded> && !from<vls::Lower, vls::Upper>);

// A view of the host's own, which leaves what it shows standing.
struct Window {
    const std::uint8_t *data() const { return nullptr; }
    std::size_t size() const { return 0; }
};
template <> inline constexpr bool vls::is_view<Window> = true;
static_assert(from<vls::Bytes, Window> && from<vls::Bytes, Window &> && !from<vls::Room, Window>);

// Nothing throws.
inline vls::Bytes some;
inline vls::Room room;
inline std::uint32_t entries[1];
inline vls::Memtable memtable_of(room, {});
inline vls::Bundle bundle_of(some, some, some);
inline vls::Reader reader_of = bundle_of.read(vls::unbounded, vls::unbounded, 0);
static_assert(noexcept(some.part(0, 0)));
static_assert(noexcept(some.text()));
static_assert(noexcept(vls::table(entries)));
static_assert(noexcept(vls::check(some)));
static_assert(noexcept(vls::open(some, some, room)));
static_assert(noexcept(vls::prefix(some, room)));
static_assert(noexcept(vls::compact(some, {}, room, room)));
static_assert(noexcept(vls::compact_filtered(some, {}, some, some, room, room)));
static_assert(noexcept(vls::Memtable::create(room, 0)));
static_assert(noexcept(memtable_of.insert(some, 0, vls::Type::value, some)));
static_assert(noexcept(memtable_of.get(some, 0)));
static_assert(noexcept(memtable_of.size()));
static_assert(noexcept(memtable_of.len()));
static_assert(noexcept(memtable_of.is_empty()));
static_assert(noexcept(memtable_of.highest_seqno()));
static_assert(noexcept(memtable_of.image()));
static_assert(noexcept(memtable_of.refusal().name()));
static_assert(noexcept(memtable_of.id()));
static_assert(noexcept(memtable_of.is_flagged_for_rotation()));
static_assert(noexcept(memtable_of.flag_rotated()));
static_assert(noexcept(bundle_of.read(vls::from(some), vls::below(some), 0)));
static_assert(noexcept(bundle_of.read(vls::after(some), vls::to(some), 0)));
static_assert(noexcept(bundle_of.at(0, 0)));
static_assert(noexcept(bundle_of.key(0, 0)));
static_assert(noexcept(bundle_of.value(0, 0)));
static_assert(noexcept(reader_of.next()));
static_assert(noexcept(reader_of.next_back()));
static_assert(noexcept(reader_of.backward()));
static_assert(noexcept(*reader_of.begin()++));
static_assert(noexcept(*reader_of.end()--));
static_assert(noexcept(++reader_of.begin() == --reader_of.end()));

// What an input iterator is by C++17, and a bidirectional one by C++20.
using Iterator = vls::Reader::Iterator<vls::End::front>;
using Traits = std::iterator_traits<Iterator>;
static_assert(std::is_same_v<Traits::iterator_category, std::input_iterator_tag>);
static_assert(std::is_same_v<Traits::value_type, vls::Entry> && std::is_same_v<Traits::reference, vls::Entry>);
static_assert(std::is_nothrow_default_constructible_v<Iterator> && std::is_nothrow_copy_constructible_v<Iterator> &&
              std::is_nothrow_copy_assignable_v<Iterator> && std::is_nothrow_swappable_v<Iterator>);
static_assert(std::is_same_v<decltype(++std::declval<Iterator &>()), Iterator &> &&
              std::is_convertible_v<decltype(*std::declval<Iterator &>()++), vls::Entry>);
#if __cplusplus >= 202002L
static_assert(std::bidirectional_iterator<Iterator> && std::ranges::bidirectional_range<vls::Reader &>);
static_assert(std::bidirectional_iterator<vls::Reader::Iterator<vls::End::back>>);
static_assert(from<vls::Bytes, std::span<const std::uint8_t>> && from<vls::Room, std::span<std::byte>>);
#endif

namespace {
unsigned long allocations = 0;
}

// Not inlined: g++ would take free for a mismatch of new.
[[gnu::noinline]] void *operator new(std::size_t n) {
    ++allocations;
    void *at = std::malloc(n ? n : 1);
    if (!at) std::abort();
    return at;
}
[[gnu::noinline]] void operator delete(void *at) noexcept { std::free(at); }
[[gnu::noinline]] void operator delete(void *at, std::size_t) noexcept { std::free(at); }

using namespace border;

namespace {

// Runs it and holds it to allocate nothing.
template <class Call> auto free_of_new(const char *what, Call call) {
    unsigned long before = allocations;
    auto result = call();
    unsigned long made = allocations - before;
    expect(std::string(what) + ": allocates nothing", made == 0);
    return result;
}

Numbers row(vls::Refusal r) { return {r.number(), r.list, r.record}; }

Bytes bytes(vls::Bytes b) { return Bytes(b.begin(), b.end()); }

const Numbers FINE = {0, 0, 0};

void spans() {
    std::vector<std::uint8_t> octets = {1, 2, 3};
    vls::Bytes b = octets;
    expect("a vector's bytes", b.data() == octets.data() && b.size() == 3 && !b.empty());
    std::array<std::byte, 4> array = {};
    expect("an array's bytes", vls::Bytes(array).size() == 4 && vls::Room(array).size() == 4);
    const std::uint8_t plain[5] = {};
    expect("a plain array's bytes", vls::Bytes(plain).data() == plain && vls::Bytes(plain).size() == 5);
    std::string text = "k\0y"s;
    expect("a string's bytes", vls::Bytes(text).size() == 3 && vls::Bytes("k\0y"sv).text() == text);
    expect("a pointer's bytes", vls::Bytes(text.data(), 2).text() == "k\0"sv);
    expect("a part", b.part(1, 2).data() == octets.data() + 1 && b.part(1, 2).size() == 2 && b.part(3, 0).size() == 0);
    expect("no part", b.part(1, 3).empty() && b.part(4, 0).empty() && b.part(MOST, 2).empty() &&
                          vls::Bytes().part(0, 0).data() == nullptr);
    std::vector<std::uint32_t> entries = {0x04030201, 5};
    vls::Room table = vls::table(entries);
    same("a table", bytes(table), Bytes{1, 2, 3, 4, 5, 0, 0, 0});
    const std::uint32_t three[3] = {};
    expect("tables", vls::table(three).size() == 12 && vls::table(entries.data(), 1).size() == 4);
    expect("nothing", vls::Bytes().data() == nullptr && vls::Room().size() == 0);
}

// The room that vls.h calls enough, where the records are as short as can be: none less would do.
void rooms() {
    expect("what a record adds",
           VLS_RECORD_BYTES(1, 4) == 20 && list({{"k", 1, V, "four"}}).size() == VLS_HEADER_SIZE + 20);
    for (std::uint64_t n : Numbers{0, 1, 2, 7}) {
        Versions versions;
        for (std::uint64_t i = n; 0 < i; --i) versions.push_back({"k", i, V, ""});
        Bytes l = list(versions), out(l.size());
        expect("so many records", vls::most_records(l.size()) == n && VLS_INDEX_SIZE(l.size()) == 4 * n);
        std::vector<std::uint32_t> index(vls::most_records(l.size())), report = index;
        std::uint32_t length[] = {static_cast<std::uint32_t>(l.size())};
        same("an index of them", row(vls::open(l, vls::table(length), vls::table(index)).refusal), FINE);
        vls::Compacted c = vls::compact(l, {MOST, false, false}, out, vls::table(report));
        expect("a report on them", !c.refusal && c.reported == (n == 0 ? 0 : n - 1) && c.list.size() <= l.size());
        c = vls::compact(l, {0, false, false}, out, vls::table(report));
        expect("all kept", !c.refusal && c.kept == n && c.list.size() == l.size());
        std::vector<std::uint32_t> verdicts(n * VLS_VERDICT_SIZE / 4, VLS_DROP);
        c = vls::compact_filtered(l, {}, vls::table(verdicts), {}, out, vls::table(report));
        expect("all dropped", !c.refusal && c.kept == 0 && c.reported == n && c.list.size() == VLS_HEADER_SIZE);
    }
}

void refusals() {
    const char *names[] = {"fine",     "truncated", "bad mark",  "bad version", "empty key", "long key",   "bad tag",
                           "disorder", "excess",    "too large", "no room",     "unfit",     "bad verdict"};
    for (std::uint64_t number = 0; number <= VLS_BAD_VERDICT; ++number)
        expect("a name", vls_refusal_name(number) == std::string(names[number]) &&
                             vls::Refusal(number, 0, 0).name() == std::string(names[number]));
    for (std::uint64_t number : Numbers{VLS_BAD_VERDICT + 1, 99, 1ull << 32, MOST})
        expect("no name", vls_refusal_name(number) == "unknown"s && vls::Refusal(number, 0, 0).number() == number);
    expect("fine", !vls::Refusal() && vls::Refusal().reason == vls::Reason::fine);
    expect("refused", vls::Refusal(99, 0, 0) && vls::Refusal(VLS_UNFIT, 0, 0).reason == vls::Reason::unfit);
}

// The archive is of this header's version, which has three parts.
void versions() {
    same("version", Numbers{vls_version()}, Numbers{VLS_VERSION});
    expect("its parts", vls_version() / 1000000 == VLS_VERSION_MAJOR &&
                            vls_version() / 1000 % 1000 == VLS_VERSION_MINOR &&
                            vls_version() % 1000 == VLS_VERSION_PATCH);
    expect("it fits", vls::archive_fits());
}

void checking() {
    Bytes good = list({{"a", 7, V, "x"}}), disorder = list({{"b", 1, V, ""}, {"a", 1, V, ""}});
    vls::Checked c = free_of_new("check", [&] { return vls::check(good); });
    expect("check: accepted", !c.refusal && c.records == 1);
    same("check: refused", row(vls::check(disorder).refusal), {VLS_DISORDER, 0, 1});
    same("check: nothing", row(vls::check({}).refusal), {VLS_TRUNCATED, 0, 0});
    expect("check: a temporary", vls::check(list({{"a", 7, V, "x"}})).records == 1);
}

void memtable() {
    std::array<std::uint8_t, 60> buffer;
    vls::Memtable t = free_of_new("create", [&] { return vls::Memtable::create(buffer, 3); });
    expect("created", !t.refusal() && t.id() == 3 && t.image().size() == 9 && !t.is_flagged_for_rotation());
    expect("holds nothing",
           t.is_empty().value && !t.highest_seqno().value && t.size().value == 0 && t.len().value == 0);
    same("inserted", row(free_of_new("insert", [&] { return t.insert("b"sv, 2, vls::Type::value, "yz"sv); })), FINE);
    same("inserted", row(t.insert("a"s, 7, vls::Type::tombstone, {})), FINE);
    same("the image", bytes(t.image()), list({{"a", 7, T, ""}, {"b", 2, V, "yz"}}));
    expect("holds two", free_of_new("size", [&] { return t.size(); }).value == 4 && t.len().value == 2 &&
                            t.highest_seqno().value == 7u && !t.is_empty().value && !t.is_empty().refusal);
    vls::Found f = free_of_new("get", [&] { return t.get("b"sv, 3); });
    expect("got",
           !f.refusal && f.found && f.record == 1 && f.seqno == 2 && f.type == vls::Type::value && f.value == "yz");
    f = t.get("a"s, 8);
    expect("got a tombstone", f.found && f.type == vls::Type::tombstone && f.value.empty());
    expect("got nothing", !t.get("b"sv, 2).found && !t.get({}, 9).found);
    t.flag_rotated();
    vls_memtable before = t.state();
    same("no room", row(t.insert("c"sv, 1, vls::Type::value, "too long for it"sv)), {VLS_NO_ROOM, 0, 0});
    expect("refused: the state stays", t.state().used == before.used && t.is_flagged_for_rotation() && t.refusal());
    same("inserted again", row(t.insert("b"sv, 2, vls::Type::value, {})), FINE);
    vls::Memtable other(buffer, t.state());
    expect("by its state", other.get("b"sv, 3).found);
    std::array<std::uint8_t, 8> small;
    same("not created", row(vls::Memtable::create(small, 1).refusal()), {VLS_NO_ROOM, 0, 0});

    vls::Memtable moved = std::move(t);
    expect("moved", moved.get("b"sv, 3).found && moved.id() == 3 && moved.is_flagged_for_rotation());
    same("moved from", row(t.insert("b"sv, 3, vls::Type::value, {})), {VLS_TRUNCATED, 0, 0});
    same("moved from", row(t.get("b"sv, 3).refusal), {VLS_TRUNCATED, 0, 0});
    expect("moved from", t.image().empty() && t.id() == 0);
    t = std::move(moved);
    expect("moved back", t.get("b"sv, 3).found && moved.image().empty());
    buffer[0] = 'v';
    same("damaged", row(t.get("a"sv, 8).refusal), {VLS_BAD_MARK, 0, 0});
    for (vls::Refusal r : {t.size().refusal, t.len().refusal, t.is_empty().refusal, t.highest_seqno().refusal})
        same("damaged", row(r), {VLS_BAD_MARK, 0, 0});
    expect("damaged: 0", t.size().value == 0 && !t.is_empty().value && !t.highest_seqno().value);
}

std::string keys(vls::Entry e) { return std::string(e.key); }

template <class Range> std::string keys(Range &&range) {
    std::string s;
    for (vls::Entry e : range) s += e.key;
    return s;
}

struct Opened {
    Bundle made = bundle({{{"a", 5, V, "five"}, {"c", 2, T, ""}, {"e", 1, V, ""}},
                          {{"a", 3, V, ""}, {"b", 4, V, "four"}, {"c", 1, V, ""}}});
    std::vector<std::uint32_t> lengths = {61, 61}, index = std::vector<std::uint32_t>(6);
    vls::Opened o = vls::open(made.bytes, vls::table(lengths), vls::table(index));
    vls::Reader all(std::uint64_t snapshot) const { return o.bundle.read(vls::unbounded, vls::unbounded, snapshot); }
};

void reading() {
    Opened x;
    x.o = free_of_new("open", [&] { return vls::open(x.made.bytes, vls::table(x.lengths), vls::table(x.index)); });
    expect("opened", !x.o.refusal && x.o.records == 6);
    const vls::Bundle &b = x.o.bundle;
    auto record = free_of_new("at", [&] { return b.at(1, 1); });
    expect("a record", record && record->list == 1 && record->record == 1 && record->key == "b" && record->seqno == 4 &&
                           record->type == vls::Type::value && record->value == "four");
    expect("a tombstone", b.at(0, 1)->type == vls::Type::tombstone && !b.at(0, 3) && !b.at(2, 0));
    expect("key and value",
           b.key(1, 1) == "b" && b.value(1, 1) == "four" && b.value(0, 2) == "" && !b.value(2, 0) && !b.key(0, 3));

    vls::Reader r = free_of_new("read", [&] { return b.read(vls::unbounded, vls::unbounded, 6); });
    auto last = free_of_new("next_back", [&] { return r.next_back(); });
    expect("the last", last && last->key == "e" && last->value == "" && last->list == 0 && last->record == 2);
    auto first = free_of_new("next", [&] { return r.next(); });
    expect("the first", first && first->key == "a" && first->value == "five" && first->list == 0 &&
                            first->record == 0 && first->seqno == 5 && first->type == vls::Type::value);
    auto rest = r.next_back();
    expect("the rest", rest && rest->key == "b" && !r.next() && !r.next_back() && !r.refusal());
    Bundle far = bundle({{{"a", 2, V, "here"}, {"b", 1, I, "elsewhere"}}});
    vls::Bundle fars(far.bytes, far.lengths, far.index);
    vls::Reader both = fars.read(vls::unbounded, vls::unbounded, 3);
    expect("a value and an indirection",
           both.next()->type == vls::Type::value && both.next()->type == vls::Type::indirection);

    expect("from b", keys(b.read(vls::from("b"sv), vls::unbounded, 6)) == "be");
    expect("after b", keys(b.read(vls::after("b"sv), vls::unbounded, 6)) == "e");
    expect("to b", keys(b.read(vls::unbounded, vls::to("b"sv), 6)) == "ab");
    expect("below b", keys(b.read(vls::unbounded, vls::below("b"sv), 6)) == "a");
    expect("inverted", keys(b.read(vls::from("e"sv), vls::to("a"sv), 6)) == "");
    expect("at 2", keys(x.all(2)) == "ce");

    std::string longer(65536, 'k');
    vls::Reader refused = b.read(vls::from(longer), vls::unbounded, 6);
    expect("a refused start stays refused", refused.refusal().reason == vls::Reason::long_key && !refused.next() &&
                                                keys(refused) == "" &&
                                                refused.refusal().reason == vls::Reason::long_key);
    vls::Reader altered = x.all(6), loop = x.all(6);
    x.index[3] = UINT32_MAX;
    expect("a refused step", !altered.next() && altered.refusal().reason == vls::Reason::unfit &&
                                 numbers(altered.cursor()) == numbers(cursor({}, {3, 3}, 6)));
    expect("a refused loop", keys(loop) == "" && loop.refusal().reason == vls::Reason::unfit && !loop.next_back());
    x.lengths[1] = 60;
    same("not opened", row(vls::open(x.made.bytes, vls::table(x.lengths), vls::table(x.index)).refusal),
         {VLS_EXCESS, 0, 0});
    expect("unfit places", !b.at(0, 0) && !b.key(0, 0) && !b.value(0, 0));
}

// Loops in both directions, over what is left, which they leave.
void looping() {
    Opened x;
    vls::Reader r = x.all(6);
    expect("forward", keys(r) == "abe" && keys(r) == "abe");
    expect("backward", keys(r.backward()) == "eba" && keys(r) == "abe");
    expect("over a temporary", keys(x.all(6)) == "abe" && keys(x.all(6).backward()) == "eba");
    std::string seen;
    for (vls::Entry e : x.all(6).backward()) seen += e.key;
    for (const vls::Entry &e : x.all(6)) seen += e.key;
    expect("written out", seen == "ebaabe");
    expect("what is left", r.next()->key == "a" && keys(r) == "be" && keys(r.backward()) == "eb");
    expect("nothing is left",
           r.next() && r.next() && keys(r) == "" && keys(r.backward()) == "" && r.begin() == r.end());
}

// As the algorithms use them.
template <class Range> void iterators(Range &&range, const std::string &order) {
    auto it = range.begin(), end = range.end();
    expect("->", it->key == order.substr(0, 1) && (*it).key == it->key);
    expect("== and !=", it == range.begin() && it != end && end == range.end());
    auto old = it;
    expect("*it++", keys(*it++) == order.substr(0, 1) && keys(*it) == order.substr(1, 1) && old != it);
    expect("a copy stays", keys(*old) == order.substr(0, 1) && ++old == it);
    expect("--", keys(*--it) == order.substr(0, 1) && it == range.begin() && keys(*++it) == order.substr(1, 1));
    expect("it--", keys(*it--) == order.substr(1, 1) && it == range.begin());
    while (it != end) ++it;
    expect("back from the end", keys(*--it) == order.substr(2, 1) && keys(*--end) == order.substr(2, 1) && it == end);
    expect("and to the front", keys(*--it) == order.substr(1, 1) && keys(*--it) == order.substr(0, 1));
    expect("swapped", (std::swap(it, end), keys(*end) == order.substr(0, 1)));
    std::vector<vls::Entry> all(range.begin(), range.end());
    expect("a vector of them", all.size() == 3 && std::distance(range.begin(), range.end()) == 3);
    auto found = std::find_if(range.begin(), range.end(), [](const vls::Entry &e) { return e.value == "four"; });
    expect("found", found != range.end() && found->key == "b");
    expect("in order", std::equal(order.begin(), order.end(), range.begin(),
                                  [](char c, const vls::Entry &e) { return e.key == std::string_view(&c, 1); }));
    expect("copied", std::copy_if(range.begin(), range.end(), all.begin(),
                                  [](const vls::Entry &e) { return !e.value.empty(); }) == all.begin() + 2);
    decltype(it) none, nobody;
    expect("made of nothing", none == nobody);
}

void walking() {
    Opened x;
    vls::Reader r = x.all(6);
    iterators(r, "abe");
    auto back = r.backward();
    iterators(back, "eba");
    auto owned = x.all(6).backward();
    iterators(owned, "eba");
    unsigned long before = allocations;
    for (auto it = r.begin(); it != r.end(); ++it) (void)*it;
    unsigned long made = allocations - before;
    expect("a loop allocates nothing", made == 0);
}

void prefixes() {
    Opened x;
    std::array<std::uint8_t, 2> upper = {0xEE, 0xEE};
    vls::Prefixed p = free_of_new("prefix", [&] { return vls::prefix("a\xFF"sv, upper); });
    expect("a FF", !p.refusal && p.lower.present && !p.lower.excluded && p.lower.key.text() == "a\xFF" &&
                       p.upper.present && p.upper.excluded && p.upper.key.text() == "b" && upper[1] == 0xEE);
    p = vls::prefix("\xFF"sv, {});
    expect("FF", !p.refusal && p.lower.present && !p.upper.present);
    p = vls::prefix({}, {});
    expect("no prefix", !p.refusal && p.lower.key.empty() && !p.upper.present);
    p = vls::prefix("b"sv, upper);
    expect("read", keys(x.o.bundle.read(p.lower, p.upper, 6)) == "b");
    p = vls::prefix("b"sv, {});
    expect("no room, and no key within",
           p.refusal.reason == vls::Reason::no_room && keys(x.o.bundle.read(p.lower, p.upper, 6)) == "");
}

void compaction() {
    Bytes l = list({{"a", 10, V, "new"}, {"a", 3, V, "old"}, {"b", 4, T, ""}}), kept = list({{"a", 10, V, "new"}});
    std::array<std::uint8_t, 64> out;
    std::uint32_t report[2] = {77, 77};
    vls::Compacted c = free_of_new("compact", [&] {
        return vls::compact(l, {5, true, false}, out, vls::table(report));
    });
    expect("compacted", !c.refusal && c.kept == 1 && c.reported == 1 && report[0] == 1 && report[1] == 77);
    same("the new list", bytes(c.list), kept);
    c = vls::compact(l, {5, false, true}, out, vls::table(report));
    same("zeroed", bytes(c.list), list({{"a", 10, V, "new"}, {"b", 0, T, ""}}));
    same("no report", row(vls::compact(l, {5, true, false}, out, {}).refusal), {VLS_NO_ROOM, 0, 1});
    same("no room", row(vls::compact(l, {5, true, false}, {}, {}).refusal), {VLS_NO_ROOM, 0, 0});
}

void filtering() {
    Bytes l = list({{"a", 10, V, "old"}, {"b", 9, V, ""}, {"c", 4, T, ""}});
    std::array<std::uint8_t, 64> out;
    std::uint32_t report[3] = {77, 77, 77};
    std::uint32_t verdicts[] = {VLS_REPLACE, VLS_INDIRECTION, 1, 3, VLS_DROP, 0, 0, 0, VLS_KEEP, 0, 0, 0};
    auto filter = [&](std::size_t entries) {
        return vls::compact_filtered(l, {5, false, true}, vls::table(verdicts, entries), "anew"sv, out,
                                     vls::table(report));
    };
    vls::Compacted c = free_of_new("compact_filtered", [&] { return filter(12); });
    expect("filtered",
           !c.refusal && c.kept == 2 && c.reported == 2 && report[0] == 0 && report[1] == 1 && report[2] == 77);
    same("the new list", bytes(c.list), list({{"a", 10, I, "new"}, {"c", 0, T, ""}}));
    same("one verdict too few", row(filter(11).refusal), {VLS_BAD_VERDICT, 0, 0});
    verdicts[3] = 4;
    c = filter(12);
    expect("a bad verdict", c.refusal.reason == vls::Reason::bad_verdict && c.refusal.name() == "bad verdict"s);
    expect("a bad verdict: nothing", c.list.empty() && c.kept == 0 && c.reported == 0);
}

} // namespace

int main() {
    spans();
    rooms();
    refusals();
    versions();
    checking();
    memtable();
    reading();
    looping();
    walking();
    prefixes();
    compaction();
    filtering();
    return ended("header");
}
