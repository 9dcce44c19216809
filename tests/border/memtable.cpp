// vls_memtable_new, vls_memtable_insert, vls_get and what a table tells of itself: a list in a lent buffer, with its
// state by value.
#include <algorithm>

#include "support.hpp"

using namespace border;

namespace {

Numbers numbers(const vls_memtable &s) { return {s.used, s.size, s.highest_seqno, s.id, s.flagged}; }

Numbers numbers(const vls_changed &c) {
    Numbers n = numbers(c.state);
    n.insert(n.begin(), {c.number, c.list, c.record});
    return n;
}

Numbers changed(Numbers refusal, const vls_memtable &state) {
    Numbers n = numbers(state);
    n.insert(n.begin(), refusal.begin(), refusal.end());
    return n;
}

const Numbers FINE = {0, 0, 0};

Numbers refusal(std::uint64_t number, std::uint64_t record = 0) { return {number, 0, record}; }

struct Table {
    Bytes buffer;
    vls_memtable state;
};

vls_memtable state_of(const Versions &versions, std::uint64_t id = 7, bool flagged = false) {
    vls_memtable s = {list(versions).size(), 0, 0, id, flagged};
    for (const Version &v : versions) {
        s.size += v.key.size() + v.value.size();
        s.highest_seqno = std::max(s.highest_seqno, v.seqno);
    }
    return s;
}

// A table that holds these versions, with so many bytes of the buffer to spare.
Table holding(const Versions &versions, std::size_t spare) {
    return {list(versions) + filled(spare, 0xEE), state_of(versions)};
}

void created(const std::string &what, const Bytes &buffer, std::uint64_t id, const Numbers &want, const Bytes &then) {
    for (Side side : SIDES) {
        Lent b(buffer, side, true);
        same(what, numbers(vls_memtable_new(b.data(), b.size(), id)), want);
        same(what + ": buffer", b.now(), then);
        expect(what + ": guard bytes", b.guarded());
    }
}

void inserted(const std::string &what, const Table &table, const Version &v, const Numbers &want, const Bytes &then) {
    Bytes key = text(v.key), value = text(v.value);
    for (Side side : SIDES) {
        Lent b(table.buffer, side, true), k(key, side), x(value, side);
        same(what,
             numbers(vls_memtable_insert(b.data(), b.size(), table.state, k.data(), k.size(), v.seqno, v.tag, x.data(),
                                         x.size())),
             want);
        same(what + ": buffer", b.now(), then);
        k.kept(what), x.kept(what);
        expect(what + ": guard bytes", b.guarded());
    }
}

// Refused: buffer and state stay.
void not_inserted(const std::string &what, const Table &table, const Version &v, const Numbers &why) {
    inserted(what, table, v, changed(why, table.state), table.buffer);
}

void got(const std::string &what, const Table &table, const std::string &key, std::uint64_t seqno,
         const Numbers &want) {
    Bytes bytes = text(key);
    for (Side side : SIDES) {
        Lent b(table.buffer, side), k(bytes, side);
        vls_found f = vls_get(b.data(), b.size(), table.state, k.data(), k.size(), seqno);
        same(what, Numbers{f.number, f.list, f.record, f.found, f.at, f.seqno, f.tag, f.value_start, f.value_len},
             want);
        b.kept(what), k.kept(what);
    }
}

const Numbers NOTHING = {0, 0, 0, 0, 0, 0, 0, 0, 0};

Numbers not_got(std::uint64_t number, std::uint64_t record = 0) { return {number, 0, record, 0, 0, 0, 0, 0, 0}; }

Numbers at(std::uint64_t record, std::uint64_t seqno, std::uint8_t tag, std::uint64_t start, std::uint64_t length) {
    return {0, 0, 0, 1, record, seqno, tag, start, length};
}

// What is told of a table, or why nothing is: size, length, highest seqno, and whether it is empty.
void told(const std::string &what, const Table &table, const Numbers &size, const Numbers &len, const Numbers &highest,
          const Numbers &empty) {
    for (Side side : SIDES) {
        Lent b(table.buffer, side);
        auto figure = [&](auto call) {
            vls_figure f = call(b.data(), b.size(), table.state);
            return Numbers{f.number, f.list, f.record, f.found, f.figure};
        };
        same(what + ": size", figure(vls_memtable_size), size);
        same(what + ": length", figure(vls_memtable_len), len);
        same(what + ": highest seqno", figure(vls_memtable_highest_seqno), highest);
        vls_told t = vls_memtable_is_empty(b.data(), b.size(), table.state);
        same(what + ": is empty", Numbers{t.number, t.list, t.record, t.yes}, empty);
        b.kept(what);
    }
}

void not_told(const std::string &what, const Table &table, const Numbers &why) {
    Numbers figure = why, flag = why;
    figure.insert(figure.end(), {0, 0}), flag.push_back(0);
    told(what, table, figure, figure, figure, flag);
}

Numbers is(std::uint64_t figure) { return {0, 0, 0, 1, figure}; }

void creation() {
    for (std::uint64_t id : Numbers{0, 7, MOST}) {
        for (std::size_t n = 0; n < 9; ++n)
            created("a buffer of " + std::to_string(n), filled(n, 0xEE), id,
                    changed(refusal(VLS_NO_ROOM), {0, 0, 0, id, false}), filled(n, 0xEE));
        for (std::size_t n : Numbers{9, 10, 64, 5000})
            created("a buffer of " + std::to_string(n), filled(n, 0xEE), id, changed(FINE, {9, 0, 0, id, false}),
                    over(filled(n, 0xEE), header(0)));
    }
}

// One insert, and the table as it is then by hand.
void put(Table &table, const Version &v, const Versions &then) {
    Bytes image = list(then), buffer = over(table.buffer, image);
    for (std::size_t i = image.size(); i < table.state.used; ++i) buffer[i] = 0;
    vls_memtable state = state_of(then, table.state.id, table.state.flagged);
    inserted("insert " + v.key + "@" + std::to_string(v.seqno), table, v, changed(FINE, state), buffer);
    table = {buffer, state};
}

void places(bool flagged) {
    Table t = holding({}, 300);
    t.state.flagged = flagged;
    t.state.id = MOST;
    Version a9 = {"a", 9, V, "a value"}, a6 = {"a", 6, W, "w"}, a3 = {"a", 3, T, ""}, ab = {"ab", 1, I, "i"},
            b5 = {"b", 5, V, "bb"}, c0 = {"c", 0, V, ""};
    put(t, b5, {b5});
    put(t, a3, {a3, b5});
    put(t, a9, {a9, a3, b5});
    put(t, a6, {a9, a6, a3, b5});
    put(t, ab, {a9, a6, a3, ab, b5});
    put(t, c0, {a9, a6, a3, ab, b5, c0});
    a6 = {"a", 6, V, "longer than before"};
    put(t, a6, {a9, a6, a3, ab, b5, c0});
    a6 = {"a", 6, I, "as long as before."};
    put(t, a6, {a9, a6, a3, ab, b5, c0});
    a6 = {"a", 6, T, ""};
    put(t, a6, {a9, a6, a3, ab, b5, c0});
    c0 = {"c", 0, W, "last"};
    put(t, c0, {a9, a6, a3, ab, b5, c0});
    c0 = {"c", 0, W, "l"};
    put(t, c0, {a9, a6, a3, ab, b5, c0});
    a9 = {"a", 9, V, ""};
    put(t, a9, {a9, a6, a3, ab, b5, c0});
    Version bm = {"b", MOST, V, "newest"}, ff = {"\xFF\x01", 2, T, "end"}, low = {std::string(1, '\0'), 8, V, "first"};
    put(t, bm, {a9, a6, a3, ab, bm, b5, c0});
    put(t, ff, {a9, a6, a3, ab, bm, b5, c0, ff});
    put(t, low, {low, a9, a6, a3, ab, bm, b5, c0, ff});
}

void one_record_at_0() {
    Table t = holding({}, 30);
    put(t, {"a", 0, V, "x"}, {{"a", 0, V, "x"}});
    got("a@0 at 1", t, "a", 1, at(0, 0, V, 25, 1));
    t.state.highest_seqno = 1;
    got("a@0, highest 1", t, "a", 1, not_got(VLS_UNFIT));
}

const Versions THREE = {{"a", 7, V, "x"}, {"b", 9, T, ""}, {"b", 2, V, "yz"}}; // records at 9, 26 and 42, the end at 60

// What the image and the state are refused for, before any argument is looked at.
void unfit_tables() {
    struct Row {
        const char *what;
        Table table;
        Numbers why;
    };
    Table good = holding(THREE, 40);
    auto with_state = [&](std::uint64_t used, std::uint64_t size, std::uint64_t highest) {
        return Table{good.buffer, {used, size, highest, 5, true}};
    };
    auto with_byte = [&](std::size_t where, std::uint8_t to) {
        return Table{with(good.buffer, where, to), good.state};
    };
    Bytes large = list_of_size(VLS_LIST_LIMIT + 1);
    const Row rows[] = {
        {"used just past the buffer", with_state(101, 7, 9), refusal(VLS_UNFIT)},
        {"used far past the buffer", with_state(MOST, 7, 9), refusal(VLS_UNFIT)},
        {"used 2^32 + 60", with_state((1ull << 32) + 60, 7, 9), refusal(VLS_UNFIT)},
        {"used past no buffer", {{}, good.state}, refusal(VLS_UNFIT)},
        {"used past a damaged buffer", {filled(60, 0), {61, 0, 0, 5, false}}, refusal(VLS_UNFIT)},
        {"used 0", with_state(0, 7, 9), refusal(VLS_TRUNCATED)},
        {"used 0 of no buffer", {{}, {0, 0, 0, 5, false}}, refusal(VLS_TRUNCATED)},
        {"used 8", with_state(8, 0, 0), refusal(VLS_TRUNCATED)},
        {"used cuts the third", with_state(59, 7, 9), refusal(VLS_TRUNCATED, 2)},
        {"used cuts the first", with_state(9, 7, 9), refusal(VLS_TRUNCATED, 0)},
        {"used a byte more", with_state(61, 7, 9), refusal(VLS_EXCESS, 3)},
        {"another mark", with_byte(1, 'M'), refusal(VLS_BAD_MARK)},
        {"another version", with_byte(3, 0), refusal(VLS_BAD_VERSION)},
        {"an empty key, third", with_byte(42, 0), refusal(VLS_EMPTY_KEY, 2)},
        {"a wrong tag, second", with_byte(26 + 11, 3), refusal(VLS_BAD_TAG, 1)},
        {"disorder, third", with_byte(42 + 2, 'a'), refusal(VLS_DISORDER, 2)},
        {"an image over the limit", {large, {large.size(), large.size() - 24, 1, 5, false}}, refusal(VLS_TOO_LARGE)},
        {"the image before its figures",
         {with(good.buffer, 42 + 2, 'a'), {60, 0, 0, 5, false}},
         refusal(VLS_DISORDER, 2)},
        {"size one less", with_state(60, 5, 9), refusal(VLS_UNFIT)},
        {"size one more", with_state(60, 7, 9), refusal(VLS_UNFIT)},
        {"size 2^64 - 1", with_state(60, MOST, 9), refusal(VLS_UNFIT)},
        {"highest one less", with_state(60, 6, 8), refusal(VLS_UNFIT)},
        {"highest one more", with_state(60, 6, 10), refusal(VLS_UNFIT)},
        {"highest is the last's", with_state(60, 6, 2), refusal(VLS_UNFIT)},
        {"empty, with a size", {header(0), {9, 1, 0, 5, false}}, refusal(VLS_UNFIT)},
        {"empty, with a highest", {header(0), {9, 0, 1, 5, false}}, refusal(VLS_UNFIT)},
    };
    const std::string longer(65536, 'k');
    for (const Row &r : rows) {
        for (const Version &v : {Version{"k", 1, V, "v"}, Version{"", 1, 3, ""}, Version{longer, 1, 3, ""}})
            not_inserted(r.what, r.table, v, r.why);
        for (std::uint64_t seqno : Numbers{0, 8, MOST})
            for (const std::string &key : {std::string("a"), std::string(), longer})
                got(r.what, r.table, key, seqno, not_got(r.why[0], r.why[2]));
        not_told(r.what, r.table, r.why);
    }
}

void figures() {
    for (std::size_t spare : Numbers{0, 40}) {
        told("no records", holding({}, spare), is(0), is(0), {0, 0, 0, 0, 0}, {0, 0, 0, 1});
        told("a@0", holding({{"a", 0, V, ""}}, spare), is(1), is(1), is(0), {0, 0, 0, 0});
        told("three", holding(THREE, spare), is(6), is(3), is(9), {0, 0, 0, 0});
        told("the greatest seqno", holding({{"a", 1, T, "x"}, {"b", MOST, W, "yy"}}, spare), is(5), is(2), is(MOST),
             {0, 0, 0, 0});
    }
    Table full = holding({{"k", 5, V, std::string(VLS_LIST_LIMIT - 25, 'v')}}, 3);
    told("the limit", full, is(VLS_LIST_LIMIT - 24), is(1), is(5), {0, 0, 0, 0});
    full.state.flagged = true, full.state.id = MOST;
    told("flag and id do not matter", full, is(VLS_LIST_LIMIT - 24), is(1), is(5), {0, 0, 0, 0});
}

// Flag and id are the state's, which is told from no buffer and never refused.
void state_alone() {
    for (bool flagged : {false, true})
        for (const vls_memtable &s :
             {vls_memtable{9, 0, 0, 7, flagged}, vls_memtable{0, 0, 0, 0, flagged},
              vls_memtable{MOST, MOST, MOST, MOST, flagged}, vls_memtable{1, 2, 3, 4, flagged}}) {
            expect("the flag", vls_memtable_is_flagged(s) == flagged);
            same("the id", Numbers{vls_memtable_id(s)}, Numbers{s.id});
            same("flagged", numbers(vls_memtable_flag_rotated(s)), Numbers{s.used, s.size, s.highest_seqno, s.id, 1});
        }
}

void arguments() {
    Table t = holding(THREE, 70000), tight = holding(THREE, 0);
    std::string longest(65535, 'k'), longer(65536, 'k');
    put(t, {longest, 1, V, "v"}, {THREE[0], THREE[1], THREE[2], {longest, 1, V, "v"}});
    for (const Table &table : {holding(THREE, 100), tight}) {
        not_inserted("65,536 bytes of key", table, {longer, 1, V, "v"}, refusal(VLS_LONG_KEY));
        not_inserted("65,536 bytes of key, a wrong tag", table, {longer, 1, 3, "v"}, refusal(VLS_LONG_KEY));
        not_inserted("no key", table, {"", 1, V, "v"}, refusal(VLS_EMPTY_KEY));
        not_inserted("no key, a wrong tag", table, {"", 1, 255, "v"}, refusal(VLS_EMPTY_KEY));
        for (unsigned tag = 3; tag < 256; ++tag)
            if (tag != 4)
                not_inserted("tag " + std::to_string(tag), table, {"k", 1, static_cast<std::uint8_t>(tag), "v"},
                             refusal(VLS_BAD_TAG));
    }
    not_inserted("the tag before 9", tight, {"k", 1, 3, std::string(VLS_LIST_LIMIT, 'v')}, refusal(VLS_BAD_TAG));
}

void room() {
    Version c = {"c", 1, V, "new"}; // 19 bytes: the image is then 79 long
    for (std::size_t spare = 0; spare < 19; ++spare)
        not_inserted("too little room", holding(THREE, spare), c, refusal(VLS_NO_ROOM));
    for (std::size_t spare : Numbers{19, 20}) {
        Table t = holding(THREE, spare);
        put(t, c, {THREE[0], THREE[1], THREE[2], c});
    }
    Table full = holding(THREE, 0);
    not_inserted("a replacement one longer", full, {"a", 7, V, "xx"}, refusal(VLS_NO_ROOM));
    put(full, {"b", 2, T, "as"}, {THREE[0], THREE[1], {"b", 2, T, "as"}});
    put(full, {"b", 9, V, ""}, {THREE[0], {"b", 9, V, ""}, {"b", 2, T, "as"}});
    put(full, {"b", 2, T, ""}, {THREE[0], {"b", 9, V, ""}, {"b", 2, T, ""}});
    put(full, {"a", 7, V, "x+"}, {{"a", 7, V, "x+"}, {"b", 9, V, ""}, {"b", 2, T, ""}});
}

void largest() {
    Version big = {"k", 5, V, std::string(VLS_LIST_LIMIT - 25 - 20, 'v')}; // 20 bytes under the limit
    for (std::size_t spare : Numbers{0, 19, 20, 30}) {
        Table t = holding({big}, spare);
        not_inserted("a byte over the limit", t, {"a", 1, V, "fives"}, refusal(VLS_TOO_LARGE));
        not_inserted("far over the limit", t, {"a", 1, V, std::string(VLS_LIST_LIMIT + 1, 'v')},
                     refusal(VLS_TOO_LARGE));
        not_inserted("a replacement over the limit", t, {"k", 5, V, big.value + std::string(21, 'v')},
                     refusal(VLS_TOO_LARGE));
        if (spare < 20) not_inserted("the limit itself, no room", t, {"a", 1, V, "four"}, refusal(VLS_NO_ROOM));
        else put(t, {"a", 1, V, "four"}, {{"a", 1, V, "four"}, big});
    }
    Table t = holding({big}, 40);
    big.value += std::string(20, 'w');
    put(t, big, {big});
    not_inserted("one byte more in a full table", t, {"k", 5, V, big.value + "+"}, refusal(VLS_TOO_LARGE));
    not_inserted("one record more in a full table", t, {"l", 0, T, ""}, refusal(VLS_TOO_LARGE));
    got("a full table", t, "k", 6, at(0, 5, V, 25, VLS_LIST_LIMIT - 25));
    Version small = {"k", 5, W, "s"};
    put(t, small, {small});
    Vast vast((1ull << 32) + 1);
    if (!vast.data()) return;
    Bytes buffer = t.buffer;
    std::uint8_t k = 'k';
    auto insert = [&](const std::uint8_t *key, std::size_t key_len, const std::uint8_t *value, std::size_t value_len) {
        return numbers(
            vls_memtable_insert(buffer.data(), buffer.size(), t.state, key, key_len, 1, V, value, value_len));
    };
    same("2^32 + 1 bytes of key", insert(vast.data(), vast.size(), &k, 1), changed(refusal(VLS_LONG_KEY), t.state));
    same("2^32 + 1 bytes of value", insert(&k, 1, vast.data(), vast.size()), changed(refusal(VLS_TOO_LARGE), t.state));
    same("2^32 + 1 bytes: buffer", buffer, t.buffer);
    same("2^32 + 1 bytes to look up",
         Numbers{vls_get(buffer.data(), buffer.size(), t.state, vast.data(), vast.size(), 1).number},
         Numbers{VLS_LONG_KEY});
}

void point_reads() {
    Table t = holding({{"a", 7, V, ""}, {"abc", 5, V, "5"}, {"abc", 4, V, "4"}, {"abc", 3, V, "3"}}, 10);
    // Records at 9, 25, 44 and 63; of abc the value stands 18 bytes further on.
    got("abc at 4", t, "abc", 4, at(3, 3, V, 81, 1));
    got("abc at 3", t, "abc", 3, NOTHING);
    got("abc at 5", t, "abc", 5, at(2, 4, V, 62, 1));
    got("abc at 6", t, "abc", 6, at(1, 5, V, 43, 1));
    got("abc at the greatest", t, "abc", MOST, at(1, 5, V, 43, 1));
    got("a at 8", t, "a", 8, at(0, 7, V, 25, 0));
    got("a at 7", t, "a", 7, NOTHING);
    for (const char *key : {"A", "ab", "aa", "abb", "abcd", "abd", "b", "\xFF"})
        got(std::string("no ") + key, t, key, MOST, NOTHING);
    got("no key", t, "", MOST, NOTHING);
    got("seqno 0", t, "abc", 0, NOTHING);
    std::string longest(65535, 'k'), longer(65536, 'k');
    got("the longest key", t, longest, 9, NOTHING);
    got("a longer key", t, longer, 9, not_got(VLS_LONG_KEY));
    got("a longer key at 1", t, longer, 1, not_got(VLS_LONG_KEY));
    got("a longer key at 0", t, longer, 0, NOTHING);
    t.state.flagged = true, t.state.id = MOST;
    got("flag and id do not matter", t, "abc", 4, at(3, 3, V, 81, 1));

    Table kinds = holding(
        {{"a", 4, T, "gone"}, {"a", 3, I, "far"}, {"a", 2, W, ""}, {"b", 0, V, "zero"}, {longest, MOST, W, "w"}}, 0);
    got("a tombstone", kinds, "a", 5, at(0, 4, T, 25, 4));
    got("an indirection", kinds, "a", 4, at(1, 3, I, 45, 3));
    got("a weak tombstone", kinds, "a", 3, at(2, 2, W, 64, 0));
    got("b@0 at 1", kinds, "b", 1, at(3, 0, V, 80, 4));
    got("the greatest seqno is never below", kinds, longest, MOST, NOTHING);

    Table empty = holding({}, 0);
    got("an empty table", empty, "a", MOST, NOTHING);
    got("an empty table, a longer key", empty, longer, MOST, not_got(VLS_LONG_KEY));

    Versions most;
    for (std::uint64_t i = 0; i < VLS_RECORD_LIMIT; ++i) most.push_back({"k", VLS_RECORD_LIMIT - i, V, ""});
    Table full = holding(most, 0);
    got("the first of 65,535", full, "k", MOST, at(0, 65535, V, 25, 0));
    got("the last of 65,535", full, "k", 2, at(65534, 1, V, 25 + 16 * 65534, 0));
    got("none of 65,535", full, "k", 1, NOTHING);
}

} // namespace

int main() {
    creation();
    places(false);
    places(true);
    one_record_at_0();
    unfit_tables();
    figures();
    state_alone();
    arguments();
    room();
    largest();
    point_reads();
    return ended("memtable");
}
