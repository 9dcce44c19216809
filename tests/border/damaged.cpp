// Good input with some bytes altered at random, handed to every function: there is an answer, a refusal changes
// nothing, and nobody touches what wasn't lent. Which answer is right is told by the other tests.
#include "reading.hpp"

using namespace border;

namespace {

// The same numbers in every run.
std::uint64_t seed = 0x2545F4914F6CDD1D;
std::uint64_t below(std::uint64_t n) {
    seed ^= seed << 13, seed ^= seed >> 7, seed ^= seed << 17;
    return seed % n;
}

// A byte that is likely to matter: small, large or any.
std::uint8_t any_byte() {
    switch (below(4)) {
    case 0: return static_cast<std::uint8_t>(below(6));
    case 1: return static_cast<std::uint8_t>(250 + below(6));
    default: return static_cast<std::uint8_t>(below(256));
    }
}

Bytes damaged(Bytes b) {
    for (std::uint64_t n = below(4); 0 < n && !b.empty(); --n) b[below(b.size())] = any_byte();
    if (below(8) == 0) b = cut(b, below(b.size() + 1));
    if (below(8) == 0) b = b + filled(below(9), any_byte());
    return b;
}

std::uint64_t any_number() {
    switch (below(4)) {
    case 0: return below(12);
    case 1: return MOST - below(3);
    case 2: return (1ull << 32) + below(3);
    default: return below(200);
    }
}

Bytes some_key() {
    static const char *keys[] = {"", "a", "ab", "b", "main", "main;run", "main;run;sort", "\xFF"};
    return text(keys[below(8)]);
}

std::uint8_t some_tag() {
    static const std::uint8_t tags[] = {V, T, W, I};
    return tags[below(4)];
}

Versions some_versions() {
    Versions versions;
    static const char *keys[] = {"a", "ab", "b", "main", "main;run", "main;run;sort", "\xFF"};
    for (const char *key : keys)
        for (std::uint64_t seqno = 9; 0 < seqno; --seqno)
            if (below(6) == 0) versions.push_back({key, seqno, some_tag(), std::string(below(5), 'v')});
    return versions;
}

// Verdicts on so many records, over values of so many bytes.
Bytes some_verdicts(std::size_t records, std::size_t values_len) {
    Bytes verdicts;
    for (; 0 < records; --records) {
        std::uint64_t what = below(3), tag = some_tag(), start = below(values_len + 1);
        verdicts = verdicts + table({what, tag, start, below(values_len - start + 1)});
    }
    return verdicts;
}

void refusals(const std::string &what, std::uint64_t number, std::uint64_t list, std::uint64_t record) {
    expect(what + ": a refusal's number", number <= VLS_BAD_VERDICT);
    expect(what + ": an accepted call names no place", number != 0 || (list == 0 && record == 0));
    expect(what + ": a list that can be", list < VLS_BUNDLE_LIMIT);
}

// A list that was judged so, which had so many records before it was damaged.
void filtered(const Lent &l, const vls_checked &c, std::size_t records, Side side) {
    Bytes values = filled(below(20), 'w'), verdicts = some_verdicts(records, values.size());
    bool good = below(2) && c.count == records;
    if (!good) values = damaged(values), verdicts = damaged(verdicts);
    Bytes out = filled(below(400), 0xEE), report = filled(below(60), 0xDD);
    Lent v(verdicts, side), x(values, side), o(out, side, true), r(report, side, true);
    vls_compacted a = vls_compact_filtered(l.data(), l.size(), any_number(), below(2), below(2), v.data(), v.size(),
                                           x.data(), x.size(), o.data(), o.size(), r.data(), r.size());
    refusals("filtered", a.number, a.list, a.record);
    bool no_room = a.number == VLS_NO_ROOM && a.record <= 1;
    bool none = a.number == VLS_BAD_VERDICT && a.record == 0;
    expect("filtered: judged as check judges",
           c.number == 0 ? a.number == 0 || no_room || none : a.number == c.number && a.record == c.record);
    expect("filtered: good verdicts are taken", !good || !none);
    expect("filtered: each record once", a.number != 0 || (a.kept <= c.count && a.reported <= c.count));
    if (a.number != 0)
        same("filtered: refused, output", o.now(), out), same("filtered: refused, report", r.now(), report);
    if (a.number == 0)
        same("filtered: the output is accepted", numbers(vls_check(o.data(), a.length)), accepted(a.kept));
    v.kept("filtered, verdicts"), x.kept("filtered, values");
    expect("filtered: guard bytes", o.guarded() && r.guarded());
}

void lists(Side side) {
    Versions versions = some_versions();
    Bytes bytes = damaged(list(versions)), out = filled(below(400), 0xEE), report = filled(below(60), 0xDD);
    Lent l(bytes, side), o(out, side, true), r(report, side, true);
    vls_checked c = vls_check(l.data(), l.size());
    refusals("check", c.number, c.list, c.record);
    vls_compacted a =
        vls_compact(l.data(), l.size(), any_number(), below(2), below(2), o.data(), o.size(), r.data(), r.size());
    refusals("compact", a.number, a.list, a.record);
    expect("compact: judged as check judges",
           c.number == 0 ? a.number == 0 || a.number == VLS_NO_ROOM : a.number == c.number && a.record == c.record);
    expect("compact: each record has one fate at most", a.number != 0 || a.kept + a.reported <= c.count);
    if (a.number != 0)
        same("compact: refused, output", o.now(), out), same("compact: refused, report", r.now(), report);
    if (a.number == 0)
        same("compact: the output is accepted", numbers(vls_check(o.data(), a.length)), accepted(a.kept));
    filtered(l, c, versions.size(), side);
    l.kept("lists");
    expect("lists: guard bytes", o.guarded() && r.guarded());
}

void memtables(Side side) {
    Versions versions = some_versions();
    Bytes image = list(versions);
    vls_memtable state = {image.size(), 0, 0, below(3), below(2) == 1};
    for (const Version &v : versions) {
        state.size += v.key.size() + v.value.size();
        if (state.highest_seqno < v.seqno) state.highest_seqno = v.seqno;
    }
    Bytes buffer = below(2) ? damaged(image + filled(below(80), 0)) : image + filled(below(80), 0);
    std::uint64_t *fields[] = {&state.used, &state.size, &state.highest_seqno};
    if (below(4) == 0) *fields[below(3)] = any_number();
    Bytes key = some_key(), value = filled(below(30), 'n');
    std::uint64_t seqno = any_number();
    Lent b(buffer, side, true), k(key, side), x(value, side);
    vls_found f = vls_get(b.data(), b.size(), state, k.data(), k.size(), seqno);
    refusals("get", f.number, f.list, f.record);
    expect("get: the value is in the buffer", f.value_start <= b.size() && f.value_len <= b.size() - f.value_start);
    expect("get: strictly below", !f.found || f.seqno < seqno);
    vls_figure figures[] = {vls_memtable_size(b.data(), b.size(), state), vls_memtable_len(b.data(), b.size(), state),
                            vls_memtable_highest_seqno(b.data(), b.size(), state)};
    for (const vls_figure &g : figures) {
        refusals("figures", g.number, g.list, g.record);
        expect("figures: judged as get judges", g.number == f.number && g.record == f.record);
        expect("figures: nothing is 0", g.found || g.figure == 0);
    }
    vls_told empty = vls_memtable_is_empty(b.data(), b.size(), state);
    expect("figures: empty has none",
           empty.number == figures[0].number && empty.yes == (empty.number == 0 && figures[1].figure == 0));
    expect("figures: of the state",
           figures[0].number != 0 || (figures[0].figure == state.size && figures[2].figure == state.highest_seqno &&
                                      figures[2].found == !empty.yes));
    same("get: buffer", b.now(), buffer);
    vls_changed c = vls_memtable_insert(b.data(), b.size(), state, k.data(), k.size(), seqno,
                                        static_cast<std::uint8_t>(below(6)), x.data(), x.size());
    refusals("insert", c.number, c.list, c.record);
    expect("insert: id and flag pass through", c.state.id == state.id && c.state.flagged == state.flagged);
    if (c.number != 0) {
        same("insert: refused, buffer", b.now(), buffer);
        expect("insert: refused, state", c.state.used == state.used && c.state.size == state.size &&
                                             c.state.highest_seqno == state.highest_seqno);
    } else {
        expect("insert: the image is accepted", vls_check(b.data(), c.state.used).number == 0);
        vls_found g = vls_get(b.data(), b.size(), c.state, k.data(), k.size(), seqno == MOST ? MOST : seqno + 1);
        expect("insert: it is found",
               seqno == MOST || (g.number == 0 && g.found && g.seqno == seqno && g.value_len == value.size()));
    }
    k.kept("memtables"), x.kept("memtables");
    expect("memtables: guard bytes", b.guarded());
}

// The stepping end moves inward, by the place found at least; everything else stays.
void moved(const vls_stepped &s, const vls_cursor &given, bool front, const Bytes &bundle) {
    const char *what = front ? "front" : "back";
    refusals(what, s.number, s.list, s.record);
    expect("a step is unfit or fine", s.number == 0 || s.number == VLS_UNFIT);
    if (!s.found) {
        same(std::string(what) + ": nothing, and the cursor as given",
             Numbers{s.at_list, s.at_record} + numbers(s.cursor), Numbers{0, 0} + numbers(given));
        return;
    }
    bool inward = s.number == 0 && s.at_list < 16 && !bundle.empty() && s.cursor.snapshot == given.snapshot;
    for (int k = 0; k < 16; ++k) {
        inward = inward && (front ? given.front[k] <= s.cursor.front[k] && given.back[k] == s.cursor.back[k]
                                  : s.cursor.back[k] <= given.back[k] && given.front[k] == s.cursor.front[k]);
        inward = inward && s.cursor.front[k] <= s.cursor.back[k];
    }
    expect(std::string(what) + ": inward", inward);
    std::uint64_t k = s.at_list % 16;
    bool passed = front ? given.front[k] <= s.at_record && s.at_record < s.cursor.front[k]
                        : s.cursor.back[k] <= s.at_record && s.at_record < given.back[k];
    expect(std::string(what) + ": past the place found", passed);
}

// A record is whole in the bundle, or 0; its parts are those that are told one by one.
void place(const LentBundle &lent, std::uint64_t list, std::uint64_t record, bool is_fit) {
    vls_placed p = lent.ask(vls_record, list, record);
    vls_part key = lent.ask(vls_key, list, record), value = lent.ask(vls_value, list, record);
    expect("an entry is at a fit place", p.fit || !is_fit);
    same("a place", Numbers{key.fit, key.start, key.length, value.fit, value.start, value.length},
         Numbers{p.fit, p.key_start, p.key_len, p.fit, p.value_start, p.value_len});
    if (!p.fit) {
        same("no place", Numbers{p.key_start, p.key_len, p.seqno, p.tag, p.value_start, p.value_len}, Numbers(6, 0));
        return;
    }
    expect("a place in the bundle", p.key_start <= p.value_start && p.value_start <= lent.bytes.size() &&
                                        p.value_len <= lent.bytes.size() - p.value_start);
    expect("a place's parts", p.value_start == p.key_start + p.key_len + 13);
    expect("a place's tag", p.tag <= T || p.tag == W || p.tag == I);
}

void bundles(Side side) {
    std::vector<Versions> contents(below(5));
    for (Versions &versions : contents) versions = some_versions();
    Bundle b = bundle(contents);
    if (below(3) == 0) b.lengths = damaged(b.lengths);
    if (below(2) == 0) b.bytes = damaged(b.bytes);
    Bytes room = filled(below(2) ? b.index.size() : below(200), 0xEE);
    Bytes lower = some_key(), upper = some_key();
    Lent table(room, side, true), l(lower, side), u(upper, side);
    if (below(3) == 0) b.index = damaged(b.index);
    LentBundle lent(b, side);
    vls_checked o = vls_open(lent.bytes.data(), lent.bytes.size(), lent.lengths.data(), lent.lengths.size(),
                             table.data(), table.size());
    refusals("open", o.number, o.list, o.record);
    if (o.number != 0) same("open: refused, index", table.now(), room);
    expect("open: guard bytes", table.guarded());
    bool flags[4];
    for (bool &flag : flags) flag = below(2) == 1;
    vls_started s = lent.ask(vls_start, flags[0], flags[1], l.data(), l.size(), flags[2], flags[3], u.data(), u.size(),
                             any_number());
    refusals("start", s.number, s.list, s.record);
    vls_cursor c = s.cursor;
    std::uint32_t *ends[] = {c.front, c.back};
    for (std::uint64_t n = below(3); 0 < n; --n)
        ends[below(2)][below(below(2) ? 16 : 4)] = static_cast<std::uint32_t>(any_number());
    for (int i = 0; i < 200; ++i) {
        bool front = below(2) == 1;
        vls_stepped next = front ? lent.ask(vls_front, c) : lent.ask(vls_back, c);
        moved(next, c, front, b.bytes);
        vls_cursor there = c;
        vls_answer a = lent.ask(front ? vls_front_in_place : vls_back_in_place, &there);
        same("in place", Numbers{a.number, a.list, a.record, a.found, a.at_list, a.at_record} + numbers(there),
             Numbers{next.number, next.list, next.record, next.found, next.at_list, next.at_record} +
                 numbers(next.cursor));
        if (!next.found) break;
        c = next.cursor;
        place(lent, next.at_list, next.at_record, true);
    }
    for (int i = 0; i < 3; ++i) place(lent, any_number(), any_number(), false);
    lent.kept("bundles"), l.kept("bundles"), u.kept("bundles");
}

} // namespace

int main() {
    for (int i = 0; i < 2000; ++i)
        for (Side side : SIDES) {
            lists(side);
            memtables(side);
            bundles(side);
        }
    return ended("damaged");
}
