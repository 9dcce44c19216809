// What the tests of compaction share: the job, its answers as rows of numbers, how a call is held to them, and the
// lists that it refuses.
#pragma once

#include "support.hpp"

namespace border {

struct Job {
    std::uint64_t threshold;
    bool evict, zero;
};
constexpr bool EVICT = true, ZERO = true;

inline Numbers numbers(const vls_compacted &a) { return {a.number, a.list, a.record, a.length, a.kept, a.reported}; }

inline Numbers done(std::uint64_t length, std::uint64_t kept, std::uint64_t reported) {
    return {0, 0, 0, length, kept, reported};
}

inline Numbers not_done(std::uint64_t number, std::uint64_t record) { return {number, 0, record, 0, 0, 0}; }

// In the three below, a Call has what a compaction reads. Its `compact` lends that on the side, makes the call with the
// output and the report, and sees that what was lent to be read is kept.

template <class Call>
void compacted(const std::string &what, const Call &call, const Bytes &out, const Bytes &report, const Numbers &want,
               const Bytes &out_then, const Bytes &report_then) {
    for (Side side : SIDES) {
        Lent o(out, side, true), r(report, side, true);
        vls_compacted a = call.compact(what, side, o, r);
        same(what, numbers(a), want);
        same(what + ": output", o.now(), out_then);
        same(what + ": report", r.now(), report_then);
        expect(what + ": guard bytes", o.guarded() && r.guarded());
        if (a.number == 0)
            same(what + ": the output is accepted", numbers(vls_check(o.data(), a.length)), accepted(a.kept));
    }
}

// Refused: output and report stay, however long they are.
template <class Call>
void not_compacted(const std::string &what, const Call &call, std::size_t out_len, std::size_t report_len,
                   const Numbers &want) {
    Bytes out = filled(out_len, 0xEE), report = filled(report_len, 0xDD);
    compacted(what, call, out, report, want, out, report);
}

// One compaction, with just the room it needs, with more, and with each room one too short.
template <class Call>
void rooms(const std::string &what, const Call &call, const Versions &kept, const Numbers &reported) {
    Bytes out = list(kept), report = table(reported);
    std::size_t n = out.size(), r = report.size();
    Numbers want = done(n, kept.size(), reported.size());
    compacted(what, call, filled(n, 0xEE), filled(r, 0xDD), want, out, report);
    for (std::size_t more : Numbers{1, 3, 70})
        compacted(what + ", more room", call, filled(n + more, 0xEE), filled(r + more, 0xDD), want,
                  over(filled(n + more, 0xEE), out), over(filled(r + more, 0xDD), report));
    not_compacted(what + ", output a byte short", call, n - 1, r, not_done(VLS_NO_ROOM, 0));
    not_compacted(what + ", no output", call, 0, r + 4, not_done(VLS_NO_ROOM, 0));
    if (r == 0) return;
    not_compacted(what + ", report an entry short", call, n, r - 4, not_done(VLS_NO_ROOM, 1));
    not_compacted(what + ", report a byte short", call, n + 5, r - 1, not_done(VLS_NO_ROOM, 1));
    not_compacted(what + ", no report", call, n, 0, not_done(VLS_NO_ROOM, 1));
    not_compacted(what + ", both short", call, n - 1, r - 4, not_done(VLS_NO_ROOM, 0));
    not_compacted(what + ", neither", call, 0, 0, not_done(VLS_NO_ROOM, 0));
}

struct RefusedList {
    const char *what;
    Bytes list;
    Numbers want;
};

inline std::vector<RefusedList> refused_lists() {
    Versions three = {{"a", 9, V, "x"}, {"a", 3, V, "y"}, {"b", 1, V, "z"}}; // records end at 26, 43 and 60
    Bytes good = list(three);
    std::vector<RefusedList> rows = {
        {"no bytes", {}, not_done(VLS_TRUNCATED, 0)},
        {"another mark", with(good, 2, 'T'), not_done(VLS_BAD_MARK, 0)},
        {"another version", with(good, 4, 1), not_done(VLS_BAD_VERSION, 0)},
        {"an empty key", header(1) + le(0, 2), not_done(VLS_EMPTY_KEY, 0)},
        {"a wrong tag, second", with(good, 26 + 2 + 1 + 8, 3), not_done(VLS_BAD_TAG, 1)},
        {"disorder, third", with(good, 43 + 2, 'A'), not_done(VLS_DISORDER, 2)},
        {"a byte more", good + Bytes{0}, not_done(VLS_EXCESS, 3)},
        {"1,048,577 bytes", list_of_size(VLS_LIST_LIMIT + 1), not_done(VLS_TOO_LARGE, 0)},
    };
    for (std::size_t n = 9; n < good.size(); ++n)
        rows.push_back({"cut short", cut(good, n), not_done(VLS_TRUNCATED, n < 26 ? 0 : n < 43 ? 1 : 2)});
    return rows;
}

} // namespace border
