// vls_compact_filtered: what a verdict does to its record and to those behind it, what is no verdict, and nothing
// written where anything is refused.
#include "compacting.hpp"

using namespace border;

namespace {

struct Verdict {
    std::uint32_t what, tag, start, length;
};

constexpr Verdict KEEP = {VLS_KEEP, 0, 0, 0}, DROP = {VLS_DROP, 0, 0, 0};

// Replaced by a tag and a part of the values.
constexpr Verdict by(std::uint32_t tag, std::uint32_t start, std::uint32_t length) {
    return {VLS_REPLACE, tag, start, length};
}

const Bytes VALUES = text("newlonger");
constexpr std::uint8_t TAGS[] = {V, T, W, I};

// A record, and the verdict on it.
struct Asked {
    std::string key;
    std::uint64_t seqno;
    std::uint8_t tag;
    std::string value;
    Verdict verdict;
};
using Input = std::vector<Asked>;

Bytes bytes(const Verdict &v) { return table({v.what, v.tag, v.start, v.length}); }

struct Call {
    Bytes list;
    Job job;
    Bytes verdicts, values;

    vls_compacted compact(const std::string &what, Side side, const Lent &out, const Lent &report) const {
        Lent l(list, side), v(verdicts, side), x(values, side);
        vls_compacted a =
            vls_compact_filtered(l.data(), l.size(), job.threshold, job.evict, job.zero, v.data(), v.size(), x.data(),
                                 x.size(), out.data(), out.size(), report.data(), report.size());
        l.kept(what), v.kept(what + ", verdicts"), x.kept(what + ", values");
        return a;
    }
};

Call call(const Input &input, Job job, const Bytes &values = VALUES) {
    Call c = {{}, job, {}, values};
    Versions versions;
    for (const Asked &a : input) {
        versions.push_back({a.key, a.seqno, a.tag, a.value});
        c.verdicts = c.verdicts + bytes(a.verdict);
    }
    c.list = list(versions);
    return c;
}

// The same with other words behind keep and drop, which nobody looks at.
Input unread(Input input) {
    for (Asked &a : input)
        if (a.verdict.what != VLS_REPLACE) a.verdict = {a.verdict.what, UINT32_MAX, UINT32_MAX, UINT32_MAX};
    return input;
}

void row(const std::string &what, const Input &input, Job job, const Versions &kept, const Numbers &reported) {
    rooms(what, call(input, job), kept, reported);
    Bytes out = list(kept), report = table(reported);
    compacted(what + ", other words", call(unread(input), job), filled(out.size(), 0xEE), filled(report.size(), 0xDD),
              done(out.size(), kept.size(), reported.size()), out, report);
}

void samples() {
    row("a@3 behind a drop", {{"a", 10, V, "", KEEP}, {"a", 8, V, "", DROP}, {"a", 3, V, "", KEEP}}, {5, false, false},
        {{"a", 10, V, ""}, {"a", 3, V, ""}}, {1});
    row("a@10 T, a@3 V dropped", {{"a", 10, T, "", KEEP}, {"a", 3, V, "", DROP}}, {0, EVICT, false}, {{"a", 10, T, ""}},
        {1});
}

void drops() {
    for (bool evict : {false, EVICT}) {
        Job job = {5, evict, false};
        row("no records", {}, job, {}, {});
        row("V kept", {{"a", 10, V, "x", KEEP}}, job, {{"a", 10, V, "x"}}, {});
        row("V dropped", {{"a", 10, V, "x", DROP}}, job, {}, {0});
        row("V dropped, below", {{"a", 4, V, "x", DROP}}, job, {}, {0});
        row("I dropped", {{"a", 10, I, "x", DROP}}, job, {}, {0});
        row("the newest", {{"a", 10, V, "x", DROP}, {"a", 9, V, "y", KEEP}}, job, {{"a", 9, V, "y"}}, {0});
        row("the oldest", {{"a", 10, V, "x", KEEP}, {"a", 9, V, "y", DROP}}, job, {{"a", 10, V, "x"}}, {1});
        row("the middle", {{"a", 10, V, "x", KEEP}, {"a", 9, V, "y", DROP}, {"a", 8, V, "z", KEEP}}, job,
            {{"a", 10, V, "x"}, {"a", 8, V, "z"}}, {1});
        row("the next does not expire", {{"a", 10, V, "x", DROP}, {"a", 3, V, "y", KEEP}}, job, {{"a", 3, V, "y"}},
            {0});
        row("nor does an I", {{"a", 4, V, "x", DROP}, {"a", 3, I, "y", KEEP}}, job, {{"a", 3, I, "y"}}, {0});
        row("the one behind it does", {{"a", 10, V, "x", DROP}, {"a", 4, V, "y", KEEP}, {"a", 3, V, "z", KEEP}}, job,
            {{"a", 4, V, "y"}}, {0, 2});
        row("several in a row",
            {{"a", 10, V, "", DROP},
             {"a", 9, I, "", DROP},
             {"a", 4, V, "", DROP},
             {"a", 3, V, "x", KEEP},
             {"a", 2, V, "", DROP},
             {"a", 1, V, "", KEEP}},
            job, {{"a", 3, V, "x"}}, {0, 1, 2, 4, 5});
        row("several in a row behind one kept",
            {{"a", 12, V, "x", KEEP}, {"a", 10, V, "", DROP}, {"a", 9, V, "", DROP}, {"a", 3, V, "y", KEEP}}, job,
            {{"a", 12, V, "x"}, {"a", 3, V, "y"}}, {1, 2});
        row("all", {{"a", 10, V, "", DROP}, {"a", 9, V, "", DROP}, {"b", 3, I, "", DROP}, {"b", 1, V, "", DROP}}, job,
            {}, {0, 1, 2, 3});
    }
}

// A drop is its own record's, whatever stands before it, and ends with its key.
void beside_a_drop() {
    for (bool evict : {false, EVICT}) {
        Job job = {5, evict, false};
        auto if_not = [&](const Versions &kept) { return evict ? Versions{} : kept; };
        row("T before it stays", {{"a", 10, T, "", KEEP}, {"a", 9, V, "", DROP}}, job, {{"a", 10, T, ""}}, {1});
        row("W before it stays", {{"a", 10, W, "", KEEP}, {"a", 9, V, "", DROP}}, job, {{"a", 10, W, ""}}, {1});
        row("T behind it, last", {{"a", 10, V, "", DROP}, {"a", 9, T, "", KEEP}}, job, if_not({{"a", 9, T, ""}}), {0});
        row("W behind it, last", {{"a", 10, V, "", DROP}, {"a", 9, W, "", KEEP}}, job, if_not({{"a", 9, W, ""}}), {0});
        row("T behind it, below", {{"a", 10, V, "", DROP}, {"a", 4, T, "", KEEP}}, job, if_not({{"a", 4, T, ""}}), {0});
        row("T behind it, before an expired I", {{"a", 10, V, "", DROP}, {"a", 9, T, "", KEEP}, {"a", 3, I, "", KEEP}},
            job, if_not({{"a", 9, T, ""}}), {0, 2});
        row("W behind it, before an expired V", {{"a", 10, V, "", DROP}, {"a", 9, W, "", KEEP}, {"a", 3, V, "", KEEP}},
            job, {}, {0, 2});
        row("W behind it, before an expired I", {{"a", 10, V, "", DROP}, {"a", 9, W, "", KEEP}, {"a", 3, I, "", KEEP}},
            job, {{"a", 9, W, ""}}, {0, 2});
        row("T behind it and a V before", {{"a", 10, V, "x", KEEP}, {"a", 9, V, "", DROP}, {"a", 8, T, "", KEEP}}, job,
            evict ? Versions{{"a", 10, V, "x"}} : Versions{{"a", 10, V, "x"}, {"a", 8, T, ""}}, {1});
        row("the next key's newest", {{"a", 10, V, "x", KEEP}, {"a", 9, V, "", DROP}, {"ab", 3, V, "y", KEEP}}, job,
            {{"a", 10, V, "x"}, {"ab", 3, V, "y"}}, {1});
        row("the next key's tail", {{"a", 1, V, "", DROP}, {"b", 9, V, "x", KEEP}, {"b", 3, V, "", KEEP}}, job,
            {{"b", 9, V, "x"}}, {0, 2});
    }
}

void each_tag() {
    struct Part {
        std::uint32_t start, length;
        const char *value;
    };
    const Part parts[] = {{0, 3, "new"}, {3, 6, "longer"}, {0, 9, "newlonger"}, {8, 1, "r"},
                          {0, 0, ""},    {4, 0, ""},       {9, 0, ""}};
    for (std::uint8_t tag : TAGS)
        for (const Part &p : parts)
            for (std::uint8_t old : {V, I})
                for (bool evict : {false, EVICT}) {
                    Versions kept = {{"a", 10, tag, p.value}};
                    if (evict && (tag == T || tag == W)) kept = {};
                    row("replaced", {{"a", 10, old, "old", by(tag, p.start, p.length)}}, {5, evict, false}, kept, {0});
                }
    rooms("no values", call({{"a", 10, V, "old", by(I, 0, 0)}}, {5, false, false}, {}), {{"a", 10, I, ""}}, {0});
}

void replacements() {
    for (bool evict : {false, EVICT}) {
        Job job = {5, evict, false};
        row("two by one part", {{"a", 9, V, "x", by(V, 0, 3)}, {"b", 9, V, "y", by(I, 0, 3)}}, job,
            {{"a", 9, V, "new"}, {"b", 9, I, "new"}}, {0, 1});
        row("by parts that overlap", {{"a", 9, V, "", by(V, 2, 4)}, {"b", 9, V, "", by(V, 0, 4)}}, job,
            {{"a", 9, V, "wlon"}, {"b", 9, V, "newl"}}, {0, 1});
        row("several versions", {{"a", 10, V, "x", by(V, 0, 3)}, {"a", 9, V, "y", by(I, 3, 6)}, {"a", 8, V, "z", KEEP}},
            job, {{"a", 10, V, "new"}, {"a", 9, I, "longer"}, {"a", 8, V, "z"}}, {0, 1});
        row("the second of two", {{"a", 10, V, "x", KEEP}, {"a", 9, V, "y", by(V, 3, 6)}}, job,
            {{"a", 10, V, "x"}, {"a", 9, V, "longer"}}, {1});
        row("and the tail behind it", {{"a", 10, V, "x", by(V, 0, 3)}, {"a", 4, V, "", KEEP}, {"a", 3, T, "", KEEP}},
            job, {{"a", 10, V, "new"}}, {0, 1, 2});
        row("below, and the tail behind it", {{"a", 4, V, "x", by(I, 0, 3)}, {"a", 3, V, "", KEEP}}, job,
            {{"a", 4, I, "new"}}, {0, 1});
        row("before a drop", {{"a", 10, V, "x", by(V, 0, 3)}, {"a", 9, V, "", DROP}, {"a", 3, V, "y", KEEP}}, job,
            {{"a", 10, V, "new"}, {"a", 3, V, "y"}}, {0, 1});
        row("behind a drop", {{"a", 10, V, "", DROP}, {"a", 3, V, "x", by(V, 0, 3)}, {"a", 2, V, "", KEEP}}, job,
            {{"a", 3, V, "new"}}, {0, 1, 2});
    }
}

void judged_by_the_new_tag() {
    for (bool evict : {false, EVICT}) {
        Job job = {5, evict, false};
        auto if_not = [&](const Versions &kept) { return evict ? Versions{} : kept; };
        row("by W before an expired V", {{"a", 10, V, "x", by(W, 0, 3)}, {"a", 4, V, "", KEEP}}, job, {}, {0, 1});
        row("I by W before an expired V", {{"a", 10, I, "x", by(W, 9, 0)}, {"a", 4, V, "", KEEP}}, job, {}, {0, 1});
        for (std::uint8_t tag : {T, W, I})
            row("by W before another expired", {{"a", 10, V, "x", by(W, 0, 3)}, {"a", 4, tag, "", KEEP}}, job,
                {{"a", 10, W, "new"}}, {0, 1});
        for (std::uint8_t tag : TAGS)
            row("by T before an expired one", {{"a", 10, V, "x", by(T, 0, 3)}, {"a", 4, tag, "", KEEP}}, job,
                if_not({{"a", 10, T, "new"}}), {0, 1});
        row("by I before an expired V", {{"a", 10, V, "x", by(I, 0, 3)}, {"a", 4, V, "", KEEP}}, job,
            {{"a", 10, I, "new"}}, {0, 1});
        row("by T, last", {{"a", 10, V, "x", KEEP}, {"a", 9, V, "y", by(T, 0, 3)}}, job,
            evict ? Versions{{"a", 10, V, "x"}} : Versions{{"a", 10, V, "x"}, {"a", 9, T, "new"}}, {1});
        row("by T, not last", {{"a", 10, V, "x", by(T, 0, 3)}, {"a", 9, V, "y", KEEP}}, job,
            {{"a", 10, T, "new"}, {"a", 9, V, "y"}}, {0});
        row("by W before a V that is not expired", {{"a", 10, V, "x", by(W, 0, 3)}, {"a", 5, V, "y", KEEP}}, job,
            {{"a", 10, W, "new"}, {"a", 5, V, "y"}}, {0});
        row("by T before a drop", {{"a", 10, V, "x", by(T, 0, 3)}, {"a", 9, V, "y", DROP}}, job, {{"a", 10, T, "new"}},
            {0, 1});
        row("by T behind a drop", {{"a", 10, V, "x", DROP}, {"a", 3, V, "y", by(T, 0, 3)}}, job,
            if_not({{"a", 3, T, "new"}}), {0, 1});
    }
}

void unasked() {
    for (bool evict : {false, EVICT})
        for (Verdict ignored : {DROP, by(V, 0, 3), by(T, 3, 6), by(I, 9, 0)}) {
            Job job = {5, evict, false};
            auto if_not = [&](const Versions &kept) { return evict ? Versions{} : kept; };
            for (std::uint8_t tag : {T, W}) {
                row("a tombstone", {{"a", 10, tag, "t", ignored}}, job, if_not({{"a", 10, tag, "t"}}), {});
                row("a tombstone, not last", {{"a", 10, tag, "t", ignored}, {"a", 9, V, "v", KEEP}}, job,
                    {{"a", 10, tag, "t"}, {"a", 9, V, "v"}}, {});
                row("a tombstone behind a drop", {{"a", 10, V, "", DROP}, {"a", 9, tag, "t", ignored}}, job,
                    if_not({{"a", 9, tag, "t"}}), {0});
            }
            row("T before a tail", {{"a", 10, T, "t", ignored}, {"a", 3, V, "", ignored}}, job,
                if_not({{"a", 10, T, "t"}}), {1});
            row("a tail", {{"a", 10, V, "x", KEEP}, {"a", 4, V, "", ignored}, {"a", 3, I, "", ignored}}, job,
                {{"a", 10, V, "x"}}, {1, 2});
            row("a tail behind one replaced", {{"a", 10, V, "x", by(V, 0, 3)}, {"a", 4, V, "", ignored}}, job,
                {{"a", 10, V, "new"}}, {0, 1});
            row("the tail's first is a V yet", {{"a", 10, W, "", KEEP}, {"a", 4, V, "", ignored}}, job, {}, {1});
            row("the tail's first is an I yet", {{"a", 10, W, "", KEEP}, {"a", 4, I, "", ignored}}, job,
                {{"a", 10, W, ""}}, {1});
            row("by W, the tail's first is a V yet", {{"a", 10, V, "", by(W, 0, 0)}, {"a", 4, V, "", ignored}}, job, {},
                {0, 1});
            row("by W, the tail's first is an I yet", {{"a", 10, V, "", by(W, 0, 0)}, {"a", 4, I, "", ignored}}, job,
                {{"a", 10, W, ""}}, {0, 1});
        }
}

void zeroing() {
    row("replaced, below", {{"a", 4, V, "old", by(I, 0, 3)}}, {5, false, ZERO}, {{"a", 0, I, "new"}}, {0});
    row("replaced, below, but off", {{"a", 4, V, "old", by(I, 0, 3)}}, {5, false, false}, {{"a", 4, I, "new"}}, {0});
    row("replaced at the threshold", {{"a", 5, V, "old", by(V, 0, 3)}}, {5, false, ZERO}, {{"a", 5, V, "new"}}, {0});
    row("replaced by T", {{"a", 4, V, "old", by(T, 0, 3)}}, {5, false, ZERO}, {{"a", 0, T, "new"}}, {0});
    row("all eight bytes", {{"a", 0x0102030405060708, V, "old", by(V, 0, 3)}}, {MOST, false, ZERO},
        {{"a", 0, V, "new"}}, {0});
    row("behind a drop", {{"a", 10, V, "", DROP}, {"a", 3, V, "x", KEEP}}, {5, false, ZERO}, {{"a", 0, V, "x"}}, {0});
    row("behind one kept and a drop",
        {{"a", 10, V, "x", KEEP}, {"a", 8, V, "", DROP}, {"a", 3, V, "y", by(V, 0, 3)}, {"a", 2, V, "", KEEP}},
        {5, false, ZERO}, {{"a", 10, V, "x"}, {"a", 0, V, "new"}}, {1, 2, 3});
}

void thresholds() {
    auto three = [](Verdict six, Verdict five, Verdict four) {
        return Input{{"a", 6, V, "6", six}, {"a", 5, V, "5", five}, {"a", 4, V, "4", four}};
    };
    Version six = {"a", 6, V, "6"}, five = {"a", 5, V, "5"}, four = {"a", 4, V, "4"}, other = {"a", 5, I, "new"};
    for (std::uint64_t t : Numbers{0, 4, 5, 6, 7, MOST}) {
        Job job = {t, EVICT, false};
        row("all dropped", three(DROP, DROP, DROP), job, {}, {0, 1, 2});
        row("the first two dropped", three(DROP, DROP, KEEP), job, {four}, {0, 1});
        row("the first dropped", three(DROP, KEEP, KEEP), job, t <= 4 ? Versions{five, four} : Versions{five},
            t <= 4 ? Numbers{0} : Numbers{0, 2});
        row("the second dropped", three(KEEP, DROP, KEEP), job, t <= 5 ? Versions{six, four} : Versions{six},
            t <= 5 ? Numbers{1} : Numbers{1, 2});
        row("the last dropped", three(KEEP, KEEP, DROP), job, t <= 5 ? Versions{six, five} : Versions{six},
            t <= 5 ? Numbers{2} : Numbers{1, 2});
        row("the second replaced", three(KEEP, by(I, 0, 3), KEEP), job,
            t <= 4   ? Versions{six, other, four}
            : t <= 5 ? Versions{six, other}
                     : Versions{six},
            t <= 4 ? Numbers{1} : Numbers{1, 2});
        row("W before a drop", {{"a", 6, W, "", KEEP}, {"a", 5, V, "", DROP}, {"a", 4, V, "4", KEEP}}, job,
            t <= 5 ? Versions{{"a", 6, W, ""}, four} : Versions{}, t <= 5 ? Numbers{1} : Numbers{1, 2});
    }
    row("the greatest", {{"a", MOST, V, "", DROP}, {"a", MOST - 1, V, "x", KEEP}, {"a", 0, V, "", KEEP}},
        {MOST, false, ZERO}, {{"a", 0, V, "x"}}, {0, 2});
    row("one of more than 32 bits", {{"a", 9, V, "x", KEEP}, {"a", 5, V, "", DROP}, {"a", 4, V, "", KEEP}},
        {1ull << 32, false, false}, {{"a", 9, V, "x"}}, {1, 2});
}

void keys() {
    Input input = {{"a", 10, V, "1", by(V, 0, 3)}, {"a", 3, V, "2", DROP},        {"ab", 4, T, "3", DROP},
                   {"b", 7, I, "4", DROP},         {"b", 2, V, "5", KEEP},        {"c", 9, V, "6", by(W, 3, 6)},
                   {"c", 1, V, "7", KEEP},         {"d", 1, V, "8", by(T, 9, 0)}, {"e", 2, I, "9", KEEP}};
    Numbers reported = {0, 1, 3, 5, 6, 7};
    row("nine records", input, {5, false, false},
        {{"a", 10, V, "new"}, {"ab", 4, T, "3"}, {"b", 2, V, "5"}, {"d", 1, T, ""}, {"e", 2, I, "9"}}, reported);
    row("nine records, evicted", input, {5, EVICT, false}, {{"a", 10, V, "new"}, {"b", 2, V, "5"}, {"e", 2, I, "9"}},
        reported);
    row("nine records, zeroed", input, {5, false, ZERO},
        {{"a", 10, V, "new"}, {"ab", 0, T, "3"}, {"b", 0, V, "5"}, {"d", 0, T, ""}, {"e", 0, I, "9"}}, reported);
    row("nine records, both", input, {5, EVICT, ZERO}, {{"a", 10, V, "new"}, {"b", 0, V, "5"}, {"e", 0, I, "9"}},
        reported);
}

// Where all are kept, answer, output and report are those of vls_compact.
void as_compact(const Bytes &list, const Bytes &verdicts, Job job, std::size_t out_len, std::size_t report_len) {
    Bytes out = filled(out_len, 0xEE), report = filled(report_len, 0xDD), out_too = out, report_too = report;
    vls_compacted a = vls_compact(list.data(), list.size(), job.threshold, job.evict, job.zero, out.data(), out.size(),
                                  report.data(), report.size());
    vls_compacted b = vls_compact_filtered(list.data(), list.size(), job.threshold, job.evict, job.zero,
                                           verdicts.data(), verdicts.size(), nullptr, 0, out_too.data(), out_too.size(),
                                           report_too.data(), report_too.size());
    same("all keep", numbers(b), numbers(a));
    same("all keep: output", out_too, out);
    same("all keep: report", report_too, report);
}

void all_keep() {
    const Bytes zeros = filled(4 * VLS_VERDICT_SIZE, 0);
    for (int n = 0; n < 256; ++n) {
        auto tag = [&](int i) { return TAGS[(n >> (2 * i)) & 3]; };
        Bytes l = list({{"a", 8, tag(0), "1"}, {"a", 6, tag(1), ""}, {"a", 4, tag(2), "3"}, {"b", 5, tag(3), "4"}});
        for (std::uint64_t t : Numbers{0, 5, 6, 7, 9, MOST})
            for (bool evict : {false, EVICT})
                for (bool zero : {false, ZERO}) {
                    as_compact(l, zeros, {t, evict, zero}, l.size(), VLS_REPORT_SIZE(l.size()));
                    as_compact(l, zeros, {t, evict, zero}, 42, 4);
                }
    }
    for (const RefusedList &r : refused_lists()) as_compact(r.list, zeros, {5, EVICT, ZERO}, 200, 40);
}

// a@10 and b@4 are asked, a@9 is a tombstone and a@3 a tail.
const Input FOUR = {{"a", 10, V, "x", KEEP}, {"a", 9, T, "t", KEEP}, {"a", 3, V, "y", KEEP}, {"b", 4, I, "z", KEEP}};
const Job FIVE = {5, false, false};
const Versions FOUR_KEPT = {{"a", 10, V, "x"}, {"a", 9, T, "t"}, {"b", 4, I, "z"}};

void counts() {
    Call good = call(FOUR, FIVE);
    Bytes verdicts = good.verdicts;
    auto none = [&](const std::string &what, const Bytes &given) {
        Call c = {good.list, FIVE, given, VALUES};
        not_compacted(what, c, 200, 40, not_done(VLS_BAD_VERDICT, 0));
        not_compacted(what + ", and no room", c, 0, 0, not_done(VLS_BAD_VERDICT, 0));
    };
    rooms("four verdicts", good, FOUR_KEPT, {2});
    none("no verdicts", {});
    none("one verdict too few", cut(verdicts, 48));
    none("one verdict too many", verdicts + bytes(KEEP));
    none("twice as many", verdicts + verdicts);
    for (std::size_t n = 1; n < VLS_VERDICT_SIZE; ++n) {
        none("some bytes missing", cut(verdicts, verdicts.size() - n));
        none("one too many and some bytes", verdicts + filled(VLS_VERDICT_SIZE + n, 0));
        rooms("stray bytes", Call{good.list, FIVE, verdicts + filled(n, 0xFF), VALUES}, FOUR_KEPT, {2});
        rooms("stray bytes on no records", Call{list({}), FIVE, filled(n, 0xFF), {}}, {}, {});
    }
    rooms("no verdicts on no records", Call{list({}), FIVE, {}, {}}, {}, {});
    not_compacted("a verdict on no record", Call{list({}), FIVE, bytes(KEEP), {}}, 9, 0, not_done(VLS_BAD_VERDICT, 0));
}

// What is no verdict is none on each of the four, asked or not.
void no_verdict(const std::string &what, const Verdict &v) {
    for (std::size_t i = 0; i < FOUR.size(); ++i) {
        Input input = FOUR;
        input[i].verdict = v;
        std::string there = what + " on record " + std::to_string(i);
        not_compacted(there, call(input, FIVE), 200, 40, not_done(VLS_BAD_VERDICT, 0));
        not_compacted(there + ", and no room", call(input, FIVE), 0, 0, not_done(VLS_BAD_VERDICT, 0));
    }
}

void no_verdicts() {
    for (std::uint32_t what : {3u, 4u, 255u, 256u, 258u, 0x1000000u, 0x80000000u, 0x80000002u, UINT32_MAX})
        no_verdict("what " + std::to_string(what), {what, V, 0, 3});
    for (std::uint32_t tag : {3u, 5u, 255u, 256u, 257u, 260u, 0x1000000u, 0x80000000u, UINT32_MAX})
        no_verdict("tag " + std::to_string(tag), by(tag, 0, 3));
    for (std::uint8_t tag : TAGS) {
        no_verdict("a value of a byte too many", by(tag, 0, 10));
        no_verdict("a value that ends a byte past", by(tag, 8, 2));
        no_verdict("a value that starts at the end", by(tag, 9, 1));
        no_verdict("an empty value past the end", by(tag, 10, 0));
        no_verdict("an empty value far past the end", by(tag, UINT32_MAX, 0));
        no_verdict("a value of 2^32 - 1 bytes", by(tag, 0, UINT32_MAX));
        no_verdict("a value up to 2^32", by(tag, UINT32_MAX, 1));
        no_verdict("a value from 1 up to 2^32", by(tag, 1, UINT32_MAX));
        no_verdict("a value of the upper half", by(tag, 0x80000000, 0x80000000));
        no_verdict("a value up to 2^32 + 9", by(tag, UINT32_MAX, 10));
        no_verdict("a value from 10 up to 2^32 + 9", by(tag, 10, UINT32_MAX));
        no_verdict("start and length the greatest", by(tag, UINT32_MAX, UINT32_MAX));
    }
    Call c = call({{"a", 10, V, "x", by(V, 0, 1)}}, FIVE, {});
    not_compacted("a byte of no values", c, 200, 40, not_done(VLS_BAD_VERDICT, 0));
    c = call({{"a", 10, V, "x", by(V, 1, 0)}}, FIVE, {});
    not_compacted("an empty value past no values", c, 200, 40, not_done(VLS_BAD_VERDICT, 0));
}

// The list's own refusals come first.
void refused_first() {
    for (const RefusedList &r : refused_lists())
        for (const Bytes &verdicts : {Bytes(), filled(48, 0), filled(48, 0xFF)}) {
            Call c = {r.list, {5, EVICT, ZERO}, verdicts, {}};
            not_compacted(r.what, c, 200, 40, r.want);
            not_compacted(std::string(r.what) + ", and no room", c, 0, 0, r.want);
        }
}

// Bytes that show from where they were taken.
Bytes many(std::size_t n) {
    Bytes b(n);
    for (std::size_t i = 0; i < n; ++i) b[i] = static_cast<std::uint8_t>(i % 251);
    return b;
}

std::string part(const Bytes &b, std::size_t start, std::size_t length) {
    return std::string(b.begin() + static_cast<long>(start), b.begin() + static_cast<long>(start + length));
}

constexpr std::uint32_t LONGEST = VLS_LIST_LIMIT - 25; // the value of a list's one record, its key of one byte

void limit() {
    Bytes values = many(VLS_LIST_LIMIT);
    Numbers too_large = not_done(VLS_TOO_LARGE, 0);
    auto one = [&](Verdict v) { return call({{"k", 1, V, "old", v}}, {0, EVICT, ZERO}, values); };
    Bytes whole = list({{"k", 1, I, part(values, 1, LONGEST)}});
    compacted("1,048,576 bytes", one(by(I, 1, LONGEST)), filled(VLS_LIST_LIMIT, 0xEE), filled(4, 0xDD),
              done(VLS_LIST_LIMIT, 1, 1), whole, table({0}));
    not_compacted("a byte short", one(by(I, 1, LONGEST)), VLS_LIST_LIMIT - 1, 4, not_done(VLS_NO_ROOM, 0));
    not_compacted("no report", one(by(I, 1, LONGEST)), VLS_LIST_LIMIT, 3, not_done(VLS_NO_ROOM, 1));
    for (Verdict v : {by(I, 0, LONGEST + 1), by(V, 0, VLS_LIST_LIMIT)}) {
        not_compacted("1,048,577 bytes", one(v), VLS_LIST_LIMIT + 25, 4, too_large);
        not_compacted("1,048,577 bytes, no report", one(v), VLS_LIST_LIMIT + 25, 0, too_large);
        not_compacted("1,048,577 bytes, no room", one(v), 0, 0, too_large);
    }
    rooms("what goes has no length", one(by(T, 0, VLS_LIST_LIMIT)), {}, {0});
    Input input = {{"a", 9, V, "x", by(V, 0, LONGEST)}, {"b", 9, V, "y", {3, 0, 0, 0}}};
    not_compacted("a bad verdict first", call(input, FIVE, values), 0, 0, not_done(VLS_BAD_VERDICT, 0));
    Verdict ignored = by(V, 0, VLS_LIST_LIMIT);
    input = {{"a", 9, V, "x", KEEP}, {"a", 8, T, "t", ignored}, {"a", 3, V, "y", ignored}, {"b", 9, V, "", DROP}};
    rooms("nor has what is ignored", call(input, FIVE, values), {{"a", 9, V, "x"}, {"a", 8, T, "t"}}, {2, 3});
}

// A list as long as may be, in which the last of two records grows.
void full() {
    Bytes values = many(VLS_LIST_LIMIT);
    constexpr std::uint32_t most = LONGEST - 16;
    std::string old(most, 'v');
    auto two = [&](Verdict a, Verdict b) {
        return call({{"a", 9, V, old, a}, {"b", 9, V, "", b}}, {0, EVICT, ZERO}, values);
    };
    Bytes same_length = list({{"a", 9, V, part(values, 0, most - 1)}, {"b", 9, V, part(values, 5, 1)}});
    not_compacted("a byte more", two(KEEP, by(V, 0, 1)), VLS_LIST_LIMIT + 1, 4, not_done(VLS_TOO_LARGE, 0));
    compacted("a byte less and one more", two(by(V, 0, most - 1), by(V, 5, 1)), filled(VLS_LIST_LIMIT, 0xEE),
              filled(8, 0xDD), done(VLS_LIST_LIMIT, 2, 2), same_length, table({0, 1}));
    rooms("without the first", two(DROP, by(I, 3, 4)), {{"b", 9, I, part(values, 3, 4)}}, {0, 1});
}

// A long table, in one pass: `table` copies what it has for each entry.
Bytes entries(const Numbers &numbers) {
    Bytes b;
    for (std::uint64_t n : numbers)
        for (std::uint8_t byte : le(n, 4)) b.push_back(byte);
    return b;
}

void most_records() {
    Versions most;
    Numbers all, dropped;
    for (std::uint64_t i = 0; i < VLS_RECORD_LIMIT; ++i) {
        most.push_back({"k", VLS_RECORD_LIMIT - i, V, ""});
        all.push_back(i);
        for (std::uint64_t word : Numbers{VLS_DROP, MOST, MOST, MOST}) dropped.push_back(word);
    }
    Call c = {list(most), {MOST, EVICT, ZERO}, entries(dropped), {}};
    Bytes report = entries(all), kept = with(c.verdicts, VLS_VERDICT_SIZE * (VLS_RECORD_LIMIT - 1), VLS_KEEP);
    compacted("65,535 dropped", c, filled(9, 0xEE), filled(report.size(), 0xDD), done(9, 0, VLS_RECORD_LIMIT), list({}),
              report);
    not_compacted("65,535 dropped, an entry short", c, 9, report.size() - 4, not_done(VLS_NO_ROOM, 1));
    compacted("65,534 dropped", Call{c.list, c.job, kept, {}}, filled(25, 0xEE), filled(report.size() - 4, 0xDD),
              done(25, 1, VLS_RECORD_LIMIT - 1), list({{"k", 0, V, ""}}), cut(report, report.size() - 4));
    Call other = {c.list, c.job, with(c.verdicts, VLS_VERDICT_SIZE * (VLS_RECORD_LIMIT - 1), 3), {}};
    not_compacted("the last of 65,535 is none", other, 9, report.size(), not_done(VLS_BAD_VERDICT, 0));
    other.verdicts = cut(c.verdicts, c.verdicts.size() - 1);
    not_compacted("65,534 verdicts", other, 9, report.size(), not_done(VLS_BAD_VERDICT, 0));
    other.verdicts = c.verdicts + bytes(DROP);
    not_compacted("65,536 verdicts", other, 9, report.size(), not_done(VLS_BAD_VERDICT, 0));
}

// Values of 2^32 bytes: start and length add up, and so do the records, beyond 32 bits.
void vast_values() {
    Vast vast(1ull << 32);
    if (!vast.data()) return;
    Bytes l = list({{"a", 9, V, ""}, {"b", 9, V, ""}}), report = filled(8, 0xDD), out;
    auto answer = [&](Verdict a, Verdict b, std::size_t values_len) {
        Bytes verdicts = bytes(a) + bytes(b);
        out = filled(60, 0xEE);
        return numbers(vls_compact_filtered(l.data(), l.size(), 0, false, false, verdicts.data(), verdicts.size(),
                                            vast.data(), values_len, out.data(), out.size(), report.data(),
                                            report.size()));
    };
    Verdict last = by(V, UINT32_MAX, 1), half = by(V, 0x80000000, 0x80000000), lower_half = by(V, 0, 0x80000000);
    Numbers bad = not_done(VLS_BAD_VERDICT, 0), too_large = not_done(VLS_TOO_LARGE, 0);
    same("the last of 2^32 bytes", answer(KEEP, last, vast.size()), done(42, 2, 1));
    same("its output", cut(out, 42), list({{"a", 9, V, ""}, {"b", 9, V, std::string(1, '\0')}}));
    same("the last of 2^32 - 1 bytes", answer(KEEP, last, vast.size() - 1), bad);
    same("none at the end of 2^32 - 1 bytes", answer(by(I, UINT32_MAX, 0), KEEP, vast.size() - 1), done(41, 2, 1));
    same("2^31 bytes of 2^32", answer(half, KEEP, vast.size()), too_large);
    same("2^31 bytes of 2^32 - 1", answer(half, KEEP, vast.size() - 1), bad);
    same("2^32 bytes in all", answer(lower_half, half, vast.size()), too_large);
    same("past 2^32 bytes", answer(by(V, UINT32_MAX, 2), KEEP, vast.size()), bad);
}

} // namespace

int main() {
    samples();
    drops();
    beside_a_drop();
    each_tag();
    replacements();
    judged_by_the_new_tag();
    unasked();
    zeroing();
    thresholds();
    keys();
    all_keep();
    counts();
    no_verdicts();
    refused_first();
    limit();
    full();
    most_records();
    vast_values();
    return ended("filter");
}
