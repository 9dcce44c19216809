// vls_compact: what is kept, what is reported and what goes, and nothing written where anything is refused.
#include "compacting.hpp"

using namespace border;

namespace {

struct Call {
    Bytes list;
    Job job;

    vls_compacted compact(const std::string &what, Side side, const Lent &out, const Lent &report) const {
        Lent l(list, side);
        vls_compacted a = vls_compact(l.data(), l.size(), job.threshold, job.evict, job.zero, out.data(), out.size(),
                                      report.data(), report.size());
        l.kept(what);
        return a;
    }
};

void row(const std::string &what, const Versions &input, Job job, const Versions &kept, const Numbers &reported) {
    rooms(what, Call{list(input), job}, kept, reported);
}

void samples() {
    row("a@10 W, a@3 V", {{"a", 10, W, ""}, {"a", 3, V, ""}}, {5, false, false}, {}, {1});
    row("a@10 W, a@3 I", {{"a", 10, W, ""}, {"a", 3, I, ""}}, {5, EVICT, false}, {{"a", 10, W, ""}}, {1});
    row("a@10 T, a@5 V", {{"a", 10, T, ""}, {"a", 5, V, ""}}, {5, EVICT, false}, {{"a", 10, T, ""}, {"a", 5, V, ""}},
        {});
    row("a@10 T, a@4 V", {{"a", 10, T, ""}, {"a", 4, V, ""}}, {5, EVICT, false}, {}, {1});
    row("a@4 V", {{"a", 4, V, ""}}, {5, false, ZERO}, {{"a", 0, V, ""}}, {});
    row("a@4 V at 4", {{"a", 4, V, ""}}, {4, false, ZERO}, {{"a", 4, V, ""}}, {});
}

void expired() {
    for (bool evict : {false, EVICT}) {
        row("no records", {}, {5, evict, ZERO}, {}, {});
        row("one expired", {{"a", 10, V, "new"}, {"a", 3, V, "old"}}, {5, evict, false}, {{"a", 10, V, "new"}}, {1});
        row("a tail of two", {{"a", 10, V, ""}, {"a", 8, V, "b"}, {"a", 4, V, ""}, {"a", 3, T, ""}}, {5, evict, false},
            {{"a", 10, V, ""}, {"a", 8, V, "b"}}, {2, 3});
        row("the newest never expires", {{"a", 4, V, "x"}, {"a", 3, V, ""}}, {5, evict, false}, {{"a", 4, V, "x"}},
            {1});
        row("nor an Indirection", {{"a", 4, I, "x"}, {"a", 3, T, ""}}, {5, evict, false}, {{"a", 4, I, "x"}}, {1});
        row("two keys, one a prefix", {{"a", 9, V, ""}, {"ab", 1, V, ""}}, {5, evict, false},
            {{"a", 9, V, ""}, {"ab", 1, V, ""}}, {});
    }
    Versions three = {{"a", 6, V, "six"}, {"a", 5, V, "five"}, {"a", 4, V, "four"}};
    row("below 4", three, {4, false, false}, three, {});
    row("below 5", three, {5, false, false}, {three[0], three[1]}, {2});
    row("below 6", three, {6, false, false}, {three[0]}, {1, 2});
    row("below 7", three, {7, false, false}, {three[0]}, {1, 2});
}

void tombstones() {
    for (bool evict : {false, EVICT}) {
        auto if_not = [&](const Versions &kept) { return evict ? Versions{} : kept; };
        row("T alone", {{"a", 10, T, "t"}}, {5, evict, false}, if_not({{"a", 10, T, "t"}}), {});
        row("W alone", {{"a", 10, W, "w"}}, {5, evict, false}, if_not({{"a", 10, W, "w"}}), {});
        row("T alone, below", {{"a", 4, T, ""}}, {5, evict, false}, if_not({{"a", 4, T, ""}}), {});
        row("I alone", {{"a", 10, I, ""}}, {5, evict, false}, {{"a", 10, I, ""}}, {});
        row("T before an expired V", {{"a", 10, T, ""}, {"a", 4, V, ""}}, {5, evict, false}, if_not({{"a", 10, T, ""}}),
            {1});
        row("T before an expired T", {{"a", 10, T, ""}, {"a", 4, T, ""}, {"a", 3, V, ""}}, {5, evict, false},
            if_not({{"a", 10, T, ""}}), {1, 2});
        row("T before an expired I", {{"a", 10, T, ""}, {"a", 4, I, ""}}, {5, evict, false}, if_not({{"a", 10, T, ""}}),
            {1});
        row("T before an expired W", {{"a", 10, T, ""}, {"a", 4, W, ""}}, {5, evict, false}, if_not({{"a", 10, T, ""}}),
            {1});
        row("W before an expired V", {{"a", 10, W, ""}, {"a", 4, V, ""}, {"a", 3, I, ""}}, {5, evict, false}, {},
            {1, 2});
        row("W before an expired T", {{"a", 10, W, ""}, {"a", 4, T, ""}, {"a", 3, V, ""}}, {5, evict, false},
            {{"a", 10, W, ""}}, {1, 2});
        row("W before an expired W", {{"a", 10, W, ""}, {"a", 4, W, ""}, {"a", 3, V, ""}}, {5, evict, false},
            {{"a", 10, W, ""}}, {1, 2});
        row("W before an expired I", {{"a", 10, W, ""}, {"a", 4, I, ""}, {"a", 3, V, ""}}, {5, evict, false},
            {{"a", 10, W, ""}}, {1, 2});
        row("W, below, before an expired V", {{"a", 4, W, ""}, {"a", 3, V, ""}}, {5, evict, false}, {}, {1});
        row("T last, a V before", {{"a", 10, V, ""}, {"a", 9, T, ""}}, {5, evict, false},
            evict ? Versions{{"a", 10, V, ""}} : Versions{{"a", 10, V, ""}, {"a", 9, T, ""}}, {});
        row("only the last goes", {{"a", 10, T, ""}, {"a", 9, W, ""}}, {5, evict, false},
            evict ? Versions{{"a", 10, T, ""}} : Versions{{"a", 10, T, ""}, {"a", 9, W, ""}}, {});
        row("only the one before the tail goes", {{"a", 10, W, ""}, {"a", 9, W, ""}, {"a", 3, V, ""}},
            {5, evict, false}, {{"a", 10, W, ""}}, {2});
        row("a V before the tail stays", {{"a", 10, T, ""}, {"a", 9, V, ""}, {"a", 3, V, ""}}, {5, evict, false},
            {{"a", 10, T, ""}, {"a", 9, V, ""}}, {2});
        row("an I before the tail stays", {{"a", 10, I, ""}, {"a", 3, V, ""}}, {5, evict, false}, {{"a", 10, I, ""}},
            {1});
    }
}

void zeroing() {
    row("T below gets 0", {{"a", 4, T, "t"}}, {5, false, ZERO}, {{"a", 0, T, "t"}}, {});
    row("W below gets 0", {{"a", 4, W, ""}, {"a", 3, W, ""}}, {5, false, ZERO}, {{"a", 0, W, ""}}, {1});
    row("at the threshold nothing", {{"a", 5, V, ""}}, {5, false, ZERO}, {{"a", 5, V, ""}}, {});
    row("not before a tail", {{"a", 10, V, ""}, {"a", 5, V, ""}, {"a", 4, V, ""}}, {5, false, ZERO},
        {{"a", 10, V, ""}, {"a", 5, V, ""}}, {2});
    row("0 stays 0", {{"a", 0, V, ""}}, {1, false, ZERO}, {{"a", 0, V, ""}}, {});
    row("all eight bytes", {{"a", 0x0102030405060708, V, "v"}}, {MOST, false, ZERO}, {{"a", 0, V, "v"}}, {});
}

void keys() {
    Versions input = {{"a", 10, V, "1"}, {"a", 3, V, "2"}, {"ab", 4, T, "3"},
                      {"b", 7, W, "4"},  {"b", 2, V, "5"}, {"c", 1, V, "6"}};
    row("six records", input, {5, false, false}, {input[0], input[2], input[5]}, {1, 4});
    row("six records, evicted", input, {5, EVICT, false}, {input[0], input[5]}, {1, 4});
    row("six records, zeroed", input, {5, false, ZERO}, {input[0], {"ab", 0, T, "3"}, {"c", 0, V, "6"}}, {1, 4});
    row("six records, both", input, {5, EVICT, ZERO}, {input[0], {"c", 0, V, "6"}}, {1, 4});
}

void thresholds() {
    Versions input = {
        {"a", MOST, V, "m"}, {"a", MOST - 1, V, ""}, {"a", 0, V, ""}, {"b", MOST - 1, V, "b"}, {"c", 0, T, ""}};
    row("threshold 0", input, {0, false, ZERO}, input, {});
    row("threshold 0, evicted", input, {0, EVICT, ZERO}, {input[0], input[1], input[2], input[3]}, {});
    row("threshold 1", input, {1, false, ZERO}, {input[0], input[1], input[3], {"c", 0, T, ""}}, {2});
    row("the greatest threshold", input, {MOST, false, false}, {input[0], input[3], input[4]}, {1, 2});
    row("the greatest threshold, zeroed", input, {MOST, false, ZERO}, {input[0], {"b", 0, V, "b"}, input[4]}, {1, 2});
    row("the greatest threshold, both", input, {MOST, EVICT, ZERO}, {input[0], {"b", 0, V, "b"}}, {1, 2});
    row("a threshold of more than 32 bits", {{"a", 9, V, ""}, {"a", 5, V, ""}}, {1ull << 32, false, false},
        {{"a", 9, V, ""}}, {1});
}

void damaged() {
    for (const RefusedList &r : refused_lists()) {
        not_compacted(r.what, Call{r.list, {5, EVICT, ZERO}}, 200, 40, r.want);
        not_compacted(std::string(r.what) + ", and no room", Call{r.list, {5, EVICT, ZERO}}, 0, 0, r.want);
    }
}

void largest() {
    Bytes whole = list_of_size(VLS_LIST_LIMIT);
    compacted("1,048,576 bytes", Call{whole, {0, EVICT, ZERO}}, filled(VLS_LIST_LIMIT, 0xEE), {},
              done(VLS_LIST_LIMIT, 1, 0), whole, {});
    not_compacted("1,048,576 bytes, a byte short", Call{whole, {0, EVICT, ZERO}}, VLS_LIST_LIMIT - 1, 0,
                  not_done(VLS_NO_ROOM, 0));
    Versions most;
    Numbers all_but_first;
    for (std::uint64_t i = 0; i < VLS_RECORD_LIMIT; ++i) {
        most.push_back({"k", VLS_RECORD_LIMIT - i, V, ""});
        if (0 < i) all_but_first.push_back(i);
    }
    Bytes l = list(most), report;
    for (std::uint64_t i : all_but_first)
        for (std::uint8_t b : le(i, 4)) report.push_back(b);
    Bytes one = list({{"k", 0, V, ""}});
    compacted("65,534 expired", Call{l, {MOST, false, ZERO}}, filled(25, 0xEE), filled(report.size(), 0xDD),
              done(25, 1, 65534), one, report);
    not_compacted("65,534 expired, an entry short", Call{l, {MOST, false, ZERO}}, 25, report.size() - 4,
                  not_done(VLS_NO_ROOM, 1));
    compacted("65,535 kept", Call{l, {1, EVICT, ZERO}}, filled(l.size() + 1, 0xEE), filled(7, 0xDD),
              done(l.size(), VLS_RECORD_LIMIT, 0), l + Bytes{0xEE}, filled(7, 0xDD));
}

} // namespace

int main() {
    samples();
    expired();
    tombstones();
    zeroing();
    keys();
    thresholds();
    damaged();
    largest();
    return ended("compact");
}
