// vls_prefix: the upper bound that makes a prefix an interval.
#include "support.hpp"

using namespace border;

namespace {

void prefixed(const std::string &what, const std::string &prefix, const Bytes &upper, const Numbers &want,
              const Bytes &then) {
    Bytes bytes = text(prefix);
    for (Side side : SIDES) {
        Lent p(bytes, side), u(upper, side, true);
        vls_prefixed a = vls_prefix(p.data(), p.size(), u.data(), u.size());
        same(what, Numbers{a.number, a.list, a.record, a.bounded, a.length}, want);
        same(what + ": upper", u.now(), then);
        p.kept(what);
        expect(what + ": guard bytes", u.guarded());
    }
}

Numbers not_prefixed(std::uint64_t number) { return {number, 0, 0, 0, 0}; }

const Numbers UNBOUNDED = {0, 0, 0, 0, 0};

// With just the room it needs, with more, and with each smaller room.
void bounded(const std::string &what, const std::string &prefix, const std::string &upper) {
    Numbers want = {0, 0, 0, 1, upper.size()};
    for (std::size_t more : Numbers{0, 1, 7}) {
        Bytes room = filled(upper.size() + more, 0xEE);
        prefixed(what, prefix, room, want, over(room, text(upper)));
    }
    for (std::size_t n : Numbers{0, upper.size() / 2, upper.size() - 1})
        prefixed(what + ", too short", prefix, filled(n, 0xEE), not_prefixed(VLS_NO_ROOM), filled(n, 0xEE));
}

void unbounded(const std::string &what, const std::string &prefix) {
    for (std::size_t n : Numbers{0, 1, 9}) prefixed(what, prefix, filled(n, 0xEE), UNBOUNDED, filled(n, 0xEE));
}

} // namespace

int main() {
    bounded("61 FF", "\x61\xFF", "\x62");
    unbounded("FF FF", "\xFF\xFF");
    unbounded("no prefix", "");
    unbounded("FF", "\xFF");
    bounded("a", "a", "b");
    bounded("ab", "ab", "ac");
    bounded("00", std::string(1, '\0'), "\x01");
    bounded("FE", "\xFE", "\xFF");
    bounded("7F", "\x7F", "\x80");
    bounded("FF 00", std::string("\xFF\0", 2), "\xFF\x01");
    bounded("FF 61 FF FF", "\xFF\x61\xFF\xFF", "\xFF\x62");
    bounded("a path", "main;run;", "main;run<");
    std::string longest(65535, 'k'), all(65535, '\xFF'), next = longest;
    next.back() = 'l';
    bounded("65,535 bytes", longest, next);
    unbounded("65,535 times FF", all);
    bounded("00 and 65,534 times FF", std::string(1, '\0') + all.substr(1), "\x01");
    for (std::size_t n : Numbers{0, 1, 65535, 65536}) {
        Bytes room = filled(n, 0xEE);
        prefixed("65,536 bytes", longest + "k", room, not_prefixed(VLS_LONG_KEY), room);
        prefixed("65,536 times FF", all + "\xFF", room, not_prefixed(VLS_LONG_KEY), room);
    }
    Vast vast((1ull << 32) + 1);
    if (vast.data())
        same("2^32 + 1 bytes", Numbers{vls_prefix(vast.data(), vast.size(), nullptr, 0).number}, Numbers{VLS_LONG_KEY});
    return ended("prefix");
}
