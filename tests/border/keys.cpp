// The order of keys, as vls_check, vls_get, vls_memtable_insert, a read from its front and vls_compact have it: keys that
// part in one bit of one byte, the bytes behind it the same or saying the opposite, and keys of which one is the start of
// the other. Their lengths are 1 to 40 and some about whole blocks of 64 bytes; what is lent lies at every alignment.
#include <algorithm>

#include "reading.hpp"

using namespace border;

namespace {

constexpr std::size_t WORD = 8;

// Bytes lent at an address that leaves this rest when divided by eight.
class Shifted {
  public:
    Shifted(const Bytes &content, std::size_t rest) : room_(content.size() + WORD), size_(content.size()) {
        auto at = reinterpret_cast<std::uintptr_t>(room_.data()) % WORD;
        data_ = room_.data() + (rest + WORD - at) % WORD;
        std::copy(content.begin(), content.end(), data_);
    }
    Shifted(const Shifted &) = delete;
    Shifted &operator=(const Shifted &) = delete;
    std::uint8_t *data() const { return data_; }
    std::size_t size() const { return size_; }
    bool holds(const Bytes &want) const { return std::equal(want.begin(), want.end(), data_, data_ + size_); }

  private:
    Bytes room_;
    std::uint8_t *data_;
    std::size_t size_;
};

// Two keys in their order.
struct Pair {
    std::string what, low, high;
};

Version first(const Pair &pair) { return {pair.low, 1, V, ""}; }
Version second(const Pair &pair) { return {pair.high, 2, V, ""}; }

void checks_them(const Pair &pair) {
    Bytes right = list({first(pair), second(pair)}), wrong = list({second(pair), first(pair)});
    bool holds = true;
    for (std::size_t rest = 0; rest < WORD; ++rest) {
        Shifted r(right, rest), w(wrong, rest);
        holds &= numbers(vls_check(r.data(), r.size())) == accepted(2);
        holds &= numbers(vls_check(w.data(), w.size())) == refused(VLS_DISORDER, 0, 1);
    }
    expect(pair.what + ": check", holds);
}

// Which record of the table a key has; MOST for none.
std::uint64_t got(const Shifted &image, const vls_memtable &state, const Shifted &key) {
    vls_found f = vls_get(image.data(), image.size(), state, key.data(), key.size(), MOST);
    return f.number == 0 && f.found ? f.at : MOST;
}

void gets_them(const Pair &pair) {
    Bytes low = text(pair.low), high = text(pair.high);
    Bytes both = list({first(pair), second(pair)}), one = list({first(pair)}), other = list({second(pair)});
    vls_memtable both_state = {both.size(), low.size() + high.size(), 2, 0, false};
    vls_memtable one_state = {one.size(), low.size(), 1, 0, false};
    vls_memtable other_state = {other.size(), high.size(), 2, 0, false};
    bool holds = true;
    for (std::size_t rest = 0; rest < WORD; ++rest) {
        Shifted b(both, rest), o(one, rest), t(other, rest);
        for (std::size_t key_rest = 0; key_rest < WORD; ++key_rest) {
            Shifted l(low, key_rest), h(high, key_rest);
            holds &= got(b, both_state, l) == 0 && got(b, both_state, h) == 1;
            holds &= got(o, one_state, h) == MOST && got(t, other_state, l) == MOST;
        }
    }
    expect(pair.what + ": get", holds);
}

// The lower key goes before the higher one.
void inserts_them(const Pair &pair) {
    Bytes low = text(pair.low), high = text(pair.high), want = list({first(pair), second(pair)});
    bool holds = true;
    for (std::size_t rest = 0; rest < WORD; ++rest) {
        Shifted buffer(Bytes(want.size()), rest), l(low, WORD - 1 - rest), h(high, rest);
        vls_memtable state = vls_memtable_new(buffer.data(), buffer.size(), 0).state;
        state = vls_memtable_insert(buffer.data(), buffer.size(), state, h.data(), h.size(), 2, V, nullptr, 0).state;
        state = vls_memtable_insert(buffer.data(), buffer.size(), state, l.data(), l.size(), 1, V, nullptr, 0).state;
        holds &= state.used == want.size() && buffer.holds(want);
    }
    expect(pair.what + ": insert", holds);
}

// The places that a read gives, list and record one after the other.
template <class Lending>
Numbers entries(const Bundle &b, const Lending &bytes, const Lending *lower, const Lending *upper) {
    auto ask = [&](auto call, auto... more) {
        return call(bytes.data(), bytes.size(), b.lengths.data(), b.lengths.size(), b.index.data(), b.index.size(),
                    more...);
    };
    auto data = [](const Lending *bound) -> const std::uint8_t * { return bound ? bound->data() : nullptr; };
    auto size = [](const Lending *bound) { return bound ? bound->size() : 0; };
    vls_cursor cursor = ask(vls_start, lower != nullptr, false, data(lower), size(lower), upper != nullptr, false,
                            data(upper), size(upper), MOST)
                            .cursor;
    Numbers places;
    for (vls_stepped s = ask(vls_front, cursor); s.found; s = ask(vls_front, s.cursor))
        places = places + Numbers{s.at_list, s.at_record};
    return places;
}

// Two lists, the higher key in the first of them.
Bundle apart(const Pair &pair) { return bundle({{second(pair)}, {first(pair)}}); }

void reads_them(const Pair &pair) {
    Bytes low = text(pair.low), high = text(pair.high);
    Bundle b = apart(pair);
    const Shifted *none = nullptr;
    bool holds = true;
    for (std::size_t rest = 0; rest < WORD; ++rest) {
        Shifted bytes(b.bytes, rest), l(low, rest), h(high, WORD - 1 - rest);
        holds &= entries(b, bytes, none, none) == Numbers{1, 0, 0, 0};
        holds &= entries(b, bytes, &h, none) == Numbers{0, 0} && entries(b, bytes, none, &l) == Numbers{1, 0};
        holds &= entries(b, bytes, &l, &h) == Numbers{1, 0, 0, 0} && entries(b, bytes, &h, &l).empty();
    }
    expect(pair.what + ": read", holds);
}

// No byte before or behind what is lent is read: pages that nobody may touch stand there.
void stays_inside(const Pair &pair) {
    Bytes low = text(pair.low), high = text(pair.high), image = list({first(pair), second(pair)});
    vls_memtable state = {image.size(), low.size() + high.size(), 2, 0, false};
    Bundle two = apart(pair);
    for (Side side : SIDES) {
        Lent b(image, side), l(low, side), h(high, side), t(two.bytes, side);
        same(pair.what + ": check", numbers(vls_check(b.data(), b.size())), accepted(2));
        expect(pair.what + ": get", vls_get(b.data(), b.size(), state, l.data(), l.size(), MOST).at == 0 &&
                                        vls_get(b.data(), b.size(), state, h.data(), h.size(), MOST).at == 1);
        expect(pair.what + ": read", entries(two, t, &l, &h) == Numbers{1, 0, 0, 0});
    }
}

// Two keys are no versions of one, and a key's versions are.
void compacts_them(const Pair &pair) {
    Bytes two = list({first(pair), second(pair)}), one = list({{pair.high, 2, V, ""}, {pair.high, 1, V, ""}});
    bool holds = true;
    for (std::size_t rest = 0; rest < WORD; ++rest) {
        Shifted t(two, rest), o(one, rest);
        Bytes out(std::max(t.size(), o.size())), report(8);
        auto kept = [&](const Shifted &from) {
            return vls_compact(from.data(), from.size(), MOST, false, false, out.data(), out.size(), report.data(),
                               report.size())
                .kept;
        };
        holds &= kept(t) == 2 && kept(o) == 1;
    }
    expect(pair.what + ": compact", holds);
}

void in_order(const Pair &pair) {
    checks_them(pair);
    gets_them(pair);
    inserts_them(pair);
    reads_them(pair);
    compacts_them(pair);
}

// Bytes of all kinds, no two neighbours the same.
std::string path(std::size_t length) {
    std::string key;
    for (std::size_t i = 0; i < length; ++i) key.push_back(static_cast<char>(i * 37 + 11));
    return key;
}

// Keys of this length that part in this bit of this byte.
Pair parting(std::size_t length, std::size_t byte, unsigned bit) {
    std::string low = path(length), high = low;
    auto mask = static_cast<char>(1u << bit);
    low[byte] = static_cast<char>(low[byte] & ~mask);
    high[byte] = static_cast<char>(high[byte] | mask);
    std::string what = std::to_string(length) + " bytes, byte " + std::to_string(byte) + ", bit " + std::to_string(bit);
    return {what, low, high};
}

// All that follows that byte says the opposite.
Pair contradicted(Pair pair, std::size_t byte) {
    std::size_t rest = pair.low.size() - byte - 1;
    pair.low.replace(byte + 1, rest, std::string(rest, '\xFF'));
    pair.high.replace(byte + 1, rest, std::string(rest, '\0'));
    pair.what += ", contradicted";
    return pair;
}

void parting_keys(std::size_t length, std::initializer_list<unsigned> bits) {
    for (std::size_t byte = 0; byte < length; ++byte)
        for (unsigned bit : bits) {
            Pair pair = parting(length, byte, bit);
            in_order(pair);
            if (byte + 1 < length) in_order(contradicted(pair, byte));
        }
}

// Keys that start with all of a shorter one; what the longer has more is the least it can be.
void longer_keys(std::size_t length, std::size_t most) {
    for (std::size_t more = 1; length + more <= most; ++more) {
        std::string key = path(length);
        std::string what = std::to_string(length) + " bytes and " + std::to_string(more) + " more";
        Pair pair = {what, key, key + std::string(more, '\0')};
        in_order(pair);
        stays_inside(pair);
    }
}

} // namespace

int main() {
    for (std::size_t length = 1; length <= 40; ++length) {
        parting_keys(length, {0, 1, 2, 3, 4, 5, 6, 7});
        for (std::size_t byte = 0; byte < length; ++byte) stays_inside(parting(length, byte, 0));
        longer_keys(length, 40);
    }
    for (std::size_t length : Numbers{63, 64, 65, 71, 72, 73, 79, 80, 81, 127, 128, 129, 136}) {
        parting_keys(length, {0, 7});
        stays_inside(parting(length, length - 1, 0));
        longer_keys(length, length + 9);
    }
    return ended("keys");
}
