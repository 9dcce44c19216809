// What the border's tests share: lists built byte by byte, lent memory that shows every touch, and the count.
// Nothing here asks the library: what a test expects is worked out from the rules.
#pragma once

#include <sys/mman.h>
#include <unistd.h>

#include <cstdint>
#include <cstdio>
#include <cstdlib>
#include <cstring>
#include <initializer_list>
#include <string>
#include <vector>

#include "vls.h"

namespace border {

using Bytes = std::vector<std::uint8_t>;
using Numbers = std::vector<std::uint64_t>;

constexpr std::uint64_t MOST = UINT64_MAX;
constexpr std::uint8_t V = VLS_VALUE, T = VLS_TOMBSTONE, W = VLS_WEAK_TOMBSTONE, I = VLS_INDIRECTION;

// ---- the count ----

inline unsigned long checks = 0;
inline unsigned long failures = 0;

inline void expect(const std::string &what, bool holds, const std::string &more = "") {
    ++checks;
    if (holds) return;
    if (++failures <= 40) std::printf("FAILED %s %s\n", what.c_str(), more.c_str());
}

inline std::string shown(const Numbers &numbers) {
    std::string s = "(";
    for (std::size_t i = 0; i < numbers.size(); ++i) s += (i ? " " : "") + std::to_string(numbers[i]);
    return s + ")";
}

// The first byte in which they differ, with those around it.
inline std::string differ(const Bytes &got, const Bytes &want) {
    std::size_t at = 0;
    while (at < got.size() && at < want.size() && got[at] == want[at]) ++at;
    std::string s = "differs at byte " + std::to_string(at);
    for (const Bytes *b : {&got, &want}) {
        s += b == &got ? ": got" : ", want";
        char digits[4];
        for (std::size_t i = at < 4 ? 0 : at - 4; i < b->size() && i < at + 12; ++i) {
            std::snprintf(digits, sizeof digits, " %02X", (*b)[i]);
            s += digits;
        }
        s += " of " + std::to_string(b->size()) + " bytes";
    }
    return s;
}

inline std::string differ(const Numbers &got, const Numbers &want) {
    return "got " + shown(got) + ", want " + shown(want);
}

template <class Row> void same(const std::string &what, const Row &got, const Row &want) {
    bool holds = got == want;
    expect(what, holds, holds ? "" : differ(got, want));
}

inline int ended(const char *area) {
    std::printf("%s: %lu checks, %lu failed\n", area, checks, failures);
    return failures == 0 ? 0 : 1;
}

// ---- lists, byte by byte ----

inline Bytes text(const std::string &s) { return Bytes(s.begin(), s.end()); }

inline Bytes le(std::uint64_t x, int width) {
    Bytes b;
    for (; 0 < width; --width, x /= 256) b.push_back(static_cast<std::uint8_t>(x % 256));
    return b;
}

inline Bytes operator+(Bytes a, const Bytes &b) {
    a.insert(a.end(), b.begin(), b.end());
    return a;
}

struct Version {
    std::string key;
    std::uint64_t seqno;
    std::uint8_t tag;
    std::string value;
};
using Versions = std::vector<Version>;

inline Bytes header(std::uint64_t count) { return text("VLS") + le(1, 2) + le(count, 4); }

inline Bytes record(const Version &v) {
    return le(v.key.size(), 2) + text(v.key) + le(v.seqno, 8) + Bytes{v.tag} + le(v.value.size(), 4) + text(v.value);
}

inline Bytes list(const Versions &versions) {
    Bytes b = header(versions.size());
    for (const Version &v : versions) {
        Bytes r = record(v);
        b.insert(b.end(), r.begin(), r.end());
    }
    return b;
}

inline Bytes table(const Numbers &entries) {
    Bytes b;
    for (std::uint64_t e : entries) b = b + le(e, 4);
    return b;
}

inline Bytes filled(std::size_t n, std::uint8_t with) { return Bytes(n, with); }

// The first bytes of `given` become `written`; the rest stays.
inline Bytes over(Bytes given, const Bytes &written) {
    std::copy(written.begin(), written.end(), given.begin());
    return given;
}

inline Bytes with(Bytes b, std::size_t at, std::uint8_t byte) {
    b[at] = byte;
    return b;
}

inline Bytes cut(const Bytes &b, std::size_t n) { return Bytes(b.begin(), b.begin() + static_cast<long>(n)); }

// A list of exactly so many bytes: one record, its value as long as need be.
inline Bytes list_of_size(std::size_t n) { return list({{"k", 1, V, std::string(n - 25, 'v')}}); }

// ---- lent memory ----

// Each call is made twice. What is lent stands once at the right end of its pages and once at the left,
// where a page that nobody may touch follows; the other side is filled with guard bytes. What is
// only to be read is on pages that can't be written. An empty slice is once a null pointer.
enum class Side { left, right };
constexpr Side SIDES[] = {Side::left, Side::right};

class Lent {
  public:
    Lent(const Bytes &content, Side side, bool writable = false) : content_(content) {
        if (content.empty() && side == Side::left) return;
        std::size_t page = static_cast<std::size_t>(sysconf(_SC_PAGESIZE));
        inner_ = (content.size() + GUARD + page - 1) / page * page;
        whole_ = inner_ + 2 * page;
        void *at = mmap(nullptr, whole_, PROT_NONE, MAP_PRIVATE | MAP_ANONYMOUS, -1, 0);
        if (at == MAP_FAILED) std::perror("mmap"), std::exit(2);
        map_ = static_cast<std::uint8_t *>(at);
        start_ = map_ + page;
        set(PROT_READ | PROT_WRITE);
        std::memset(start_, MARK, inner_);
        data_ = side == Side::left ? start_ : start_ + inner_ - content.size();
        if (!content.empty()) std::memcpy(data_, content.data(), content.size());
        if (!writable) set(PROT_READ);
    }
    Lent(Bytes &&, Side, bool = false) = delete; // what is lent outlives the call
    Lent(const Lent &) = delete;
    Lent &operator=(const Lent &) = delete;
    ~Lent() {
        if (map_) munmap(map_, whole_);
    }

    std::uint8_t *data() const { return data_; }
    std::size_t size() const { return content_.size(); }
    Bytes now() const { return data_ ? Bytes(data_, data_ + size()) : Bytes(); }

    bool guarded() const {
        if (!map_) return true;
        for (std::uint8_t *p = start_; p < data_; ++p)
            if (*p != MARK) return false;
        for (std::uint8_t *p = data_ + size(); p < start_ + inner_; ++p)
            if (*p != MARK) return false;
        return true;
    }

    // The guard bytes are whole, and so is what was lent only to be read.
    void kept(const std::string &what) const {
        expect(what + ": guard bytes", guarded());
        expect(what + ": what was lent to be read", size() == 0 || std::memcmp(data_, content_.data(), size()) == 0);
    }

  private:
    static constexpr std::size_t GUARD = 64;
    static constexpr std::uint8_t MARK = 0xC5;

    void set(int rights) {
        if (mprotect(start_, inner_, rights) != 0) std::perror("mprotect"), std::exit(2);
    }

    const Bytes &content_;
    std::uint8_t *map_ = nullptr, *start_ = nullptr, *data_ = nullptr;
    std::size_t inner_ = 0, whole_ = 0;
};

// So many zero bytes that can only be read and take no memory; null where the machine won't have it.
class Vast {
  public:
    explicit Vast(std::size_t n) : size_(n) {
        void *at = mmap(nullptr, n, PROT_READ, MAP_PRIVATE | MAP_ANONYMOUS | MAP_NORESERVE, -1, 0);
        data_ = at == MAP_FAILED ? nullptr : static_cast<const std::uint8_t *>(at);
    }
    Vast(const Vast &) = delete;
    Vast &operator=(const Vast &) = delete;
    ~Vast() {
        if (data_) munmap(const_cast<std::uint8_t *>(data_), size_);
    }
    const std::uint8_t *data() const { return data_; }
    std::size_t size() const { return size_; }

  private:
    std::size_t size_;
    const std::uint8_t *data_;
};

// ---- answers as rows of numbers ----

inline Numbers numbers(const vls_checked &a) { return {a.number, a.list, a.record, a.count}; }

inline Numbers accepted(std::uint64_t count) { return {0, 0, 0, count}; }

inline Numbers refused(std::uint64_t number, std::uint64_t list = 0, std::uint64_t record = 0) {
    return {number, list, record, 0};
}

} // namespace border
