#include "list.hpp"
#include <algorithm>
#include <functional>

// The tags' letters in the oracle's protocol.
static const std::string LETTERS = "VTW?I";

bool before(const Version &a, const Version &b) {
    int order = a.key.compare(b.key);
    return order < 0 || (order == 0 && a.seqno > b.seqno);
}

void put(Bytes &to, uint64_t number, int bytes) {
    for (int i = 0; i < bytes; i++) {
        to.push_back(uint8_t(number >> (8 * i)));
    }
}

uint64_t get(const Bytes &from, size_t at, int bytes) {
    uint64_t number = 0;
    for (int i = 0; i < bytes; i++) {
        number |= uint64_t(from[at + i]) << (8 * i);
    }
    return number;
}

Bytes encode(const std::vector<Version> &versions) {
    Bytes list = {'V', 'L', 'S', 1, 0};
    put(list, versions.size(), 4);
    for (const Version &v : versions) {
        put(list, v.key.size(), 2);
        list.insert(list.end(), v.key.begin(), v.key.end());
        put(list, v.seqno, 8);
        list.push_back(v.tag);
        put(list, v.value.size(), 4);
        list.insert(list.end(), v.value.begin(), v.value.end());
    }
    return list;
}

Judged judge(const Bytes &list, std::vector<Version> *versions) {
    size_t n = list.size();
    if (n > 1048576) return {9, 0, 0};
    if (n < 9) return {1, 0, 0};
    if (list[0] != 'V' || list[1] != 'L' || list[2] != 'S') return {2, 0, 0};
    if (get(list, 3, 2) != 1) return {3, 0, 0};
    uint64_t count = get(list, 5, 4);
    size_t at = 9;
    Version last;
    for (uint64_t i = 0; i < count; i++) {
        if (n - at < 2) return {1, i, 0};
        size_t klen = get(list, at, 2);
        if (klen == 0) return {4, i, 0};
        if (n - at < 2 + klen + 8 + 1) return {1, i, 0};
        Version v;
        v.key.assign(list.begin() + at + 2, list.begin() + at + 2 + klen);
        at += 2 + klen;
        v.seqno = get(list, at, 8);
        v.tag = list[at + 8];
        if (v.tag > 4 || v.tag == 3) return {6, i, 0};
        at += 9;
        if (n - at < 4) return {1, i, 0};
        size_t vlen = get(list, at, 4);
        if (n - at - 4 < vlen) return {1, i, 0};
        v.value.assign(list.begin() + at + 4, list.begin() + at + 4 + vlen);
        at += 4 + vlen;
        if (i > 0 && !before(last, v)) return {7, i, 0};
        last = v;
        if (versions) versions->push_back(v);
    }
    if (at != n) return {8, count, 0};
    return {0, 0, count};
}

void damage(Bytes &bytes, Random &random) {
    if (bytes.empty()) return;
    bytes[random.below(bytes.size())] ^= uint8_t(1 << random.below(8));
    if (random.one_in(4)) bytes.resize(random.below(bytes.size() + 1));
}

std::string draw_key(Random &random) {
    static const char letters[] = {'a', 'b', char(0), char(255)};
    std::string key;
    size_t length = 1 + random.below(3);
    if (random.one_in(50)) length = 1 + random.below(300);
    for (size_t i = 0; i < length; i++) {
        key += length > 3 ? 'a' : letters[random.below(4)];
    }
    return key;
}

uint64_t draw_seqno(Random &random) {
    if (random.one_in(12)) return UINT64_MAX - random.below(2);
    return random.below(8);
}

static std::vector<Version> draw_versions(Random &random, size_t most, const std::function<std::string()> &draw_one) {
    std::vector<Version> versions;
    size_t n = random.below(most + 1);
    for (size_t i = 0; i < n; i++) {
        Version v{draw_one(), draw_seqno(random), TAGS[random.below(4)], ""};
        for (uint64_t j = random.below(4); j > 0; j--) v.value += char(random.below(256));
        versions.push_back(v);
    }
    std::sort(versions.begin(), versions.end(), before);
    auto same = [](const Version &a, const Version &b) { return a.key == b.key && a.seqno == b.seqno; };
    versions.erase(std::unique(versions.begin(), versions.end(), same), versions.end());
    return versions;
}

std::vector<Version> draw_list(Random &random, size_t most) {
    return draw_versions(random, most, [&] { return draw_key(random); });
}

std::vector<Version> draw_list(Random &random, size_t most, const std::vector<std::string> &keys) {
    return draw_versions(random, most, [&] { return keys[random.below(keys.size())]; });
}

const uint8_t *bytes_of(const std::string &text) { return reinterpret_cast<const uint8_t *>(text.data()); }

std::string hex(const std::string &bytes) {
    static const char digits[] = "0123456789abcdef";
    std::string text;
    for (unsigned char byte : bytes) {
        text += digits[byte >> 4];
        text += digits[byte & 15];
    }
    return text;
}

static std::string unhex(const std::string &digits) {
    std::string bytes;
    for (size_t i = 0; i < digits.size(); i += 2) bytes += char(std::stoi(digits.substr(i, 2), nullptr, 16));
    return bytes;
}

char letter(uint8_t tag) { return LETTERS[tag]; }

std::string word(const Version &v) {
    std::string text = hex(v.key) + "@" + std::to_string(v.seqno) + letter(v.tag);
    if (!v.value.empty()) text += "=" + hex(v.value);
    return text;
}

Version version_of(const std::string &word) {
    size_t at = word.find('@'), end = std::min(word.find('='), word.size());
    uint8_t tag = uint8_t(LETTERS.find(word.at(end - 1)));
    std::string value = end < word.size() ? word.substr(end + 1) : "";
    return {unhex(word.substr(0, at)), std::stoull(word.substr(at + 1)), tag, unhex(value)};
}
