// Prefixes, those of 255s too; the upper bound's buffer exactly long enough and one byte short.
#include "area.hpp"
#include "list.hpp"
#include "vls.h"
#include <sstream>

namespace {

std::string make(uint64_t seed, uint64_t i) {
    static const uint8_t bytes[] = {0, 1, 97, 254, 255, 255};
    Random random(seed + i);
    std::string prefix;
    for (uint64_t n = random.below(random.one_in(10) ? 200 : 5); n > 0; n--) prefix += char(bytes[random.below(6)]);
    return prefix;
}

std::string ask(uint64_t seed, uint64_t i) {
    std::string prefix = make(seed, i);
    return "prefix " + (prefix.empty() ? std::string("-") : hex(prefix));
}

std::string compare(uint64_t seed, uint64_t i, const std::string &answer) {
    std::string prefix = make(seed, i);
    Bytes upper(prefix.size() + 4, 0xA5);
    auto call = [&](size_t room) { return vls_prefix(bytes_of(prefix), prefix.size(), upper.data(), room); };
    vls_prefixed r = call(upper.size());
    if (r.number != 0) return "refused";
    std::string lower = prefix.empty() ? "-" : "i:" + hex(prefix);
    std::string bound = r.bounded ? "x:" + hex(std::string(upper.begin(), upper.begin() + r.length)) : "-";
    if (answer != "ok " + lower + " " + bound) return "bounds " + lower + " " + bound;
    for (size_t j = r.length; j < upper.size(); j++) {
        if (upper[j] != 0xA5) return "a byte past the bound";
    }
    if (!r.bounded) return "";
    Bytes as_was(upper.size(), 0xA5);
    upper = as_was;
    if (call(r.length - 1).number != 10 || upper != as_was) return "a buffer one byte short";
    return "";
}

} // namespace

const Area prefixes = {"prefix", ask, compare};
