#include "compaction.hpp"
#include <algorithm>
#include <sstream>

std::string question(const Job &job) {
    std::string flags = job.evict ? (job.zero ? "ez" : "e") : (job.zero ? "z" : "-");
    std::string text = "compact " + std::to_string(job.threshold) + " " + flags;
    for (const Version &v : job.list) text += " " + word(v);
    return text;
}

bool is_answer(const std::string &text, Answer &answer) {
    std::istringstream words(text);
    std::string w;
    words >> w;
    if (w != "ok") return false;
    std::vector<Version> kept;
    while (words >> w && w != "|") kept.push_back(version_of(w.substr(w.find(':') + 1)));
    answer.kept = kept.size();
    answer.output = encode(kept);
    for (; words >> w; answer.reported++) put(answer.report, std::stoul(w), 4);
    return true;
}

bool Lent::begins(const Bytes &with) const {
    size_t end = with.size();
    return std::equal(with.begin(), with.end(), bytes.begin()) &&
           std::equal(bytes.begin() + end, bytes.end(), was.begin() + end);
}

std::string compacts(const Call &call, const Bytes &list, const Answer &answer) {
    size_t length = answer.output.size(), room = answer.report.size();
    Lent out(length), report(room + 3);
    vls_compacted r = call(list, out, report);
    if (r.number != 0 || r.length != length || r.kept != answer.kept || r.reported != answer.reported) return "answer";
    if (!out.begins(answer.output)) return "output";
    if (!report.begins(answer.report)) return "report";
    std::string wrong = refuses(call, list, length - 1, room, 10, 0, "with an output one byte short");
    if (!wrong.empty() || room == 0) return wrong;
    wrong = refuses(call, list, length - 1, room - 1, 10, 0, "with both one byte short");
    return wrong.empty() ? refuses(call, list, length, room - 1, 10, 1, "with a report one byte short") : wrong;
}

std::string refuses(const Call &call, const Bytes &list, size_t out_size, size_t report_size, uint64_t number,
                    uint64_t record, const std::string &what) {
    Lent out(out_size), report(report_size);
    vls_compacted r = call(list, out, report);
    if (r.number != number || r.list != 0 || r.record != record) return "answer " + what;
    if (r.length + r.kept + r.reported != 0) return "figures " + what;
    if (!out.untouched() || !report.untouched()) return "something written " + what;
    return "";
}

std::string refuses_damaged(const Call &call, const Bytes &list, Random &random) {
    Bytes broken = list;
    damage(broken, random);
    Judged j = judge(broken);
    vls_checked checked = vls_check(broken.data(), broken.size());
    if (checked.number != j.number || checked.list != 0 || checked.record != j.record || checked.count != j.count) {
        return "check of a damaged list";
    }
    if (j.number == 0) return "";
    return refuses(call, broken, broken.size() + 9, 4 * 70, j.number, j.record, "for a damaged list");
}
