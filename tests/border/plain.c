/* A host in plain C: every struct of vls.h comes back whole, and the header asks for no more than C99. */
#include <stdio.h>
#include <string.h>

#include "vls.h"

static unsigned long checks, failed;

static void expect(const char *what, bool holds) {
    ++checks;
    if (!holds) printf("FAILED %s\n", what), ++failed;
}

static const uint8_t *text(const char *s) { return (const uint8_t *)s; }

/* Two records, b@7 V "xy" and then a@9 I "", put in that order; a@9 stands first. */
static vls_memtable fill(uint8_t *buffer, size_t room) {
    vls_changed c = vls_memtable_new(buffer, room, 42);
    expect("created", c.number == VLS_FINE && c.state.used == VLS_HEADER_SIZE && c.state.id == 42 && !c.state.flagged);
    c = vls_memtable_insert(buffer, room, c.state, text("b"), 1, 7, VLS_VALUE, text("xy"), 2);
    expect("inserted", c.number == VLS_FINE && c.state.used == VLS_HEADER_SIZE + VLS_RECORD_BYTES(1, 2));
    c = vls_memtable_insert(buffer, room, c.state, text("a"), 1, 9, VLS_INDIRECTION, NULL, 0);
    expect("inserted", c.number == VLS_FINE && c.state.size == 4 && c.state.highest_seqno == 9 && c.state.id == 42);
    return c.state;
}

static void read_all(const uint8_t *bundle, size_t bundle_len) {
    uint8_t lengths[4] = {(uint8_t)bundle_len, 0, 0, 0}, index[VLS_INDEX_SIZE(64)], upper[1];
    vls_checked o = vls_open(bundle, bundle_len, lengths, 4, index, sizeof index);
    expect("opened", o.number == VLS_FINE && o.count == 2);
    vls_prefixed p = vls_prefix(text("b"), 1, upper, 1);
    expect("prefix", p.number == VLS_FINE && p.bounded && p.length == 1 && upper[0] == 'c');
    vls_started s = vls_start(bundle, bundle_len, lengths, 4, index, sizeof index, true, false, text("b"), 1, p.bounded,
                              true, upper, p.length, 10);
    expect("started", s.number == VLS_FINE && s.cursor.front[0] == 1 && s.cursor.back[0] == 2);
    vls_stepped f = vls_front(bundle, bundle_len, lengths, 4, index, sizeof index, s.cursor);
    expect("front", f.number == VLS_FINE && f.found && f.at_list == 0 && f.at_record == 1 && f.cursor.snapshot == 10);
    vls_stepped b = vls_back(bundle, bundle_len, lengths, 4, index, sizeof index, f.cursor);
    expect("back", b.number == VLS_FINE && !b.found && memcmp(&b.cursor, &f.cursor, sizeof b.cursor) == 0);
    vls_cursor c = s.cursor;
    vls_answer n = vls_back_in_place(bundle, bundle_len, lengths, 4, index, sizeof index, &c);
    expect("back in place", n.number == VLS_FINE && n.found && n.at_list == 0 && n.at_record == 1 && c.back[0] == 1);
    n = vls_front_in_place(bundle, bundle_len, lengths, 4, index, sizeof index, &c);
    expect("front in place",
           n.number == VLS_FINE && !n.found && n.at_record == 0 && c.front[0] == 1 && c.snapshot == 10);
    vls_part key = vls_key(bundle, bundle_len, lengths, 4, index, sizeof index, 0, 1);
    vls_part value = vls_value(bundle, bundle_len, lengths, 4, index, sizeof index, 0, 1);
    expect("key", key.fit && key.length == 1 && bundle[key.start] == 'b');
    vls_placed r = vls_record(bundle, bundle_len, lengths, 4, index, sizeof index, 0, 0);
    expect("record", r.fit && r.key_len == 1 && bundle[r.key_start] == 'a' && r.seqno == 9 &&
                         r.tag == VLS_INDIRECTION && r.value_start == r.key_start + 14 && r.value_len == 0);
    expect("value", value.fit && value.length == 2 && memcmp(bundle + value.start, "xy", 2) == 0);
}

/* The first record is replaced, the second dropped. */
static void filter(const uint8_t *list, size_t list_len) {
    const uint8_t verdicts[2 * VLS_VERDICT_SIZE] = {
        [0] = VLS_REPLACE, [4] = VLS_WEAK_TOMBSTONE, [8] = 1, [12] = 2, [16] = VLS_DROP};
    uint8_t out[64], report[VLS_REPORT_SIZE(64)];
    vls_compacted a = vls_compact_filtered(list, list_len, 0, false, false, verdicts, sizeof verdicts, text("new"), 3,
                                           out, sizeof out, report, sizeof report);
    expect("filtered", a.number == VLS_FINE && a.length == VLS_HEADER_SIZE + VLS_RECORD_BYTES(1, 2) && a.kept == 1 &&
                           a.reported == 2);
    expect("replaced", memcmp(out + VLS_HEADER_SIZE + VLS_RECORD_BYTES(1, 0), "ew", 2) == 0);
    expect("both reported", report[0] == 0 && report[4] == 1);
    a = vls_compact_filtered(list, list_len, 0, false, false, verdicts, sizeof verdicts, NULL, 0, out, sizeof out,
                             report, sizeof report);
    expect("a bad verdict", a.number == VLS_BAD_VERDICT && strcmp(vls_refusal_name(a.number), "bad verdict") == 0);
}

int main(void) {
    expect("version", vls_version() == VLS_VERSION);
    uint8_t buffer[64], out[64], report[VLS_REPORT_SIZE(64)];
    vls_memtable state = fill(buffer, sizeof buffer);
    vls_found f = vls_get(buffer, sizeof buffer, state, text("a"), 1, 10);
    expect("got", f.number == VLS_FINE && f.found && f.at == 0 && f.seqno == 9 && f.tag == VLS_INDIRECTION);
    vls_figure size = vls_memtable_size(buffer, sizeof buffer, state);
    vls_figure len = vls_memtable_len(buffer, sizeof buffer, state);
    vls_figure highest = vls_memtable_highest_seqno(buffer, sizeof buffer, state);
    vls_told empty = vls_memtable_is_empty(buffer, sizeof buffer, state);
    expect("size", size.number == VLS_FINE && size.found && size.figure == 4);
    expect("length", len.number == VLS_FINE && len.found && len.figure == 2);
    expect("highest seqno", highest.number == VLS_FINE && highest.found && highest.figure == 9);
    expect("not empty", empty.number == VLS_FINE && !empty.yes);
    expect("id", vls_memtable_id(state) == 42 && !vls_memtable_is_flagged(state));
    expect("flagged", vls_memtable_is_flagged(vls_memtable_flag_rotated(state)));
    vls_checked c = vls_check(buffer, state.used);
    expect("checked", c.number == VLS_FINE && c.count == 2);
    c = vls_check(buffer, 8);
    expect("refused", c.number == VLS_TRUNCATED && strcmp(vls_refusal_name(c.number), "truncated") == 0);
    read_all(buffer, state.used);
    vls_compacted a = vls_compact(buffer, state.used, 9, true, true, out, sizeof out, report, sizeof report);
    expect("compacted", a.number == VLS_FINE && a.length == state.used && a.kept == 2 && a.reported == 0);
    filter(buffer, state.used);
    printf("plain: %lu checks, %lu failed\n", checks, failed);
    return failed != 0;
}
