/* The version list core, as a C or C++ host calls it: checking, memtables, reading and compaction,
 * all of it in memory that the host lends for one call. vls.hpp is the same in C++17.
 *
 * Lent memory. A slice crosses as a pointer and a length; a null pointer with length 0 is an empty
 * slice. Nothing is allocated, kept or freed: when a call returns, the library holds no pointer.
 * What is lent `const` is only read. A slice that is written must not overlap another slice of the
 * same call. Beside each output stands how many bytes of it always suffice.
 *
 * Tables. Lengths, index, report and verdicts are runs of bytes; entry i is the 32-bit little-endian
 * number in bytes 4i to 4i+3. A table of n bytes has n / 4 entries; bytes past the last whole entry are
 * neither read nor written.
 *
 * Refusals. Every answer that begins with number, list and record can be a refusal. Number 0 means not
 * refused. A refused call leaves all lent memory as it was and gives back a state or cursor as it was
 * given; its other numbers are 0 and its flags false. (A start is given no cursor: refused, it gives one
 * with nothing left.) `list` is the list of a bundle in which the refusal arose (0 outside a bundle) and
 * `record` how many records of that list were read whole and in order before it; both are 0 for a
 * refusal outside a list's records, unless a comment says more. Where several refusals apply, the one
 * named first in the function's comment is given.
 *
 * Any bytes are safe to hand in, an altered state, index or cursor too: they get an answer. What C asks
 * of a caller stays asked: a pointer is good for its length, and a bool holds 0 or 1, since one that
 * holds anything else is undefined in C itself.
 *
 * Reentrant. The library has no state of its own. Calls may run at the same time in as many threads as
 * one likes, as long as nobody writes what another is lent.
 *
 * Costs. Each comment says what a call's time grows with. No call takes memory but for its stack.
 *
 * What will grow. Later versions bring more functions; refusals from 13 on, so take every number but 0
 * for one; more lists to a bundle, and with VLS_BUNDLE_LIMIT a larger vls_cursor, which will also hold
 * a snapshot for each list; a field more in vls_memtable, for a share that each insert adds to the size;
 * lists whose keys leave out what they share; and tombstones without a value as the only ones accepted.
 * Structs cross by value, so a host is compiled with the header of the archive that it links. What it
 * puts into a file should be lists, not these structs.
 */
#ifndef VLS_H
#define VLS_H

#include <stdbool.h>
#include <stddef.h>
#include <stdint.h>

#ifdef __cplusplus
extern "C" {
#endif

/* The version of this header: major, minor and patch. Major changes with a function or struct that is
 * there already, minor with what is added, patch with neither. */
#define VLS_VERSION_MAJOR 1
#define VLS_VERSION_MINOR 1
#define VLS_VERSION_PATCH 0
#define VLS_VERSION (1000000 * VLS_VERSION_MAJOR + 1000 * VLS_VERSION_MINOR + VLS_VERSION_PATCH)

/* The version of the archive: VLS_VERSION of the header that belongs to it. */
uint64_t vls_version(void);

/* Why a call is refused. */
enum vls_refusal {
    VLS_FINE = 0,        /* not refused */
    VLS_TRUNCATED = 1,   /* the list ends inside its header, a field, a key or a value */
    VLS_BAD_MARK = 2,    /* it does not open with VLS */
    VLS_BAD_VERSION = 3, /* its version is not 1 */
    VLS_EMPTY_KEY = 4,   /* a key of length 0 in a record or an insert */
    VLS_LONG_KEY = 5,    /* a key, bound or prefix argument over VLS_KEY_LIMIT bytes */
    VLS_BAD_TAG = 6,     /* a tag that is no value type */
    VLS_DISORDER = 7,    /* strict order broken */
    VLS_EXCESS = 8,      /* bytes after the last record; or lengths that don't add up to the bundle */
    VLS_TOO_LARGE = 9,   /* a list over VLS_LIST_LIMIT bytes, or over VLS_BUNDLE_LIMIT lists */
    VLS_NO_ROOM = 10,    /* a lent output or table is too short */
    VLS_UNFIT = 11,      /* a state, cursor, index or lengths that don't fit what they are of */
    VLS_BAD_VERDICT = 12 /* verdicts not as many as the records, or one that says none of the three */
};

/* A refusal's name for people; "unknown" for a number that this header has no name for. */
static inline const char *vls_refusal_name(uint64_t number) {
    switch (number) {
    case VLS_FINE: return "fine";
    case VLS_TRUNCATED: return "truncated";
    case VLS_BAD_MARK: return "bad mark";
    case VLS_BAD_VERSION: return "bad version";
    case VLS_EMPTY_KEY: return "empty key";
    case VLS_LONG_KEY: return "long key";
    case VLS_BAD_TAG: return "bad tag";
    case VLS_DISORDER: return "disorder";
    case VLS_EXCESS: return "excess";
    case VLS_TOO_LARGE: return "too large";
    case VLS_NO_ROOM: return "no room";
    case VLS_UNFIT: return "unfit";
    case VLS_BAD_VERDICT: return "bad verdict";
    default: return "unknown";
    }
}

/* What a record says of its key: its tag. */
enum vls_value_type {
    VLS_VALUE = 0,
    VLS_TOMBSTONE = 1,
    VLS_WEAK_TOMBSTONE = 2,
    VLS_INDIRECTION = 4
};

enum vls_limit {
    VLS_LIST_LIMIT = 1048576, /* bytes of a list */
    VLS_RECORD_LIMIT = 65535, /* records of a list, which follows */
    VLS_BUNDLE_LIMIT = 16,    /* lists of a bundle */
    VLS_KEY_LIMIT = 65535,    /* bytes of a key, bound or prefix */
    VLS_HEADER_SIZE = 9,      /* bytes of a list with no records */
    VLS_RECORD_SIZE = 15,     /* bytes of a record beside its key and value */
    VLS_VERDICT_SIZE = 16     /* bytes of a filter's verdict on a record */
};

/* Bytes that always suffice: for the index of a bundle and for the report on a list of so many bytes (no
 * record is shorter than 16), and what a record adds to a list. */
#define VLS_INDEX_SIZE(bundle_len) ((bundle_len) / (VLS_RECORD_SIZE + 1) * 4)
#define VLS_REPORT_SIZE(list_len) ((list_len) / (VLS_RECORD_SIZE + 1) * 4)
#define VLS_RECORD_BYTES(key_len, value_len) (VLS_RECORD_SIZE + (key_len) + (value_len))

/* ---- Checking ---- */

typedef struct vls_checked {
    uint64_t number, list, record;
    uint64_t count; /* records in all */
} vls_checked;

/* Judges one list and answers its record count.
 * Refuses 9; then 1, 2, 3 on the header; then record by record in field order 1, 4 (after the key
 * length) and 6 (after the tag), and 7 once the record is whole; last 8. `record` counts the records
 * before it.
 * Cost: one pass over the records; each key is compared with the one before, values are skipped. */
vls_checked vls_check(const uint8_t *list, size_t list_len);

/* Judges a bundle, the lists end to end that the table of lengths tells of, each as vls_check does
 * within its own bytes. Answers the records of all lists and writes each record's start, counted from
 * the bundle's first byte, into the index, list after list; index bytes past them stay.
 * Refuses 9 over 16 lists; 8 if the lengths don't add up; then what vls_check refuses, list by list,
 * with `list` and the `record` within that list; last 10 if the index has too few entries.
 * Room: four bytes of index for each record; VLS_INDEX_SIZE(bundle_len) always suffices.
 * Cost: two passes over the records. */
vls_checked vls_open(const uint8_t *bundle, size_t bundle_len, const uint8_t *lengths,
                     size_t lengths_len, uint8_t *index, size_t index_len);

/* ---- Memtable: one list in a lent buffer, with a small state that the host keeps ----
 * A call that looks into a table judges its image again: that is a pass over it, as vls_check's. Between
 * the calls the buffer is the host's; its first `used` bytes are a list like any other. */

typedef struct vls_memtable {
    uint64_t used;          /* bytes of the buffer that are the list, its image */
    uint64_t size;          /* the sum of key and value lengths held */
    uint64_t highest_seqno; /* 0 in an empty table */
    uint64_t id;            /* the host's, passed through */
    bool flagged;           /* for rotation; passed through */
} vls_memtable;

typedef struct vls_changed {
    uint64_t number, list, record;
    vls_memtable state; /* the next state */
} vls_changed;

/* Writes the empty list to the first 9 bytes of the buffer and answers its state: used 9, the id, all
 * else 0. The other bytes stay.
 * Refuses 10 below 9 bytes; the state is then the id and all else 0.
 * Room: VLS_HEADER_SIZE bytes, and VLS_RECORD_BYTES for each record to come. VLS_LIST_LIMIT bytes
 * always suffice.
 * Cost: the same for every buffer. */
vls_changed vls_memtable_new(uint8_t *buffer, size_t buffer_len, uint64_t id);

/* Puts a record at its place in the image, or replaces tag and value where key and seqno are held
 * already, and answers the next state. If the image shrinks, the bytes from its new end to its old end
 * become 0; bytes past both stay. The flag does not matter.
 * Refuses 11 if used is past the buffer; what vls_check refuses of the image, with its `record`; 11 if
 * size or highest seqno isn't the image's; 5 or 4 for the key; 6 for the tag; 9 and then 10 if the
 * image as it would be is over the limit or longer than the buffer.
 * Cost: a pass over the image, and the bytes behind the record's place are moved. */
vls_changed vls_memtable_insert(uint8_t *buffer, size_t buffer_len, vls_memtable state,
                                const uint8_t *key, size_t key_len, uint64_t seqno, uint8_t tag,
                                const uint8_t *value, size_t value_len);

typedef struct vls_found {
    uint64_t number, list, record;
    bool found;            /* if not, all that follows is 0 */
    uint64_t at;           /* the record's number in the image */
    uint64_t seqno, tag;   /* tombstones are found too */
    uint64_t value_start;  /* the value is the part of the buffer that starts here; */
    uint64_t value_len;    /* an empty one starts where it would stand */
} vls_found;

/* Finds the newest version of the key strictly below the seqno. An empty key, and any key at seqno 0,
 * finds nothing. Writes nothing.
 * Refuses 11 if used is past the buffer; what vls_check refuses of the image, with its `record`; 11 if
 * size or highest seqno isn't the image's; 5 for the key, unless the seqno is 0.
 * Cost: a pass over the image. */
vls_found vls_get(const uint8_t *buffer, size_t buffer_len, vls_memtable state, const uint8_t *key,
                  size_t key_len, uint64_t seqno);

typedef struct vls_figure {
    uint64_t number, list, record;
    bool found; /* if not, the figure is 0 */
    uint64_t figure;
} vls_figure;

typedef struct vls_told {
    uint64_t number, list, record;
    bool yes;
} vls_told;

/* What a table holds: the sum of its key and value lengths, the number of its records, the highest
 * seqno, which an empty table has not, and whether it is empty. Write nothing.
 * Refuse 11 if used is past the buffer; what vls_check refuses of the image, with its `record`; 11 if
 * size or highest seqno isn't the image's.
 * Cost: a pass over the image. */
vls_figure vls_memtable_size(const uint8_t *buffer, size_t buffer_len, vls_memtable state);
vls_figure vls_memtable_len(const uint8_t *buffer, size_t buffer_len, vls_memtable state);
vls_figure vls_memtable_highest_seqno(const uint8_t *buffer, size_t buffer_len, vls_memtable state);
vls_told vls_memtable_is_empty(const uint8_t *buffer, size_t buffer_len, vls_memtable state);

/* Of the state alone, whatever the buffer holds: the state with its flag raised, which no call takes
 * down again; whether it is raised; and the id. Refuse nothing.
 * Cost: the same for every table. */
vls_memtable vls_memtable_flag_rotated(vls_memtable state);
bool vls_memtable_is_flagged(vls_memtable state);
uint64_t vls_memtable_id(vls_memtable state);

/* ---- Reading an opened bundle from both ends ---- */

/* What is left of a read: of list k the records from front[k] up to, not including, back[k]. The
 * caller keeps it and hands it back; it points nowhere. */
typedef struct vls_cursor {
    uint32_t front[VLS_BUNDLE_LIMIT], back[VLS_BUNDLE_LIMIT];
    uint64_t snapshot; /* only versions strictly below it are seen */
} vls_cursor;

typedef struct vls_started {
    uint64_t number, list, record;
    vls_cursor cursor;
} vls_started;

/* Answers a cursor over the keys between two bounds at a snapshot. A bound that is not present is not
 * looked at: neither its flag nor its bytes. An inverted or empty interval leaves nothing to read.
 * The bundle's records are read through the index as vls_open filled it. Writes nothing.
 * Refuses 11 if the lengths don't cover the bundle (at most 16, each at least 9, adding up to it), the
 * index has no entry for a record, or a record isn't whole in its list; then 5 for the lower bound,
 * then for the upper. The cursor then has nothing left: positions 0, and the snapshot.
 * Cost: one look at every record of the bundle; keys are compared with the bounds. */
vls_started vls_start(const uint8_t *bundle, size_t bundle_len, const uint8_t *lengths,
                      size_t lengths_len, const uint8_t *index, size_t index_len,
                      bool lower_present, bool lower_excluded, const uint8_t *lower,
                      size_t lower_len, bool upper_present, bool upper_excluded,
                      const uint8_t *upper, size_t upper_len, uint64_t snapshot);

typedef struct vls_stepped {
    uint64_t number, list, record;
    bool found;                  /* if not, the place is 0, 0 and the cursor as it was given */
    uint64_t at_list, at_record; /* the entry's place */
    vls_cursor cursor;           /* the next cursor */
} vls_stepped;

/* Takes the first entry left: of the least key that has one, the newest version below the snapshot
 * (of equal seqnos the one in the lowest list). Keys whose newest version is a tombstone are passed
 * over. Writes nothing.
 * Refuses 11 as vls_start does for lengths and index; if a position is past its list's records or two
 * ends are crossed; or if a record that the step reads isn't whole in its list.
 * Cost: a pass over the lengths and the lists' headers; then, for each record that is passed (all
 * versions of the entry's key, and of the keys passed over), at most a look at each list's next. */
vls_stepped vls_front(const uint8_t *bundle, size_t bundle_len, const uint8_t *lengths,
                      size_t lengths_len, const uint8_t *index, size_t index_len,
                      vls_cursor cursor);

/* Takes the last entry left: vls_front from the other end, with the same refusals and the same cost. */
vls_stepped vls_back(const uint8_t *bundle, size_t bundle_len, const uint8_t *lengths,
                     size_t lengths_len, const uint8_t *index, size_t index_len,
                     vls_cursor cursor);

typedef struct vls_answer {
    uint64_t number, list, record;
    bool found;                  /* if not, the place is 0, 0 */
    uint64_t at_list, at_record; /* the entry's place */
} vls_answer;

/* vls_front and vls_back on a cursor that is lent, which is not null and overlaps nothing else of the
 * call: the next cursor is put where the given one was. Without an entry, refused or not, it stays as it
 * is. The same refusals and the same cost. */
vls_answer vls_front_in_place(const uint8_t *bundle, size_t bundle_len, const uint8_t *lengths,
                              size_t lengths_len, const uint8_t *index, size_t index_len,
                              vls_cursor *cursor);
vls_answer vls_back_in_place(const uint8_t *bundle, size_t bundle_len, const uint8_t *lengths,
                             size_t lengths_len, const uint8_t *index, size_t index_len,
                             vls_cursor *cursor);

/* A part of the bundle. An empty part that is fit starts where it would stand. */
typedef struct vls_part {
    bool fit; /* if not, start and length are 0 */
    uint64_t start, length;
} vls_part;

/* Where the value of a record is, tombstones' too. The place is fit if lengths and index cover the
 * bundle and the record is there and whole. Refuses nothing, writes nothing.
 * Cost: a pass over the lengths and the lists' headers, and one record read. */
vls_part vls_value(const uint8_t *bundle, size_t bundle_len, const uint8_t *lengths,
                   size_t lengths_len, const uint8_t *index, size_t index_len, uint64_t list,
                   uint64_t record);

/* Where the key of a record is; fit and costly as vls_value. */
vls_part vls_key(const uint8_t *bundle, size_t bundle_len, const uint8_t *lengths,
                 size_t lengths_len, const uint8_t *index, size_t index_len, uint64_t list,
                 uint64_t record);

typedef struct vls_placed {
    bool fit; /* if not, all that follows is 0 */
    uint64_t key_start, key_len;
    uint64_t seqno, tag;
    uint64_t value_start, value_len;
} vls_placed;

/* A record whole, in one call: its key and its value as vls_key and vls_value tell them, its seqno and
 * its tag. Fit as for vls_value, and as costly as that alone. */
vls_placed vls_record(const uint8_t *bundle, size_t bundle_len, const uint8_t *lengths,
                      size_t lengths_len, const uint8_t *index, size_t index_len, uint64_t list,
                      uint64_t record);

typedef struct vls_prefixed {
    uint64_t number, list, record;
    bool bounded;    /* whether there is an upper bound */
    uint64_t length; /* its bytes; 0 if there is none */
} vls_prefixed;

/* The bounds that hold a key exactly when it starts with the prefix: from the prefix, included, up to
 * the upper bound, excluded, whose bytes are written to `upper`; bytes past them stay. A prefix that is
 * empty or all 255 has no upper bound.
 * Refuses 5 over 65,535 bytes; then 10 if there is an upper bound and it is longer than the buffer.
 * Room: as many bytes as the prefix has always suffice.
 * Cost: one pass over the prefix. */
vls_prefixed vls_prefix(const uint8_t *prefix, size_t prefix_len, uint8_t *upper, size_t upper_len);

/* ---- Compaction ---- */

typedef struct vls_compacted {
    uint64_t number, list, record;
    uint64_t length;   /* bytes of the new list */
    uint64_t kept;     /* its records */
    uint64_t reported; /* entries of the report */
} vls_compacted;

/* Writes the compacted list to `out` and the numbers of the expired records, in input order, to the
 * report table; bytes past either stay. Of each key the expired versions are those below the threshold
 * that are not its newest; they are dropped and reported. A tombstone that is then its key's last may go
 * too, unreported: any, if eviction is on and nothing of the key expired; a Tombstone, if eviction is on
 * and something did; a WeakTombstone, eviction on or off, if the newest expired version is a Value. With
 * zeroing, a version that is kept and below the threshold gets seqno 0. vls_check accepts the new list.
 * Refuses what vls_check refuses of the list; 10 with record 0 if `out` is shorter than the new list;
 * 10 with record 1 if the report has too few entries.
 * Room: list_len bytes of `out` and VLS_REPORT_SIZE(list_len) bytes of report always suffice.
 * Cost: three passes over the records, and a copy of those kept. */
vls_compacted vls_compact(const uint8_t *list, size_t list_len, uint64_t threshold,
                          bool evict_tombstones, bool zero_seqnos, uint8_t *out, size_t out_len,
                          uint8_t *report, size_t report_len);

/* What a filter's verdict says of its record. A verdict is four table entries: this, and of a
 * replacement the tag, and the start and the length of its value, a part of the lent values; an empty one
 * may stand at their very end. Of keep and drop the other three are not looked at. */
enum vls_what {
    VLS_KEEP = 0,
    VLS_DROP = 1,
    VLS_REPLACE = 2 /* by another tag and value */
};

/* Compacts as vls_compact does, with a verdict on each record: verdict i is on record i, and bytes past
 * the last whole verdict don't count. The newest version of a key is a head. A head that is no
 * tombstone is asked: drop takes it out and reports it, and the next version of the key is a head,
 * whatever its seqno; replace reports it and gives it another tag and value, by which it is then judged.
 * Behind a head that was not dropped the next version of the key is a head too, unless it is below the
 * threshold: then it and all behind it expire, unasked. Whether a head goes is told by the version
 * behind it as it stands in the list, also if that is dropped next. The report has the numbers of the
 * dropped, the replaced and the expired records, in input order.
 * Refuses what vls_check refuses of the list; 12 if the verdicts are not as many as the records, or one,
 * asked or not, says none of the three, or replaces by a tag that is none or by a value outside the
 * values; 9 if the new list is over VLS_LIST_LIMIT bytes; then 10 as vls_compact does.
 * Room: VLS_LIST_LIMIT bytes of `out` and VLS_REPORT_SIZE(list_len) bytes of report always suffice.
 * Cost: three passes over the records and the verdicts, and a copy of what is kept. */
vls_compacted vls_compact_filtered(const uint8_t *list, size_t list_len, uint64_t threshold,
                                   bool evict_tombstones, bool zero_seqnos, const uint8_t *verdicts,
                                   size_t verdicts_len, const uint8_t *values, size_t values_len,
                                   uint8_t *out, size_t out_len, uint8_t *report, size_t report_len);

#ifdef __cplusplus
}
#endif

#endif
