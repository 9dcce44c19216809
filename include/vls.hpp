// vls.h for C++17: views of bytes, refusals as values, a reader with two ends. Throws nothing, allocates nothing, owns
// nothing. What is given to be kept must outlive what keeps it, so a temporary does not compile there.
//
//     auto opened = vls::open(bytes, vls::table(lengths), vls::table(index));
//     if (opened.refusal) return report(opened.refusal);
//     vls::Reader paths = opened.bundle.read(vls::from("main;"sv), vls::below("main<"sv), snapshot);
//     for (vls::Entry e : paths) use(e.key, e.value);
//     if (paths.refusal()) return report(paths.refusal());
#pragma once

#include <algorithm>
#include <cstddef>
#include <cstdint>
#include <iterator>
#include <optional>
#include <string_view>
#include <type_traits>
#include <utility>
#if __cplusplus >= 202002L && __has_include(<span>)
#include <span>
#endif

#include "vls.h"

namespace vls {

// ---- what is lent ----

class Bytes;
class Room;

// Whether a C only points to what it shows, so that a temporary C leaves it standing. A host may add its own.
template <class C> inline constexpr bool is_view = false;
template <> inline constexpr bool is_view<std::string_view> = true;
template <> inline constexpr bool is_view<Bytes> = true;
template <> inline constexpr bool is_view<Room> = true;
#ifdef __cpp_lib_span
template <class T, std::size_t n> inline constexpr bool is_view<std::span<T, n>> = true;
#endif

namespace detail {

template <class T> inline constexpr bool is_byte =
    std::is_same_v<T, std::uint8_t> || std::is_same_v<T, std::byte> || std::is_same_v<T, char>;

// What a C (vector, array, view, ..) keeps in a row; void where it doesn't.
template <class C, class = void> struct row { using element = void; };
template <class C>
struct row<C, std::void_t<decltype(std::data(std::declval<C &>())), decltype(std::size(std::declval<C &>()))>> {
    using element = std::remove_pointer_t<decltype(std::data(std::declval<C &>()))>;
};
template <class C> using element_of = typename row<std::remove_reference_t<C>>::element;

// A char array may be a C string: then its last byte is not meant, and nobody can tell.
template <class C> inline constexpr bool is_text =
    std::is_same_v<std::remove_cv_t<element_of<C>>, char> &&std::is_array_v<std::remove_reference_t<C>>;

// Whether a C, as a function is handed it, has bytes to read, bytes to write, or 32-bit entries of a table; and whether
// it stays when the call is over.
template <class C> inline constexpr bool reads = is_byte<std::remove_cv_t<element_of<C>>> && !is_text<C>;
template <class C> inline constexpr bool writes = is_byte<element_of<C>>;
template <class C> inline constexpr bool tables = std::is_same_v<std::remove_cv_t<element_of<C>>, std::uint32_t>;
template <class C> inline constexpr bool stays =
    std::is_lvalue_reference_v<C> || is_view<std::remove_cv_t<std::remove_reference_t<C>>>;
template <class C, class Self> inline constexpr bool other =
    !std::is_same_v<std::remove_cv_t<std::remove_reference_t<C>>, Self>;
template <bool holds> using when = std::enable_if_t<holds, int>;

} // namespace detail

// Bytes to be read: those of an array or a container of std::uint8_t, std::byte or char, or of a std::string_view.
class Bytes {
  public:
    constexpr Bytes() noexcept = default;
    template <class T, detail::when<detail::is_byte<T>> = 0> Bytes(const T *at, std::size_t length) noexcept
        : data_(reinterpret_cast<const std::uint8_t *>(at)), size_(length) {}
    template <class C, detail::when<detail::reads<C> && detail::stays<C> && detail::other<C, Bytes>> = 0>
    Bytes(C &&c) noexcept : Bytes(std::data(c), std::size(c)) {}

    // A temporary would be gone when the bytes are read.
    template <class C, detail::when<detail::reads<C> && !detail::stays<C>> = 0> Bytes(C &&) = delete;
    // A C string ends at its first zero, and a key need not: "main;run"sv has its length with it.
    Bytes(const char *) = delete;

    [[nodiscard]] constexpr const std::uint8_t *data() const noexcept { return data_; }
    [[nodiscard]] constexpr std::size_t size() const noexcept { return size_; }
    [[nodiscard]] constexpr bool empty() const noexcept { return size_ == 0; }
    [[nodiscard]] constexpr const std::uint8_t *begin() const noexcept { return data_; }
    [[nodiscard]] constexpr const std::uint8_t *end() const noexcept { return data_ + size_; }

    // So many bytes from `start` on; none where they don't all stand here.
    [[nodiscard]] constexpr Bytes part(std::uint64_t start, std::uint64_t length) const noexcept {
        Bytes p;
        if (data_ == nullptr || size_ < start || size_ - start < length) return p;
        p.data_ = data_ + start;
        p.size_ = length;
        return p;
    }
    [[nodiscard]] std::string_view text() const noexcept { return {reinterpret_cast<const char *>(data_), size_}; }

  private:
    const std::uint8_t *data_ = nullptr;
    std::size_t size_ = 0;
};

// Bytes to be written.
class Room {
  public:
    constexpr Room() noexcept = default;
    template <class T, detail::when<detail::is_byte<T>> = 0> Room(T *at, std::size_t length) noexcept
        : data_(reinterpret_cast<std::uint8_t *>(at)), size_(length) {}
    template <class C, detail::when<detail::writes<C> && detail::stays<C> && detail::other<C, Room>> = 0>
    Room(C &&c) noexcept : Room(std::data(c), std::size(c)) {}
    template <class C, detail::when<detail::writes<C> && !detail::stays<C>> = 0> Room(C &&) = delete;

    [[nodiscard]] constexpr std::uint8_t *data() const noexcept { return data_; }
    [[nodiscard]] constexpr std::size_t size() const noexcept { return size_; }

  private:
    std::uint8_t *data_ = nullptr;
    std::size_t size_ = 0;
};

// Bytes for one call only, so a temporary will do. They can't be copied, and so not be kept.
class Given {
  public:
    constexpr Given() noexcept = default;
    template <class C, detail::when<std::is_constructible_v<Bytes, const std::remove_reference_t<C> &>> = 0>
    Given(C &&c) noexcept : bytes_(static_cast<const std::remove_reference_t<C> &>(c)) {}
    Given(const char *) = delete; // as for Bytes
    Given(const Given &) = delete;
    Given &operator=(const Given &) = delete;

    [[nodiscard]] constexpr Bytes bytes() const noexcept { return bytes_; }

  private:
    Bytes bytes_;
};

// A table is a run of 32-bit little-endian entries, which is how this machine keeps them.
#if defined(__BYTE_ORDER__) && __BYTE_ORDER__ != __ORDER_LITTLE_ENDIAN__
#error "tables are little-endian"
#endif
[[nodiscard]] inline Bytes table(const std::uint32_t *entries, std::size_t count) noexcept {
    return {reinterpret_cast<const std::uint8_t *>(entries), 4 * count};
}
[[nodiscard]] inline Room table(std::uint32_t *entries, std::size_t count) noexcept {
    return {reinterpret_cast<std::uint8_t *>(entries), 4 * count};
}
template <class C, detail::when<detail::tables<C> && detail::stays<C>> = 0> [[nodiscard]] auto table(C &&c) noexcept {
    return table(std::data(c), std::size(c));
}
template <class C, detail::when<detail::tables<C> && !detail::stays<C>> = 0> void table(C &&) = delete;

// Entries that always suffice for the index of a bundle, or for the report on a list, of so many bytes.
[[nodiscard]] constexpr std::size_t most_records(std::size_t bytes) noexcept { return VLS_INDEX_SIZE(bytes) / 4; }

// ---- refusals ----

enum class Reason : std::uint64_t {
    fine = VLS_FINE, // not refused
    truncated = VLS_TRUNCATED,
    bad_mark = VLS_BAD_MARK,
    bad_version = VLS_BAD_VERSION,
    empty_key = VLS_EMPTY_KEY,
    long_key = VLS_LONG_KEY,
    bad_tag = VLS_BAD_TAG,
    disorder = VLS_DISORDER,
    excess = VLS_EXCESS,
    too_large = VLS_TOO_LARGE,
    no_room = VLS_NO_ROOM,
    unfit = VLS_UNFIT,
    bad_verdict = VLS_BAD_VERDICT
};

// Why a call was refused, and where. As with std::error_code, true means that it was.
struct [[nodiscard]] Refusal {
    Reason reason = Reason::fine;
    std::uint64_t list = 0, record = 0;

    constexpr Refusal() noexcept = default;
    constexpr Refusal(std::uint64_t number, std::uint64_t in_list, std::uint64_t at_record) noexcept
        : reason(static_cast<Reason>(number)), list(in_list), record(at_record) {}

    [[nodiscard]] constexpr explicit operator bool() const noexcept { return reason != Reason::fine; }
    [[nodiscard]] constexpr std::uint64_t number() const noexcept { return static_cast<std::uint64_t>(reason); }
    [[nodiscard]] const char *name() const noexcept { return vls_refusal_name(number()); }
};

enum class Type : std::uint8_t {
    value = VLS_VALUE,
    tombstone = VLS_TOMBSTONE,
    weak_tombstone = VLS_WEAK_TOMBSTONE,
    indirection = VLS_INDIRECTION
};

// Whether the archive that was linked has all that this header declares, as it declares it.
[[nodiscard]] inline bool archive_fits() noexcept {
    return vls_version() / 1000000 == VLS_VERSION_MAJOR && VLS_VERSION <= vls_version();
}

// ---- checking ----

struct [[nodiscard]] Checked {
    Refusal refusal;
    std::uint64_t records;
};

inline Checked check(Given list) noexcept {
    Bytes l = list.bytes();
    vls_checked c = vls_check(l.data(), l.size());
    return {{c.number, c.list, c.record}, c.count};
}

// ---- memtable ----

// What a table tells of itself; refused, the value is 0.
template <class T> struct [[nodiscard]] Told {
    Refusal refusal;
    T value;
};

struct [[nodiscard]] Found {
    Refusal refusal;
    bool found; // a tombstone is found too; if nothing is, all that follows is 0 and empty
    std::uint64_t record, seqno;
    Type type;
    std::string_view value; // a part of the buffer
};

// A list in a buffer, with its state. It is moved and not copied: of two states only one could fit the buffer.
class [[nodiscard]] Memtable {
  public:
    // The empty list, written to the buffer.
    static Memtable create(Room buffer, std::uint64_t id) noexcept {
        Memtable table(buffer, vls_memtable());
        table.changed_ = vls_memtable_new(buffer.data(), buffer.size(), id);
        return table;
    }

    // A list that stands in the buffer, by its state.
    Memtable(Room buffer, const vls_memtable &state) noexcept : buffer_(buffer), changed_{0, 0, 0, state} {}

    // What was moved from stands in no buffer, and refuses.
    Memtable(Memtable &&other) noexcept
        : buffer_(std::exchange(other.buffer_, Room())), changed_(std::exchange(other.changed_, vls_changed())) {}
    Memtable &operator=(Memtable &&other) noexcept {
        buffer_ = std::exchange(other.buffer_, Room());
        changed_ = std::exchange(other.changed_, vls_changed());
        return *this;
    }

    // Of the creation or the last insert.
    Refusal refusal() const noexcept { return {changed_.number, changed_.list, changed_.record}; }

    Refusal insert(Given key, std::uint64_t seqno, Type type, Given value) noexcept {
        Bytes k = key.bytes(), v = value.bytes();
        changed_ = vls_memtable_insert(buffer_.data(), buffer_.size(), changed_.state, k.data(), k.size(), seqno,
                                       static_cast<std::uint8_t>(type), v.data(), v.size());
        return refusal();
    }

    // The newest version strictly below the seqno.
    Found get(Given key, std::uint64_t seqno) const noexcept {
        Bytes k = key.bytes();
        vls_found f = vls_get(buffer_.data(), buffer_.size(), changed_.state, k.data(), k.size(), seqno);
        return {{f.number, f.list, f.record},
                f.found,
                f.at,
                f.seqno,
                static_cast<Type>(f.tag),
                Bytes(buffer_).part(f.value_start, f.value_len).text()};
    }

    // The sum of key and value lengths; the records; whether there are none; the highest seqno, if there are some.
    Told<std::uint64_t> size() const noexcept { return figure(ask(vls_memtable_size)); }
    Told<std::uint64_t> len() const noexcept { return figure(ask(vls_memtable_len)); }
    Told<bool> is_empty() const noexcept {
        vls_told t = ask(vls_memtable_is_empty);
        return {{t.number, t.list, t.record}, t.yes};
    }
    Told<std::optional<std::uint64_t>> highest_seqno() const noexcept {
        vls_figure f = ask(vls_memtable_highest_seqno);
        return {{f.number, f.list, f.record}, f.found ? std::optional(f.figure) : std::nullopt};
    }

    [[nodiscard]] Bytes image() const noexcept { return Bytes(buffer_).part(0, changed_.state.used); }
    [[nodiscard]] const vls_memtable &state() const noexcept { return changed_.state; }
    [[nodiscard]] std::uint64_t id() const noexcept { return vls_memtable_id(changed_.state); }
    [[nodiscard]] bool is_flagged_for_rotation() const noexcept { return vls_memtable_is_flagged(changed_.state); }
    void flag_rotated() noexcept { changed_.state = vls_memtable_flag_rotated(changed_.state); }

  private:
    template <class Answer> Answer ask(Answer (*call)(const std::uint8_t *, std::size_t, vls_memtable)) const noexcept {
        return call(buffer_.data(), buffer_.size(), changed_.state);
    }
    static Told<std::uint64_t> figure(vls_figure f) noexcept { return {{f.number, f.list, f.record}, f.figure}; }

    Room buffer_;
    vls_changed changed_;
};

// ---- bounds ----

// A lower and an upper bound are two types, so that they can't change places.
enum class End { front, back };
template <End> struct Bound {
    bool present = false, excluded = false;
    Bytes key = {};
};
using Lower = Bound<End::front>;
using Upper = Bound<End::back>;

// No bound, on either side.
struct Unbounded {
    constexpr operator Lower() const noexcept { return {}; }
    constexpr operator Upper() const noexcept { return {}; }
};
inline constexpr Unbounded unbounded = {};

[[nodiscard]] inline Lower from(Bytes key) noexcept { return {true, false, key}; }
[[nodiscard]] inline Lower after(Bytes key) noexcept { return {true, true, key}; }
[[nodiscard]] inline Upper to(Bytes key) noexcept { return {true, false, key}; }
[[nodiscard]] inline Upper below(Bytes key) noexcept { return {true, true, key}; }

struct [[nodiscard]] Prefixed {
    Refusal refusal; // then the bounds hold no key
    Lower lower;
    Upper upper;
};

// The bounds that hold the keys with this prefix. The upper one's bytes are written to the room and stay there; as many
// as the prefix has suffice.
inline Prefixed prefix(Bytes prefix, Room upper) noexcept {
    vls_prefixed p = vls_prefix(prefix.data(), prefix.size(), upper.data(), upper.size());
    if (p.number != VLS_FINE) return {{p.number, p.list, p.record}, from(prefix), below(prefix)};
    return {{}, from(prefix), p.bounded ? below(Bytes(upper).part(0, p.length)) : Upper()};
}

// ---- reading ----

class Reader;

// A record, and where it stands. Key and value are parts of the bundle.
struct Entry {
    std::uint64_t list, record;
    std::string_view key;
    std::uint64_t seqno;
    Type type;
    std::string_view value;
};

// A bundle that was opened with this index.
class Bundle {
    friend class Reader;

    template <class Call, class... More> auto ask(Call call, More... more) const noexcept {
        return call(bytes_.data(), bytes_.size(), lengths_.data(), lengths_.size(), index_.data(), index_.size(),
                    more...);
    }
    std::optional<std::string_view> part(vls_part p) const noexcept {
        if (!p.fit) return std::nullopt;
        return bytes_.part(p.start, p.length).text();
    }

  public:
    Bundle(Bytes bytes, Bytes lengths, Bytes index) noexcept : bytes_(bytes), lengths_(lengths), index_(index) {}

    [[nodiscard]] Reader read(Lower lower, Upper upper, std::uint64_t snapshot) const noexcept;

    // The record at a place, tombstones too, with its key or its value alone. Nothing for an unfit place.
    [[nodiscard]] std::optional<Entry> at(std::uint64_t list, std::uint64_t record) const noexcept {
        vls_placed p = ask(vls_record, list, record);
        if (!p.fit) return std::nullopt;
        return Entry{list,
                     record,
                     bytes_.part(p.key_start, p.key_len).text(),
                     p.seqno,
                     static_cast<Type>(p.tag),
                     bytes_.part(p.value_start, p.value_len).text()};
    }
    [[nodiscard]] std::optional<std::string_view> key(std::uint64_t list, std::uint64_t record) const noexcept {
        return part(ask(vls_key, list, record));
    }
    [[nodiscard]] std::optional<std::string_view> value(std::uint64_t list, std::uint64_t record) const noexcept {
        return part(ask(vls_value, list, record));
    }

  private:
    Bytes bytes_, lengths_, index_;
};

struct [[nodiscard]] Opened {
    Refusal refusal;
    std::uint64_t records;
    Bundle bundle;
};

// The bundle reads the lent bytes and tables from then on.
inline Opened open(Bytes bytes, Bytes lengths, Room index) noexcept {
    vls_checked c = vls_open(bytes.data(), bytes.size(), lengths.data(), lengths.size(), index.data(), index.size());
    return {{c.number, c.list, c.record}, c.count, Bundle(bytes, lengths, index)};
}

// What is left of a read. next() and next_back() take from its two ends. A loop looks at what is left and takes
// nothing:
//
//     for (vls::Entry e : reader) ..             from the first
//     for (vls::Entry e : reader.backward()) ..  from the last
//
// After a refusal there is nothing more: look at refusal() where next() or a loop ends. Over a bundle that was opened
// and not altered since, only the start can be refused, for a bound that is too long.
class [[nodiscard]] Reader {
    // Where the lists stand at one end.
    struct Positions {
        std::uint32_t of[VLS_BUNDLE_LIMIT] = {};
    };
    static constexpr End opposite(End end) noexcept { return end == End::front ? End::back : End::front; }

  public:
    [[nodiscard]] std::optional<Entry> next() noexcept { return step(End::front, cursor_); }
    [[nodiscard]] std::optional<Entry> next_back() noexcept { return step(End::back, cursor_); }
    Refusal refusal() const noexcept { return refusal_; }
    [[nodiscard]] const vls_cursor &cursor() const noexcept { return cursor_; }

    // Goes from one end of what is left to the other, and back. By C++17's rules it is an input iterator, since an
    // entry is made when it is read and `*it` is no reference; by C++20's it is bidirectional.
    template <End from> class Iterator {
      public:
        struct Pointer {
            Entry entry;
            [[nodiscard]] const Entry *operator->() const noexcept { return &entry; }
        };
        using iterator_category = std::input_iterator_tag;
        using iterator_concept = std::bidirectional_iterator_tag;
        using value_type = Entry;
        using difference_type = std::ptrdiff_t;
        using pointer = Pointer;
        using reference = Entry;

        Iterator() noexcept = default;
        [[nodiscard]] reference operator*() const noexcept { return *entry_; }
        [[nodiscard]] pointer operator->() const noexcept { return {*entry_}; }
        Iterator &operator++() noexcept {
            step(from, before_, behind_);
            return *this;
        }
        Iterator &operator--() noexcept {
            step(opposite(from), behind_, before_);
            return *this;
        }
        Iterator operator++(int) noexcept {
            Iterator old = *this;
            ++*this;
            return old;
        }
        Iterator operator--(int) noexcept {
            Iterator old = *this;
            --*this;
            return old;
        }
        [[nodiscard]] friend bool operator==(const Iterator &a, const Iterator &b) noexcept {
            if (!a.entry_ || !b.entry_) return !a.entry_ && !b.entry_;
            return a.entry_->list == b.entry_->list && a.entry_->record == b.entry_->record;
        }
        [[nodiscard]] friend bool operator!=(const Iterator &a, const Iterator &b) noexcept { return !(a == b); }

      private:
        friend class Reader;

        // Right at an end of what is left, outside of the entries.
        Iterator(Reader &reader, End end) noexcept
            : reader_(&reader), before_(positions(reader.cursor_, end)), behind_(before_) {}

        // The entry ahead. What was ahead of the old one then lies behind the new.
        void step(End end, Positions &gone, Positions &ahead) noexcept {
            vls_cursor rest = reader_->cursor_;
            put(rest, end, ahead);
            entry_ = reader_->step(end, rest);
            gone = ahead;
            if (entry_) ahead = positions(rest, end);
        }

        Reader *reader_ = nullptr;
        std::optional<Entry> entry_;
        Positions before_, behind_; // the entry's two sides, as one comes from `from`
    };

    // The other way round. It holds the reader by reference, or the reader itself where that is a temporary.
    template <class R> class Backward {
      public:
        explicit Backward(R &&reader) noexcept : reader_(std::forward<R>(reader)) {}
        [[nodiscard]] Iterator<End::back> begin() & noexcept { return reader_.template first<End::back>(); }
        [[nodiscard]] Iterator<End::back> end() & noexcept { return reader_.template last<End::back>(); }

      private:
        R reader_;
    };

    [[nodiscard]] Iterator<End::front> begin() & noexcept { return first<End::front>(); }
    [[nodiscard]] Iterator<End::front> end() & noexcept { return last<End::front>(); }
    [[nodiscard]] Backward<Reader &> backward() & noexcept { return Backward<Reader &>(*this); }
    [[nodiscard]] Backward<Reader> backward() && noexcept { return Backward<Reader>(std::move(*this)); }

  private:
    friend class Bundle;

    Reader(const Bundle &bundle, const vls_started &started) noexcept
        : bundle_(bundle), cursor_(started.cursor), refusal_{started.number, started.list, started.record} {}

    static Positions positions(const vls_cursor &c, End end) noexcept {
        Positions p;
        std::copy_n(end == End::front ? c.front : c.back, VLS_BUNDLE_LIMIT, p.of);
        return p;
    }
    static void put(vls_cursor &c, End end, const Positions &p) noexcept {
        std::copy_n(p.of, VLS_BUNDLE_LIMIT, end == End::front ? c.front : c.back);
    }

    template <End from> Iterator<from> first() noexcept { return ++Iterator<from>(*this, from); }
    template <End from> Iterator<from> last() noexcept { return Iterator<from>(*this, opposite(from)); }

    std::optional<Entry> step(End end, vls_cursor &cursor) noexcept {
        if (refusal_) return std::nullopt;
        vls_answer a = bundle_.ask(end == End::front ? vls_front_in_place : vls_back_in_place, &cursor);
        refusal_ = {a.number, a.list, a.record};
        if (!a.found) return std::nullopt;
        return bundle_.at(a.at_list, a.at_record);
    }

    Bundle bundle_;
    vls_cursor cursor_;
    Refusal refusal_;
};

inline Reader Bundle::read(Lower lower, Upper upper, std::uint64_t snapshot) const noexcept {
    return Reader(*this, ask(vls_start, lower.present, lower.excluded, lower.key.data(), lower.key.size(),
                             upper.present, upper.excluded, upper.key.data(), upper.key.size(), snapshot));
}

// ---- compaction ----

struct Job {
    std::uint64_t threshold = 0;
    bool evict_tombstones = false, zero_seqnos = false;
};

struct [[nodiscard]] Compacted {
    Refusal refusal;
    Bytes list;                   // the part of the output that is the new list
    std::uint64_t kept, reported; // its records; the entries written to the report
};

// As many bytes of output as the list has suffice, and most_records of them for the report.
inline Compacted compact(Given list, Job job, Room out, Room report) noexcept {
    Bytes l = list.bytes();
    vls_compacted c = vls_compact(l.data(), l.size(), job.threshold, job.evict_tombstones, job.zero_seqnos, out.data(),
                                  out.size(), report.data(), report.size());
    return {{c.number, c.list, c.record}, Bytes(out).part(0, c.length), c.kept, c.reported};
}

// The same with a verdict of VLS_VERDICT_SIZE bytes on each record; the values of replacements lie in `values`. The new
// list may be longer than the old one: VLS_LIST_LIMIT bytes of output always suffice.
inline Compacted compact_filtered(Given list, Job job, Given verdicts, Given values, Room out, Room report) noexcept {
    Bytes l = list.bytes(), v = verdicts.bytes(), x = values.bytes();
    vls_compacted c = vls_compact_filtered(l.data(), l.size(), job.threshold, job.evict_tombstones, job.zero_seqnos,
                                           v.data(), v.size(), x.data(), x.size(), out.data(), out.size(),
                                           report.data(), report.size());
    return {{c.number, c.list, c.record}, Bytes(out).part(0, c.length), c.kept, c.reported};
}

} // namespace vls
