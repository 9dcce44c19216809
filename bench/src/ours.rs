//! The archive's functions, as include/vls.h declares them, over what they work on.
//! Nothing here expects a refusal: it panics.

use oracle::engine::compact::Rule;
use oracle::engine::read::Place;
use oracle::engine::Row;
use std::cmp::Ordering;
use std::ptr::null;

/// The most lists of a bundle.
const LISTS: usize = 16;

#[repr(C)]
struct Refusal {
    number: u64,
    list: u64,
    record: u64,
}

impl Refusal {
    fn none(&self) {
        let Self {
            number,
            list,
            record,
        } = self;
        assert!(*number == 0, "refused {number} list={list} record={record}");
    }
}

#[repr(C)]
struct Checked {
    refusal: Refusal,
    count: u64,
}

#[repr(C)]
#[derive(Clone, Copy)]
pub struct Cursor {
    front: [u32; LISTS],
    back: [u32; LISTS],
    snapshot: u64,
}

#[repr(C)]
struct Started {
    refusal: Refusal,
    cursor: Cursor,
}

#[repr(C)]
struct Stepped {
    refusal: Refusal,
    found: bool,
    at_list: u64,
    at_record: u64,
    cursor: Cursor,
}

#[repr(C)]
struct Part {
    fit: bool,
    start: u64,
    length: u64,
}

#[repr(C)]
struct Placed {
    fit: bool,
    key_start: u64,
    key_len: u64,
    seqno: u64,
    tag: u64,
    value_start: u64,
    value_len: u64,
}

#[repr(C)]
pub struct Compacted {
    refusal: Refusal,
    pub length: u64,
    kept: u64,
    pub reported: u64,
}

#[repr(C)]
#[derive(Clone, Copy)]
struct State {
    used: u64,
    size: u64,
    highest_seqno: u64,
    id: u64,
    flagged: bool,
}

#[repr(C)]
struct Changed {
    refusal: Refusal,
    state: State,
}

#[repr(C)]
struct Found {
    refusal: Refusal,
    found: bool,
    at: u64,
    seqno: u64,
    tag: u64,
    value_start: u64,
    value_len: u64,
}

type Bytes = *const u8;
type Room = *mut u8;
type Step = unsafe extern "C" fn(Bytes, usize, Bytes, usize, Bytes, usize, Cursor) -> Stepped;

#[rustfmt::skip]
extern "C" {
    fn vls_check(list: Bytes, list_len: usize) -> Checked;
    fn vls_open(bundle: Bytes, bundle_len: usize, lengths: Bytes, lengths_len: usize, index: Room, index_len: usize) -> Checked;
    fn vls_memtable_new(buffer: Room, buffer_len: usize, id: u64) -> Changed;
    fn vls_memtable_insert(
        buffer: Room, buffer_len: usize, state: State, key: Bytes, key_len: usize, seqno: u64, tag: u8, value: Bytes, value_len: usize,
    ) -> Changed;
    fn vls_get(buffer: Bytes, buffer_len: usize, state: State, key: Bytes, key_len: usize, seqno: u64) -> Found;
    fn vls_start(
        bundle: Bytes, bundle_len: usize, lengths: Bytes, lengths_len: usize, index: Bytes, index_len: usize,
        lower_present: bool, lower_excluded: bool, lower: Bytes, lower_len: usize,
        upper_present: bool, upper_excluded: bool, upper: Bytes, upper_len: usize, snapshot: u64,
    ) -> Started;
    fn vls_front(bundle: Bytes, bundle_len: usize, lengths: Bytes, lengths_len: usize, index: Bytes, index_len: usize, cursor: Cursor) -> Stepped;
    fn vls_back(bundle: Bytes, bundle_len: usize, lengths: Bytes, lengths_len: usize, index: Bytes, index_len: usize, cursor: Cursor) -> Stepped;
    fn vls_key(bundle: Bytes, bundle_len: usize, lengths: Bytes, lengths_len: usize, index: Bytes, index_len: usize, list: u64, record: u64) -> Part;
    fn vls_value(bundle: Bytes, bundle_len: usize, lengths: Bytes, lengths_len: usize, index: Bytes, index_len: usize, list: u64, record: u64) -> Part;
    fn vls_record(bundle: Bytes, bundle_len: usize, lengths: Bytes, lengths_len: usize, index: Bytes, index_len: usize, list: u64, record: u64) -> Placed;
    fn vls_compact(
        list: Bytes, list_len: usize, threshold: u64, evict_tombstones: bool, zero_seqnos: bool, out: Room, out_len: usize, report: Room, report_len: usize,
    ) -> Compacted;
    fn vls_compact_filtered(
        list: Bytes, list_len: usize, threshold: u64, evict_tombstones: bool, zero_seqnos: bool,
        verdicts: Bytes, verdicts_len: usize, values: Bytes, values_len: usize, out: Room, out_len: usize, report: Room, report_len: usize,
    ) -> Compacted;
    /// Of the crate `timed`, not of the border.
    fn timed_compare_keys(a: Bytes, a_len: usize, b: Bytes, b_len: usize) -> u64;
}

/// Calls a function over a bundle, its lengths and its index.
macro_rules! over {
    ($bundle:expr, $function:expr $(, $word:expr)*) => {{
        let Bundle { bytes, lengths, index } = $bundle;
        let (lengths, index) = (as_bytes(lengths), as_bytes(index));
        // SAFETY: all three are lent for the call, which only reads them.
        unsafe {
            $function(
                bytes.as_ptr(), bytes.len(), lengths.as_ptr(), lengths.len(), index.as_ptr(), index.len()
                $(, $word)*
            )
        }
    }};
}

/// The order of two keys.
#[inline]
pub fn compare_keys(a: &[u8], b: &[u8]) -> Ordering {
    // SAFETY: both keys are lent for the call.
    let order = unsafe { timed_compare_keys(a.as_ptr(), a.len(), b.as_ptr(), b.len()) };
    order.cmp(&1)
}

/// The records of a list.
pub fn check(list: &[u8]) -> u64 {
    // SAFETY: the list is lent for the call.
    let checked = unsafe { vls_check(list.as_ptr(), list.len()) };
    checked.refusal.none();
    checked.count
}

/// Lists end to end, with their lengths and the index.
pub struct Bundle {
    bytes: Vec<u8>,
    lengths: Vec<u32>,
    index: Vec<u32>,
}

impl Bundle {
    /// An opened bundle of the lists.
    pub fn new(lists: &[Vec<u8>], records: usize) -> Self {
        let mut bundle = Self {
            bytes: lists.concat(),
            lengths: lists.iter().map(|list| list.len() as u32).collect(),
            index: vec![0; records],
        };
        bundle.open();
        bundle
    }

    /// Judges the lists and fills the index; the records of all lists.
    pub fn open(&mut self) -> u64 {
        let lengths = as_bytes(&self.lengths);
        // SAFETY: all three are lent for the call, and the index is ours to be written.
        let opened = unsafe {
            vls_open(
                self.bytes.as_ptr(),
                self.bytes.len(),
                lengths.as_ptr(),
                lengths.len(),
                self.index.as_mut_ptr().cast(),
                size_of_val(&self.index[..]),
            )
        };
        opened.refusal.none();
        opened.count
    }

    /// A cursor over everything.
    pub fn start(&self) -> Cursor {
        let (none, no_bound) = (null(), false);
        let started = over!(
            self,
            vls_start,
            no_bound,
            false,
            none,
            0,
            no_bound,
            false,
            none,
            0,
            u64::MAX
        );
        started.refusal.none();
        started.cursor
    }

    /// Takes the first entry left, or the last.
    #[inline]
    pub fn step(&self, cursor: &mut Cursor, front: bool) -> Option<Place> {
        let step: Step = if front { vls_front } else { vls_back };
        let stepped = over!(self, step, *cursor);
        stepped.refusal.none();
        *cursor = stepped.cursor;
        let place = (stepped.at_list as usize, stepped.at_record as usize);
        stepped.found.then_some(place)
    }

    #[inline]
    pub fn key(&self, (list, record): Place) -> &[u8] {
        self.part(over!(self, vls_key, list as u64, record as u64))
    }

    #[inline]
    pub fn value(&self, (list, record): Place) -> &[u8] {
        self.part(over!(self, vls_value, list as u64, record as u64))
    }

    /// Key, seqno and value.
    #[inline]
    pub fn record(&self, (list, record): Place) -> (&[u8], u64, &[u8]) {
        let placed = over!(self, vls_record, list as u64, record as u64);
        assert!(placed.fit, "no such record");
        let key = self.slice(placed.key_start, placed.key_len);
        (
            key,
            placed.seqno,
            self.slice(placed.value_start, placed.value_len),
        )
    }

    fn part(&self, part: Part) -> &[u8] {
        assert!(part.fit, "no such record");
        self.slice(part.start, part.length)
    }

    fn slice(&self, start: u64, length: u64) -> &[u8] {
        &self.bytes[start as usize..][..length as usize]
    }
}

/// Compacts a list into lent room.
pub fn compact(list: &[u8], rule: &Rule, out: &mut [u8], report: &mut [u32]) -> Compacted {
    // SAFETY: all three are lent for the call; output and report are ours to be written.
    let compacted = unsafe {
        vls_compact(
            list.as_ptr(),
            list.len(),
            rule.threshold,
            rule.evict,
            rule.zero,
            out.as_mut_ptr(),
            out.len(),
            report.as_mut_ptr().cast(),
            size_of_val(report),
        )
    };
    compacted.refusal.none();
    compacted
}

/// A verdict on a record: what, tag, start and length.
pub type Verdict = [u32; 4];
pub const KEEP: Verdict = [0; 4];

pub fn compact_filtered(
    list: &[u8],
    rule: &Rule,
    verdicts: &[Verdict],
    out: &mut [u8],
    report: &mut [u32],
) -> Compacted {
    // SAFETY: all are lent for the call, with no values; output and report are ours to be written.
    let compacted = unsafe {
        vls_compact_filtered(
            list.as_ptr(),
            list.len(),
            rule.threshold,
            rule.evict,
            rule.zero,
            verdicts.as_ptr().cast(),
            size_of_val(verdicts),
            null(),
            0,
            out.as_mut_ptr(),
            out.len(),
            report.as_mut_ptr().cast(),
            size_of_val(report),
        )
    };
    compacted.refusal.none();
    compacted
}

/// A memtable and the buffer that it lies in.
pub struct Memtable {
    buffer: Vec<u8>,
    state: State,
}

impl Memtable {
    pub fn new(mut buffer: Vec<u8>) -> Self {
        let state = empty(&mut buffer);
        Self { buffer, state }
    }

    /// Begins anew and puts the rows in, one by one.
    pub fn fill(&mut self, rows: &[Row]) {
        self.state = empty(&mut self.buffer);
        for row in rows {
            self.insert(row);
        }
    }

    fn insert(&mut self, row: &Row) {
        // SAFETY: buffer, key and value are lent for the call; the buffer is ours to be written.
        let changed = unsafe {
            vls_memtable_insert(
                self.buffer.as_mut_ptr(),
                self.buffer.len(),
                self.state,
                row.key.as_ptr(),
                row.key.len(),
                row.seqno,
                row.tag.into(),
                row.value.as_ptr(),
                row.value.len(),
            )
        };
        changed.refusal.none();
        self.state = changed.state;
    }

    /// Seqno and value of the newest version below the seqno.
    pub fn get(&self, key: &[u8], seqno: u64) -> Option<(u64, &[u8])> {
        let buffer = &self.buffer;
        // SAFETY: buffer and key are lent for the call.
        let found = unsafe {
            vls_get(
                buffer.as_ptr(),
                buffer.len(),
                self.state,
                key.as_ptr(),
                key.len(),
                seqno,
            )
        };
        found.refusal.none();
        let value = &buffer[found.value_start as usize..][..found.value_len as usize];
        found.found.then_some((found.seqno, value))
    }

    /// The list that it holds.
    pub fn image(&self) -> &[u8] {
        &self.buffer[..self.state.used as usize]
    }
}

/// The state of an empty table in the buffer.
fn empty(buffer: &mut [u8]) -> State {
    // SAFETY: the buffer is lent for the call and ours to be written.
    let made = unsafe { vls_memtable_new(buffer.as_mut_ptr(), buffer.len(), 0) };
    made.refusal.none();
    made.state
}

fn as_bytes(table: &[u32]) -> &[u8] {
    // SAFETY: numbers of 32 bits are readable as bytes.
    unsafe { std::slice::from_raw_parts(table.as_ptr().cast(), size_of_val(table)) }
}
