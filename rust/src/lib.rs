//! Jellyspire for Rust: the slot table of a chip with an Æthereal-style network inside.
//!
//! A caller says what its [`Chip`] is and lends two [`Buffers`] to each call: the table, 64 bytes for each of 1 to 64 channels,
//! and the list, 64 bytes for each of 1 to 64 flows. A new table and a new list are zeros. Every call takes every input: it
//! answers, or is refused with the first [`Refusal`] that holds in the order that stands with the call, and then no byte of
//! table or list is changed. No call allocates; each needs less than 64 KiB of stack.
//!
//! Fill a struct up with `..Default::default()`, since later versions add fields. What is left at its default is refused where
//! it is needed, and never guessed.
#![no_std]

/// What the chip is: a wheel of `n` slots (1 to 64) with `s` words in a slot (2 to 64), `h` header words (0 to `s` - 1) and a
/// header every `p` slots of a run (1 to 64).
#[derive(Clone, Copy, Debug, Default, PartialEq, Eq)]
pub struct Chip {
    pub n: usize,
    pub s: usize,
    pub h: usize,
    pub p: usize,
}

/// The buffers that are lent. Channel c stands in the table from byte 64 c on, a cell is 0 if it is free or the number of the
/// flow that holds it; flow f stands in the list from byte 64 (f - 1) on (docs/RECORD.md).
#[derive(Debug, Default)]
pub struct Buffers<'a> {
    pub table: &'a mut [u8],
    pub list: &'a mut [u8],
}

/// Why a call was refused; `as u64` it is the number of the header.
#[derive(Clone, Copy, Debug, PartialEq, Eq)]
pub enum Refusal {
    /// n, s, h or p of the chip lies outside its range
    BadWheel = 1,
    /// the table is not 64 bytes for each of 1 to 64 channels
    BadTable = 2,
    /// the list is not 64 bytes for each of 1 to 64 flows
    BadList = 3,
    /// table and list do not agree, or a record is none
    Disagree = 4,
    /// the path has no channel, or more than 16
    PathLength = 5,
    /// an entry of the path is no channel of the table
    NoChannel = 6,
    /// a channel stands twice in the path
    ChannelTwice = 7,
    /// the flow is 0, or the list has no such flow
    NoFlow = 8,
    /// the flow is open
    AlreadyOpen = 9,
    /// the flow is not open
    NotOpen = 10,
    /// no words are asked for
    NoWords = 11,
    /// the deadline is not above the path length; in bare selection, the limit is 0
    NoTime = 12,
    /// no set of free slots delivers so many words
    TooMuch = 13,
    /// some set does, but none of those keeps its gaps small enough
    TooFar = 14,
    /// a free slot is named at n or beyond
    SlotBeyond = 15,
}

/// The chosen slots, a bit for each, counted at the first channel; how many they are; the words that they deliver in a
/// revolution.
#[derive(Clone, Copy, Debug, PartialEq, Eq)]
pub struct Selection {
    pub slots: u64,
    pub count: usize,
    pub words: usize,
}

/// The cells that are free and those that open flows hold, together channels times n.
#[derive(Clone, Copy, Debug, PartialEq, Eq)]
pub struct Cells {
    pub free: usize,
    pub held: usize,
}

/// Opens `flow` on a path with a demand of `words` words in a revolution, each there within `deadline` slots: chooses the best
/// of the path's free slots, writes the flow's number into its cells, and the flow's record. Nothing else is changed. A deadline
/// above 65,535 is kept in the record as 65,535, which restricts no more.
/// Refusals, the first that holds: 1, 2, 3, 4, 5, 6, 7, 8, 9, 11, 12, 13, 14.
pub fn open(
    chip: Chip,
    lent: &mut Buffers,
    flow: usize,
    path: &[u16],
    words: usize,
    deadline: usize,
) -> Result<Selection, Refusal> {
    let mut channels = [0; 16];
    let mut values = [0; 3];
    for (entry, channel) in channels.iter_mut().zip(path) {
        *entry = *channel;
    }
    let (table, list) = (&mut *lent.table, &mut *lent.list);
    // SAFETY: pointer and size come from the same slice, and the two slices are apart.
    yes(unsafe {
        jellyspire_raw_open(
            table.as_mut_ptr(),
            table.len(),
            list.as_mut_ptr(),
            list.len(),
            chip.n,
            chip.s,
            chip.h,
            chip.p,
            flow,
            &channels,
            path.len(),
            words,
            deadline,
            &mut values,
        )
    })?;
    Ok(selection(values))
}

/// Closes `flow`: sets its cells and its record to 0, and says how many cells. Nothing else is changed.
/// Refusals, the first that holds: 1, 2, 3, 4, 8, 10.
pub fn close(chip: Chip, lent: &mut Buffers, flow: usize) -> Result<usize, Refusal> {
    let mut values = [0; 1];
    let (table, list) = (&mut *lent.table, &mut *lent.list);
    // SAFETY: as in `open`.
    yes(unsafe {
        jellyspire_raw_close(
            table.as_mut_ptr(),
            table.len(),
            list.as_mut_ptr(),
            list.len(),
            chip.n,
            chip.s,
            chip.h,
            chip.p,
            flow,
            &mut values,
        )
    })?;
    Ok(values[0] as usize)
}

/// Counts free and held cells. Refusals, the first that holds: 1, 2, 3, 4.
pub fn report(chip: Chip, lent: &Buffers) -> Result<Cells, Refusal> {
    let mut values = [0; 2];
    let (table, list) = (&*lent.table, &*lent.list);
    // SAFETY: as in `open`; table and list are only read.
    yes(unsafe {
        jellyspire_raw_report(
            table.as_ptr(),
            table.len(),
            list.as_ptr(),
            list.len(),
            chip.n,
            chip.s,
            chip.h,
            chip.p,
            &mut values,
        )
    })?;
    Ok(Cells { free: values[0] as usize, held: values[1] as usize })
}

/// Whether table and list agree, or the first that holds of 1, 2, 3, 4.
pub fn agree(chip: Chip, lent: &Buffers) -> Result<(), Refusal> {
    let (table, list) = (&*lent.table, &*lent.list);
    // SAFETY: as in `report`.
    yes(unsafe { jellyspire_raw_agree(table.as_ptr(), table.len(), list.as_ptr(), list.len(), chip.n, chip.s, chip.h, chip.p) })
}

/// The `n` cells of a channel; empty if the chip's wheel, the table's size or the channel is bad.
pub fn row<'a>(chip: Chip, lent: &'a Buffers, channel: usize) -> &'a [u8] {
    let mut values = [0; 2];
    let table = &*lent.table;
    // SAFETY: as in `report`. On a refusal both values stay 0.
    unsafe { jellyspire_raw_row(table.as_ptr(), table.len(), chip.n, chip.s, chip.h, chip.p, channel, &mut values) };
    let [offset, length] = values.map(|value| value as usize);
    &table[offset..offset + length]
}

/// Bare selection, with no table: the best set of the slots named in `free` (bit s is slot s) that delivers at least `words`
/// words in a revolution with no gap above `limit` slots.
/// Refusals, the first that holds: 1, 15, 11, 12, 13, 14.
pub fn select(chip: Chip, free: u64, words: usize, limit: usize) -> Result<Selection, Refusal> {
    let mut values = [0; 3];
    // SAFETY: the call takes numbers, and the array that it writes.
    yes(unsafe { jellyspire_raw_select(chip.n, chip.s, chip.h, chip.p, free, words, limit, &mut values) })?;
    Ok(selection(values))
}

fn selection([slots, count, words]: [u64; 3]) -> Selection {
    Selection { slots, count: count as usize, words: words as usize }
}

/// The refusals in the order of their numbers.
const REFUSALS: [Refusal; 15] = {
    use Refusal::*;
    [
        BadWheel,
        BadTable,
        BadList,
        Disagree,
        PathLength,
        NoChannel,
        ChannelTwice,
        NoFlow,
        AlreadyOpen,
        NotOpen,
        NoWords,
        NoTime,
        TooMuch,
        TooFar,
        SlotBeyond,
    ]
};

const _: () = {
    let mut k = 0;
    while k < REFUSALS.len() {
        assert!(REFUSALS[k] as usize == k + 1);
        k += 1;
    }
};

/// What the number of an answer means. A call gives none above 15.
fn yes(number: u64) -> Result<(), Refusal> {
    match number {
        0 => Ok(()),
        _ => Err(REFUSALS[number as usize - 1]),
    }
}

// The boundary, as include/jellyspire.h declares it; tests/face/declarations holds one against the other.
#[rustfmt::skip]
#[link(name = "jellyspire", kind = "static")]
extern "C" {
    fn jellyspire_raw_open(table: *mut u8, table_size: usize, list: *mut u8, list_size: usize, n: usize, s: usize,
        h: usize, p: usize, flow: usize, path: &[u16; 16], len: usize, words: usize, deadline: usize,
        values: &mut [u64; 3]) -> u64;
    fn jellyspire_raw_close(table: *mut u8, table_size: usize, list: *mut u8, list_size: usize, n: usize, s: usize,
        h: usize, p: usize, flow: usize, values: &mut [u64; 1]) -> u64;
    fn jellyspire_raw_report(table: *const u8, table_size: usize, list: *const u8, list_size: usize, n: usize,
        s: usize, h: usize, p: usize, values: &mut [u64; 2]) -> u64;
    fn jellyspire_raw_agree(table: *const u8, table_size: usize, list: *const u8, list_size: usize, n: usize,
        s: usize, h: usize, p: usize) -> u64;
    fn jellyspire_raw_row(table: *const u8, table_size: usize, n: usize, s: usize, h: usize, p: usize, channel: usize,
        values: &mut [u64; 2]) -> u64;
    fn jellyspire_raw_select(n: usize, s: usize, h: usize, p: usize, free: u64, words: usize, limit: usize,
        values: &mut [u64; 3]) -> u64;
}
