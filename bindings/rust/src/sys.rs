//! The functions and the numbers of include/torzimlak.h, over slices. They are safe: each may be given any words and bytes. An answer is a
//! number, or a number and its value; a refused call changes no lent word or byte.
//!
//! Why calls of the library are sound: a pointer and its length come from one slice, so the pointer is aligned, not null and valid for that
//! length during the call, and what is lent for writing is a `&mut`, so nothing else lent overlaps it. The library is proved to touch
//! nothing but these words and bytes, whatever they hold, keeps no pointer, and never unwinds.

/// Where XL stands in a lent state; XR, XS, WA, WB and WC follow.
pub const XL: usize = 0;
/// IA: 32 bits, signed.
pub const IA: usize = 6;
/// The overflow flag of IA: 0 or 1.
pub const FLAG: usize = 7;
/// The place.
pub const PLACE: usize = 8;
/// Whether the state waits: 0 or 1.
pub const WAITING: usize = 9;
/// The count of links.
pub const COUNT: usize = 10;
/// The first of 256 links, oldest first.
pub const LINKS: usize = 11;
/// RA's low word: the low 32 bits of a float.
pub const RA_LOW: usize = 267;
/// RA's high word.
pub const RA_HIGH: usize = 268;
/// The overflow flag of RA: 0 or 1.
pub const REAL_FLAG: usize = 269;
/// The words of a lent state.
pub const STATE_WORDS: usize = 270;
/// The fewest words that memory may have.
pub const MIN_MEMORY: usize = 256;
/// The most words that memory may have.
pub const MAX_MEMORY: usize = 8192;
/// The most steps that a run may be given.
pub const MAX_BUDGET: u32 = 1_000_000;
/// The words of the longest table.
pub const TABLE_WORDS: usize = 16_872;
/// The bytes of the longest file.
pub const FILE_BYTES: usize = 33_996;

mod c {
    extern "C" {
        pub fn torzimlak_assemble(cards: *const u8, bytes: usize, table: *mut u32, words: usize) -> u64;
        pub fn torzimlak_check_table(table: *const u32, words: usize) -> u32;
        pub fn torzimlak_check_state(
            table: *const u32,
            words: usize,
            memory_words: usize,
            state: *const u32,
            state_words: usize,
        ) -> u32;
        pub fn torzimlak_start(
            table: *const u32,
            words: usize,
            memory: *mut u32,
            memory_words: usize,
            fresh: *const u32,
            fresh_words: usize,
            argument: u32,
            state: *mut u32,
            state_words: usize,
        ) -> u32;
        pub fn torzimlak_warm_start(
            table: *const u32,
            words: usize,
            memory: *mut u32,
            memory_words: usize,
            fresh: *const u32,
            fresh_words: usize,
            argument: u32,
            state: *mut u32,
            state_words: usize,
        ) -> u32;
        pub fn torzimlak_run(
            table: *const u32,
            words: usize,
            memory: *mut u32,
            memory_words: usize,
            state: *mut u32,
            state_words: usize,
            budget: u32,
        ) -> u64;
        pub fn torzimlak_resume(
            table: *const u32,
            words: usize,
            memory: *const u32,
            memory_words: usize,
            state: *mut u32,
            state_words: usize,
            exit: u32,
        ) -> u32;
        pub fn torzimlak_write(
            table: *const u32,
            words: usize,
            memory: *const u32,
            memory_words: usize,
            state: *const u32,
            state_words: usize,
            build: u32,
            file: *mut u8,
            bytes: usize,
        ) -> u64;
        pub fn torzimlak_restore(
            table: *const u32,
            words: usize,
            file: *const u8,
            bytes: usize,
            build: u32,
            fresh: *const u32,
            fresh_words: usize,
            memory: *mut u32,
            memory_words: usize,
            state: *mut u32,
            state_words: usize,
        ) -> u32;
    }
}

/// The number and the value of an answer.
fn parts(answer: u64) -> (u32, u32) {
    ((answer >> 32) as u32, answer as u32)
}

/// Cards become a table at the front of the room: 0 and its length, or 1 to 10 and the line (0 where there is none).
/// Needs about 1.1 MB of stack.
pub fn assemble(cards: &[u8], table: &mut [u32]) -> (u32, u32) {
    // SAFETY: as this module says: pointers and lengths are those of live slices.
    let answer = unsafe { c::torzimlak_assemble(cards.as_ptr(), cards.len(), table.as_mut_ptr(), table.len()) };
    parts(answer)
}

/// 0: the table passes its check. 30: it does not.
pub fn check_table(table: &[u32]) -> u32 {
    // SAFETY: as this module says: pointers and lengths are those of live slices.
    unsafe { c::torzimlak_check_table(table.as_ptr(), table.len()) }
}

/// 0: the state may be run on the table with memory of that many words. 30, 31: the table, the state.
pub fn check_state(table: &[u32], memory_words: usize, state: &[u32]) -> u32 {
    // SAFETY: as this module says: pointers and lengths are those of live slices.
    unsafe { c::torzimlak_check_state(table.as_ptr(), table.len(), memory_words, state.as_ptr(), state.len()) }
}

/// The plain start: a machine in lent memory with the host's fresh words, its argument in WA; all words behind the program's are 0.
/// 0, or in this order 30, 31 (fewer words are lent than a state has), 10, 43.
pub fn start(table: &[u32], memory: &mut [u32], fresh: &[u32], argument: u32, state: &mut [u32]) -> u32 {
    // SAFETY: as this module says: pointers and lengths are those of live slices.
    unsafe {
        c::torzimlak_start(
            table.as_ptr(),
            table.len(),
            memory.as_mut_ptr(),
            memory.len(),
            fresh.as_ptr(),
            fresh.len(),
            argument,
            state.as_mut_ptr(),
            state.len(),
        )
    }
}

/// The warm start: the same, but that all words behind the program's stay as they were lent.
pub fn warm_start(table: &[u32], memory: &mut [u32], fresh: &[u32], argument: u32, state: &mut [u32]) -> u32 {
    // SAFETY: as this module says: pointers and lengths are those of live slices.
    unsafe {
        c::torzimlak_warm_start(
            table.as_ptr(),
            table.len(),
            memory.as_mut_ptr(),
            memory.len(),
            fresh.as_ptr(),
            fresh.len(),
            argument,
            state.as_mut_ptr(),
            state.len(),
        )
    }
}

/// At most `budget` steps: 20 to 29 and the count of steps, or 30, 31, 32.
pub fn run(table: &[u32], memory: &mut [u32], state: &mut [u32], budget: u32) -> (u32, u32) {
    // SAFETY: as this module says: pointers and lengths are those of live slices.
    let answer = unsafe {
        c::torzimlak_run(
            table.as_ptr(),
            table.len(),
            memory.as_mut_ptr(),
            memory.len(),
            state.as_mut_ptr(),
            state.len(),
            budget,
        )
    };
    parts(answer)
}

/// The host's answer to the call that the machine waits at: 0, 26, or 30, 31, 33.
pub fn resume(table: &[u32], memory: &[u32], state: &mut [u32], exit: u32) -> u32 {
    // SAFETY: as this module says: pointers and lengths are those of live slices.
    unsafe {
        c::torzimlak_resume(
            table.as_ptr(),
            table.len(),
            memory.as_ptr(),
            memory.len(),
            state.as_mut_ptr(),
            state.len(),
            exit,
        )
    }
}

/// The machine as a file at the front of the room: 0 and its length, or 30, 31, 45.
pub fn write(table: &[u32], memory: &[u32], state: &[u32], build: u32, file: &mut [u8]) -> (u32, u32) {
    // SAFETY: as this module says: pointers and lengths are those of live slices.
    let answer = unsafe {
        c::torzimlak_write(
            table.as_ptr(),
            table.len(),
            memory.as_ptr(),
            memory.len(),
            state.as_ptr(),
            state.len(),
            build,
            file.as_mut_ptr(),
            file.len(),
        )
    };
    parts(answer)
}

/// The machine at the end of the file, woken in the lent memory and state: 0, or 30, 31 (fewer words are lent than a state has), 40 to 44.
/// A file of before there were reals is taken too: RA is then +0 and its flag off.
pub fn restore(table: &[u32], file: &[u8], build: u32, fresh: &[u32], memory: &mut [u32], state: &mut [u32]) -> u32 {
    // SAFETY: as this module says: pointers and lengths are those of live slices.
    unsafe {
        c::torzimlak_restore(
            table.as_ptr(),
            table.len(),
            file.as_ptr(),
            file.len(),
            build,
            fresh.as_ptr(),
            fresh.len(),
            memory.as_mut_ptr(),
            memory.len(),
            state.as_mut_ptr(),
            state.len(),
        )
    }
}
