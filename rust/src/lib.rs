//! Binder surgery on Event-B forms: safe functions over the proved static library.
//!
//! A form is a row of words. Each function takes rows as slices, writes its result at the start of `out` and
//! returns its length, or the refusal; a refusal leaves `out` as it was, and the words of `out` past the length
//! stay. The meaning of each call is in `include/sogbayile.h` and, as definitions, in `specs/` of the crates.

use std::ops::Range;

mod commands;
pub mod text;

pub use commands::*;

/// The limit of words of a row: an `out` of this length is never too short.
pub const MAX_WORDS: usize = 8192;
/// The words that [`free`], [`fill`], [`point`] and [`member`] need of `work`.
pub const WORK_WORDS: usize = 16384;
/// The limit of declarations of one quantifier, and of places of a set.
pub const MAX_PLACES: usize = 32;

/// Why a call was refused. Its number is that of the README and of the C header.
#[derive(Clone, Copy, Debug, PartialEq, Eq)]
pub enum Refusal {
    /// a row longer than 8,192 words
    TooLong,
    /// a row that is not exactly one form, or list, within the limits; or no predicate where one is needed; or a form with
    /// an index where one with names is needed. With the position of the first word at which no row of the kind can go on, or the number of words where they ran out,
    /// counted over the form, or over the list where that is at fault
    NotAForm(usize),
    /// fill or prune of what is not 851, 852, 861 or 862
    NotQuantified,
    /// a name listed twice, a name over 65,535, over 32 names
    BadNames,
    /// more places than declarations; over 32 declarations, for a set or a check of places
    BadCount,
    /// a dangling index would come below its depth
    Capture,
    /// a result outside the row limits
    OutsideLimits,
    /// a line that is not a command ([`text`] alone); a number that is no command's, which [`run`] never asks for
    NotACommand,
    /// nothing to rewrite
    NothingToDo,
    /// an offer that is not 101 with a bound side
    NoEquality,
    /// a target not below the number of declarations
    NoTarget,
    /// a replacement with a dangling index not above its target
    UsesTarget,
    /// the place is filled
    PlaceFilled,
    /// the output row is shorter than the result
    OutShort,
    /// the work row is under 16,384 words
    WorkShort,
}

impl Refusal {
    const ALL: [Refusal; 15] = [
        Refusal::TooLong,
        Refusal::NotAForm(0),
        Refusal::NotQuantified,
        Refusal::BadNames,
        Refusal::BadCount,
        Refusal::Capture,
        Refusal::OutsideLimits,
        Refusal::NotACommand,
        Refusal::NothingToDo,
        Refusal::NoEquality,
        Refusal::NoTarget,
        Refusal::UsesTarget,
        Refusal::PlaceFilled,
        Refusal::OutShort,
        Refusal::WorkShort,
    ];

    /// The refusal's number.
    pub fn number(self) -> u32 {
        let kind = std::mem::discriminant(&self);
        let at = Refusal::ALL.iter().position(|r| std::mem::discriminant(r) == kind);
        at.map_or(0, |at| at as u32 + 1)
    }

    /// The refusal with that number, from 1 to 15, and that position, which 2 alone has.
    pub fn of(number: u32, position: usize) -> Option<Refusal> {
        let at = (number as usize).checked_sub(1)?;
        match Refusal::ALL.get(at).copied() {
            Some(Refusal::NotAForm(_)) => Some(Refusal::NotAForm(position)),
            other => other,
        }
    }
}

impl std::fmt::Display for Refusal {
    fn fmt(&self, f: &mut std::fmt::Formatter<'_>) -> std::fmt::Result {
        write!(f, "refused by {} ({:?})", self.number(), self)
    }
}

impl std::error::Error for Refusal {}

/// The declarations of `include/sogbayile.h`: a row is a pointer, never null, and its number of words.
mod c {
    extern "C" {
        pub fn sgb_check(row: *const u32, n: usize) -> u64;
        pub fn sgb_check_expression(row: *const u32, n: usize) -> u64;
        pub fn sgb_check_predicate(row: *const u32, n: usize) -> u64;
        pub fn sgb_check_names(row: *const u32, n: usize) -> u64;
        pub fn sgb_check_pairs(row: *const u32, n: usize) -> u64;
        pub fn sgb_check_places(row: *const u32, n: usize, count: u32) -> u64;
        pub fn sgb_dangling(row: *const u32, n: usize, out: *mut u32, room: usize) -> u64;
        pub fn sgb_lift(base: *const u32, n: usize, depth: u32, work: *mut u32, work_n: usize) -> u64;
        pub fn sgb_run(
            number: u32,
            offset: i32,
            list: *const u32,
            list_n: usize,
            row: *const u32,
            n: usize,
            work: *mut u32,
            work_n: usize,
            out: *mut u32,
            room: usize,
        ) -> u64;
        pub fn sgb_places(n: usize, starts: *mut usize, ends: *mut usize) -> u64;
        pub fn sgb_offer(n: usize, starts: *mut usize, ends: *mut usize, row: *const u32, row_n: usize) -> u64;
    }
}

/// The length, or the refusal in the upper 32 bits and its position in the lower ones.
fn length(answer: u64) -> Result<usize, Refusal> {
    match answer >> 32 {
        0 => Ok(answer as usize),
        k => Err(Refusal::of(k as u32, answer as u32 as usize).expect("the library answers the refusals 1 to 15")),
    }
}

fn done(answer: u64) -> Result<(), Refusal> {
    length(answer).map(|_| ())
}

// A slice's pointer is not null and its length is that of the slice, and a `&mut` slice overlaps no other: this is
// all that the library asks.

/// Whether the row is exactly one form.
pub fn check(row: &[u32]) -> Result<(), Refusal> {
    done(unsafe { c::sgb_check(row.as_ptr(), row.len()) })
}

/// Whether the row is exactly one expression.
pub fn check_expression(row: &[u32]) -> Result<(), Refusal> {
    done(unsafe { c::sgb_check_expression(row.as_ptr(), row.len()) })
}

/// Whether the row is exactly one predicate.
pub fn check_predicate(row: &[u32]) -> Result<(), Refusal> {
    done(unsafe { c::sgb_check_predicate(row.as_ptr(), row.len()) })
}

/// Whether the row is a list of names.
pub fn check_names(row: &[u32]) -> Result<(), Refusal> {
    done(unsafe { c::sgb_check_names(row.as_ptr(), row.len()) })
}

/// Whether the row is a list of names, each with its expression.
pub fn check_pairs(row: &[u32]) -> Result<(), Refusal> {
    done(unsafe { c::sgb_check_pairs(row.as_ptr(), row.len()) })
}

/// Whether the row is a list of places for so many declarations: 0, or 1 and an expression, for each. Places may be missing at its end.
pub fn check_places(row: &[u32], count: u32) -> Result<(), Refusal> {
    done(unsafe { c::sgb_check_places(row.as_ptr(), row.len(), count) })
}

/// Writes the dangling indices in rising order.
pub fn dangling(row: &[u32], out: &mut [u32]) -> Result<usize, Refusal> {
    length(unsafe { c::sgb_dangling(row.as_ptr(), row.len(), out.as_mut_ptr(), out.len()) })
}

/// The form shifted up by the depth: all of `base`, or a copy at the start of `work`, or the empty part.
pub fn lift<'a>(base: &'a [u32], depth: u32, work: &'a mut [u32]) -> &'a [u32] {
    let part = unsafe { c::sgb_lift(base.as_ptr(), base.len(), depth, work.as_mut_ptr(), work.len()) };
    match part >> 32 {
        1 => base,
        2 => &work[..part as u32 as usize],
        _ => &base[..0],
    }
}

/// Runs any command by its number. One that takes no offset, no list or no `work` does not look at it.
pub fn run(
    command: Command,
    offset: i32,
    list: &[u32],
    row: &[u32],
    work: &mut [u32],
    out: &mut [u32],
) -> Result<usize, Refusal> {
    length(unsafe {
        c::sgb_run(
            command as u32,
            offset,
            list.as_ptr(),
            list.len(),
            row.as_ptr(),
            row.len(),
            work.as_mut_ptr(),
            work.len(),
            out.as_mut_ptr(),
            out.len(),
        )
    })
}

/// A set of places: for each declaration, where its replacement lies in the row that was offered.
#[derive(Clone, Debug, PartialEq, Eq)]
pub struct Places {
    n: usize,
    starts: [usize; MAX_PLACES],
    ends: [usize; MAX_PLACES],
}

impl Places {
    /// An empty set for n declarations, at most 32.
    pub fn new(n: usize) -> Result<Places, Refusal> {
        let mut places = Places { n, starts: [0; MAX_PLACES], ends: [0; MAX_PLACES] };
        done(unsafe { c::sgb_places(n, places.starts.as_mut_ptr(), places.ends.as_mut_ptr()) })?;
        Ok(places)
    }

    /// Offers a predicate row; a refusal leaves the set as it was.
    pub fn offer(&mut self, row: &[u32]) -> Result<(), Refusal> {
        done(unsafe {
            c::sgb_offer(self.n, self.starts.as_mut_ptr(), self.ends.as_mut_ptr(), row.as_ptr(), row.len())
        })
    }

    /// Where the replacement of a declaration, the first one 0, lies in the row that was offered for it.
    pub fn get(&self, declaration: usize) -> Option<Range<usize>> {
        if declaration < self.n && self.ends[declaration] != 0 {
            Some(self.starts[declaration]..self.ends[declaration])
        } else {
            None
        }
    }
}
