//! Gurandepi judges EDIFACT interchanges, hands back what is sealed in them, recovers signature values, totals loads,
//! seals a message, and writes, checks and moves a register. The calls are written and proved in Rattle; this crate is a safe and thin layer
//! over their static library, which is for x86-64 Linux. On another target this crate and its users are compiled, but a
//! program that makes a call does not link.
//!
//! An interchange is the whole file as octets. A message is named by the content of its 0062, a security header by the
//! content of its 0534; spaces at the end don't count. Every call on an interchange judges it first; the first fault decides and is given back as a [`Refusal`].
//! For equal octets the answer is always the same, and it is proved what it is.
//!
//! The example of the rules paper, with its first variants:
//!
#![cfg_attr(linked, doc = "```")]
#![cfg_attr(not(linked), doc = "```no_run")]
//! use gurandepi::{judge, totals, Reason, Refusal, Totals};
//!
//! let p = b"UNB+UNOC:4+PITA+ROYALT+20240105:0700+R1'UNH+M1+DESADV:D:01B:UN'QTY+12:30000:KGM'\
//! QTY+12:27.34:TNE'CNT+1:57.34:TNE'UNT+5+M1'UNZ+1+R1'";
//! assert_eq!(judge(p), Ok(()));
//! assert_eq!(totals(p, b"M1"), Ok(Totals { loads: 2, grams: 57_340_000 }));
//!
//! assert_eq!(judge(b""), Err(Refusal { reason: Reason::Length, place: 0, segment: 0 }));
//! assert_eq!(judge(&p[..122]), Err(Refusal { reason: Reason::Order, place: 122, segment: 7 }));
//! assert_eq!(totals(p, b"M2"), Err(Refusal { reason: Reason::NotFound, place: 0, segment: 0 }));
//! ```
#![no_std]
#![warn(missing_docs)]

use core::fmt;
use core::ops::Range;

mod calls;
pub use calls::*;

/// The octets of the longest interchange, and of the longest result. A lent buffer of so many octets has room for every
/// result: with it a call refuses with [`Reason::Room`] only where no buffer would do.
pub const LONGEST: usize = 65_535;

/// Why a call refuses. The discriminant is the paper's number.
#[derive(Clone, Copy, Debug, PartialEq, Eq, Hash)]
#[repr(u8)]
pub enum Reason {
    /// No octets, or more than 65,535.
    Length = 1,
    /// UNA is too short or names service characters that are not allowed.
    Una,
    /// An octet outside the repertoire. The place is the octet.
    Octet,
    /// A segment without terminator, or with a bad tag.
    Segment,
    /// The first segment is not UNB, or there is none.
    NoUnb,
    /// The syntax identifier or version is unknown, or UNOD in another version than 2; or UNA names a repetition character in
    /// version 2 or 3.
    Syntax,
    /// A segment out of order; the input ends early; octets after UNZ.
    Order,
    /// A checked element is missing or malformed.
    Element,
    /// A reference differs, repeats or has no partner.
    Reference,
    /// A count or a control total differs. The place is UNT or UNZ.
    Count,
    /// The scope code of a security header.
    Scope,
    /// The amount of a load. The place is the QTY.
    Amount,
    /// No such message, header, F01 run or message of scope 3; or the register is not this interchange's.
    NotFound,
    /// The filter of a value is unknown, its text is bad or empty; or a value cannot be written in this interchange.
    Value,
    /// The result is longer than the lent buffer, or than 65,535 octets; or more than 2^32 - 1 octets are fed.
    Room,
    /// Sealing: the reference, the filter or the value's length is not allowed, the reference is already used in the message,
    /// nine headers already, or an AUTACK.
    NotSealable,
    /// A stored register that is moved starts otherwise than its form, is cut, has a number that is overlong or too large, or
    /// octets left over; or it has grams of 2^63 or more and is moved to [`Form::Signed`].
    Register = 17,
    /// The digest of a range: no USA stands directly after the header's USH, or it does not name SHA-1.
    NotSha1 = 18,
    /// A total is below zero, and a register is written in or moved to [`Form::Old`].
    NegativeTotal = 19,
    /// The old sum: a load that is not whole kilograms from 0 to 100,000.
    Load = 23,
    /// The old sum: the sum handed in is no whole number from 0 to 1,073,741,824, or a running sum passes that limit before it
    /// is rounded.
    Sum = 24,
}

/// A refusal: why, and the place of the fault, counted in octets from 0: its segment's first octet if [`Reason`] says nothing
/// else, or the end of the input; 0 for the reasons 1, 2 and those from 13 on.
#[derive(Clone, Copy, Debug, PartialEq, Eq, Hash)]
pub struct Refusal {
    /// Why.
    pub reason: Reason,
    /// Where.
    pub place: usize,
    /// Which segment stands there: UNB is 1, UNA counts as none, the end of the input, or what stands after UNZ, counts as the
    /// next one. 0 for the reasons 1, 2 and those from 13 on.
    pub segment: usize,
}

impl Refusal {
    /// The paper's number of the reason.
    pub const fn number(self) -> u8 {
        self.reason as u8
    }
}

impl fmt::Display for Refusal {
    fn fmt(&self, f: &mut fmt::Formatter<'_>) -> fmt::Result {
        write!(f, "refused {} at {} segment {}", self.number(), self.place, self.segment)
    }
}

impl core::error::Error for Refusal {}

/// The loads of a message and the sum of their amounts, exact, in grams.
#[derive(Clone, Copy, Debug, PartialEq, Eq, Hash)]
pub struct Totals {
    /// How many loads.
    pub loads: u64,
    /// Their sum: below zero where more was tipped back than loaded.
    pub grams: i64,
}

/// The old sum that is left: a whole number, at most 1,073,741,824.
#[derive(Clone, Copy, Debug, PartialEq)]
pub struct OldSum {
    /// In whole kilograms.
    pub sum: u64,
    /// The 32 bits of its single precision pattern.
    pub bits: u32,
    /// In single precision.
    pub single: f32,
    /// How many loads were added.
    pub loads: u64,
    /// Their exact kilograms.
    pub kilograms: u64,
}

/// What a header of scope 1 seals: two parts of the lent interchange, as if joined.
#[derive(Clone, Copy, Debug, PartialEq, Eq, Hash)]
pub struct Parts<'a> {
    /// The header group, from its USH.
    pub header: &'a [u8],
    /// The message's body.
    pub body: &'a [u8],
}

/// Where the parts stand that a header of scope 1 seals, in octets of the lent interchange from 0.
#[derive(Clone, Debug, PartialEq, Eq, Hash)]
pub struct Places {
    /// The header group, from its USH.
    pub header: Range<usize>,
    /// The message's body.
    pub body: Range<usize>,
}

/// How a value is written in a seal: 0505.
#[derive(Clone, Copy, Debug, PartialEq, Eq, Hash)]
pub enum Filter {
    /// Upper-case hexadecimal, for values of 1 to 256 octets; in an interchange of version 2 of 1 to 128.
    Hex = 2,
    /// Base 64, for values of 1 to 384 octets. Not in version 2.
    Base64 = 7,
}

/// How a register is written: the count of messages, then for each message the place of its UNH, its length to the end of UNT,
/// its loads and their grams.
#[derive(Clone, Copy, Debug, PartialEq, Eq, Hash)]
pub enum Form {
    /// Each number in 4 octets, the grams in 8, the highest octet first.
    Old,
    /// The octet 2, then each number in groups of seven bits, the lowest first, the high bit set on all but the last, in as
    /// few as hold it. It is read, and not written.
    Small,
    /// The octet 3, then each number as in [`Form::Small`]; the grams are doubled, and those below zero are twice their
    /// magnitude less one.
    Signed,
}
