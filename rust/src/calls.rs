//! The calls. All `unsafe` is here, and one thing makes it sound: each slice is lent with its own pointer and length, `out` as
//! the only unique one.
use crate::{Filter, Form, OldSum, Parts, Places, Reason, Refusal, Totals};
use core::ops::Range;

/// As include/gurandepi.h declares it: c/interface compares them.
mod c {
    #[repr(C)]
    pub struct Answer {
        pub number: u64,
        pub place: u64,
        pub segment: u64,
    }

    #[repr(C)]
    pub struct Loads {
        pub number: u64,
        pub place: u64,
        pub segment: u64,
        pub loads: u64,
        pub grams: i64,
    }

    #[repr(C)]
    pub struct Parts {
        pub number: u64,
        pub place: u64,
        pub segment: u64,
        pub header_start: u64,
        pub header_end: u64,
        pub body_start: u64,
        pub body_end: u64,
    }

    #[repr(C)]
    pub struct Range {
        pub number: u64,
        pub place: u64,
        pub segment: u64,
        pub start: u64,
        pub end: u64,
    }

    #[repr(C)]
    pub struct Written {
        pub number: u64,
        pub place: u64,
        pub segment: u64,
        pub length: u64,
    }

    #[derive(Clone, Copy)]
    #[repr(C)]
    pub struct Sha1 {
        pub a: u32,
        pub b: u32,
        pub c: u32,
        pub d: u32,
        pub e: u32,
        pub buffer: [u8; 64],
        pub count: u64,
    }

    #[repr(C)]
    pub struct Fed {
        pub number: u64,
        pub place: u64,
        pub segment: u64,
        pub state: Sha1,
    }

    #[repr(C)]
    pub struct Digest {
        pub number: u64,
        pub place: u64,
        pub segment: u64,
        pub octets: [u8; 20],
    }

    #[repr(C)]
    pub struct OldSum {
        pub number: u64,
        pub place: u64,
        pub segment: u64,
        pub sum: u64,
        pub bits: u32,
        pub single: f32,
        pub loads: u64,
        pub kilograms: u64,
    }

    #[rustfmt::skip]
    extern "C" {
        pub fn gurandepi_judge(interchange: *const u8, interchange_length: usize) -> Answer;
        pub fn gurandepi_totals(
            interchange: *const u8, interchange_length: usize, message: *const u8, message_length: usize
        ) -> Loads;
        pub fn gurandepi_scope1(
            interchange: *const u8, interchange_length: usize, message: *const u8, message_length: usize,
            header: *const u8, header_length: usize
        ) -> Parts;
        pub fn gurandepi_scope2(
            interchange: *const u8, interchange_length: usize, message: *const u8, message_length: usize,
            header: *const u8, header_length: usize
        ) -> Range;
        pub fn gurandepi_f01(
            autack: *const u8, autack_length: usize, referenced: *const u8, referenced_length: usize,
            message: *const u8, message_length: usize, header: *const u8, header_length: usize
        ) -> Range;
        pub fn gurandepi_scope3(
            autack: *const u8, autack_length: usize, referenced: *const u8, referenced_length: usize,
            message: *const u8, message_length: usize, header: *const u8, header_length: usize
        ) -> Range;
        pub fn gurandepi_value(
            interchange: *const u8, interchange_length: usize, message: *const u8, message_length: usize,
            header: *const u8, header_length: usize, out: *mut u8, out_length: usize
        ) -> Written;
        pub fn gurandepi_seal_octets(
            interchange: *const u8, interchange_length: usize, message: *const u8, message_length: usize,
            reference: *const u8, reference_length: usize, filter: u64, out: *mut u8, out_length: usize
        ) -> Written;
        pub fn gurandepi_seal(
            interchange: *const u8, interchange_length: usize, message: *const u8, message_length: usize,
            reference: *const u8, reference_length: usize, filter: u64,
            value: *const u8, value_length: usize, out: *mut u8, out_length: usize
        ) -> Written;
        pub fn gurandepi_register_write(
            interchange: *const u8, interchange_length: usize, out: *mut u8, out_length: usize
        ) -> Written;
        pub fn gurandepi_register_write_signed(
            interchange: *const u8, interchange_length: usize, out: *mut u8, out_length: usize
        ) -> Written;
        pub fn gurandepi_register_check(
            interchange: *const u8, interchange_length: usize, kept: *const u8, kept_length: usize
        ) -> Answer;
        pub fn gurandepi_register_check_small(
            interchange: *const u8, interchange_length: usize, kept: *const u8, kept_length: usize
        ) -> Answer;
        pub fn gurandepi_register_check_signed(
            interchange: *const u8, interchange_length: usize, kept: *const u8, kept_length: usize
        ) -> Answer;
        pub fn gurandepi_register_old_to_signed(
            stored: *const u8, stored_length: usize, out: *mut u8, out_length: usize
        ) -> Written;
        pub fn gurandepi_register_signed_to_old(
            stored: *const u8, stored_length: usize, out: *mut u8, out_length: usize
        ) -> Written;
        pub fn gurandepi_register_small_to_signed(
            stored: *const u8, stored_length: usize, out: *mut u8, out_length: usize
        ) -> Written;
        pub fn gurandepi_register_small_to_old(
            stored: *const u8, stored_length: usize, out: *mut u8, out_length: usize
        ) -> Written;
        pub fn gurandepi_sha1_start() -> Sha1;
        pub fn gurandepi_sha1_feed(state: Sha1, part: *const u8, part_length: usize) -> Fed;
        pub fn gurandepi_sha1_finish(state: Sha1) -> Digest;
        pub fn gurandepi_digest_scope1(
            interchange: *const u8, interchange_length: usize, message: *const u8, message_length: usize,
            header: *const u8, header_length: usize
        ) -> Digest;
        pub fn gurandepi_digest_scope2(
            interchange: *const u8, interchange_length: usize, message: *const u8, message_length: usize,
            header: *const u8, header_length: usize
        ) -> Digest;
        pub fn gurandepi_digest_f01(
            autack: *const u8, autack_length: usize, referenced: *const u8, referenced_length: usize,
            message: *const u8, message_length: usize, header: *const u8, header_length: usize
        ) -> Digest;
        pub fn gurandepi_digest_scope3(
            autack: *const u8, autack_length: usize, referenced: *const u8, referenced_length: usize,
            message: *const u8, message_length: usize, header: *const u8, header_length: usize
        ) -> Digest;
        pub fn gurandepi_old_sum(interchange: *const u8, interchange_length: usize, before: f32) -> OldSum;
        pub fn gurandepi_old_sum_bits(interchange: *const u8, interchange_length: usize, before: u32) -> OldSum;
        pub fn gurandepi_message_old_sum(
            interchange: *const u8, interchange_length: usize, message: *const u8, message_length: usize, before: f32
        ) -> OldSum;
        pub fn gurandepi_message_old_sum_bits(
            interchange: *const u8, interchange_length: usize, message: *const u8, message_length: usize, before: u32
        ) -> OldSum;
    }
}

fn reason(number: u64) -> Reason {
    use Reason::*;
    let all = [
        Length,
        Una,
        Octet,
        Segment,
        NoUnb,
        Syntax,
        Order,
        Element,
        Reference,
        Count,
        Scope,
        Amount,
        NotFound,
        Value,
        Room,
        NotSealable,
        Register,
        NotSha1,
        NegativeTotal,
    ];
    match number {
        23 => Load,
        24 => Sum,
        _ => all[number as usize - 1],
    }
}

fn given<T>(number: u64, place: u64, segment: u64, answer: impl FnOnce() -> T) -> Result<T, Refusal> {
    match number {
        0 => Ok(answer()),
        _ => Err(Refusal { reason: reason(number), place: place as usize, segment: segment as usize }),
    }
}

fn range(start: u64, end: u64) -> Range<usize> {
    start as usize..end as usize
}

fn written(r: c::Written, out: &mut [u8]) -> Result<&mut [u8], Refusal> {
    given(r.number, r.place, r.segment, || &mut out[..r.length as usize])
}

/// Is this an interchange without fault?
///
#[cfg_attr(linked, doc = "```")]
#[cfg_attr(not(linked), doc = "```no_run")]
/// # let p = std::fs::read_to_string("../examples/p.edi").unwrap();
/// assert!(gurandepi::judge(p.as_bytes()).is_ok());
/// let refusal = gurandepi::judge(p.replace("UNT+5", "UNT+6").as_bytes()).unwrap_err();
/// assert_eq!(refusal.to_string(), "refused 10 at 113 segment 6");
/// ```
pub fn judge(interchange: &[u8]) -> Result<(), Refusal> {
    let r = unsafe { c::gurandepi_judge(interchange.as_ptr(), interchange.len()) };
    given(r.number, r.place, r.segment, || ())
}

/// The loads of a message. An AUTACK has none.
pub fn totals(interchange: &[u8], message: &[u8]) -> Result<Totals, Refusal> {
    let (i, m) = (interchange, message);
    let r = unsafe { c::gurandepi_totals(i.as_ptr(), i.len(), m.as_ptr(), m.len()) };
    given(r.number, r.place, r.segment, || Totals { loads: r.loads, grams: r.grams })
}

/// What a header of scope 1 seals: the header group from its USH, and the message's body. An empty body stands at its place.
///
/// The example sealed with A1:
///
#[cfg_attr(linked, doc = "```")]
#[cfg_attr(not(linked), doc = "```no_run")]
/// # let p7 = std::fs::read("../examples/p7.edi").unwrap();
/// let parts = gurandepi::scope1(&p7, b"M1", b"A1").unwrap();
/// assert_eq!((parts.header.len(), parts.body.len()), (32, 50));
/// assert!(parts.header.starts_with(b"USH+1+A1+"));
/// ```
///
/// The parts are the caller's own octets, and are gone when these are:
///
/// ```compile_fail
/// let parts = gurandepi::scope1(&std::fs::read("../examples/p7.edi").unwrap(), b"M1", b"A1").unwrap();
/// assert_eq!(parts.header.len(), 32);
/// ```
pub fn scope1<'a>(interchange: &'a [u8], message: &[u8], header: &[u8]) -> Result<Parts<'a>, Refusal> {
    let at = scope1_places(interchange, message, header)?;
    Ok(Parts { header: &interchange[at.header], body: &interchange[at.body] })
}

/// Where the parts stand that [`scope1`] gives. An empty body starts and ends where it would stand.
///
#[cfg_attr(linked, doc = "```")]
#[cfg_attr(not(linked), doc = "```no_run")]
/// # let p7 = std::fs::read("../examples/p7.edi").unwrap();
/// let places = gurandepi::scope1_places(&p7, b"M1", b"A1").unwrap();
/// assert_eq!((places.header, places.body), (63..95, 95..145));
/// ```
pub fn scope1_places(interchange: &[u8], message: &[u8], header: &[u8]) -> Result<Places, Refusal> {
    let (i, m, h) = (interchange, message, header);
    let r = unsafe { c::gurandepi_scope1(i.as_ptr(), i.len(), m.as_ptr(), m.len(), h.as_ptr(), h.len()) };
    given(r.number, r.place, r.segment, || Places {
        header: range(r.header_start, r.header_end),
        body: range(r.body_start, r.body_end),
    })
}

/// What a header of scope 2 seals: from its USH up to the UST that belongs to it.
pub fn scope2<'a>(interchange: &'a [u8], message: &[u8], header: &[u8]) -> Result<&'a [u8], Refusal> {
    Ok(&interchange[scope2_places(interchange, message, header)?])
}

/// Where the part stands that [`scope2`] gives.
pub fn scope2_places(interchange: &[u8], message: &[u8], header: &[u8]) -> Result<Range<usize>, Refusal> {
    let (i, m, h) = (interchange, message, header);
    let r = unsafe { c::gurandepi_scope2(i.as_ptr(), i.len(), m.as_ptr(), m.len(), h.as_ptr(), h.len()) };
    given(r.number, r.place, r.segment, || range(r.start, r.end))
}

/// What a header of scope F01 seals: in the interchange that the AUTACK refers to, from the first UNH to the last UNT of the
/// messages that are no AUTACK. `message` is the AUTACK's 0062. Both interchanges may be the same one; the part belongs to
/// `referenced`.
///
/// A refusal with 1 to 12 does not say which of the two is refused, and so in which of them its place lies and its segment
/// is counted. [`judge`] on `autack` does: where it refuses, this is that refusal; where it accepts, `referenced` is the one
/// refused.
///
#[cfg_attr(linked, doc = "```")]
#[cfg_attr(not(linked), doc = "```no_run")]
/// # let file = std::fs::read("../examples/f01.edi").unwrap();
/// let part = gurandepi::f01(&file, &file, b"11", b"1").unwrap();
/// assert_eq!(part, b"UNH+1+DESADV:D:96A:UN'BGM+351+X1'UNT+3+1'");
/// ```
///
/// The AUTACK's interchange is not needed any longer, the other is:
///
/// ```compile_fail
/// # let file = std::fs::read("../examples/f01.edi").unwrap();
/// let part = gurandepi::f01(&file, &file.clone(), b"11", b"1").unwrap();
/// assert!(part.starts_with(b"UNH+"));
/// ```
pub fn f01<'r>(autack: &[u8], referenced: &'r [u8], message: &[u8], header: &[u8]) -> Result<&'r [u8], Refusal> {
    Ok(&referenced[f01_places(autack, referenced, message, header)?])
}

/// Where the part stands that [`f01`] gives, in `referenced`.
///
#[cfg_attr(linked, doc = "```")]
#[cfg_attr(not(linked), doc = "```no_run")]
/// # let file = std::fs::read("../examples/f01.edi").unwrap();
/// assert_eq!(gurandepi::f01_places(&file, &file, b"11", b"1"), Ok(50..91));
/// ```
pub fn f01_places(autack: &[u8], referenced: &[u8], message: &[u8], header: &[u8]) -> Result<Range<usize>, Refusal> {
    let (a, i, m, h) = (autack, referenced, message, header);
    let r =
        unsafe { c::gurandepi_f01(a.as_ptr(), a.len(), i.as_ptr(), i.len(), m.as_ptr(), m.len(), h.as_ptr(), h.len()) };
    given(r.number, r.place, r.segment, || range(r.start, r.end))
}

/// What a header of scope 3 seals, in an AUTACK of the GS1 subset (EAN001 in UNH): in the interchange that the AUTACK refers
/// to, from the UNH through the UNT of the message that it names. Lent, handed back and refused as [`f01`].
///
#[cfg_attr(linked, doc = "```")]
#[cfg_attr(not(linked), doc = "```no_run")]
/// # let file = std::fs::read("../examples/scope3.edi").unwrap();
/// let part = gurandepi::scope3(&file, &file, b"AUT00001", b"1").unwrap();
/// assert_eq!(part, b"UNH+MESSAGE003+INVOIC:D:01B:UN:EAN010'BGM+380+1+9'UNT+3+MESSAGE003'");
/// ```
pub fn scope3<'r>(autack: &[u8], referenced: &'r [u8], message: &[u8], header: &[u8]) -> Result<&'r [u8], Refusal> {
    Ok(&referenced[scope3_places(autack, referenced, message, header)?])
}

/// Where the part stands that [`scope3`] gives, in `referenced`.
///
#[cfg_attr(linked, doc = "```")]
#[cfg_attr(not(linked), doc = "```no_run")]
/// # let file = std::fs::read("../examples/scope3.edi").unwrap();
/// assert_eq!(gurandepi::scope3_places(&file, &file, b"AUT00001", b"1"), Ok(72..139));
/// ```
pub fn scope3_places(autack: &[u8], referenced: &[u8], message: &[u8], header: &[u8]) -> Result<Range<usize>, Refusal> {
    let (a, i, m, h) = (autack, referenced, message, header);
    let r = unsafe {
        c::gurandepi_scope3(a.as_ptr(), a.len(), i.as_ptr(), i.len(), m.as_ptr(), m.len(), h.as_ptr(), h.len())
    };
    given(r.number, r.place, r.segment, || range(r.start, r.end))
}

/// The value that a header's seal carries, of any scope, read by the filter that the header names; an odd number of
/// hexadecimal digits is read as if one 0 stood before them. In an interchange of version 2 the filters are hexadecimal and
/// EDC. It is written to the front of `out` and handed back; on a
/// refusal `out` is left as it was.
///
#[cfg_attr(linked, doc = "```")]
#[cfg_attr(not(linked), doc = "```no_run")]
/// # let p7 = std::fs::read("../examples/p7.edi").unwrap();
/// let mut out = [0; 512];
/// assert_eq!(gurandepi::value(&p7, b"M1", b"A1", &mut out).unwrap(), [0x0F, 0xA0]);
/// ```
pub fn value<'o>(
    interchange: &[u8],
    message: &[u8],
    header: &[u8],
    out: &'o mut [u8],
) -> Result<&'o mut [u8], Refusal> {
    let (i, m, h) = (interchange, message, header);
    let r = unsafe {
        c::gurandepi_value(i.as_ptr(), i.len(), m.as_ptr(), m.len(), h.as_ptr(), h.len(), out.as_mut_ptr(), out.len())
    };
    written(r, out)
}

/// The octets to be signed when a message is sealed under `reference`, the new header's 0534: 1 to 14 of A to Z and 0 to 9, new in
/// the message. They are written to the front of `out` and handed back; on a refusal `out` is left as it was.
///
#[cfg_attr(linked, doc = "```")]
#[cfg_attr(not(linked), doc = "```no_run")]
/// # let p = std::fs::read("../examples/p.edi").unwrap();
/// # let p7 = std::fs::read("../examples/p7.edi").unwrap();
/// use gurandepi::{scope1, seal, seal_octets, Filter};
///
/// let (mut out, mut sealed) = ([0; 200], [0; 200]);
/// let octets = seal_octets(&p, b"M1", b"A1", Filter::Hex, &mut out).unwrap();
/// assert_eq!(octets.len(), 82);
/// // .. sign them; let 0F A0 be the signature ..
/// let sealed = seal(&p, b"M1", b"A1", Filter::Hex, &[0x0F, 0xA0], &mut sealed).unwrap();
/// assert_eq!(sealed, p7);
/// let parts = scope1(sealed, b"M1", b"A1").unwrap();
/// assert_eq!(octets, [parts.header, parts.body].concat());
/// ```
pub fn seal_octets<'o>(
    interchange: &[u8],
    message: &[u8],
    reference: &[u8],
    filter: Filter,
    out: &'o mut [u8],
) -> Result<&'o mut [u8], Refusal> {
    let (i, m, r, f) = (interchange, message, reference, filter as u64);
    let r = unsafe {
        c::gurandepi_seal_octets(
            i.as_ptr(),
            i.len(),
            m.as_ptr(),
            m.len(),
            r.as_ptr(),
            r.len(),
            f,
            out.as_mut_ptr(),
            out.len(),
        )
    };
    written(r, out)
}

/// The interchange with the message sealed under `reference` by a header of scope 1; `value` is the signature. It is written to
/// the front of `out` and handed back; on a refusal `out` is left as it was.
pub fn seal<'o>(
    interchange: &[u8],
    message: &[u8],
    reference: &[u8],
    filter: Filter,
    value: &[u8],
    out: &'o mut [u8],
) -> Result<&'o mut [u8], Refusal> {
    let (i, m, r, f, v) = (interchange, message, reference, filter as u64, value);
    let r = unsafe {
        c::gurandepi_seal(
            i.as_ptr(),
            i.len(),
            m.as_ptr(),
            m.len(),
            r.as_ptr(),
            r.len(),
            f,
            v.as_ptr(),
            v.len(),
            out.as_mut_ptr(),
            out.len(),
        )
    };
    written(r, out)
}

/// The register of an interchange in [`Form::Old`]. A total below zero: [`Reason::NegativeTotal`]. It is written to the front
/// of `out` and handed back; on a refusal `out` is left as it was.
pub fn register_write<'o>(interchange: &[u8], out: &'o mut [u8]) -> Result<&'o mut [u8], Refusal> {
    let i = interchange;
    let r = unsafe { c::gurandepi_register_write(i.as_ptr(), i.len(), out.as_mut_ptr(), out.len()) };
    written(r, out)
}

/// The register of an interchange in [`Form::Signed`]; else as [`register_write`].
pub fn register_write_signed<'o>(interchange: &[u8], out: &'o mut [u8]) -> Result<&'o mut [u8], Refusal> {
    let i = interchange;
    let r = unsafe { c::gurandepi_register_write_signed(i.as_ptr(), i.len(), out.as_mut_ptr(), out.len()) };
    written(r, out)
}

/// Is `kept` the register of this interchange in this form, octet for octet? If not: [`Reason::NotFound`].
pub fn register_check(interchange: &[u8], form: Form, kept: &[u8]) -> Result<(), Refusal> {
    let (i, k) = (interchange, kept);
    let r = match form {
        Form::Old => unsafe { c::gurandepi_register_check(i.as_ptr(), i.len(), k.as_ptr(), k.len()) },
        Form::Small => unsafe { c::gurandepi_register_check_small(i.as_ptr(), i.len(), k.as_ptr(), k.len()) },
        Form::Signed => unsafe { c::gurandepi_register_check_signed(i.as_ptr(), i.len(), k.as_ptr(), k.len()) },
    };
    given(r.number, r.place, r.segment, || ())
}

/// A stored register of [`Form::Old`] in [`Form::Signed`]. Its places and lengths are compared with nothing. One that is no
/// register of its form, or has grams of 2^63 or more: [`Reason::Register`]. It is written to the front of `out` and handed
/// back; on a refusal `out` is left as it was.
///
#[cfg_attr(linked, doc = "```")]
#[cfg_attr(not(linked), doc = "```no_run")]
/// # let p7 = std::fs::read("../examples/p7.edi").unwrap();
/// use gurandepi::{register_old_to_signed, register_signed_to_old, register_write};
///
/// let (mut old, mut signed, mut back) = ([0; 24], [0; 24], [0; 24]);
/// let old = register_write(&p7, &mut old).unwrap();
/// let signed = register_old_to_signed(old, &mut signed).unwrap();
/// assert_eq!(signed, [3, 1, 40, 0x86, 1, 2, 0xC0, 0xC1, 0xD7, 0x36]);
/// assert_eq!(register_signed_to_old(signed, &mut back).unwrap(), old);
/// ```
pub fn register_old_to_signed<'o>(stored: &[u8], out: &'o mut [u8]) -> Result<&'o mut [u8], Refusal> {
    let s = stored;
    let r = unsafe { c::gurandepi_register_old_to_signed(s.as_ptr(), s.len(), out.as_mut_ptr(), out.len()) };
    written(r, out)
}

/// A stored register of [`Form::Signed`] in [`Form::Old`]. A total below zero: [`Reason::NegativeTotal`]; else as
/// [`register_old_to_signed`].
pub fn register_signed_to_old<'o>(stored: &[u8], out: &'o mut [u8]) -> Result<&'o mut [u8], Refusal> {
    let s = stored;
    let r = unsafe { c::gurandepi_register_signed_to_old(s.as_ptr(), s.len(), out.as_mut_ptr(), out.len()) };
    written(r, out)
}

/// A stored register of [`Form::Small`] in [`Form::Signed`]; else as [`register_old_to_signed`].
pub fn register_small_to_signed<'o>(stored: &[u8], out: &'o mut [u8]) -> Result<&'o mut [u8], Refusal> {
    let s = stored;
    let r = unsafe { c::gurandepi_register_small_to_signed(s.as_ptr(), s.len(), out.as_mut_ptr(), out.len()) };
    written(r, out)
}

/// A stored register of [`Form::Small`] in [`Form::Old`]; else as [`register_old_to_signed`], but for large grams.
pub fn register_small_to_old<'o>(stored: &[u8], out: &'o mut [u8]) -> Result<&'o mut [u8], Refusal> {
    let s = stored;
    let r = unsafe { c::gurandepi_register_small_to_old(s.as_ptr(), s.len(), out.as_mut_ptr(), out.len()) };
    written(r, out)
}

/// A message under way, for its digest: SHA-1 by FIPS 180-4. However the octets are cut, the digest is that of the octets joined.
///
#[cfg_attr(linked, doc = "```")]
#[cfg_attr(not(linked), doc = "```no_run")]
/// # let p7 = std::fs::read("../examples/p7.edi").unwrap();
/// let parts = gurandepi::scope1(&p7, b"M1", b"A1").unwrap();
/// let mut fed = gurandepi::Sha1::start();
/// fed.feed(parts.header).unwrap();
/// fed.feed(parts.body).unwrap();
/// assert_eq!(Ok(fed.finish()), gurandepi::digest_scope1(&p7, b"M1", b"A1"));
/// ```
#[derive(Clone)]
pub struct Sha1(c::Sha1);

impl Sha1 {
    /// No octets yet.
    pub fn start() -> Sha1 {
        Sha1(unsafe { c::gurandepi_sha1_start() })
    }

    /// One part more. Where more than 2^32 - 1 octets would be fed in all it is refused with [`Reason::Room`], and nothing is changed.
    pub fn feed(&mut self, part: &[u8]) -> Result<(), Refusal> {
        let r = unsafe { c::gurandepi_sha1_feed(self.0, part.as_ptr(), part.len()) };
        self.0 = r.state;
        given(r.number, r.place, r.segment, || ())
    }

    /// The digest of the octets that were fed so far.
    pub fn finish(&self) -> [u8; 20] {
        unsafe { c::gurandepi_sha1_finish(self.0) }.octets
    }
}

/// The digest of what a header of scope 1 seals: of the two parts that [`scope1`] gives, one after the other. Where the header's first
/// USA does not name SHA-1 it is refused with [`Reason::NotSha1`].
pub fn digest_scope1(interchange: &[u8], message: &[u8], header: &[u8]) -> Result<[u8; 20], Refusal> {
    let (i, m, h) = (interchange, message, header);
    let r = unsafe { c::gurandepi_digest_scope1(i.as_ptr(), i.len(), m.as_ptr(), m.len(), h.as_ptr(), h.len()) };
    given(r.number, r.place, r.segment, || r.octets)
}

/// The digest of what a header of scope 2 seals: of the part that [`scope2`] gives.
pub fn digest_scope2(interchange: &[u8], message: &[u8], header: &[u8]) -> Result<[u8; 20], Refusal> {
    let (i, m, h) = (interchange, message, header);
    let r = unsafe { c::gurandepi_digest_scope2(i.as_ptr(), i.len(), m.as_ptr(), m.len(), h.as_ptr(), h.len()) };
    given(r.number, r.place, r.segment, || r.octets)
}

/// The digest of what a header of scope F01 seals: of the part that [`f01`] gives.
pub fn digest_f01(autack: &[u8], referenced: &[u8], message: &[u8], header: &[u8]) -> Result<[u8; 20], Refusal> {
    let (a, i, m, h) = (autack, referenced, message, header);
    let r = unsafe {
        c::gurandepi_digest_f01(a.as_ptr(), a.len(), i.as_ptr(), i.len(), m.as_ptr(), m.len(), h.as_ptr(), h.len())
    };
    given(r.number, r.place, r.segment, || r.octets)
}

/// The digest of what a header of scope 3 seals: of the part that [`scope3`] gives.
pub fn digest_scope3(autack: &[u8], referenced: &[u8], message: &[u8], header: &[u8]) -> Result<[u8; 20], Refusal> {
    let (a, i, m, h) = (autack, referenced, message, header);
    let r = unsafe {
        c::gurandepi_digest_scope3(a.as_ptr(), a.len(), i.as_ptr(), i.len(), m.as_ptr(), m.len(), h.as_ptr(), h.len())
    };
    given(r.number, r.place, r.segment, || r.octets)
}

fn summed(r: c::OldSum) -> Result<OldSum, Refusal> {
    given(r.number, r.place, r.segment, || OldSum {
        sum: r.sum,
        bits: r.bits,
        single: r.single,
        loads: r.loads,
        kilograms: r.kilograms,
    })
}

/// The old sum with the loads of all messages of a file, in order: kilograms in single precision, one rounding for each
/// addition. `before` is the sum that the last file left, 0 with the year. What a file adds differs from its exact kilograms
/// by at most 32 for each load.
///
#[cfg_attr(linked, doc = "```")]
#[cfg_attr(not(linked), doc = "```no_run")]
/// # let p = std::fs::read("../examples/p.edi").unwrap();
/// let first = gurandepi::old_sum(&p, 0.0).unwrap();
/// assert_eq!((first.loads, first.kilograms, first.sum), (2, 57_340, 57_340));
/// let next = gurandepi::old_sum(&p, first.single).unwrap();
/// assert_eq!(next, gurandepi::old_sum_bits(&p, first.bits).unwrap());
/// ```
pub fn old_sum(interchange: &[u8], before: f32) -> Result<OldSum, Refusal> {
    summed(unsafe { c::gurandepi_old_sum(interchange.as_ptr(), interchange.len(), before) })
}

/// The same as [`old_sum`], with `before` as the 32 bits of its single precision pattern.
pub fn old_sum_bits(interchange: &[u8], before: u32) -> Result<OldSum, Refusal> {
    summed(unsafe { c::gurandepi_old_sum_bits(interchange.as_ptr(), interchange.len(), before) })
}

/// The old sum with the loads of one message.
pub fn message_old_sum(interchange: &[u8], message: &[u8], before: f32) -> Result<OldSum, Refusal> {
    let (i, m) = (interchange, message);
    summed(unsafe { c::gurandepi_message_old_sum(i.as_ptr(), i.len(), m.as_ptr(), m.len(), before) })
}

/// The same as [`message_old_sum`], with `before` as the 32 bits of its single precision pattern.
pub fn message_old_sum_bits(interchange: &[u8], message: &[u8], before: u32) -> Result<OldSum, Refusal> {
    let (i, m) = (interchange, message);
    summed(unsafe { c::gurandepi_message_old_sum_bits(i.as_ptr(), i.len(), m.as_ptr(), m.len(), before) })
}
