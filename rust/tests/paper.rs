//! The rules paper's example P and its variants, and what a refusal leaves alone.
//!
//! Where the static library is not linked (build.rs) the tests are compiled as functions that nothing calls, so that the
//! linker asks for none of the calls.
#![cfg_attr(not(linked), allow(dead_code))]

use gurandepi::*;

const P: &str = include_str!("../../examples/p.edi");
const P7: &str = include_str!("../../examples/p7.edi");
const F01: &str = include_str!("../../examples/f01.edi");
const SCOPE3: &str = include_str!("../../examples/scope3.edi");

fn said(answer: Result<(), Refusal>) -> String {
    answer.map_or_else(|refusal| refusal.to_string(), |()| "accepted".to_string())
}

#[cfg(not(linked))]
#[test]
#[ignore = "skipped: the static library is for x86-64 Linux, and this is another target"]
fn the_calls() {}

#[cfg_attr(linked, test)]
fn p1_to_p9() {
    let cases = [
        ("P1", P.to_string(), "accepted"),
        ("P2", String::new(), "refused 1 at 0 segment 0"),
        ("P3", P.replace("UNT+5", "UNT+6"), "refused 10 at 113 segment 6"),
        ("P4", P[..122].to_string(), "refused 7 at 122 segment 7"),
        ("P5", P.replace("27.34", "27.3.4"), "refused 12 at 80 segment 4"),
        ("P6", P.replace("30000", "30,000"), "refused 10 at 114 segment 6"),
        ("P7", P7.to_string(), "accepted"),
        ("P8", P7.replace("UST+A1+4", "UST+A1+3"), "refused 10 at 165 segment 10"),
        ("P9", P7.replace("UST+A1", "UST+A2"), "refused 9 at 145 segment 8"),
    ];
    for (name, octets, answer) in cases {
        assert_eq!(said(judge(octets.as_bytes())), answer, "{name}");
    }
    assert_eq!(totals(P.as_bytes(), b"M1"), Ok(Totals { loads: 2, grams: 57_340_000 }));
}

#[cfg_attr(linked, test)]
fn p7_is_sealed_in_two_parts_of_the_interchange_itself() {
    let file = P7.as_bytes();
    let parts = scope1(file, b"M1", b"A1").unwrap();
    assert_eq!((P7.len(), parts.header.len(), parts.body.len()), (183, 32, 50));
    let (ush, qty) = (P7.find("USH").unwrap(), P7.find("QTY").unwrap());
    assert!(std::ptr::eq(parts.header, &file[ush..ush + 32]));
    assert!(std::ptr::eq(parts.body, &file[qty..qty + 50]));
    assert_eq!(scope1_places(file, b"M1", b"A1"), Ok(Places { header: ush..ush + 32, body: qty..qty + 50 }));
    let refusal = scope2(file, b"M1", b"A1").unwrap_err();
    assert_eq!((refusal.reason, refusal.number()), (Reason::NotFound, 13));
    assert_eq!(scope2_places(file, b"M1", b"A1"), Err(refusal));
}

#[cfg_attr(linked, test)]
fn scope_2_is_one_part_up_to_the_ust_of_its_own() {
    let file = b"UNB+UNOC:4+A+B+20240105:0700+R1'UNH+1+A'USH+1+X+1'USH+1+Y+2'BGM'UST+X+2'UST+Y+2'UNT+7+1'UNZ+1+R1'";
    assert_eq!(scope2_places(file, b"1", b"Y"), Ok(50..72));
    assert_eq!(scope2(file, b"1", b"Y"), Ok(&b"USH+1+Y+2'BGM'UST+X+2'"[..]));
}

#[cfg_attr(linked, test)]
fn f01_refuses_the_autack_before_the_other() {
    let (file, short) = (F01.as_bytes(), &F01.as_bytes()[..F01.len() - 1]);
    let at = F01.find("UNZ").unwrap();
    let refusal = Refusal { reason: Reason::Segment, place: at, segment: F01.matches('\'').count() };
    assert_eq!(f01_places(file, file, b"11", b"1"), Ok(50..91));
    assert_eq!((f01(file, short, b"11", b"1"), judge(file)), (Err(refusal), Ok(())));
    assert_eq!((f01(short, b"", b"11", b"1"), judge(short)), (Err(refusal), Err(refusal)));
}

#[cfg_attr(linked, test)]
fn scope3_seals_the_message_that_is_named_and_no_autack() {
    let (file, itself) = (SCOPE3.as_bytes(), SCOPE3.replace("++++++MESSAGE003", "++++++AUT00001"));
    assert_eq!(scope3_places(file, file, b"AUT00001", b"1"), Ok(72..139));
    assert_eq!(f01(file, file, b"AUT00001", b"1").unwrap_err().reason, Reason::NotFound);
    assert_eq!(judge(itself.as_bytes()), Ok(()));
    assert_eq!(scope3(itself.as_bytes(), itself.as_bytes(), b"AUT00001", b"1").unwrap_err().reason, Reason::NotFound);
}

#[cfg_attr(linked, test)]
fn p10_and_what_a_refusal_leaves_alone() {
    let mut out = *b"untouched";
    assert_eq!(value(P7.as_bytes(), b"M1", b"A2", &mut out).unwrap_err().reason, Reason::NotFound);
    assert_eq!(value(P7.as_bytes(), b"M1", b"A1", &mut out[..1]).unwrap_err().reason, Reason::Room);
    assert_eq!(&out, b"untouched");
    assert_eq!(value(P7.as_bytes(), b"M1", b"A1", &mut out).unwrap(), [0x0F, 0xA0]);
    assert_eq!(&out, b"\x0F\xA0touched");
}

#[cfg_attr(linked, test)]
fn p_is_sealed_to_p7_and_a_used_reference_is_refused() {
    let mut out = [7; 184];
    let (sealed, rest) = {
        let length = seal(P.as_bytes(), b"M1", b"A1", Filter::Hex, &[0x0F, 0xA0], &mut out).unwrap().len();
        out.split_at(length)
    };
    assert_eq!((sealed, rest), (P7.as_bytes(), &[7][..]));
    let refusal = seal_octets(P7.as_bytes(), b"M1", b"A1", Filter::Base64, &mut out).unwrap_err();
    assert_eq!((refusal.reason, out[0]), (Reason::NotSealable, b'U'));
}

#[cfg_attr(linked, test)]
fn a_register_is_written_and_checked() {
    let mut out = [0; 24];
    let kept = register_write(P.as_bytes(), &mut out).unwrap();
    assert_eq!(kept[..12], [0, 0, 0, 1, 0, 0, 0, 40, 0, 0, 0, 82]);
    assert_eq!(register_check(P.as_bytes(), Form::Old, kept), Ok(()));
    assert_eq!(said(register_check(P7.as_bytes(), Form::Old, kept)), "refused 13 at 0 segment 0");
    assert_eq!(said(register_check(P.as_bytes(), Form::Small, kept)), "refused 13 at 0 segment 0");
}

#[cfg_attr(linked, test)]
fn a_register_with_signed_grams_is_written_checked_and_moved() {
    let (mut out, mut old, mut back) = ([0; 9], [0; 24], *b"untouched");
    let kept = register_write_signed(P.as_bytes(), &mut out).unwrap();
    assert_eq!(kept, [3, 1, 40, 82, 2, 0xC0, 0xC1, 0xD7, 0x36]);
    assert_eq!(register_check(P.as_bytes(), Form::Signed, kept), Ok(()));
    let moved = register_signed_to_old(kept, &mut old).unwrap();
    assert_eq!(register_check(P.as_bytes(), Form::Old, moved), Ok(()));
    assert_eq!(register_old_to_signed(&moved[..23], &mut back).unwrap_err().reason, Reason::Register);
    assert_eq!(register_old_to_signed(moved, &mut back[..8]).unwrap_err().reason, Reason::Room);
    assert_eq!(&back, b"untouched");
    assert_eq!(register_old_to_signed(moved, &mut back).unwrap(), kept);
}

#[cfg_attr(linked, test)]
fn a_smaller_register_is_read() {
    let (mut old, mut signed) = ([0; 24], [0; 9]);
    let small = [2, 1, 40, 82, 2, 0xE0, 0xE0, 0xAB, 0x1B];
    assert_eq!(register_check(P.as_bytes(), Form::Small, &small), Ok(()));
    assert_eq!(register_check(P.as_bytes(), Form::Old, register_small_to_old(&small, &mut old).unwrap()), Ok(()));
    assert_eq!(register_check(P.as_bytes(), Form::Signed, register_small_to_signed(&small, &mut signed).unwrap()), Ok(()));
}

#[cfg_attr(linked, test)]
fn a_negative_total_is_not_in_the_old_form() {
    let minus_one = [3, 1, 40, 82, 2, 1];
    let refusal = register_signed_to_old(&minus_one, &mut []).unwrap_err();
    assert_eq!((refusal.reason, refusal.number()), (Reason::NegativeTotal, 19));
}

#[cfg_attr(linked, test)]
fn the_digest_is_that_of_the_sealed_octets_however_they_are_cut() {
    let file = P7.as_bytes();
    let digest = digest_scope1(file, b"M1", b"A1").unwrap();
    assert_eq!(digest[..4], [0xde, 0x76, 0x00, 0x81]);
    let parts = scope1(file, b"M1", b"A1").unwrap();
    let whole = [parts.header, parts.body].concat();
    for cut in 0..=whole.len() {
        let mut fed = Sha1::start();
        fed.feed(&whole[..cut]).unwrap();
        fed.feed(&whole[cut..]).unwrap();
        assert_eq!(fed.finish(), digest);
    }
    assert_eq!(digest_scope2(file, b"M1", b"A1").unwrap_err().reason, Reason::NotFound);
    let other = P7.replace("USA+1:::16", "USA+1:::8");
    let refusal = digest_scope1(other.as_bytes(), b"M1", b"A1").unwrap_err();
    assert_eq!((refusal.reason, refusal.number(), refusal.place), (Reason::NotSha1, 18, 0));
    assert!(digest_f01(F01.as_bytes(), F01.as_bytes(), b"11", b"1").is_ok_and(|d| d[..2] == [0xf5, 0x00]));
    assert!(digest_scope3(SCOPE3.as_bytes(), SCOPE3.as_bytes(), b"AUT00001", b"1").is_ok_and(|d| d[..2] == [0x09, 0x65]));
}

#[cfg_attr(linked, test)]
fn the_old_sum_is_rounded_once_for_each_load() {
    let file = P.replace("QTY+12:27.34:TNE'CNT+1:57.34:TNE'UNT+5", "UNT+3");
    let file = file.as_bytes();
    let left = old_sum(file, 300_000_000.0).unwrap();
    assert_eq!((left.sum, left.bits, left.single), (300_030_016, 0x4d8f_10c2, 300_030_016.0));
    assert_eq!((left.loads, left.kilograms), (1, 30_000));
    assert_eq!(message_old_sum(file, b"M1", 300_000_000.0), Ok(left));
    assert_eq!(message_old_sum_bits(file, b"M1", 0x4d8f_0d18), Ok(left));
    for before in [-0.0, 0.5, -1.0, f32::INFINITY, f32::NAN, 1_073_741_952.0] {
        assert_eq!(old_sum(file, before).unwrap_err().reason, Reason::Sum);
        assert_eq!(message_old_sum(file, b"M2", before).unwrap_err().reason, Reason::NotFound);
    }
    let refusal = old_sum_bits(P.replace("30000", "-30000").replace("57.34:", "-2.66:").as_bytes(), 0).unwrap_err();
    assert_eq!((refusal.reason, refusal.number(), refusal.place), (Reason::Load, 23, 0));
}
