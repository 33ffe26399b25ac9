//! The readers of templates and of their calls, on bytes made by hand: 84s as the library writes them, and the 80s of
//! before. What is refused, where, and why.

use jsx_precompile::out::{Call, Kind, PageOut, Templates};
use jsx_precompile::{Fault, Refusal};

fn field(tag: u8, parts: &[&[u8]]) -> Vec<u8> {
    let body = parts.concat();
    let length = u16::try_from(body.len()).expect("a length").to_be_bytes();
    [&[tag], &length[..], &body].concat()
}

fn strings(texts: &[&str]) -> Vec<u8> {
    texts.iter().flat_map(|text| field(0x81, &[text.as_bytes()])).collect()
}

fn template(number: u32, kinds: &[u8], texts: &[&str]) -> Vec<u8> {
    let count = u16::try_from(kinds.len()).expect("a count").to_be_bytes();
    field(0x84, &[&number.to_be_bytes(), &count, kinds, &strings(texts)])
}

fn old_template(number: u16, texts: &[&str]) -> Vec<u8> {
    field(0x80, &[&number.to_be_bytes(), &strings(texts)])
}

#[test]
fn both_records_are_read() {
    use Kind::{Attribute, Child};
    let bytes = [
        template(2, &[], &["<i></i>"]),
        template(0x0102_0304, &[1, 2, 1], &["<p ", ">", "<b ", "></b></p>"]),
        template(u32::MAX, &[2], &["", ""]),
    ]
    .concat();
    let read: Vec<_> = Templates::read(&bytes).expect("templates").collect();
    assert_eq!(read.iter().map(|one| one.number()).collect::<Vec<_>>(), [2, 0x0102_0304, u32::MAX]);
    let kinds = |place: usize| read[place].kinds().expect("an 84 tells them").collect::<Vec<_>>();
    assert_eq!((kinds(0), kinds(1), kinds(2)), (vec![], vec![Attribute, Child, Attribute], vec![Child]));
    assert_eq!(read[1].strings().collect::<Vec<_>>(), ["<p ", ">", "<b ", "></b></p>"]);
    assert_eq!(
        format!("{:?}", read[2]),
        "Template { number: 4294967295, kinds: Some([Child]), strings: [\"\", \"\"] }"
    );

    let bytes = [old_template(2, &["<i></i>"]), old_template(65_535, &["<p ", "></p>"])].concat();
    let read: Vec<_> = Templates::read(&bytes).expect("old templates").collect();
    assert_eq!(read.iter().map(|one| one.number()).collect::<Vec<_>>(), [2, 65_535]);
    assert!(read.iter().all(|one| one.kinds().is_none()));
    assert_eq!(read[1].strings().collect::<Vec<_>>(), ["<p ", "></p>"]);
}

#[test]
fn a_template_of_many_gaps() {
    let gaps = 16_380;
    let kinds: Vec<u8> = (0..gaps).map(|gap| 1 + (gap % 2) as u8).collect();
    let bytes = template(1, &kinds, &vec![""; gaps + 1]);
    let read = Templates::read(&bytes).expect("a template").next().expect("one");
    assert_eq!((read.strings().count(), read.kinds().expect("kinds").len()), (gaps + 1, gaps));
    assert!(read.kinds().expect("kinds").map(|kind| kind as u8).eq(kinds));
}

#[test]
fn what_is_no_record_is_refused() {
    let refused = |bytes: &[u8]| -> (usize, Refusal, String) {
        let Fault { at, refusal, reason, .. } = Templates::read(bytes).expect_err("no templates");
        (at, refusal, reason)
    };
    let misplaced = |bytes: &[u8], at: usize, reason: &str| {
        assert_eq!(refused(bytes), (at, Refusal::Misplaced, reason.to_string()));
    };
    // Number and count, kinds, and strings, from front to back.
    for length in 0..6 {
        let bytes = field(0x84, &[&[0, 0, 0, 1, 0, 0][..length]]);
        misplaced(&bytes, 3, &format!("84 (template) of {length} bytes lacks its number and count"));
    }
    misplaced(&field(0x84, &[&[0, 0, 0, 1, 0, 2, 1]]), 3, "84 (template) of 7 bytes lacks its 2 kinds");
    let no_kind = "is no kind (1 of an attribute, 2 of a child)";
    misplaced(&template(1, &[0], &["", ""]), 9, &format!("0 {no_kind}"));
    misplaced(&template(1, &[1, 2, 3], &["", ""]), 11, &format!("3 {no_kind}"));
    // One string more than kinds, neither fewer nor more.
    let too_few = "84 (template) ends where a string (81) must stand";
    misplaced(&template(1, &[], &[]), 0, too_few);
    misplaced(&template(1, &[1], &["<p "]), 0, too_few);
    misplaced(&template(1, &[1], &["", "", ""]), 16, "81 (static string) stands where nothing more may stand");
    misplaced(&old_template(1, &[]), 0, "80 (old template) ends where a string (81) must stand");
    misplaced(&field(0x80, &[&[7]]), 3, "80 (old template) of 1 bytes lacks its number");
    // Templates are of one kind.
    let [old, new] = [old_template(1, &["<br>"]), template(2, &[], &["<br>"])];
    let reason = "80 (old template) stands where templates like the first (84) may stand";
    misplaced(&[&new[..], &old].concat(), 16, reason);
    let reason = "84 (template) stands where templates like the first (80) may stand";
    misplaced(&[&old[..], &new].concat(), 12, reason);
    misplaced(&field(0x81, &[]), 0, "81 (static string) stands where templates (84, or 80 of old) may stand");
    // Torn in a string, and not UTF-8.
    let torn = field(0x84, &[&[0, 0, 0, 1, 0, 0, 0x81, 0]]);
    assert_eq!(refused(&torn), (9, Refusal::Truncated, "2 bytes where a field begins".to_string()));
    let bad = field(0x84, &[&[0, 0, 0, 1, 0, 0, 0x81, 0, 1, 0xff]]);
    assert_eq!(refused(&bad).1, Refusal::NotUtf8);
    let path = Templates::read(&bad).expect_err("no text").path.to_string();
    assert_eq!(path, "84 1 > 81");
}

#[test]
fn numbers_of_calls_have_four_bytes() {
    let call = |body: &[u8]| field(0x12, &[&field(0x90, &[body])]);
    let number = |bytes: &[u8]| match PageOut::read(bytes).expect("a page out").calls().next() {
        Some(Call::Template(call)) => (call.number(), call.expressions().count()),
        other => panic!("{other:?}"),
    };
    assert_eq!(number(&call(&[0, 0, 0, 1])), (1, 0));
    assert_eq!(number(&call(&[1, 2, 3, 4, 0x73, 0, 0])), (0x0102_0304, 1));
    for length in 0..4 {
        let bytes = call(&[0; 4][..length]);
        let fault = PageOut::read(&bytes).expect_err("no number");
        assert_eq!((fault.at, fault.refusal), (6, Refusal::Misplaced));
        assert_eq!(fault.reason, format!("90 (jsxTemplate) of {length} bytes lacks its number"));
    }
}
