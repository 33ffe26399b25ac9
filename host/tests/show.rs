//! `jsx-precompile show`: what it shows of whole and of damaged bytes.

mod common;

use common::jsx_precompile;

fn shown(words: &[&str], input: &[u8], status: i32) -> String {
    let output = jsx_precompile(&[&["show"], words, &["-"]].concat(), input);
    assert_eq!(output.status.code(), Some(status), "{output:?}");
    String::from_utf8(output.stdout).expect("text")
}

/// What it shows of damaged bytes, and what it says.
fn damaged(input: &[u8]) -> (String, String) {
    let output = jsx_precompile(&["show", "-"], input);
    assert_eq!(output.status.code(), Some(1), "{output:?}");
    (String::from_utf8(output.stdout).expect("text"), String::from_utf8(output.stderr).expect("text"))
}

/// const a = <p class="t">Hi {n}</p>;
const PAGE: &str = "01003a12003720000a636f6e73742061203d203000234000017050000c400005636c617373510001746000034869205200077900042000016e2000013b";

const PAGE_SHOWN: &str = r#"     0  01 page
     3    12 statement
     6      20 source "const a = "
    19      30 element
    22        40 identifier "p"
    26        50 attribute
    29          40 identifier "class"
    37          51 attribute string "t"
    41        60 text "Hi "
    47        52 container
    50          79 other expression
    53            20 source "n"
    57      20 source ";"
page: 61 bytes, 13 fields, 6 deep
"#;

fn raw(hex: &str) -> Vec<u8> {
    let digit = |byte: u8| char::from(byte).to_digit(16).expect("a digit") as u8;
    hex.as_bytes().chunks(2).map(|pair| 16 * digit(pair[0]) + digit(pair[1])).collect()
}

#[test]
fn a_page_in_hex_and_raw() {
    assert_eq!(shown(&[], PAGE.as_bytes(), 0), PAGE_SHOWN);
    assert_eq!(shown(&["--hex"], format!("{}\n{}\n", &PAGE[..10], &PAGE[10..]).as_bytes(), 0), PAGE_SHOWN);
    assert_eq!(shown(&[], &raw(PAGE), 0), PAGE_SHOWN);
    assert_eq!(shown(&["--raw", "--as", "page"], &raw(PAGE), 0), PAGE_SHOWN);
}

/// A catalogue of two pages: its first byte tells.
#[test]
fn a_catalogue() {
    let first = "970000000502000000100000000a84000d000000010000810004 3c62723e1200079000 0400000001".replace(' ', "");
    let second = "97000000080100000000000000 03130000".replace(' ', "");
    let text = "     0  97 page 5 of house 2: template 1, 40 bytes
    14    84 template 1
    23      81 static string \"<br>\"
    30    12 statement
    33      90 jsxTemplate 1
    40  97 page 8 of house 1: no templates, 17 bytes
    54    13 empty statement
";
    let (free, all) = ("    57  free: 2 bytes\n", "catalogue: 59 bytes, 5 fields, 3 deep\n");
    assert_eq!(shown(&[], format!("{first}{second}0000").as_bytes(), 0), format!("{text}{free}{all}"));
    assert_eq!(
        shown(&["--as", "catalogue"], &raw("0000"), 0),
        "     0  free: 2 bytes\ncatalogue: 2 bytes, 0 fields, 1 deep\n"
    );
    // The place of what is wrong, within a page too.
    let behind = format!("{first}{second}0005");
    let (out, said) = damaged(behind.as_bytes());
    let mark = "    58  ^ 4 (misplaced): 05 behind the last page, where zeros must stand\n";
    assert_eq!(out, format!("{text}    57  free: 1 bytes, then 05\n{mark}"));
    assert!(said.ends_with("catalogue, byte 58: 4 (misplaced): 05 behind the last page, where zeros must stand\n"));
    let (out, _) = damaged(first.replace("3c62723e", "3c6272ff").as_bytes());
    assert!(
        out.contains("\n    29      ^ 4 (misplaced): page 5: templates out, byte 15, 84 1 > 81: 6 (bad letters): "),
        "{out}"
    );
    // A page that is cut off.
    let (out, _) = damaged(&second.as_bytes()[..second.len() - 2]);
    assert!(out.starts_with("     0  no page: 970000000801"), "{out}");
}

/// One page of a catalogue in a file.
#[test]
fn a_page_of_a_catalogue() {
    let output = jsx_precompile(&["catalogue", "show", "examples/festival.catalogue", "12"], b"");
    let text = String::from_utf8(output.stdout).expect("text");
    assert!(
        text.starts_with("   378  97 page 12 of house 1: template 2, 402 bytes\n   392    84 template 2: "),
        "{text}"
    );
    let all = jsx_precompile(&["catalogue", "show", "examples/festival.catalogue"], b"");
    let all = String::from_utf8(all.stdout).expect("text");
    assert!(all.contains(&text) && all.contains("\n  1058  free: 990 bytes\n"), "{all}");
}

#[test]
fn a_file() {
    let file = std::path::Path::new(env!("CARGO_TARGET_TMPDIR")).join("show.page");
    std::fs::write(&file, raw(PAGE)).expect("it is written");
    let output = jsx_precompile(&["show", file.to_str().expect("a name")], b"");
    assert_eq!(String::from_utf8(output.stdout).expect("text"), PAGE_SHOWN);
}

#[test]
fn both_outputs() {
    let templates = "84002100000001000102 8100103c7020636c6173733d2274223e486920 8100043c2f703e".replace(' ', "");
    let expected = r#"     0  84 template 1: child
    10    81 static string "<p class=\"t\">Hi "
    29    81 static string "</p>"
templates out: 36 bytes, 3 fields, 2 deep
"#;
    assert_eq!(shown(&[], templates.as_bytes(), 0), expected);
    let out = "82001581001172656163742f6a73782d72756e74696d650a83000012001490000a0000000192000373000070000474727565";
    let expected = r#"     0  82 import 10: jsxTemplate, jsxEscape
     3    81 static string "react/jsx-runtime"
    24  83 templates go here
    27  12 statement
    30    90 jsxTemplate 1
    37      92 jsxEscape
    40        73 null
    43    70 string "true"
page out: 50 bytes, 8 fields, 4 deep
"#;
    assert_eq!(shown(&[], out.as_bytes(), 0), expected);
}

#[test]
fn options() {
    let expected =
        "     0  03 attributes not serialized\n     3    20 source \"class\"\noptions: 11 bytes, 2 fields, 2 deep\n";
    assert_eq!(shown(&[], b"030008200005636c617373", 0), expected);
}

#[test]
fn orders() {
    let order = b"85001a00000001860003613d62870003c3a93c85000700000002870000";
    let expected = r#"     0  85 order 1
     7    86 attribute text "a=b"
    13    87 plain text "é<"
    19    85 order 2
    26      87 plain text ""
order: 29 bytes, 5 fields, 3 deep
"#;
    assert_eq!(shown(&[], order, 0), expected);
    assert_eq!(shown(&["--as", "order"], order, 0), expected);
    // An order of an order without a number; bytes behind one; another field in one.
    let (tree, said) = damaged(b"85000a00000001850003000000");
    assert!(
        tree.contains("     7    85 order 000000\n    10    ^ 4 (misplaced): 85 (order) of 3 bytes lacks its number\n"),
        "{tree}"
    );
    assert!(said.contains("order, byte 10, 85 1 > 85[0]: 4 (misplaced)"), "{said}");
    assert!(damaged(b"850004000000018500").1.ends_with("order, byte 7: 3 (torn): 2 bytes follow the order\n"));
    let (tree, said) = damaged(b"85000800000001810001 61");
    assert!(
        tree.contains("     7    81 static string \"a\"\n     7    ^ 4 (misplaced): 81 (static string) stands where"),
        "{tree}"
    );
    assert!(said.contains("order, byte 7, 85 1 > 81[0]: 4 (misplaced)"), "{said}");
    let (tree, _) = damaged(b"85000800000001860001ff");
    assert!(tree.contains("     7    86 attribute text not UTF-8: ff\n    10    ^ 6 (bad letters): byte ff"), "{tree}");
    let output = jsx_precompile(&["show", "--as", "order", "-"], b"");
    assert_eq!(String::from_utf8_lossy(&output.stdout), "     0  ^ 3 (torn): an empty order\n");
}

#[test]
fn damaged_pages() {
    // the element's name is `1`
    let (tree, said) = damaged(b"01000a12000730000440000131");
    let expected = r#"     0  01 page
     3    12 statement
     6      30 element
     9        40 identifier "1"
    12        ^ 5 (bad name): '1' may not begin a name
"#;
    assert_eq!(tree, expected);
    let expected = "page, byte 12, 01 > 12[0] > 30 1 > 40: 5 (bad name): '1' may not begin a name\n";
    assert_eq!(said, format!("jsx-precompile: standard input: {expected}"));
    // a member of one name
    let (tree, said) = damaged(b"01000d12000a30000741000440000161");
    let expected = r#"     0  01 page
     3    12 statement
     6      30 element
     9        41 member
     9        ^ 4 (misplaced): 41 (member) ends where an identifier (40) must stand
    12          40 identifier "a"
"#;
    assert_eq!(tree, expected);
    assert!(said.contains("page, byte 9, 01 > 12[0] > 30 a > 41: 4 (misplaced)"), "{said}");
    // a field past the end of what holds it
    let (tree, said) = damaged(b"010006120009200000");
    assert!(tree.contains("     3    ^ 3 (torn): 12 (statement) of 9 bytes where 3 are left\n"), "{tree}");
    assert!(tree.contains("     3    no field: 120009200000\n"), "{tree}");
    assert!(said.contains("page, byte 3, 01: 3 (torn)"), "{said}");
    // a tag that is none; bytes behind the page; nothing at all
    assert!(damaged(b"010003990000").0.contains("     3    ^ 4 (misplaced): 99 (no tag) stands where items"));
    assert!(damaged(b"01000007").1.ends_with("page, byte 3: 3 (torn): 1 bytes follow the page\n"));
    assert_eq!(damaged(b"").0, "     0  ^ 3 (torn): an empty page\n");
    // not UTF-8, in an output
    let (tree, said) = damaged(b"84000a000000010000 81000 1ff");
    assert!(tree.contains("     9    81 static string not UTF-8: ff\n    12    ^ 6 (bad letters): byte ff"), "{tree}");
    assert!(said.contains("templates out, byte 12, 84 1 > 81: 6 (bad letters)"), "{said}");
}

/// What tells attributes from children, and the templates of before.
#[test]
fn kinds() {
    let gaps = |kinds: &[u8]| {
        let (strings, count) = ([0x81, 0, 0].repeat(kinds.len() + 1), [0, kinds.len() as u8]);
        let body = [&[0, 1, 0, 2], &count[..], kinds, &strings].concat();
        [&[0x84, 0, body.len() as u8][..], &body].concat()
    };
    assert!(
        shown(&[], &gaps(&[1, 2, 2, 1]), 0)
            .starts_with("     0  84 template 65538: attribute, child, child, attribute\n")
    );
    assert!(shown(&[], &gaps(&[]), 0).starts_with("     0  84 template 65538\n"));
    assert!(shown(&[], &gaps(&[1; 11]), 0).contains(", attribute... (11 in all)\n"));
    assert!(!shown(&["--whole"], &gaps(&[1; 11]), 0).contains("..."));
    let (tree, said) = damaged(&gaps(&[1, 3]));
    assert!(
        tree.starts_with("     0  84 template 65538: attribute, no kind 3\n    10  ^ 4 (misplaced): 3 is no kind"),
        "{tree}"
    );
    assert!(said.contains("templates out, byte 10, 84 65538: 4 (misplaced): 3 is no kind"), "{said}");
    let (tree, _) = damaged(b"84000500000001ff");
    assert!(tree.starts_with("     0  84 template"), "{tree}");
    let old = b"80000900018100043c62723e";
    assert!(shown(&[], old, 0).starts_with("     0  80 old template 1\n     5    81 static string \"<br>\"\n"));
}

#[test]
fn long_texts_are_cut() {
    let page = [&[0x01, 0, 206, 0x12, 0, 203, 0x20, 0, 200][..], &[b'x'; 200]].concat();
    assert!(shown(&[], &page, 0).contains("... (200 bytes)"));
    assert!(shown(&["--whole"], &page, 0).contains(&"x".repeat(200)));
}
