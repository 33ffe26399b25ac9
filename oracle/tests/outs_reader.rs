//! The reader of templates out and page out: the answers that A7 fixes, and the deepest nests.

use oracle::outs::Layout;
use oracle::outs::marks::{self, Out};
use oracle::outs::page::{self, Part};

#[test]
fn every_mark_has_its_number() {
    let marks = marks::all();
    for mark in &marks {
        let number = mark.read().map_or_else(|refusal| refusal as u32, |()| 0);
        assert_eq!(number, mark.number, "{:?} {:?} {}", mark.out, mark.layout, mark.name);
    }
    let count = |number: u32| marks.iter().filter(|mark| mark.number == number).count();
    println!("{} marks, by number {:?}", marks.len(), [0, 3, 4, 5, 6, 7].map(|number| (number, count(number))));
    assert!([0, 3, 4, 5, 6, 7].iter().all(|number| count(*number) > 0));
}

#[test]
fn what_is_read_is_written_again() {
    let taken: Vec<_> = marks::all().into_iter().filter(|mark| mark.number == 0).collect();
    for mark in &taken {
        assert_eq!(mark.again(), Ok(mark.bytes.clone()), "{}", mark.name);
    }
    assert!(taken.iter().any(|mark| mark.out == Out::Page) && taken.iter().any(|mark| mark.out == Out::Templates));
}

/// Every cut of every mark that is taken is refused as 3 or 4, or is itself a shorter out.
#[test]
fn cuts() {
    let mut refused = 0;
    for mark in marks::all().into_iter().filter(|mark| mark.number == 0) {
        for length in 0..mark.bytes.len() {
            let cut = marks::Mark { bytes: mark.bytes[..length].to_vec(), ..mark.clone() };
            match cut.read() {
                Ok(()) => assert_eq!(cut.again().as_deref(), Ok(&cut.bytes[..]), "{} {length}", mark.name),
                Err(refusal) => {
                    assert!(matches!(refusal as u32, 3 | 4), "{} {length}", mark.name);
                    refused += 1;
                }
            }
        }
    }
    assert!(refused > 900, "{refused}");
}

/// 21,845 arrays within each other fill a body of 65,535 bytes.
#[test]
fn the_deepest_nest() {
    const DEPTH: usize = 21_845;
    let mut parts = vec![Part::Open(0x12)];
    parts.extend(vec![Part::Open(0x76); DEPTH]);
    parts.extend(vec![Part::Close; DEPTH + 1]);
    let bytes = page::write(&parts, Layout::New).expect("a body of 65,535 bytes");
    assert_eq!((bytes.len(), &bytes[..3]), (65_538, &[0x12, 0xff, 0xff][..]));
    assert_eq!(page::read(&bytes, Layout::New), Ok(parts.clone()));
    // One more has no length.
    parts.insert(1, Part::Open(0x76));
    parts.push(Part::Close);
    assert_eq!(page::write(&parts, Layout::New), None);
}
