//! All short tag texts: a reader that tries every production finds at most one reading, and the judge finds that one.

use oracle::tag::exhaustive::FAMILIES;
use oracle::tag::slow::readings;
use oracle::tag::sweep::short_all;

#[test]
fn at_most_one_reading() {
    print!("{}", short_all().unwrap_or_else(|words| panic!("{words}")));
}

#[test]
fn families_are_counted() {
    for family in FAMILIES {
        let most = family.most_slow.min(4);
        let mut texts = 0;
        family.texts(most, &mut |_| texts += 1);
        assert_eq!(texts, family.count(most), "{}", family.name);
    }
    let all: usize = FAMILIES.iter().map(|family| family.count(family.most)).sum();
    println!("{all} texts for a comparison");
    assert!(all >= 20_000_000, "{all}");
}

/// The slow reader itself, on texts whose readings are plain.
#[test]
fn readings_of_a_few() {
    let agree = |text: &str| readings(text.as_bytes()).iter().map(|one| one.names_agree).collect::<Vec<_>>();
    for (text, expected) in [
        ("<a/>", &[true][..]),
        ("< a . b >{ - 1 }< / a . b >", &[true]),
        ("<a b=<i/>c/>", &[true]),
        ("<></a>", &[false]),
        ("<a><b></a></b>", &[false]),
        ("<a", &[]),
        ("<a b={}/>", &[]),
        ("<>{[]}</>", &[]),
        ("<a/> ", &[]),
    ] {
        assert_eq!(agree(text), expected, "{text}");
    }
}
