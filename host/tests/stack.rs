//! A call within a small stack: pages of the greatest depth, each way in which tags hold each other.

use jsx_precompile::limits::{MAX_DEPTH, MAX_PAGE, MIN_SCRATCH};
use jsx_precompile::transform_into;
use oracle::make::*;

const STACK: usize = 512 * 1024;

type Tag = Vec<u8>;

/// Around a tag as often as the depth allows; each time adds so many fields.
fn deepest(fields: usize, around: impl Fn(Tag) -> Tag) -> Vec<u8> {
    // 01 and 12 lie around the tags, a name or a container with null in the innermost.
    let times = (MAX_DEPTH - 2 - 3) / fields;
    page_of((0..times).fold(element("F", &[braces(null()), braces(null())]), |inner, _| around(inner)))
}

#[test]
fn half_a_megabyte_is_enough() {
    let i = || element("i", &[]);
    let pages = [
        deepest(1, |x| element("b", &[attribute("strokeDashoffset"), x])),
        deepest(1, |x| element("F", &[attribute("strokeDashoffset"), x])),
        deepest(1, |x| {
            element("b", &[(0..20).map(|n| attribute(&format!("a{n}"))).collect::<Vec<_>>(), vec![x]].concat())
        }),
        deepest(1, |x| element("F", &[i(), x])),
        deepest(1, |x| element("F", &[text("a"), x, i(), braces(string("a"))])),
        deepest(1, |x| fragment(&[empty_braces(), x, braces(null())])),
        deepest(2, |x| element("b", &[element("F", &[i(), x])])),
        deepest(2, |x| element("b", &[attribute_with("a", x)])),
        deepest(3, |x| element("b", &[braces(other(&[x]))])),
        deepest(3, |x| element("b", &[braces(array(&[x]))])),
        deepest(4, |x| element("F", &[attribute_with("a", braces(other(&[x])))])),
        deepest(4, |x| element("F", &[fragment(&[i(), element("b", &[fragment(&[x, i()])])])])),
        deepest(4, |x| element("F", &[attribute_with("a", braces(other(&[x]))), braces(code("1 + 2"))])),
    ];
    // Sums too are worked out without a call for each bracket.
    let count = (MAX_PAGE - 19) / 2;
    let brackets = ["(".repeat(count), "1".to_string(), ")".repeat(count)].concat();
    let brackets = page_of(fragment(&[braces(code(&brackets))]));
    let calls = move || {
        let (mut scratch, mut templates, mut out) = (vec![0; MIN_SCRATCH], vec![0; 400_000], vec![0; 400_000]);
        for page in &pages {
            assert!(oracle::field::depth(page) + 4 > MAX_DEPTH, "{}", oracle::show::show(page));
            for options in [vec![], sums()] {
                let answer = transform_into(page, &options, &mut scratch, &mut templates, &mut out);
                assert!(matches!(answer.number, 0 | 10), "{answer:?}");
            }
        }
        assert_eq!(transform_into(&brackets, &sums(), &mut scratch, &mut templates, &mut out).number, 0);
        pages.len() + 1
    };
    let thread = std::thread::Builder::new().stack_size(STACK).spawn(calls).expect("a thread");
    println!("stack: {} pages within {STACK} bytes", thread.join().expect("it ends"));
}
