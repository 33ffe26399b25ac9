//! Pages to measure on: a set shaped like real code, sizes and depths, and the worst that the limits allow.

mod real;
mod worst;

/// Pages that are measured together, and the options that go with each.
pub struct Set {
    pub name: String,
    pub pages: Vec<Vec<u8>>,
    pub options: Vec<u8>,
}

impl Set {
    fn of(name: &str, pages: Vec<Vec<u8>>) -> Set {
        Set { name: name.into(), pages, options: vec![] }
    }

    fn under(name: &str, options: Vec<u8>, page: Vec<u8>) -> Set {
        Set { name: name.into(), pages: vec![page], options }
    }

    pub fn bytes(&self) -> usize {
        self.pages.iter().map(Vec::len).sum()
    }

    pub fn shape(&self) -> Shape {
        let mut shape = Shape::default();
        self.pages.iter().for_each(|page| shape.look(page, 1));
        shape
    }
}

/// Of all pages of a set: tags, attributes, bytes of source text, the greatest depth.
#[derive(Default)]
pub struct Shape {
    pub tags: usize,
    pub attributes: usize,
    pub source: usize,
    pub depth: usize,
}

impl Shape {
    fn look(&mut self, bytes: &[u8], depth: usize) {
        for node in oracle::field::read(bytes).expect("a page") {
            self.count(&node, depth);
        }
    }

    fn count(&mut self, node: &oracle::field::Node, depth: usize) {
        self.tags += usize::from(matches!(node.tag, 0x30 | 0x31));
        self.attributes += usize::from(matches!(node.tag, 0x50 | 0x53));
        self.source += if node.tag == 0x20 { node.bytes.len() } else { 0 };
        self.depth = self.depth.max(depth);
        node.inner.iter().for_each(|inner| self.count(inner, depth + 1));
    }
}

/// So many pages shaped like real code, then sizes and depths.
pub fn usual(pages: usize) -> Vec<Set> {
    [vec![real::mean(pages)], real::sizes(), real::depths(), real::sizes_at_depth()].into_iter().flatten().collect()
}

pub fn all() -> Vec<Set> {
    let mut sets = usual(100);
    sets.extend(worst::sets());
    for set in &sets {
        assert!(set.pages.iter().all(|page| page.len() <= oracle::answer::MOST_PAGE), "{}", set.name);
        assert!(set.options.len() <= oracle::answer::MOST_OPTIONS, "{}", set.name);
    }
    sets
}
