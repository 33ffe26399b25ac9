//! Short inputs, all of them: byte strings, and pages with few fields.

use crate::make::*;

/// Calls `each` with every byte string of at most `most` bytes.
pub fn byte_strings(most: usize, each: &mut impl FnMut(&[u8])) {
    let mut bytes = vec![];
    loop {
        each(&bytes);
        match bytes.iter().rposition(|b| *b < 255) {
            Some(at) => {
                bytes[at] += 1;
                bytes[at + 1..].fill(0);
            }
            None if bytes.len() == most => return,
            None => bytes = vec![0; bytes.len() + 1],
        }
    }
}

/// Calls `each` with every page of exactly `fields` fields (01 and all others counted) whose leaves are drawn from a
/// few bodies: the names `i`, `br`, `F` and `a.b`, `a:b`; the attributes `a`, `key`, `open` and `a:b`; the texts `x`
/// and white space; `<` as a string and as an attribute's string; one whole number and one decimal, both with a minus
/// too; both booleans, one other literal; the source `s`, and as an expression also `1-2`.
pub fn small_pages(fields: usize, each: &mut impl FnMut(&[u8])) {
    let Some(inside) = fields.checked_sub(1) else { return };
    let trees = Trees::up_to(inside);
    rows(&trees.items, inside, &mut vec![], &mut |row| each(&page(row)));
}

/// How many of them there are.
pub fn count_small_pages(fields: usize) -> usize {
    let mut count = 0;
    small_pages(fields, &mut |_| count += 1);
    count
}

/// By number of fields, all trees of a kind.
type ByFields = Vec<Vec<Vec<u8>>>;

struct Trees {
    items: ByFields,
    pieces: ByFields,
    tags: ByFields,
    attributes: ByFields,
    children: ByFields,
    expressions: ByFields,
    elements: ByFields,
}

impl Trees {
    fn up_to(most: usize) -> Trees {
        let empty = || vec![vec![]; most + 1];
        let mut trees = Trees {
            items: empty(),
            pieces: empty(),
            tags: empty(),
            attributes: empty(),
            children: empty(),
            expressions: empty(),
            elements: empty(),
        };
        // Each kind of n fields is made of kinds of fewer fields, tags before what can be a tag.
        for n in 1..=most {
            trees.tags[n] = trees.make_tags(n);
            trees.expressions[n] = trees.make_expressions(n);
            trees.elements[n] = trees.make_elements(n);
            trees.children[n] = trees.make_children(n);
            trees.attributes[n] = trees.make_attributes(n);
            trees.pieces[n] = [leaves(n, &[source("s")]), trees.tags[n].clone()].concat();
            trees.items[n] = trees.make_items(n);
        }
        trees
    }

    fn make_items(&self, n: usize) -> Vec<Vec<u8>> {
        let mut out = leaves(n, &[empty_statement()]);
        rows(&self.pieces, n - 1, &mut vec![], &mut |row| {
            out.extend([export(row), declaration(row), statement(row)]);
        });
        out
    }

    fn make_tags(&self, n: usize) -> Vec<Vec<u8>> {
        let mut out = vec![];
        rows(&self.children, n - 1, &mut vec![], &mut |row| out.push(fragment(row)));
        for (name, size) in [("i", 1), ("br", 1), ("F", 1), ("a.b", 3), ("a:b", 3)] {
            let Some(left) = (n - 1).checked_sub(size) else { continue };
            for of_attributes in 0..=left {
                rows(&self.attributes, of_attributes, &mut vec![], &mut |attributes| {
                    rows(&self.children, left - of_attributes, &mut vec![], &mut |children| {
                        out.push(element(name, &[attributes, children].concat()));
                    });
                });
            }
        }
        out
    }

    fn make_attributes(&self, n: usize) -> Vec<Vec<u8>> {
        let mut out: Vec<Vec<u8>> = self.expressions[n - 1].iter().map(|e| spread(e.clone())).collect();
        for (name, size) in [("a", 1), ("key", 1), ("open", 1), ("a:b", 3)] {
            let Some(left) = (n - 1).checked_sub(size) else { continue };
            if left == 0 {
                out.push(attribute(name));
                continue;
            }
            if left == 1 {
                out.push(attribute_string(name, "<"));
            }
            out.extend(self.containers(left).into_iter().map(|value| attribute_with(name, value)));
            out.extend(self.tags[left].iter().map(|value| attribute_with(name, value.clone())));
        }
        out
    }

    fn containers(&self, n: usize) -> Vec<Vec<u8>> {
        let with = self.expressions[n - 1].iter().map(|e| braces(e.clone()));
        leaves(n, &[empty_braces()]).into_iter().chain(with).collect()
    }

    fn make_children(&self, n: usize) -> Vec<Vec<u8>> {
        let mut out = leaves(n, &[text("x"), text(" \n ")]);
        out.extend(self.containers(n));
        out.extend(self.tags[n].clone());
        out.extend(self.expressions[n - 1].iter().map(|e| spread_child(e.clone())));
        out
    }

    fn make_expressions(&self, n: usize) -> Vec<Vec<u8>> {
        let numbers = [number(7), minus(7), decimal(1250, 2), minus_decimal(5, 2)];
        let others = [string("<"), boolean(false), boolean(true), null(), literal("1n")];
        let mut out = leaves(n, &[&numbers[..], &others].concat());
        rows(&self.elements, n - 1, &mut vec![], &mut |row| out.push(array(row)));
        rows(&self.pieces, n - 1, &mut vec![], &mut |row| out.push(other(row)));
        if n == 2 {
            out.push(code("1-2"));
        }
        out.extend(self.tags[n].clone());
        out
    }

    fn make_elements(&self, n: usize) -> Vec<Vec<u8>> {
        let spreads = self.expressions[n - 1].iter().map(|e| array_spread(e.clone()));
        leaves(n, &[hole()]).into_iter().chain(spreads).chain(self.expressions[n].clone()).collect()
    }
}

fn leaves(n: usize, of_one: &[Vec<u8>]) -> Vec<Vec<u8>> {
    if n == 1 { of_one.to_vec() } else { vec![] }
}

/// Every row of trees with `fields` fields in all.
fn rows(of: &ByFields, fields: usize, row: &mut Vec<Vec<u8>>, each: &mut impl FnMut(&[Vec<u8>])) {
    fn go(of: &ByFields, fields: usize, row: &mut Vec<Vec<u8>>, each: &mut dyn FnMut(&[Vec<u8>])) {
        if fields == 0 {
            return each(row);
        }
        for first in 1..=fields {
            for tree in &of[first] {
                row.push(tree.clone());
                go(of, fields - first, row, each);
                row.pop();
            }
        }
    }
    go(of, fields, row, each);
}
