//! Places in the source text: the byte layouts have none, so they are empty here.

#[derive(Clone, Copy, Debug, Default, PartialEq, Eq)]
pub struct Span;

pub const DUMMY_SP: Span = Span;

#[derive(Clone, Copy, Debug, Default, PartialEq, Eq)]
pub struct SyntaxContext;
