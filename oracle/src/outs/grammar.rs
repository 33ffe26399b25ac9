//! The grammar of a page out: which field may follow in which row, and what stands in its body (01, Form and call; 02,
//! A7).

/// What may still stand in a row.
#[derive(Clone, Copy, Debug, PartialEq, Eq)]
pub enum Row {
    /// The page out itself.
    Top(Top),
    /// 20 and expressions.
    Pieces,
    /// Expressions, 77 and 78.
    Elements,
    /// Any number of expressions.
    Gaps,
    /// One expression.
    One,
    /// An 81, then one expression.
    NameThenOne,
    /// One expression, then an 81.
    OneThenName,
    /// An 81.
    Name,
    /// What a 94 calls, then its props, then its key or nothing.
    Called,
    Props,
    Key,
    /// 96 and 53.
    Properties,
    /// The 40s of a 41, of which so many have come.
    Members(u8),
    Nothing,
}

/// How far a page out has come: an 82 first; one 83 before the first 10 or 12 or, where there is none, before all items.
#[derive(Clone, Copy, Debug, PartialEq, Eq)]
pub enum Top {
    Start,
    /// Behind the 82.
    Imported,
    /// Only 11 and 13 so far, no 83.
    Plain,
    /// An 83 before all items.
    Marked,
    /// The same, and an 11 or 13 right behind it: no 10 or 12 may follow.
    MarkedPlain,
    /// An 83 behind items: a 10 or 12 must follow.
    Due,
    /// Behind the first 10 or 12.
    Settled,
}

/// 01: a 41 has two to eight 40s.
const MEMBERS: std::ops::RangeInclusive<u8> = 2..=8;

/// 02, A7: in a page out calls replace 30 and 31 among expressions.
pub fn is_expression(tag: u8) -> bool {
    matches!(tag, 0x70..=0x76 | 0x79..=0x7b | 0x90..=0x94)
}

impl Row {
    /// What the row is behind a field with this tag; none where it may not stand here.
    pub fn behind(self, tag: u8) -> Option<Row> {
        match (self, tag) {
            (Row::Top(top), _) => top.behind(tag).map(Row::Top),
            (Row::Pieces, 0x20) | (Row::Elements, 0x77 | 0x78) | (Row::Properties, 0x53 | 0x96) => Some(self),
            (Row::Pieces | Row::Elements | Row::Gaps, _) if is_expression(tag) => Some(self),
            (Row::One | Row::Key, _) if is_expression(tag) => Some(Row::Nothing),
            (Row::NameThenOne, 0x81) => Some(Row::One),
            (Row::OneThenName, _) if is_expression(tag) => Some(Row::Name),
            (Row::Name, 0x81) => Some(Row::Nothing),
            (Row::Called, 0x40 | 0x41 | 0x81) => Some(Row::Props),
            (Row::Props, 0x73 | 0x95) => Some(Row::Key),
            (Row::Members(count), 0x40) if count < *MEMBERS.end() => Some(Row::Members(count + 1)),
            _ => None,
        }
    }

    /// Whether nothing is missing where the row ends.
    pub fn may_end(self) -> bool {
        match self {
            Row::Top(top) => top != Top::Due,
            Row::Members(count) => MEMBERS.contains(&count),
            Row::Pieces | Row::Elements | Row::Gaps | Row::Key | Row::Properties | Row::Nothing => true,
            Row::One | Row::NameThenOne | Row::OneThenName | Row::Name | Row::Called | Row::Props => false,
        }
    }
}

impl Top {
    fn behind(self, tag: u8) -> Option<Top> {
        match (self, tag) {
            (Top::Start, 0x82) => Some(Top::Imported),
            (Top::Start | Top::Imported, 0x83) => Some(Top::Marked),
            (Top::Plain, 0x83) => Some(Top::Due),
            (Top::MarkedPlain, 0x10 | 0x12) => None,
            (_, 0x10 | 0x12) => Some(Top::Settled),
            (Top::Due, _) => None,
            (Top::Start | Top::Imported | Top::Plain, 0x11 | 0x13) => Some(Top::Plain),
            (Top::Marked | Top::MarkedPlain, 0x11 | 0x13) => Some(Top::MarkedPlain),
            (Top::Settled, 0x11 | 0x13) => Some(Top::Settled),
            _ => None,
        }
    }
}

/// What stands in a field's body.
#[derive(Clone, Copy, Debug, PartialEq, Eq)]
pub enum Body {
    Fields(Row),
    /// The number of a template, then its gaps.
    NumberThenGaps,
    /// An 81, then the sum of the helpers.
    Import,
    Text,
    Identifier,
    Whole,
    Decimal,
    Boolean,
    Empty,
}

/// Of a tag that may stand somewhere.
pub fn body_of(tag: u8) -> Body {
    match tag {
        0x10..=0x12 | 0x79 => Body::Fields(Row::Pieces),
        0x20 | 0x70 | 0x74 | 0x81 => Body::Text,
        0x40 => Body::Identifier,
        0x41 => Body::Fields(Row::Members(0)),
        0x53 | 0x77 | 0x92 => Body::Fields(Row::One),
        0x71 | 0x75 => Body::Whole,
        0x72 => Body::Boolean,
        0x76 => Body::Fields(Row::Elements),
        0x7a | 0x7b => Body::Decimal,
        0x82 => Body::Import,
        0x90 => Body::NumberThenGaps,
        0x91 | 0x96 => Body::Fields(Row::NameThenOne),
        0x93 => Body::Fields(Row::OneThenName),
        0x94 => Body::Fields(Row::Called),
        0x95 => Body::Fields(Row::Properties),
        _ => Body::Empty,
    }
}
