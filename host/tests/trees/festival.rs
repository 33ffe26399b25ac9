//! The catalogue of examples/festival: pages of two houses, and the shares that both have.

/// The bytes of the catalogue.
pub const LENGTH: usize = 2_048;

/// examples/festival.shares.
pub const SHARES: &str = "\
# house, bytes that it is guaranteed, bytes that it may have
1 500 1500    # the large house
2 900 -       # the one that came late before
";

/// What comes and leaves, by the name and the house of a page, and its files in examples/.
pub enum Call {
    Arrives {
        name: u32,
        house: u32,
        page: &'static str,
    },
    Leaves {
        name: u32,
    },
    /// Refused with this number.
    Refused {
        name: u32,
        house: u32,
        page: &'static str,
        number: u32,
    },
}

/// Up to festival-before.catalogue.
pub const BEFORE: [Call; 3] = [
    Call::Arrives { name: 11, house: 1, page: "rows" },
    Call::Arrives { name: 21, house: 2, page: "hall" },
    Call::Arrives { name: 12, house: 1, page: "choices" },
];

/// From there on, up to festival.catalogue.
pub const AFTER: [Call; 6] = [
    // More than the large house may have; and what is kept for the other house.
    Call::Refused { name: 13, house: 1, page: "paper", number: 24 },
    Call::Refused { name: 13, house: 1, page: "prices", number: 25 },
    Call::Refused { name: 12, house: 2, page: "notice", number: 21 },
    Call::Arrives { name: 22, house: 2, page: "notice" },
    // The numbers of the later pages are lowered by three.
    Call::Leaves { name: 11 },
    Call::Refused { name: 23, house: 17, page: "notice", number: 26 },
];
