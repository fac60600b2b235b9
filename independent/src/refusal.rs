//! The refusals, by the numbers of document 01's table.

#[derive(Clone, Copy, Debug, PartialEq, Eq)]
pub enum Refusal {
    NotLoaded = 1,
    NoSuchFeature = 2,
    BadOrigin = 3,
    TooLong = 4,
    Sandbox = 5,
    Full = 6,
    Spent = 7,
    NotADictionary = 8,
    Small = 9,
}

impl Refusal {
    pub fn number(self) -> u32 {
        self as u32
    }
}
