//! The refusals of documents 01 and 02 that the three entries give. 14 is the chart reader's `None`.

#[derive(Clone, Copy, Debug, PartialEq, Eq)]
pub enum Refusal {
    NotWhole,
    Version,
    KeyChoice,
    Setting,
    Point,
    ObjectField,
    Surplus,
    SliderEnd,
    NoValidColumn,
    OffDeck,
    BufferShort,
    NoDrawLeft,
    Previous,
    LongSearch,
}

impl Refusal {
    pub const fn number(self) -> u8 {
        match self {
            Self::NotWhole => 1,
            Self::Version => 2,
            Self::KeyChoice => 3,
            Self::Setting => 4,
            Self::Point => 5,
            Self::ObjectField => 6,
            Self::Surplus => 7,
            Self::SliderEnd => 8,
            Self::NoValidColumn => 9,
            Self::OffDeck => 10,
            Self::BufferShort => 11,
            Self::NoDrawLeft => 12,
            Self::Previous => 13,
            Self::LongSearch => 16,
        }
    }
}
