//! Stand-ins for what the unchanged Rust names of the crate `rosu_map`, with document 01's meanings.

pub mod section {
    pub mod general {
        #[derive(Copy, Clone, Debug, Default, PartialEq)]
        pub enum GameMode {
            #[default]
            Osu,
            Mania,
        }
    }

    pub mod events {
        #[derive(Clone, Debug, PartialEq)]
        pub struct BreakPeriod {
            pub start_time: f64,
            pub end_time: f64,
        }

        impl BreakPeriod {
            pub fn duration(&self) -> f64 {
                self.end_time - self.start_time
            }
        }
    }

    pub mod timing_points {
        pub struct TimingPoint;

        impl TimingPoint {
            pub const DEFAULT_BEAT_LEN: f64 = 1000.0;
        }

        pub struct EffectPoint;

        impl EffectPoint {
            pub const DEFAULT_KIAI: bool = false;
            pub const DEFAULT_SCROLL_SPEED: f64 = 1.0;
        }
    }

    pub mod hit_objects {
        use super::general::GameMode;
        use crate::util::Pos;

        pub mod hit_samples {
            use std::ops::BitOr;

            /// The sound field of a record.
            #[derive(Copy, Clone, Debug, PartialEq)]
            pub struct HitSoundType(u8);

            impl HitSoundType {
                pub const WHISTLE: Self = Self(2);
                pub const FINISH: Self = Self(4);
                pub const CLAP: Self = Self(8);

                /// Takes the low four bits.
                pub const fn new(field: u32) -> Self {
                    Self((field & 15) as u8)
                }

                /// Any named bit is enough.
                pub const fn has_flag(self, flag: Self) -> bool {
                    self.0 & flag.0 != 0
                }
            }

            impl BitOr for HitSoundType {
                type Output = Self;

                fn bitor(self, other: Self) -> Self {
                    Self(self.0 | other.0)
                }
            }
        }

        // Curves are named by the unchanged files, but conversion never makes one.

        #[derive(Clone, Debug, PartialEq)]
        pub struct PathControlPoint {
            pub pos: Pos,
        }

        pub struct PathType;
        pub struct SplineType;

        #[derive(Default)]
        pub struct CurveBuffers {}

        pub struct Curve;

        impl Curve {
            pub fn new(
                _: GameMode,
                _: &[PathControlPoint],
                _: Option<f64>,
                _: &mut CurveBuffers,
            ) -> Self {
                unreachable!("conversion makes no curve")
            }
        }

        pub struct BorrowedCurve<'bufs>(&'bufs CurveBuffers);

        impl<'bufs> BorrowedCurve<'bufs> {
            pub fn new(
                _: GameMode,
                _: &[PathControlPoint],
                _: Option<f64>,
                bufs: &'bufs mut CurveBuffers,
            ) -> Self {
                Self(bufs)
            }

            pub fn dist(&self) -> f64 {
                let _ = self.0;
                unreachable!("conversion makes no curve")
            }
        }
    }
}

pub mod util {
    use std::{cell::Cell, ops::Sub, panic};

    thread_local! {
        /// The index of the object under way.
        pub static OBJECT: Cell<u16> = const { Cell::new(0) };
    }

    /// What unwinds when a note is put on a column off the deck.
    pub struct OffDeck;

    #[derive(Copy, Clone, Debug, Default, PartialEq)]
    pub struct Pos {
        pub x: f32,
        pub y: f32,
    }

    impl Pos {
        /// The unchanged Rust calls this for each note at the moment it is added, and for the
        /// spinner's (256, 192). A column of the deck stands below 512, one off the deck at 512 or
        /// above. Positions of a record, which go up to 1,024, are made from the fields instead.
        ///
        /// A note gets the index of the object under way for its `y`, which would be its `x` again and which nothing reads.
        #[inline]
        pub fn new(x: f32, y: f32) -> Self {
            if x >= 512.0 {
                off_deck();
            }

            Self { x, y: if x == y { f32::from(OBJECT.get()) } else { y } }
        }

        /// The root of the squares' sum, rounded to the nearest f32: `sqrt` is IEEE 754's.
        pub fn length(self) -> f32 {
            (self.x * self.x + self.y * self.y).sqrt()
        }
    }

    // Unwinds without a panic message: a refusal is no fault of the program.
    #[cold]
    fn off_deck() -> ! {
        panic::resume_unwind(Box::new(OffDeck))
    }

    impl Sub for Pos {
        type Output = Self;

        fn sub(self, other: Self) -> Self {
            Self { x: self.x - other.x, y: self.y - other.y }
        }
    }
}
