//! Stand-in for util/random/mod.rs: a counter round the unchanged generator, and round its searches.

/// The unchanged generator, with a way to its words.
mod unchanged {
    include!(concat!(env!("OUT_DIR"), "/rust/util/random/osu.rs"));

    impl Random {
        pub fn from_words(x: u32, y: u32, z: u32, w: u32) -> Self {
            Self { x, y, z, w, ..Self::new(0) }
        }

        pub fn words(&self) -> (u32, u32, u32, u32) {
            (self.x, self.y, self.z, self.w)
        }
    }
}

pub mod osu {
    use std::{any::Any, cell::Cell, panic};

    use super::unchanged;

    /// The most draws of one search.
    const SEARCH_LIMIT: u64 = 4096;

    thread_local! {
        /// What the next generator made from a seed may draw.
        pub static ALLOWANCE: Cell<u64> = const { Cell::new(u64::MAX) };
        /// Draws of the generator that was made last.
        pub static DRAWS: Cell<u64> = const { Cell::new(0) };
        /// The most draws that one of its searches made.
        pub static LONGEST_SEARCH: Cell<u64> = const { Cell::new(0) };
        /// The last seed that a generator was made from.
        pub static SEED: Cell<i32> = const { Cell::new(0) };
        /// The number of draws at which the next is refused: the allowance or, if it comes first, the limit of the search under way.
        static END: Cell<u64> = const { Cell::new(0) };
        /// The number of draws at which the limit of the search under way is reached.
        static SEARCH_END: Cell<u64> = const { Cell::new(u64::MAX) };
    }

    /// What unwinds when a search has no valid column.
    pub struct NoColumn;
    /// What unwinds when a draw is needed and none is left.
    pub struct Spent;
    /// What unwinds when a search needs a draw beyond its limit.
    pub struct LongSearch;

    /// Each method that the conversion calls takes one step of the unchanged generator.
    pub struct Random {
        steps: unchanged::Random,
    }

    impl Random {
        pub fn new(seed: i32) -> Self {
            SEED.set(seed);

            Self::over(unchanged::Random::new(seed), ALLOWANCE.get())
        }

        pub fn from_words((x, y, z, w): (u32, u32, u32, u32), allowance: u64) -> Self {
            Self::over(unchanged::Random::from_words(x, y, z, w), allowance)
        }

        fn over(steps: unchanged::Random, allowance: u64) -> Self {
            DRAWS.set(0);
            LONGEST_SEARCH.set(0);
            END.set(allowance);

            Self { steps }
        }

        pub fn words(&self) -> (u32, u32, u32, u32) {
            self.steps.words()
        }

        #[cfg(test)]
        pub fn next_int(&mut self) -> i32 {
            count();
            self.steps.next_int()
        }

        #[inline]
        pub fn next_double(&mut self) -> f64 {
            count();
            self.steps.next_double()
        }

        #[inline]
        pub fn next_int_range(&mut self, min: i32, max: i32) -> i32 {
            count();
            self.steps.next_int_range(min, max)
        }
    }

    #[inline]
    fn count() {
        let draws = DRAWS.get();

        if draws == END.get() {
            refuse_draw(draws);
        }

        DRAWS.set(draws + 1);
    }

    // The limit of a search is tested before the allowance.
    #[cold]
    fn refuse_draw(draws: u64) -> ! {
        if draws == SEARCH_END.get() { unwind(LongSearch) } else { unwind(Spent) }
    }

    // Unwinds without a panic message: a refusal is no fault of the program.
    fn unwind(refusal: impl Any + Send) -> ! {
        panic::resume_unwind(Box::new(refusal))
    }

    /// A column search whose first column is not valid, from its `assert!` to the end of its function.
    pub struct Search {
        /// Draws made before it.
        before: u64,
        /// `END` before it.
        end: u64,
    }

    impl Search {
        pub fn begin(has_valid_column: bool) -> Self {
            if !has_valid_column {
                unwind(NoColumn);
            }

            let search = Self { before: DRAWS.get(), end: END.get() };
            let limit = search.before + SEARCH_LIMIT;
            SEARCH_END.set(limit);
            END.set(search.end.min(limit));
            search
        }
    }

    impl Drop for Search {
        fn drop(&mut self) {
            SEARCH_END.set(u64::MAX);
            END.set(self.end);
            LONGEST_SEARCH.set(LONGEST_SEARCH.get().max(DRAWS.get() - self.before));
        }
    }
}

pub mod csharp {
    /// Named by the random mod only, which no job has.
    pub struct Random;

    impl Random {
        pub fn new(_: i32) -> Self {
            Self
        }

        pub fn next(&mut self) -> i32 {
            unreachable!("no job shuffles columns")
        }
    }
}
