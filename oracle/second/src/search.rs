//! The column search, as an enum of rules.

use crate::{
    draws::Draws,
    hits::{B, hit},
    pattern::first_column,
    refusal::Refusal,
};

/// The most draws of one search (document 02, change request 7).
const LIMIT: u32 = 4096;

/// Which columns a search may take, and how it goes on. Masks are the columns taken.
#[derive(Clone, Copy, Debug)]
pub enum Rule {
    /// A circle's notes.
    Circle(u16),
    /// A circle's gathered notes: steps to the right instead of draws.
    Gathered(u16),
    /// The left half of a mirrored pattern, below a limit.
    Mirrored(u16, i32),
    /// A spinner's or hold's column.
    Ended(u16),
    /// The first column of a slider's row of circles.
    Head(u16),
    /// A slider's holds off the previous pattern.
    Holds(u16),
    /// A slider's holds where the previous pattern leaves no room.
    MoreHolds(u16),
    /// Any column but one.
    Other(i32),
    /// A slider's tiled holds.
    Tiles(u16),
    /// A circle beside a hold.
    Beside(i32, u16),
}

/// Rows of a rule: own column, no valid column, drawn or stepped.
struct Rows(B, B, B);

impl Rule {
    const fn rows(self) -> Rows {
        match self {
            Self::Circle(_) => Rows(
                B::search_circle_own,
                B::search_circle_none,
                B::search_circle_drawn,
            ),
            Self::Gathered(_) => Rows(
                B::search_gathered_own,
                B::search_gathered_none,
                B::search_gathered_stepped,
            ),
            Self::Mirrored(..) => Rows(
                B::search_mirrored_own,
                B::search_mirrored_none,
                B::search_mirrored_drawn,
            ),
            Self::Ended(_) => Rows(
                B::search_ended_own,
                B::search_ended_none,
                B::search_ended_drawn,
            ),
            Self::Head(_) => Rows(
                B::search_head_own,
                B::search_head_none,
                B::search_head_drawn,
            ),
            Self::Holds(_) => Rows(
                B::search_holds_own,
                B::search_holds_none,
                B::search_holds_drawn,
            ),
            Self::MoreHolds(_) => Rows(
                B::search_more_holds_own,
                B::search_more_holds_none,
                B::search_more_holds_drawn,
            ),
            Self::Other(_) => Rows(
                B::search_other_own,
                B::search_other_none,
                B::search_other_drawn,
            ),
            Self::Tiles(_) => Rows(
                B::search_tiles_own,
                B::search_tiles_none,
                B::search_tiles_drawn,
            ),
            Self::Beside(..) => Rows(
                B::search_beside_own,
                B::search_beside_none,
                B::search_beside_drawn,
            ),
        }
    }

    const fn valid(self, column: i32) -> bool {
        match self {
            Self::Circle(taken)
            | Self::Gathered(taken)
            | Self::Mirrored(taken, _)
            | Self::Ended(taken)
            | Self::Head(taken)
            | Self::Holds(taken)
            | Self::MoreHolds(taken)
            | Self::Tiles(taken) => taken >> column & 1 == 0,
            Self::Other(not) => column != not,
            Self::Beside(not, taken) => column != not && taken >> column & 1 == 0,
        }
    }

    /// The columns searched: from the first ordinary one, below the limit.
    const fn range(self, columns: i32) -> (i32, i32) {
        let limit = if let Self::Mirrored(_, limit) = self {
            limit
        } else {
            columns
        };

        (first_column(columns), limit)
    }

    /// The search: its own column, then whether the range has a valid one, then draws or steps. Its draws are counted, and end at the limit.
    pub fn find(self, own: i32, columns: i32, draws: &mut Draws) -> Result<i32, Refusal> {
        let rows = self.rows();

        if self.valid(own) {
            hit(rows.0);
            return Ok(own);
        }

        let (lower, upper) = self.range(columns);

        if !(lower..upper).any(|column| self.valid(column)) {
            hit(rows.1);
            return Err(Refusal::NoValidColumn);
        }

        let mut column = own;
        let mut made = 0;

        loop {
            column = match self {
                Self::Gathered(_) if column + 1 == columns => {
                    hit(B::search_gathered_wrapped);
                    lower
                }
                Self::Gathered(_) => column + 1,
                _ if made == LIMIT => {
                    hit(B::search_too_long);
                    return Err(Refusal::LongSearch);
                }
                _ => {
                    made += 1;
                    draws.range(lower, upper)?
                }
            };

            if self.valid(column) {
                hit(rows.2);
                draws.longest_search = draws.longest_search.max(made);
                return Ok(column);
            }

            hit(B::search_again);
        }
    }
}
