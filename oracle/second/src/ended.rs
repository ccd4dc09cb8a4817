//! Spinners and holds.

use crate::{
    convert::Ask,
    draws::Draws,
    hits::{B, hit},
    pattern::{Pattern, first_column},
    record::{FINISH, has},
    refusal::Refusal,
    search::Rule,
};

pub fn generate(ask: &Ask, duration: f64, draws: &mut Draws) -> Result<Pattern, Refusal> {
    let Ask {
        columns, previous, ..
    } = *ask;
    let start = ask.object.start;
    let lasts = (start + duration) - start;

    let column = if columns == 8 && has(ask.object.sound, FINISH) && lasts < 1000.0 {
        hit(B::ended_8_finish);
        0
    } else {
        hit(if columns == 8 {
            B::ended_8
        } else {
            B::ended_plain
        });
        let own = draws.range(first_column(columns), columns)?;

        // A full previous pattern bars nothing.
        let taken = if previous.count() == columns {
            hit(B::ended_previous_full);
            0
        } else {
            previous.mask
        };

        Rule::Ended(taken).find(own, columns, draws)?
    };

    let mut pattern = Pattern::default();

    if lasts >= 100.0 {
        hit(B::ended_hold);
        pattern.hold(columns, column, start, lasts)?;
    } else {
        hit(B::ended_circle);
        pattern.circle(columns, column, start)?;
    }

    Ok(pattern)
}
