//! Whether lines are there when they are due, while the input goes on.

use tally::same;

use crate::expected::Output;
use crate::input::{MASK_BYTES, ROW_BYTES, VALUE_BYTES};
use crate::program::Program;
use crate::session::Session;

/// The pieces in which a run arrives.
#[derive(Clone, Copy, Debug)]
pub enum Pieces {
    /// The masks, then row by row, each in two parts at once.
    Rows,
    /// The masks, then each row in two halves, with a pause between them.
    Halves,
    /// The masks, then two rows and a half at once, and so on.
    TwoAndAHalf,
}

impl Pieces {
    /// The lengths of the runs that are sent so.
    pub fn runs(self) -> &'static [usize] {
        match self {
            Self::Rows => &[1, 2, 3, 40, 200],
            Self::Halves => &[1, 6],
            Self::TwoAndAHalf => &[2, 11],
        }
    }

    /// Where the pieces of an input of so many bytes end.
    fn ends(self, length: usize) -> Vec<usize> {
        let step = match self {
            Self::Rows => ROW_BYTES,
            Self::Halves => ROW_BYTES / 2,
            Self::TwoAndAHalf => 5 * ROW_BYTES / 2,
        };
        let mut ends: Vec<usize> = (MASK_BYTES..length).step_by(step).collect();
        if let Self::Rows = self {
            let parts = ends.iter().enumerate();
            let parts: Vec<usize> = parts
                .map(|(i, at)| at + i * VALUE_BYTES % ROW_BYTES)
                .collect();
            ends.extend(parts);
        }
        ends.push(length);
        ends.sort_unstable();
        ends
    }

    /// Whether a pause shows that no line comes before its row is whole.
    fn has_pauses(self) -> bool {
        !matches!(self, Self::Rows)
    }
}

/// Sends a run piece by piece: the lines of the pairs whose rows have arrived must be there before the
/// next piece is sent, and the last pair's at the end of the input, not earlier.
pub fn of_pairs(
    program: &Program,
    input: &[u8],
    output: &Output,
    pieces: Pieces,
) -> Result<(), String> {
    let mut due = output.pairs.iter();
    let mut session = program.start()?;
    let (mut sent, mut printed) = (0, 0);
    for end in pieces.ends(input.len()) {
        session.send(&input[sent..end])?;
        sent = end;
        let rows = sent.saturating_sub(MASK_BYTES) / ROW_BYTES;
        while printed + 1 < rows {
            expect(&session, due.next())?;
            printed += 1;
        }
        if pieces.has_pauses() {
            is_silent(&session)?;
        }
    }
    is_silent(&session)?;
    session.close();
    expect(&session, due.next())?;
    expect_end(session)
}

/// No line is there before it is due.
fn is_silent(session: &Session) -> Result<(), String> {
    match session.early_line() {
        Some(line) => Err(format!("{line:?} is there too early")),
        None => Ok(()),
    }
}

/// Sends an input that is refused, and leaves standard input open: the program must say so and end.
pub fn of_refusal(program: &Program, input: &[u8], output: &Output) -> Result<(), String> {
    let mut session = program.start()?;
    session.send(input)?;
    expect(&session, Some(&output.text()))?;
    expect_end(session)
}

/// The lines of a text come.
fn expect(session: &Session, text: Option<&String>) -> Result<(), String> {
    let text = text.ok_or("no pair is left")?;
    for due in text.split_inclusive('\n') {
        same(session.line()?.as_deref(), Some(due))?;
    }
    Ok(())
}

/// No further line comes, and the program ends well.
fn expect_end(session: Session) -> Result<(), String> {
    same(session.line()?, None)?;
    session.end()
}
