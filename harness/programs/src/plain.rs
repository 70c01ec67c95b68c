//! The programs in plain Rust, over the listed Rust with plonky2's arithmetic: they read row by row,
//! keep the first row and the previous one, and write what a pair has as soon as it is there.

use std::io::{self, Read, Write};

use fields::{Plonky2Style, P};
use olavm::{Pair, Reference, Values, COLUMNS, MASKS, SOURCE_MISSING};
use pairs::masks::are_accepted;
use pairs::MAX_ROWS;

use crate::expected::refused;
use crate::failures::Failure;
use crate::input::VALUE_BYTES;
use crate::Text;

/// The program that prints such a text, from standard input to standard output.
pub fn main(text: Text) {
    let Some(rust) = Reference::find() else {
        eprintln!("{SOURCE_MISSING}");
        return;
    };
    let of_pair = |index, values: &Values| text.of_pair(index, values);
    // Standard output writes lines at their end.
    let (input, output) = (io::stdin().lock(), io::stdout().lock());
    if let Err(failure) = run(rust, of_pair, input, output) {
        eprint!("{}", failure.line(text));
    }
}

/// Works through an input, given what is printed of a pair.
pub fn run(
    rust: Reference,
    of_pair: impl Fn(usize, &Values) -> String,
    input: impl Read,
    mut output: impl Write,
) -> Result<(), Failure> {
    match pairs(rust, of_pair, input, &mut output)? {
        0 => Ok(()),
        number => write(&mut output, &refused(number)),
    }
}

fn write(output: &mut impl Write, text: &str) -> Result<(), Failure> {
    let written = output.write_all(text.as_bytes());
    written.map_err(|_| Failure::Write)
}

/// Writes the texts of pairs up to the first fault; the answer is its number, or 0.
fn pairs(
    rust: Reference,
    of_pair: impl Fn(usize, &Values) -> String,
    mut input: impl Read,
    output: &mut impl Write,
) -> Result<u64, Failure> {
    let masks = take::<MASKS>(&mut input).map_err(|_| Failure::Read)?;
    let Taken::Whole(masks) = masks else {
        return Ok(2);
    };
    if !are_accepted(&masks) {
        return Ok(5);
    }
    let mut write_pair = |index: usize, pair: &Pair| {
        let values = rust.values_over::<Plonky2Style>(pair);
        write(output, &of_pair(index, &values))
    };
    let (mut count, mut first) = (0, [0; COLUMNS]);
    let mut pair = Pair {
        masks,
        lv: first,
        nv: first,
        z_last: 1,
        lagrange_basis_first: 1,
    };
    loop {
        match take::<COLUMNS>(&mut input).map_err(|_| Failure::Read)? {
            Taken::Nothing if count > 0 => break,
            Taken::Whole(row) if count < MAX_ROWS => pair.nv = row,
            _ => return Ok(1),
        }
        if pair.nv.iter().any(|n| *n >= P) {
            return Ok(6);
        }
        if count == 0 {
            first = pair.nv;
        } else {
            write_pair(count - 1, &pair)?;
            pair.lagrange_basis_first = 0;
        }
        pair.lv = pair.nv;
        count += 1;
    }
    (pair.nv, pair.z_last) = (first, 0);
    write_pair(count - 1, &pair)?;
    Ok(0)
}

/// What was left to take of so many values.
enum Taken<const N: usize> {
    Nothing,
    Part,
    Whole([u64; N]),
}

fn take<const N: usize>(input: &mut impl Read) -> io::Result<Taken<N>> {
    let mut values = [0; N];
    for (i, value) in values.iter_mut().enumerate() {
        let mut bytes = [0; VALUE_BYTES];
        let mut filled = 0;
        while filled < VALUE_BYTES {
            match input.read(&mut bytes[filled..])? {
                0 if i + filled == 0 => return Ok(Taken::Nothing),
                0 => return Ok(Taken::Part),
                count => filled += count,
            }
        }
        *value = u64::from_le_bytes(bytes);
    }
    Ok(Taken::Whole(values))
}
