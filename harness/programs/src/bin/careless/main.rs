//! `careless PROGRAM SORT`: a plain program, careless of what a read or a write answers or of when it
//! writes, or faults careless of what it prints.

mod streams;
mod texts;

use std::io;

use olavm::{Reference, Values, SOURCE_MISSING};
use programs::plain::run;
use programs::Text;
use streams::{raw_output, FailureIsEnd, FailureIsWritten, Late, WholeBlocks, WrittenOnce};

const USAGE: &str = "usage: careless PROGRAM SORT";

fn main() {
    let Some(rust) = Reference::find() else {
        eprintln!("{SOURCE_MISSING}");
        return;
    };
    let mut arguments = std::env::args().skip(1);
    let mut argument = || arguments.next().expect(USAGE);
    let text = Text::printed_by(&argument()).expect(USAGE);
    let of_pair = |index, values: &Values| text.of_pair(index, values);
    let (input, output) = (io::stdin().lock(), io::stdout().lock());
    let outcome = match argument().as_str() {
        "end" => run(rust, of_pair, FailureIsEnd(input), output),
        "block" => run(rust, of_pair, WholeBlocks::of(input), output),
        "once" => run(rust, of_pair, input, WrittenOnce(raw_output())),
        "lost" => run(rust, of_pair, input, FailureIsWritten(output)),
        "late" => run(rust, of_pair, input, Late::of(output)),
        sort => run(rust, texts::of_sort(sort).expect(USAGE), input, output),
    };
    if let Err(failure) = outcome {
        eprint!("{}", failure.line(text));
    }
}
