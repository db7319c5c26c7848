//! `generate KIND SEED COUNT` writes lines for `oracle` (KIND `symbols`, or
//! `edges` or `nestings`, which `symbols` holds among others) or for `readers`
//! (KIND `readers`): the same seed, the same lines. What they hold is counted
//! on standard error.

mod aimed;
mod damage;
mod edges;
mod encode;
mod grammar;
mod leaves;
mod nesting;
mod rng;
mod symbols;
mod tally;
mod texts;

use std::io::{self, BufWriter, Write};
use std::process::ExitCode;
use symbols::Symbols;
use tally::Tally;
use texts::Texts;

fn main() -> ExitCode {
    let arguments: Vec<String> = std::env::args().skip(1).collect();
    let [what, seed, count] = &arguments[..] else {
        return usage();
    };
    let (Ok(seed), Ok(count)) = (seed.parse(), count.parse()) else {
        return usage();
    };
    let Some(mut line) = line_maker(what, seed) else {
        return usage();
    };
    let mut tally = Tally::default();
    if let Err(error) = write_lines(count, || line(&mut tally)) {
        eprintln!("generate: {error}");
        return ExitCode::FAILURE;
    }
    tally.report();
    ExitCode::SUCCESS
}

type LineMaker = Box<dyn FnMut(&mut Tally) -> String>;

/// What makes the lines of a kind, one after another.
fn line_maker(kind: &str, seed: u64) -> Option<LineMaker> {
    let mut symbols = Symbols::new(seed);
    let mut texts = Texts::new(seed);
    Some(match kind {
        "symbols" => Box::new(move |tally| symbols.line(tally)),
        "edges" => Box::new(move |tally| symbols.edge_line(tally)),
        "nestings" => Box::new(move |tally| symbols.nesting_line(tally)),
        "readers" => Box::new(move |tally| texts.line(tally)),
        _ => return None,
    })
}

fn usage() -> ExitCode {
    eprintln!("usage: generate symbols|edges|nestings|readers SEED COUNT");
    ExitCode::FAILURE
}

fn write_lines(count: usize, mut line: impl FnMut() -> String) -> io::Result<()> {
    let mut out = BufWriter::new(io::stdout().lock());
    for _ in 0..count {
        writeln!(out, "{}", line())?;
    }
    out.flush()
}
