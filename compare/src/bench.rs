//! `bench REAL WORST` times the port beside the crate in one driver: the port by its static library, the crate by its own code, each asked
//! to check a symbol and to print it into a buffer of 16384 bytes that is there before the call. REAL has symbols a line: they are asked over
//! and over up to a million, plain and short. WORST has symbols in hex, each timed alone. What is printed is ours / the crate's.

use rig::lines::from_hex;
use rig::v0;
use std::fmt::{self, Write as _};
use std::hint::black_box;
use std::process::ExitCode;
use std::time::Instant;

const ROOM: usize = 16384;

/// How many symbols one measurement of the real ones asks, how often it is made, and how long one of a worst case should take.
const MANY: usize = 1_000_000;
const ROUNDS: usize = 9;
const SPAN: f64 = 0.002;

extern "C" {
    fn vault_print(symbol: *const u8, length: usize, mode: u32, buffer: *mut u8, room: usize, report: *mut u64, numbers: usize) -> u32;
}

struct Room {
    bytes: Vec<u8>,
    used: usize,
}

impl fmt::Write for Room {
    fn write_str(&mut self, piece: &str) -> fmt::Result {
        let taken = piece.len().min(ROOM - self.used);
        self.bytes[self.used..self.used + taken].copy_from_slice(&piece.as_bytes()[..taken]);
        self.used += taken;
        if taken < piece.len() {
            Err(fmt::Error)
        } else {
            Ok(())
        }
    }
}

fn by_crate(symbol: &str, short: bool, room: &mut Room) {
    room.used = 0;
    if let Ok((name, _)) = v0::demangle(black_box(symbol)) {
        let said = if short { write!(room, "{name:#}") } else { write!(room, "{name}") };
        black_box(said.is_ok());
    }
}

fn by_port(symbol: &str, short: bool, room: &mut Room) {
    let symbol = black_box(symbol.as_bytes());
    let mut report = [0u64; 2];
    // SAFETY: symbol, buffer and report are there for as long as the call takes, and overlap nowhere.
    let answer = unsafe {
        vault_print(symbol.as_ptr(), symbol.len(), u32::from(short), room.bytes.as_mut_ptr(), ROOM, report.as_mut_ptr(), 2)
    };
    black_box(answer);
    room.used = report[0] as usize;
}

/// Whether both print the same. Of symbols that are not too long they do, but for quoted characters from U+0080 up, which the port shows
/// as escapes (document 01).
fn same(symbol: &str, short: bool, room: &mut Room) -> bool {
    by_crate(symbol, short, room);
    let theirs = room.bytes[..room.used].to_vec();
    by_port(symbol, short, room);
    theirs == room.bytes[..room.used]
}

fn seconds(mut work: impl FnMut()) -> f64 {
    let began = Instant::now();
    work();
    began.elapsed().as_secs_f64()
}

/// The least of several rounds of each, taken by turns.
fn both(rounds: usize, mut theirs: impl FnMut(), mut ours: impl FnMut()) -> (f64, f64) {
    let mut least = (f64::MAX, f64::MAX);
    for _ in 0..rounds {
        least.0 = least.0.min(seconds(&mut theirs));
        least.1 = least.1.min(seconds(&mut ours));
    }
    least
}

fn real(symbols: &[&str], short: bool) {
    let mut rooms = [(); 2].map(|()| Room { bytes: vec![0; ROOM], used: 0 });
    assert!(symbols.iter().all(|symbol| same(symbol, short, &mut rooms[0])), "the texts differ");
    let [first, second] = &mut rooms;
    let (theirs, ours) = both(
        3,
        || symbols.iter().cycle().take(MANY).for_each(|symbol| by_crate(symbol, short, first)),
        || symbols.iter().cycle().take(MANY).for_each(|symbol| by_port(symbol, short, second)),
    );
    let mode = if short { "short" } else { "plain" };
    println!("real, {mode}: {:.2}  (crate {theirs:.3} s, ours {ours:.3} s for {MANY} symbols)", ours / theirs);
}

struct Row {
    symbol: String,
    theirs: f64,
    ours: f64,
    same: bool,
}

fn worst(symbol: String) -> Row {
    let mut rooms = [(); 2].map(|()| Room { bytes: vec![0; ROOM], used: 0 });
    let same = same(&symbol, false, &mut rooms[0]);
    let [first, second] = &mut rooms;
    let once = seconds(|| by_crate(&symbol, false, first));
    let times = ((SPAN / once) as usize).clamp(1, 5000);
    let rounds = if once > 20.0 * SPAN { 2 } else { ROUNDS };
    let (theirs, ours) = both(
        rounds,
        || (0..times).for_each(|_| by_crate(&symbol, false, first)),
        || (0..times).for_each(|_| by_port(&symbol, false, second)),
    );
    let times = times as f64;
    Row { theirs: theirs / times, ours: ours / times, symbol, same }
}

fn main() -> ExitCode {
    let words: Vec<String> = std::env::args().skip(1).collect();
    let [sample, list] = &words[..] else {
        eprintln!("usage: bench REAL WORST");
        return ExitCode::FAILURE;
    };
    let sample = std::fs::read_to_string(sample).expect("the sample is there");
    let symbols: Vec<&str> = sample.lines().filter(|line| !line.is_empty()).collect();
    real(&symbols, false);
    real(&symbols, true);
    let list = std::fs::read_to_string(list).expect("the list is there");
    let mut rows: Vec<Row> = list
        .lines()
        .map(|hex| from_hex(hex.as_bytes()).expect("the list is in hex"))
        .map(|bytes| worst(String::from_utf8(bytes).expect("worst cases are text")))
        .collect();
    rows.sort_by(|a, b| (b.ours / b.theirs).total_cmp(&(a.ours / a.theirs)));
    println!("ratio  crate us  ours us  symbol");
    for row in &rows {
        let start: String = row.symbol.chars().take(40).collect();
        let note = if row.same { "" } else { ", other text" };
        println!(
            "{:5.2} {:9.2} {:8.2}  {start} ({} bytes{note})",
            row.ours / row.theirs,
            row.theirs * 1e6,
            row.ours * 1e6,
            row.symbol.len()
        );
    }
    for goal in [1.0, 1.5, 2.0] {
        let over = rows.iter().filter(|row| row.ours > goal * row.theirs).count();
        println!("{over} of {} worst cases over {goal}", rows.len());
    }
    ExitCode::SUCCESS
}
