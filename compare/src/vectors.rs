//! `vectors FOLDER` holds the Rust to the vectors of that folder and counts
//! where they agree; it fails where they differ and should not. `vectors
//! --questions FOLDER` writes the vectors as lines for `oracle` instead, `vectors
//! --all FOLDER` every one of them, with all real symbols and the worst cases.

use rig::judge::{self, Code, LARGEST_ROOM, LONGEST_SYMBOL};
use rig::lines::{from_hex, to_hex};
use std::collections::BTreeSet;
use std::io::{self, BufWriter, Write};
use std::path::Path;
use std::process::ExitCode;
use std::time::{Duration, Instant};

/// One field of a vector, its backslashes undone.
type Field = Vec<u8>;

/// How the sources of published.tsv begin, and how many of their vectors are
/// known to differ from 0.1.28, which decides.
const SOURCES: [(&str, usize); 7] = [
    ("rustc-demangle-0.1.28", 0),
    ("rustc-book", 0),
    ("RFC 3492", 0),
    ("RFC 2603", 0),
    ("rustc-demangle-0.1.21", 5),
    ("libiberty", 1),
    ("llvm", 19),
];

/// The files whose symbols become questions, the column that holds them, and
/// of how many rows one is taken.
const QUESTIONS: [(&str, usize, usize); 4] = [
    ("boards.tsv", 1, 1),
    ("edges.tsv", 1, 1),
    ("published.tsv", 3, 1),
    ("real-sample.txt", 0, 20),
];

/// The room for the published vectors, which are not bound to document 01's
/// limits: what the crate itself allows a text.
const CRATE_ROOM: usize = 1_000_000;

fn main() -> ExitCode {
    let arguments: Vec<String> = std::env::args().skip(1).collect();
    let result = match &arguments[..] {
        [flag, folder] if flag == "--questions" => questions(Path::new(folder), false).map(|()| true),
        [flag, folder] if flag == "--all" => questions(Path::new(folder), true).map(|()| true),
        [folder] => check(Path::new(folder)),
        _ => {
            eprintln!("usage: vectors [--questions | --all] FOLDER");
            return ExitCode::FAILURE;
        }
    };
    match result {
        Ok(true) => ExitCode::SUCCESS,
        Ok(false) => ExitCode::FAILURE,
        Err(error) => {
            eprintln!("vectors: {error}");
            ExitCode::FAILURE
        }
    }
}

/// Holds the Rust to every file; true where nothing unexpected was found.
fn check(folder: &Path) -> io::Result<bool> {
    let mut good = report("boards", &rows(folder, "boards.tsv")?, 0, board_agrees);
    good &= report("edges", &rows(folder, "edges.tsv")?, 0, edge_agrees);
    let published = rows(folder, "published.tsv")?;
    let mut known = 0;
    for (source, differ) in SOURCES {
        let is_of = |row: &&Vec<Field>| row[0].starts_with(source.as_bytes());
        let of_source: Vec<_> = published.iter().filter(is_of).cloned().collect();
        known += of_source.len();
        good &= report(source, &of_source, differ, published_agrees);
    }
    if known != published.len() {
        println!("vectors: published.tsv has {} rows of unknown source", published.len() - known);
        good = false;
    }
    good &= report("real symbols", &rows(folder, "real-sample.txt")?, 0, |row| {
        [false, true].iter().all(|&short| judge::print(&row[0], short, LARGEST_ROOM).state == 'w')
    });
    worst(folder)?;
    Ok(good)
}

/// Counts the rows that agree; true where as many differ as are expected to.
fn report(name: &str, rows: &[Vec<Field>], expected: usize, agrees: impl Fn(&[Field]) -> bool) -> bool {
    let differing: Vec<_> = rows.iter().filter(|row| !agrees(row)).collect();
    let (differ, agree) = (differing.len(), rows.len() - differing.len());
    println!("vectors: {name}: {agree} agree, {differ} differ ({expected} expected)");
    let good = differ == expected && !rows.is_empty();
    if !good {
        for row in differing {
            let fields: Vec<_> = row.iter().map(|field| String::from_utf8_lossy(field)).collect();
            println!("vectors: {name}: differs: {fields:?}");
        }
    }
    good
}

/// The rows of a file of tab-separated fields.
fn rows(folder: &Path, file: &str) -> io::Result<Vec<Vec<Field>>> {
    let bytes = std::fs::read(folder.join(file))?;
    let lines = bytes.split(|&byte| byte == b'\n').filter(|line| !line.is_empty());
    Ok(lines.map(|line| line.split(|&byte| byte == b'\t').map(unescaped).collect()).collect())
}

/// Undoes the backslash forms of the vectors, and `\xNN`, which stands in one
/// edge's symbol.
fn unescaped(field: &[u8]) -> Field {
    let mut out = Vec::new();
    let mut rest = field;
    while let Some((&byte, after)) = rest.split_first() {
        let (value, taken) = match (byte, after) {
            (b'\\', [b'\\', ..]) => (b'\\', 2),
            (b'\\', [b't', ..]) => (b'\t', 2),
            (b'\\', [b'n', ..]) => (b'\n', 2),
            (b'\\', [b'r', ..]) => (b'\r', 2),
            (b'\\', [b'0', ..]) => (0, 2),
            (b'\\', [b'x', digits @ ..]) if digits.len() >= 2 => match from_hex(&digits[..2]) {
                Some(value) => (value[0], 4),
                None => (byte, 1),
            },
            _ => (byte, 1),
        };
        out.push(value);
        rest = &rest[taken..];
    }
    out
}

/// A value without the `oracle:` that says where it came from.
fn value(field: &[u8]) -> &[u8] {
    field.strip_prefix(b"oracle:").unwrap_or(field)
}

/// starred, symbol, answer, suffix, state, plain text, short text
fn board_agrees(row: &[Field]) -> bool {
    let [_, symbol, answer, suffix, state, plain, short] = row else {
        return false;
    };
    answer_agrees(symbol, answer, suffix)
        && [(false, plain), (true, short)].iter().all(|&(mode, text)| {
            let printed = judge::print(symbol, mode, LARGEST_ROOM);
            printed.text == value(text) && state_agrees(printed.state, value(state))
        })
}

/// what it shows, symbol, answer, suffix, state, plain text
///
/// The state `cut` stands where the text was printed into less room than it
/// needs: as much as the row shows of it.
fn edge_agrees(row: &[Field]) -> bool {
    let [_, symbol, answer, suffix, state, text] = row else {
        return false;
    };
    let room = match &state[..] {
        b"cut" => text.len(),
        _ => LARGEST_ROOM,
    };
    let printed = judge::print(symbol, false, room);
    answer_agrees(symbol, answer, suffix) && state_agrees(printed.state, state) && printed.text == *text
}

fn answer_agrees(symbol: &[u8], answer: &[u8], suffix: &[u8]) -> bool {
    let (code, place) = judge::check(symbol);
    format!("{code:?}").as_bytes() == answer && &symbol[place..] == suffix
}

fn state_agrees(state: char, expected: &[u8]) -> bool {
    match expected {
        b"whole" => state == 'w',
        b"damaged" => state == 'd',
        b"cut" | b"" => state == '-',
        _ => false,
    }
}

/// source, test, kind, symbol, expected
///
/// Held to is the crate alone: its tests know no limit on a symbol's length,
/// and no rule of ours for quoted characters. `nohash` is the short mode. The
/// size limit that `endswith` asks for is not v0.rs's own, so the text must
/// only go on for as long. The crate prints a suffix behind the text, v0.rs
/// does not: with or without is right.
fn published_agrees(row: &[Field]) -> bool {
    let [_, _, kind, symbol, expected] = row else {
        return false;
    };
    let (code, suffix) = judge::check_unlimited(symbol);
    if code != Code::Done {
        return match &kind[..] {
            b"refuse" => true,
            b"deep" => code == Code::RecursedTooDeep,
            _ => false,
        };
    }
    let print = |short| judge::crate_text(symbol, short, CRATE_ROOM);
    let is_expected = |text: Field| text == *expected || [&text[..], &symbol[suffix..]].concat() == *expected;
    match &kind[..] {
        b"symbol" => true,
        b"plain" => is_expected(print(false).bytes),
        b"short" | b"nohash" => is_expected(print(true).bytes),
        b"contains" => print(false).bytes.windows(expected.len()).any(|part| part == expected),
        b"endswith" => print(false).over,
        _ => false,
    }
}

/// Prints the symbols that make a demangler work hard: they must end.
fn worst(folder: &Path) -> io::Result<()> {
    let mut slowest = Duration::ZERO;
    let symbols = rows(folder, "worst.hex")?;
    for row in &symbols {
        let symbol = from_hex(&row[0]).ok_or(io::Error::other("worst.hex: not hex"))?;
        let start = Instant::now();
        if judge::check(&symbol).0 == Code::Done {
            judge::crate_text(&symbol, false, 16384);
        }
        slowest = slowest.max(start.elapsed());
    }
    println!("vectors: worst: {} end, the slowest after {} ms for 16384 bytes", symbols.len(), slowest.as_millis());
    Ok(())
}

/// Writes the vectors' symbols as questions, each symbol once.
fn questions(folder: &Path, all: bool) -> io::Result<()> {
    let mut symbols = Vec::new();
    for (file, column, step) in QUESTIONS {
        let rows = rows(folder, file)?;
        let step = if all { 1 } else { step };
        symbols.extend(rows.into_iter().map(|mut row| row.swap_remove(column)).step_by(step));
    }
    if all {
        for row in rows(folder, "worst.hex")? {
            symbols.push(from_hex(&row[0]).ok_or(io::Error::other("worst.hex: not hex"))?);
        }
    }

    let mut seen = BTreeSet::new();
    let mut out = BufWriter::new(io::stdout().lock());
    for symbol in symbols {
        if seen.insert(symbol.clone()) {
            for (mode, short) in [('p', false), ('s', true)] {
                for room in rooms(&symbol, short) {
                    writeln!(out, "{mode} {room} {}", to_hex(&symbol))?;
                }
            }
        }
    }
    out.flush()
}

/// The rooms to ask for: with a refusal they hardly matter.
fn rooms(symbol: &[u8], short: bool) -> BTreeSet<usize> {
    if symbol.len() > LONGEST_SYMBOL {
        return BTreeSet::from([16]);
    }
    let printed = judge::print(symbol, short, LARGEST_ROOM);
    let exact = printed.text.len();
    match printed.code {
        Code::Done => [0, 1, exact.saturating_sub(1), exact, exact + 1, 16384].into(),
        Code::NoRoom => [0, 1, 16384].into(),
        _ => [0, 16384].into(),
    }
}
