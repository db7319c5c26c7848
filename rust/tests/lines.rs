//! The lines of `replay`'s own test (boards, edges, published vectors, generated symbols, with the Rust's answers), asked of this crate.
use std::fmt::Write;
use vaultmuslin::{check, print, suffix, Error, Mode, State};

fn bytes(hex: &str) -> Vec<u8> {
    (0..hex.len() / 2)
        .map(|i| u8::from_str_radix(&hex[2 * i..2 * i + 2], 16).unwrap())
        .collect()
}

fn number(answer: Result<(), Error>) -> u32 {
    match answer {
        Ok(()) => 0,
        Err(Error::Invalid) => 1,
        Err(Error::RecursedTooDeep) => 2,
        Err(Error::TooLong) => 3,
        Err(Error::NoRoom) => 4,
    }
}

fn answer(mode: &str, room: usize, symbol: &[u8]) -> String {
    let mut buffer = vec![0xa5; room];
    let mode = if mode == "s" {
        Mode::Short
    } else {
        Mode::Plain
    };
    let printed = print(symbol, mode, &mut buffer);
    let (length, state) = match printed {
        Ok((length, State::Whole)) => (length, 'w'),
        Ok((length, State::Damaged)) => (length, 'd'),
        Err(Error::NoRoom) => (room, '-'),
        Err(_) => (0, '-'),
    };
    let kept = if buffer[length..].iter().all(|b| *b == 0xa5) {
        'k'
    } else {
        'x'
    };
    let mut line = format!(
        "{} {} {} {length} {state} {kept} ",
        number(check(symbol)),
        symbol.len() - suffix(symbol).len(),
        number(printed.map(|_| ())),
    );
    buffer[..length]
        .iter()
        .for_each(|b| write!(line, "{b:02x}").unwrap());
    if length == 0 {
        line.push('-');
    }
    line
}

#[test]
fn lines() {
    let folder = concat!(env!("CARGO_MANIFEST_DIR"), "/../crates/replay/");
    let questions = std::fs::read_to_string(format!("{folder}stdin")).unwrap();
    let answers = std::fs::read_to_string(format!("{folder}stdout")).unwrap();
    assert_eq!(questions.lines().count(), answers.lines().count());
    let mut asked = 0;
    for (question, expected) in questions.lines().zip(answers.lines()) {
        let fields: Vec<&str> = question.split(' ').collect();
        if expected.starts_with('?') {
            continue;
        }
        let symbol = bytes(fields.get(2).unwrap_or(&""));
        assert_eq!(
            answer(fields[0], fields[1].parse().unwrap(), &symbol),
            expected,
            "{question}"
        );
        asked += 1;
    }
    assert!(asked > 1000, "only {asked} lines");
}

#[test]
fn shown() {
    let name = vaultmuslin::try_demangle(b"_RINvCs0_1a1bKhff_E.llvm.1").unwrap();
    assert_eq!(format!("{name}"), "a[2]::b::<255u8>.llvm.1");
    assert_eq!(format!("{name:#}"), "a::b::<255>.llvm.1");
    assert_eq!(name.suffix(), b".llvm.1");
    assert_eq!(name.state(), Ok(State::Whole));
    assert_eq!(
        vaultmuslin::demangle(b"_RINvC1a1bL0_E").state(),
        Ok(State::Damaged)
    );
}

#[test]
fn refused() {
    assert_eq!(
        vaultmuslin::try_demangle(b"main").err(),
        Some(Error::Invalid)
    );
    assert_eq!(vaultmuslin::demangle(b"main").to_string(), "main");
    assert_eq!(vaultmuslin::demangle(b"").to_string(), "");
    assert_eq!(print(b"_RC1a", Mode::Plain, &mut []), Err(Error::NoRoom));
    assert_eq!(check(&[b'R'; 4097]), Err(Error::TooLong));
}

#[test]
fn a_name_without_end() {
    let shown = vaultmuslin::demangle(b"_RIC0FG3ReYLE_EuE").to_string();
    assert!(shown.starts_with("::<for<'a, 'b, ") && shown.ends_with("{size limit reached}"));
    assert!(shown.len() <= vaultmuslin::LONGEST + 20);
    assert_eq!(
        vaultmuslin::demangle(b"_RIC0FG3ReYLE_EuE").state(),
        Err(Error::NoRoom)
    );
}
