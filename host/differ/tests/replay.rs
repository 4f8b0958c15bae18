//! The program `replay` over whole inputs, beside the independent reader and store. RATHNODI_REPLAY
//! names the program; else it is that of `make target/bin/replay`.

use differ::lines;
use differ::list::{Line, Step};
use differ::random::Random;
use model::replay;
use std::io::{Read, Write};
use std::path::PathBuf;
use std::process::{Command, Stdio};
use std::thread;

fn program() -> PathBuf {
    match std::env::var_os("RATHNODI_REPLAY") {
        Some(path) => PathBuf::from(path),
        None => PathBuf::from(env!("CARGO_MANIFEST_DIR")).join("../../target/bin/replay"),
    }
}

/// What the program prints where its input comes in these pieces.
fn printed(pieces: &[&[u8]]) -> String {
    let mut child = Command::new(program())
        .stdin(Stdio::piped())
        .stdout(Stdio::piped())
        .spawn()
        .expect("the program replay: run `make target/bin/replay`, or set RATHNODI_REPLAY");
    let (mut input, mut output) = (child.stdin.take().unwrap(), child.stdout.take().unwrap());
    let mut text = String::new();
    thread::scope(|scope| {
        scope.spawn(move || {
            for piece in pieces {
                input.write_all(piece).expect("the program reads all of its input");
            }
        });
        output.read_to_string(&mut text).expect("text");
    });
    assert!(child.wait().expect("an end").success());
    text
}

/// The program prints the result number of each line, a line each.
fn agrees(pieces: &[&[u8]]) {
    let expected: String = replay(&pieces.concat()).iter().map(|n| format!("{n}\n")).collect();
    let found = printed(pieces);
    if found != expected {
        let lines = |text: &str| text.lines().map(String::from).collect::<Vec<_>>();
        let (wanted, got) = (lines(&expected), lines(&found));
        let at = wanted.iter().zip(&got).position(|(a, b)| a != b);
        let at = at.unwrap_or(wanted.len().min(got.len()));
        let (wanted, got) = (wanted.get(at), got.get(at));
        panic!("line {} of the results: expected {wanted:?}, found {got:?}", at + 1);
    }
}

#[test]
fn ends_of_inputs() {
    let inputs: [&[u8]; 14] = [
        b"",
        b"\n",
        b"\n\n\n",
        b"\0",
        b"(put 5 \"61\" \"78797a\")",
        b"(put 5 \"61\" \"78797a\")\n",
        b"\n(put 5 \"61\" \"78797a\")\n(get \"61\")",
        b"(put 5 \"61\" \"78797a\")\n(get \"61\")\n\n",
        b"(put 5 \"61\" \"78797a\")\r\n(get \"61\")\r\n",
        b"(get \"61\")\0\n(get \"61\")\n\0",
        b"(get \"\")\n(get \"\")x\n(get \"\")",
        b"(initiate 7 \"72\")\n(part 1 2 \"42\")\n(part 1 1 \"41\")\n(commit 1 (2 1))\n(get \"72\")\n",
        b"(initiate 7 \"72\")\n(part 4294967297 1 \"\")\n(part 1 65537 \"\")\n(abort 4294967297)\n",
        b"(abort 18446744073709551615)\n(abort 18446744073709551616)\n(abort 00)\n(abort 0)",
    ];
    inputs.iter().for_each(|input| agrees(&[input]));
}

/// Lines of 4,096 bytes and of 4,097, and one far too long, between lines that are forms; and where
/// the input ends in them.
#[test]
fn long_lines() {
    let put = b"(put 5 \"61\" \"78797a\")\n";
    let get = b"\n(get \"61\")\n";
    for length in [4095, 4096, 4097, 4098, 8192, 65_536, 3_000_000] {
        let digits = "61".repeat((length - 8) / 2);
        let name = if length % 2 == 0 { "get" } else { "head" };
        let line = format!("({name} \"{digits}\")");
        agrees(&[put, line.as_bytes(), get]);
        agrees(&[put, line.as_bytes()]);
        agrees(&[put, &line.as_bytes()[..line.len() - 1], get]);
        agrees(&[put, &vec![b'('; length], get]);
        agrees(&[put, &vec![0; length], get, put]);
    }
    // A form of the greatest length with a byte after it, and with many.
    let form = format!("(get \"{}\")", "61".repeat(2044));
    for after in [")", " ", "x", "\0", "\r", &form] {
        agrees(&[put, form.as_bytes(), after.as_bytes(), get]);
    }
}

/// The arena and the answers have 65,536 bytes: an object of that length is put together and read, and
/// a byte more does not fit.
#[test]
fn room() {
    let part =
        |part: usize, length: usize| format!("(part 1 {part} \"{}\")\n", "5a".repeat(length));
    let whole: String = (1..=32).map(|number| part(number, 2000)).collect();
    let numbers: Vec<String> = (1..=33).map(|number| number.to_string()).collect();
    let input = [
        "(initiate 7 \"72\")\n".to_string(),
        whole,
        part(33, 65_536 - 64_000 + 1),
        part(33, 65_536 - 64_000),
        format!("(commit 1 ({}))\n", numbers.join(" ")),
        "(get \"72\")\n(head \"72\")\n(put 1 \"61\" \"\")\n(put 1 \"61\" \"00\")\n(list \"\" \"\")\n".to_string(),
    ];
    let input = input.concat();
    assert_eq!(replay(input.as_bytes())[33..], [5, 0, 0, 0, 0, 0, 5, 0]);
    agrees(&[input.as_bytes()]);
}

/// The input in pieces of every length up to a line's, so that lines stand across what is read.
#[test]
fn pieces() {
    let input =
        b"(put 5 \"61\" \"78797a\")\n\n(get \"61\")\n(get \"6A\")\n(delete \"61\")\n(get \"61\")";
    for length in 1..=input.len() {
        let pieces: Vec<&[u8]> = input.chunks(length).collect();
        agrees(&pieces);
    }
}

/// Random lists of lines as whole inputs, over one store each, in pieces of random lengths. Line feeds
/// inside a line make two of it.
#[test]
fn random_inputs() {
    for index in 0..150 {
        let mut random = Random::new(11, index);
        let mut input = Vec::new();
        for step in lines::list(11, index).steps {
            let text = match step {
                Step::Call(call, _) => Line::of(&call).map(|line| line.text),
                Step::Line(line, _) => Some(line.text),
                _ => None,
            };
            input.extend(text.into_iter().flatten());
            match random.below(60) {
                0 => input.extend(b"\r\n"),
                1 => input.extend(b"\n\n"),
                2 => (),
                _ => input.push(b'\n'),
            }
        }
        if random.one_in(2) {
            input.truncate(input.len() - random.below(20).min(input.len()));
        }
        let mut pieces: Vec<&[u8]> = Vec::new();
        let mut rest = input.as_slice();
        while !rest.is_empty() {
            let most = *random.pick(&[1, 16, 4095, 4096, 4097, 65_536]);
            let (piece, after) = rest.split_at(most.min(rest.len()));
            pieces.push(piece);
            rest = after;
        }
        agrees(&pieces);
    }
}
