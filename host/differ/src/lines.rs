//! Random lists of lines: the calls of a random list, printed as lines of document 02's record, and
//! between them lines that are cut, joined, changed, too long, or of any bytes.

use crate::generate;
use crate::list::{Lending, Line, List, Said, Step};
use crate::random::Random;
use model::{Call, Entry, LONGEST_LINE};

/// Numbers at the edge of what is a form, and of what a call takes.
const NUMBERS: [&str; 14] = [
    "0",
    "00",
    "01",
    "007",
    "10001",
    "65535",
    "65536",
    "65537",
    "4294967295",
    "4294967296",
    "4294967297",
    "18446744073709551615",
    "18446744073709551616",
    "99999999999999999999",
];

const VERBS: [&str; 16] = [
    "put",
    "get",
    "head",
    "delete",
    "copy",
    "list",
    "initiate",
    "part",
    "commit",
    "abort",
    "uploads",
    "sweep",
    "fresh",
    "delete_objects",
    "Put",
    "",
];

/// What lines are made of, and what is close to it.
const PIECES: [&str; 18] = [
    "(",
    ")",
    " ",
    "  ",
    "\"",
    "\"\"",
    "\"61\"",
    "\"6A\"",
    "\"6\"",
    "()",
    "(1)",
    "(2 1)",
    "1",
    "0",
    " (\"6b\" \"76\")",
    "\t",
    "\r",
    "\n",
];

/// Bytes that count in a line, and bytes beside them.
const BYTES: &[u8] = b"()()\"\" 0179afgAFx/:`@\t\r\n\0\x7f\xff";

/// The list with this number in the run with this seed.
pub fn list(seed: u64, index: u64) -> List {
    let mut list = generate::list(seed, index);
    let mut random = Random::new(!seed, index);
    let (mut steps, mut before) = (Vec::new(), b"(get \"61\")".to_vec());
    for step in list.steps {
        let (call, lending) = match step {
            Step::Call(call, lending) => (call, lending),
            other => {
                steps.push(other);
                continue;
            }
        };
        let text = Entry::of(&call).map(|entry| entry.to_string().into_bytes());
        // A long line is no form: it is made seldom, so that the list goes on as it was meant to.
        let most = if random.one_in(8) { 2 * LONGEST_LINE } else { LONGEST_LINE };
        let Some(text) = text.filter(|text| text.len() <= most) else {
            steps.push(Step::Call(call, lending));
            continue;
        };
        while random.one_in(2) {
            let other = changed(&mut random, &text, &before);
            steps.push(line(other, &call, lending));
        }
        steps.push(line(text.clone(), &call, lending));
        before = text;
    }
    list.steps = steps;
    list
}

/// The call that the line says, by a line, or the line where it says none; with the call's buffers.
fn line(text: Vec<u8>, call: &Call, lending: Lending) -> Step {
    let line = Line::of(call).expect("a call of the record");
    let line = Line { text, ..line };
    match line.said() {
        Said::Call(call) => Step::Call(call, Lending { by_line: true, ..lending }),
        Said::Wide | Said::Nothing => Step::Line(line, lending),
    }
}

/// Another line, made of this one and the one before it. Some are forms still.
fn changed(random: &mut Random, text: &[u8], before: &[u8]) -> Vec<u8> {
    let mut other = text.to_vec();
    let at = random.below(text.len());
    match random.below(20) {
        0 => other.truncate(at),
        1 => drop(other.drain(..at)),
        2 => {
            let middle: [&[u8]; 4] = [b"", b" ", b"\n", b"\r\n"];
            other = [text, *random.pick(&middle), before].concat();
        }
        3 => {
            let from = random.below(before.len());
            other = [&text[..at], &before[from..]].concat();
        }
        4 => other[at] = random.draw() as u8,
        5 => other[at] = *random.pick(BYTES),
        6 => other.insert(at, *random.pick(BYTES)),
        7 => drop(other.remove(at)),
        8 => {
            let next = (at + 1) % text.len();
            other.swap(at, next);
        }
        9 => other.make_ascii_uppercase(),
        10 => {
            let small = |at: &usize| text[*at].is_ascii_lowercase();
            let smalls: Vec<usize> = (0..text.len()).filter(small).collect();
            other[*random.pick(&smalls)].make_ascii_uppercase();
        }
        11 => {
            // Blanks where none belong.
            let ends = [0, at, text.len() - 1, text.len()];
            other.insert(*random.pick(&ends), *random.pick(b"  \t\r\0\n"));
        }
        12 | 13 => other = fields_changed(random, text),
        14 => {
            let pairs: [&str; 5] = [
                " (\"6b\" \"76\")",
                " (\"73697a65\" \"\")",
                " (\"6B\" \"76\")",
                " (\"6b\")",
                " ()",
            ];
            let pair = random.pick(&pairs);
            let count = *random.pick(&[1, 1, 1, 2, 8, 9, 200]);
            let end = text.len() - 1;
            other.splice(end..end, pair.repeat(count).into_bytes());
        }
        15 => {
            let key = "6b".repeat(*random.pick(&[0, 1, 32, 33, 255, 256, 257, 300]));
            let value = "76".repeat(*random.pick(&[0, 1, 64, 65, 255, 256, 257, 320]));
            let end = text.len() - 1;
            other.splice(end..end, format!(" (\"{key}\" \"{value}\")").into_bytes());
        }
        16 => other = padded(random, text),
        17 => {
            let length = random.below(40);
            other = random.bytes(length);
        }
        18 => {
            let count = random.below(9);
            other = (0..count).flat_map(|_| random.pick(&PIECES).bytes()).collect();
        }
        _ => {
            let end = text.iter().position(|byte| *byte == b' ').unwrap_or(1);
            other.splice(1..end, random.pick(&VERBS).bytes());
        }
    }
    other
}

/// A field dropped, doubled, moved, or another number in its place.
fn fields_changed(random: &mut Random, text: &[u8]) -> Vec<u8> {
    let mut fields: Vec<Vec<u8>> = text.split(|byte| *byte == b' ').map(Vec::from).collect();
    let at = random.below(fields.len());
    match random.below(5) {
        0 => drop(fields.remove(at)),
        1 => fields.insert(at, fields[at].clone()),
        2 => {
            let to = random.below(fields.len());
            fields.swap(at, to);
        }
        _ => {
            // The digits of a number, with the brackets around them.
            let numeric = |field: &Vec<u8>| field.iter().all(|byte| b"()0123456789".contains(byte));
            let numbers: Vec<usize> = (0..fields.len()).filter(|i| numeric(&fields[*i])).collect();
            if !numbers.is_empty() {
                let field = &mut fields[*random.pick(&numbers)];
                let number = random.pick(&NUMBERS);
                let is_digit = |byte: &u8| byte.is_ascii_digit();
                let start = field.iter().position(is_digit).unwrap_or(field.len());
                let end = field.iter().rposition(is_digit).map_or(start, |last| last + 1);
                field.splice(start..end, number.bytes());
            }
        }
    }
    fields.join(&b' ')
}

/// The last quoted form made longer, so that the line has a length about the greatest.
fn padded(random: &mut Random, text: &[u8]) -> Vec<u8> {
    let mut other = text.to_vec();
    let length = LONGEST_LINE - 1 + random.below(4);
    let Some(quote) = text.iter().rposition(|byte| *byte == b'"') else { return other };
    let more = length.saturating_sub(text.len());
    // An odd rest goes to the first number, where there is one.
    other.splice(quote..quote, std::iter::repeat_n(b'0', more / 2 * 2));
    if let (1, Some(digit)) = (more % 2, text.iter().position(|byte| (b'1'..=b'9').contains(byte)))
    {
        if text[digit - 1] == b' ' {
            other.insert(digit, b'1');
        }
    }
    other
}
