//! Random lists of calls. The maker keeps a model, so that calls name what is there, what was there
//! and what never was, and lengths fall just short of, on and past each limit.

use crate::guard::Side;
use crate::layout::{self, without_pairs, HEADER_LEN};
use crate::list::{renumber, Bit, CarryOver, Lending, List, Step};
use crate::random::Random;
use model::{bytes_held, pair_bytes, Answer, Call, Model, Object, SYSTEM_KEYS};
use model::{LARGEST_ARENA, LAST_HELD_PART, LAST_PART, LONGEST_KEY, LONGEST_PATH, LONGEST_VALUE};
use model::{MOST_OBJECTS, MOST_PAIRS, MOST_PARTS, MOST_PLACES, NUMBERS_END};
use rathnodi::{FORMER_TABLES_LEN, TABLES_LEN};

const ARENAS: [usize; 9] = [0, 1, 4, 64, 64, 4096, 4096, 4096, LARGEST_ARENA];

/// Fields of docs/LAYOUT.md: offset, width, and values at the edge of what is allowed.
const HEADER_FIELDS: [(usize, usize, &[u64]); 5] = [
    (0, 4, &[0, 1, 64, 4096]),
    (4, 8, &[0, 1, NUMBERS_END, NUMBERS_END + 1, u64::MAX]),
    (12, 2, &[0, 256, 257]),
    (14, 2, &[0, 16, 17]),
    (16, 2, &[0, 256, 257]),
];
const ROW_FIELDS: [(usize, usize, &[u64]); 8] = [
    (0, 4, &[0, 1]),
    (4, 4, &[0, 1, 10_000, 10_001, 11_000, 11_001]),
    (8, 8, &[0, 1]),
    (KIND_AT, 1, &[0, 1, 2, 3, 4, 5, 6, 7, 8, 32, 33, 34, 35, 36, 37, 38]),
    (PATH_LENGTH_AT, 1, &[0, 1, 127, 128, 129, 255]),
    (18, 2, &[0, 1, 256, 257]),
    (20, 1, &[0, 1]),
    (ROW_LEN, 1, &[32, 33, 47, 126, 127, 0xc3]),
];
const KIND_AT: usize = 16;
const PATH_LENGTH_AT: usize = 17;
/// A row without its path and the lengths of its pairs.
const ROW_LEN: usize = 36;

/// Lengths of many paths.
const LENGTHS: [usize; 7] = [5, 5, 6, 9, 10, 65, 125];

/// Numbers about the last part that PART takes, and the last that an older store can hold.
const PART_EDGES: [u16; 4] = [LAST_PART, LAST_PART + 1, LAST_HELD_PART, LAST_HELD_PART + 1];

/// Lengths at which MD5's padding or count of blocks changes.
const DIGEST_EDGES: [usize; 9] = [55, 56, 57, 63, 64, 65, 119, 120, 128];

/// The list with this number in the run with this seed.
pub fn list(seed: u64, index: u64) -> List {
    let mut random = Random::new(seed, index);
    let arena = *random.pick(&ARENAS);
    let next = match random.one_in(16) {
        true => NUMBERS_END - random.pick(&[0, 1, 2, 3, 16, 16]),
        false => 1,
    };
    let fill = random.draw();
    let mut side = || if random.one_in(2) { Side::Front } else { Side::Back };
    let sides = (side(), side());
    let pool = pool(&mut random);
    let weights = std::array::from_fn(|_| 1 + random.below(6));
    let paired = *random.pick(&[0, 3, 6, 8]);
    let mut model = Model::fresh(arena);
    model.next = next;
    let mut maker = Maker { random, model, pool, weights, paired, arena, steps: Vec::new() };
    maker.make();
    List { arena, fill, next, sides, steps: maker.steps }
}

/// The good paths that a list draws on.
fn pool(random: &mut Random) -> Vec<Vec<u8>> {
    let few: [&[u8]; 4] = [b"a", b"b", b"ab", b"a/"];
    let usual: [&[u8]; 19] = [
        b"a",
        b"a/",
        b"a/b",
        b"ab",
        b"abc",
        b"abbc",
        b"bc",
        b"!",
        b"~",
        b"a!",
        b"a~",
        b"recipe/rye",
        b"recipe/rye/",
        b"recipe/roll",
        "Käsestange".as_bytes(),
        "pain-au-levain-épicé".as_bytes(),
        "a\u{a0}".as_bytes(),
        "\u{10ffff}".as_bytes(),
        "a/\u{fffd}/b".as_bytes(),
    ];
    match random.below(4) {
        0 => few.map(Vec::from).to_vec(),
        1 | 2 => {
            let mut paths = usual.map(Vec::from).to_vec();
            for length in [LONGEST_PATH, LONGEST_PATH, LONGEST_PATH - 1, 8, 9, 16, 17] {
                paths.push(good_path(random, length));
            }
            for length in [LONGEST_PATH, LONGEST_PATH - 1, 31, 32, 33, 64, 65] {
                paths.push(letters_path(random, length));
            }
            paths
        }
        _ => many_paths(random, &LENGTHS),
    }
}

/// More paths than a store can have, each of one of these lengths.
fn many_paths(random: &mut Random, lengths: &[usize]) -> Vec<Vec<u8>> {
    (0..300)
        .map(|i| {
            let length = *random.pick(lengths) - 5;
            [format!("p{i:03}/").into_bytes(), good_path(random, length)].concat()
        })
        .collect()
}

/// A path of this length by the rules, "/" never beside "/" nor first.
fn good_path(random: &mut Random, length: usize) -> Vec<u8> {
    let mut path: Vec<u8> = Vec::new();
    while path.len() < length {
        let byte = *random.pick(b"ab/!~.-0Z9");
        if byte != b'/' || path.last().is_some_and(|last| *last != b'/') {
            path.push(byte);
        }
    }
    path
}

/// Letters of one to four bytes, at the edges of RFC 3629's rows.
const LETTERS: [&str; 16] = [
    "a",
    "b",
    "/",
    "\u{a0}",
    "ä",
    "é",
    "\u{7ff}",
    "\u{800}",
    "€",
    "\u{d7ff}",
    "\u{e000}",
    "\u{ffff}",
    "\u{10000}",
    "🥐",
    "\u{fffff}",
    "\u{10ffff}",
];

/// A path of this length with letters of all lengths.
fn letters_path(random: &mut Random, length: usize) -> Vec<u8> {
    let mut path: Vec<u8> = Vec::new();
    while path.len() < length {
        let letter = random.pick(&LETTERS).as_bytes();
        let slash = letter == b"/" && path.last().is_none_or(|last| *last == b'/');
        if path.len() + letter.len() <= length && !slash {
            path.extend(letter);
        }
    }
    path
}

/// No letters: lone bytes, overlong forms, surrogates, code points below 160 and past 10FFFF, and letters that are cut off.
const NO_LETTERS: [&[u8]; 20] = [
    b"\x80",
    b"\xbf",
    b"\xc0\xaf",
    b"\xc1\xbf",
    b"\xe0\x80\xaf",
    b"\xe0\x9f\xbf",
    b"\xf0\x80\x80\xaf",
    b"\xf0\x8f\xbf\xbf",
    b"\xed\xa0\x80",
    b"\xed\xa0\xbd\xed\xb8\x80",
    b"\xed\xbf\xbf",
    b"\xc2\x80",
    b"\xc2\x9f",
    b"\xf4\x90\x80\x80",
    b"\xf5\x80\x80\x80",
    b"\xff",
    b"\xc3",
    b"\xe2\x82",
    b"\xf0\x9f\xa5",
    b"\xf0\x9f",
];

/// A good path with a fault in it, or one of 128 bytes that ends amid a letter.
fn no_letters_path(random: &mut Random) -> Vec<u8> {
    if random.one_in(4) {
        let cut: [&[u8]; 4] = [b"\xc3", b"\xe2\x82", b"\xf0\x9f\xa5", b"\xe2"];
        let cut = *random.pick(&cut);
        let mut path = good_path(random, LONGEST_PATH - cut.len());
        path.extend(cut);
        return path;
    }
    let length = 1 + random.below(70);
    let mut path = good_path(random, length);
    let at = random.below(length + 1);
    path.splice(at..at, random.pick(&NO_LETTERS).iter().copied());
    path
}

fn bad_path(random: &mut Random) -> Vec<u8> {
    let bad: [&[u8]; 13] = [
        b"",
        b"/",
        b"/a",
        b"//",
        b"a//b",
        b"a//",
        b"a b",
        b"a\x7f",
        b"\x20",
        b"\0",
        b"a\x80",
        b"a/b/c//d",
        b"\xff",
    ];
    match random.below(20) {
        0 => good_path(random, LONGEST_PATH + 1),
        1 => good_path(random, LONGEST_PATH + 128),
        2 => good_path(random, 300),
        3 => {
            let length = 1 + random.below(12);
            random.bytes(length)
        }
        4 => {
            // A good path of any length with one bad byte in it.
            let length = 1 + random.below(LONGEST_PATH);
            let mut path = good_path(random, length);
            let at = random.below(path.len());
            path[at] = *random.pick(&[0, 31, 32, 127, 128, 255]);
            path
        }
        5 => {
            // Two slashes at any place.
            let length = 2 + random.below(LONGEST_PATH - 1);
            let mut path = good_path(random, length);
            let at = random.below(path.len() - 1);
            path[at..at + 2].fill(b'/');
            path
        }
        6..=11 => no_letters_path(random),
        _ => random.pick(&bad).to_vec(),
    }
}

/// Keys that sort beside each other, and such as are a bit away from a system key.
const KEYS: [&str; 22] = [
    "a",
    "b",
    "a-",
    "aa",
    "a0",
    "-",
    "0",
    "z",
    "9",
    "k",
    "k-",
    "kk",
    "lot",
    "lot2",
    "baker",
    "flour-lot",
    "siz",
    "sizd",
    "sizes",
    "etaf",
    "createe",
    "e-tag",
];
/// Bytes beside those that a key may have, and beside those of a value.
const NO_KEY_BYTES: [u8; 16] = [0, 31, 32, 44, 46, 47, 58, 64, 65, 90, 91, 95, 96, 123, 127, 225];
const NO_VALUE_BYTES: [u8; 8] = [0, 10, 30, 31, 127, 128, 160, 255];

/// A key of this length by the rules.
fn good_key(random: &mut Random, length: usize) -> Vec<u8> {
    (0..length).map(|_| *random.pick(b"az09-bk")).collect()
}

/// A value of this length by the rules.
fn good_value(random: &mut Random, length: usize) -> Vec<u8> {
    (0..length).map(|_| *random.pick(b" ~!}Aaz09-R")).collect()
}

type PairList = Vec<(Vec<u8>, Vec<u8>)>;

/// Pairs as a call takes them; lengths are cut to a byte.
fn encoded(pairs: &PairList) -> Vec<u8> {
    let counted = |bytes: &[u8]| [&[bytes.len() as u8], bytes].concat();
    pairs.iter().flat_map(|(key, value)| [counted(key), counted(value)].concat()).collect()
}

/// The bits by which these bytes, from a place on, become others.
fn turned(at: usize, old: &[u8], new: &[u8]) -> Vec<Bit> {
    let changed = old.iter().zip(new).enumerate();
    changed.map(|(i, (old, new))| Bit { byte: at + i, mask: old ^ new }).collect()
}

/// What an object holds: its data, its keys and its values.
fn held_by(object: &Object) -> usize {
    object.data.len() + bytes_held(&object.pairs)
}

/// One buffer of names, and where each starts and how long it is.
fn end_to_end(names: &[Vec<u8>]) -> (Vec<u8>, Vec<(usize, usize)>) {
    let mut start = 0;
    let span = |name: &Vec<u8>| {
        start += name.len();
        (start - name.len(), name.len())
    };
    (names.concat(), names.iter().map(span).collect())
}

/// Places as the call takes them.
fn place_bytes(places: &[(usize, usize)]) -> Vec<u8> {
    let number = |number: usize| (number as u32).to_le_bytes();
    places.iter().flat_map(|(start, length)| [number(*start), number(*length)].concat()).collect()
}

struct Maker {
    random: Random,
    model: Model,
    pool: Vec<Vec<u8>>,
    weights: [usize; 13],
    /// How many of eight calls that can take pairs bring some.
    paired: usize,
    arena: usize,
    steps: Vec<Step>,
}

impl Maker {
    fn make(&mut self) {
        let mut length = 5 + self.random.below(75);
        if self.random.one_in(8) {
            for _ in 0..self.random.below(40) {
                self.step();
            }
            self.carry_over();
        }
        match self.random.below(40) {
            0 => self.fill_objects(&LENGTHS, 20, &[]),
            1 => self.fill_parts(20),
            2 => {
                self.fill_parts(20);
                self.fill_objects(&LENGTHS, 20, &[]);
            }
            3 => {
                // To the last byte of the tables, or of former ones.
                let keys = ["a", "b", "c", "d", "e", "f", "g", "h"];
                let pairs = keys.map(|key| (key.as_bytes().to_vec(), Vec::new())).to_vec();
                let pairs = if self.random.one_in(3) { Vec::new() } else { encoded(&pairs) };
                self.pool = many_paths(&mut self.random, &[LONGEST_PATH]);
                self.fill_uploads(&pairs);
                self.fill_parts(1);
                self.fill_objects(&[LONGEST_PATH], 1, &pairs);
                if self.random.one_in(4) {
                    self.carry_over();
                }
            }
            4 | 5 => self.fill_uploads(&[]),
            // The last numbers go to uploads that stay open, so that 4 and 6 both apply.
            6..=21 if self.model.next > 1 => self.fill_uploads(&[]),
            _ => length /= 2,
        }
        length *= 2;
        for _ in 0..length {
            self.step();
        }
        if self.random.one_in(5) {
            for _ in 0..self.random.below(12) {
                self.damage_and_repair();
            }
            let damage = self.damage();
            self.steps.push(damage);
            for _ in 0..self.random.below(20) {
                self.step();
            }
        }
        self.show_all();
        if self.random.one_in(4) {
            self.delete_all();
        }
    }

    fn step(&mut self) {
        match self.random.below(400) {
            0..=3 => return self.fresh(),
            4 => return self.carry_over(),
            5 | 6 => return self.older_parts(),
            _ => (),
        }
        let call = self.call();
        let lending = self.lending();
        self.push(call, lending);
    }

    /// Adds the call, and makes it in the model where it is lent all right.
    fn push(&mut self, call: Call, lending: Lending) {
        let right = Lending { sides: lending.sides, ..Lending::right(self.arena) };
        if lending == right {
            self.model.call(&call);
        }
        self.steps.push(Step::Call(call, lending));
    }

    fn push_right(&mut self, call: Call) {
        let sides = self.random.draw() as u8;
        self.push(call, Lending { sides, ..Lending::right(self.arena) });
    }

    fn lending(&mut self) -> Lending {
        let mut lending = Lending::right(self.arena);
        lending.sides = self.random.draw() as u8;
        match self.random.below(120) {
            0 | 1 => lending.reply = *self.random.pick(&[0, 1, 24, 47, 49, 96]),
            2 => lending.tables = self.wrong_tables(),
            3 => lending.arena = self.wrong_arena(),
            _ => (),
        }
        lending
    }

    fn wrong_tables(&mut self) -> usize {
        *self.random.pick(&[0, 1, 18, TABLES_LEN - 1, TABLES_LEN + 1, 2 * TABLES_LEN])
    }

    fn wrong_arena(&mut self) -> usize {
        match self.random.below(4) {
            0 => self.arena.saturating_sub(1),
            1 => 0,
            2 => LARGEST_ARENA + 1,
            _ => self.arena + 1,
        }
    }

    fn fresh(&mut self) {
        let mut lending = Lending::right(self.arena);
        match self.random.below(4) {
            0 => lending.tables = self.wrong_tables(),
            1 => lending.arena = self.wrong_arena(),
            2 => lending.arena = LARGEST_ARENA + 1,
            _ => self.model = Model::fresh(self.arena),
        }
        self.steps.push(Step::Fresh(lending));
    }

    /// A former store is carried over, or refused.
    fn carry_over(&mut self) {
        let mut step = CarryOver::right(self.arena, self.random.draw());
        step.lending.sides = self.random.draw() as u8;
        let former = FORMER_TABLES_LEN;
        match self.random.below(10) {
            0 => step.former = *self.random.pick(&[0, 1, 18, former - 1, former + 1, TABLES_LEN]),
            1 if self.random.one_in(2) => step.lending.tables = former,
            1 => step.lending.tables = self.wrong_tables(),
            2 => step.lending.arena = self.wrong_arena(),
            3..=5 => {
                let plain = without_pairs(&self.model);
                let state = std::mem::replace(&mut self.model, plain);
                step.bits = self.change(former);
                self.model = state;
            }
            _ => (),
        }
        let (tables, arena) = step.memory(&self.model);
        match step.carries(&tables, &arena) {
            Some(state) if arena.len() == self.arena => self.model = state,
            _ => (),
        }
        self.steps.push(Step::CarryOver(step));
    }

    /// The last parts of an upload get numbers that PART took before E7, as an older store has them.
    fn older_parts(&mut self) {
        let sent = self.model.uploads.iter().filter(|(_, upload)| !upload.parts.is_empty());
        let sent: Vec<u32> = sent.map(|(number, _)| *number).collect();
        if sent.is_empty() {
            return;
        }
        let upload = *self.random.pick(&sent);
        let parts: Vec<u16> = self.model.uploads[&upload].parts.keys().rev().copied().collect();
        let mut above = LAST_HELD_PART + 1;
        for part in parts.into_iter().take(1 + self.random.below(4)) {
            let number = match self.random.below(4) {
                0 => LAST_PART + 1,
                1 => above - 1,
                _ => above - 1 - self.random.below(usize::from(above - LAST_PART - 1)) as u16,
            };
            renumber(&mut self.model, upload, part, number);
            self.steps.push(Step::OlderPart { upload, part, number });
            above = number;
            if number == LAST_PART + 1 {
                return;
            }
        }
    }

    fn damage(&mut self) -> Step {
        match self.random.below(8) {
            0 => {
                let from = *self.random.pick(&[0, 0, 4, 12, 18, 64, 1024]);
                Step::Scribble { from, seed: self.random.draw() }
            }
            _ => Step::Flip(self.change(TABLES_LEN)),
        }
    }

    /// Of memory with tables of this length.
    fn change(&mut self, tables_len: usize) -> Vec<Bit> {
        match self.random.below(6) {
            0 | 1 => self.random_bits(tables_len),
            2 | 3 if self.paired > 0 => self.changed_pair(tables_len),
            _ => self.changed_field(),
        }
    }

    /// Over damaged memory HEAD of the root, which asks whether it is whole, and a few calls; then the
    /// same bits are flipped back.
    fn damage_and_repair(&mut self) {
        let bits = self.change(TABLES_LEN);
        self.steps.push(Step::Flip(bits.clone()));
        let mut call = Call::Head { path: Vec::new(), pairs_buffer: Vec::new() };
        for _ in 0..1 + self.random.below(4) {
            self.steps.push(Step::Call(call, Lending::right(self.arena)));
            call = self.call();
        }
        self.steps.push(Step::Flip(bits));
    }

    fn random_bits(&mut self, tables_len: usize) -> Vec<Bit> {
        let used = layout::bytes_of(&self.model).tables.len();
        let reach = *self.random.pick(&[HEADER_LEN, used, used, tables_len]);
        (0..1 + self.random.below(3))
            .map(|_| Bit {
                byte: match self.arena > 0 && self.random.one_in(8) {
                    true => tables_len + self.random.below(self.arena),
                    false => self.random.below(reach),
                },
                mask: 1 << self.random.below(8),
            })
            .collect()
    }

    /// A field of the header or of a row gets a value at the edge of what is allowed there, one more
    /// or less, or another row's.
    fn changed_field(&mut self) -> Vec<Bit> {
        let layout::Bytes { tables, rows, .. } = layout::bytes_of(&self.model);
        let starts: Vec<usize> = match rows.is_empty() || self.random.one_in(4) {
            true => vec![0],
            false => rows.iter().map(|(row, _)| *row).collect(),
        };
        let (at, other) = (*self.random.pick(&starts), *self.random.pick(&starts));
        let (offset, width, edges) = match at {
            0 => *self.random.pick(&HEADER_FIELDS),
            _ if self.random.one_in(8) => (ROW_LEN, tables[at + PATH_LENGTH_AT].into(), &[][..]),
            _ => *self.random.pick(&ROW_FIELDS),
        };
        let field = |start: usize| -> Vec<u8> {
            tables.iter().skip(start + offset).take(width).copied().collect()
        };
        let old = field(at);
        let number =
            old.iter().take(8).rev().fold(0, |number, byte| number << 8 | u64::from(*byte));
        let new = match self.random.below(8) {
            0 => number.wrapping_add(1).to_le_bytes().to_vec(),
            1 => number.wrapping_sub(1).to_le_bytes().to_vec(),
            2 => self.model.next.to_le_bytes().to_vec(),
            3..=6 if !edges.is_empty() => self.random.pick(edges).to_le_bytes().to_vec(),
            _ => field(other),
        };
        turned(at + offset, &old, &new)
    }

    /// A row's pairs: a length, the split of a pair, a byte of a key or a value, a key that becomes
    /// another or a system key, two keys in each other's place, or the count of pairs.
    fn changed_pair(&mut self, tables_len: usize) -> Vec<Bit> {
        let layout::Bytes { tables, arena, rows } = layout::bytes_of(&self.model);
        let paired: Vec<_> =
            rows.into_iter().filter(|(row, _)| tables[row + KIND_AT] > 3).collect();
        if paired.is_empty() {
            return self.changed_field();
        }
        let (row, block) = *self.random.pick(&paired);
        let kind = tables[row + KIND_AT];
        let count = usize::from(kind / 4);
        let at = row + ROW_LEN + usize::from(tables[row + PATH_LENGTH_AT]);
        let lengths = &tables[at..at + 2 * count];
        let start = |i: usize| block + lengths[..i].iter().map(|n| usize::from(*n)).sum::<usize>();
        let bytes = |i: usize| &arena[start(i)..start(i + 1)];
        let (first, second) = (2 * self.random.below(count), 2 * self.random.below(count));
        let either = first + self.random.below(2);
        match self.random.below(12) {
            0..=2 => {
                let length = lengths[either];
                let edges = [0, 1, 31, 32, 33, 63, 64, 65, 255];
                let new = match self.random.below(3) {
                    0 => length.wrapping_add(1),
                    1 => length.wrapping_sub(1),
                    _ => *self.random.pick(&edges),
                };
                turned(at + either, &[length], &[new])
            }
            3 | 4 => {
                // The same bytes are split elsewhere: between two lengths next to each other.
                let i = self.random.below(2 * count - 1);
                let (one, two) = (lengths[i], lengths[i + 1]);
                let new = match self.random.one_in(2) {
                    true => [one.wrapping_add(1), two.wrapping_sub(1)],
                    false => [one.wrapping_sub(1), two.wrapping_add(1)],
                };
                turned(at + i, &[one, two], &new)
            }
            5 | 6 => {
                let i = if self.random.one_in(2) { first } else { first + 1 };
                let place = start(i) + self.random.below(bytes(i).len().max(1));
                let Some(old) = arena.get(place) else { return Vec::new() };
                let new = match self.random.below(4) {
                    0 => old ^ 1 << self.random.below(8),
                    1 => *self.random.pick(b"az09-"),
                    2 => *self.random.pick(&NO_VALUE_BYTES),
                    _ => *self.random.pick(&NO_KEY_BYTES),
                };
                turned(tables_len + place, &[*old], &[new])
            }
            7 | 8 => {
                let new = match self.random.one_in(2) {
                    true => self.random.pick(&SYSTEM_KEYS),
                    false => bytes(second),
                };
                let cut = new.len().min(bytes(first).len());
                let mut bits = turned(tables_len + start(first), bytes(first), new);
                if cut == new.len() && self.random.one_in(2) {
                    // The rest of the key goes to its value.
                    let rest = bytes(first).len() - cut;
                    let both = [cut as u8, (usize::from(lengths[first + 1]) + rest) as u8];
                    bits.extend(turned(at + first, &lengths[first..first + 2], &both));
                }
                bits
            }
            9 if bytes(first).len() == bytes(second).len() => {
                let mut bits = turned(tables_len + start(first), bytes(first), bytes(second));
                bits.extend(turned(tables_len + start(second), bytes(second), bytes(first)));
                bits
            }
            _ => {
                let new = match self.random.one_in(2) {
                    true => kind + 4,
                    false => kind - 4,
                };
                turned(row + KIND_AT, &[kind], &[new])
            }
        }
    }

    /// PUTs of data below this length to about as many paths as there can be, each of one of these
    /// lengths, with these pairs or any.
    fn fill_objects(&mut self, lengths: &[usize], below: usize, pairs: &[u8]) {
        self.pool = many_paths(&mut self.random, lengths);
        let mut order: Vec<usize> = (0..self.pool.len()).collect();
        self.random.shuffle(&mut order);
        for i in order.into_iter().take(MOST_OBJECTS - 1 + self.random.below(4)) {
            let length = self.short(below);
            let (path, data) = (self.pool[i].clone(), self.random.bytes(length));
            let pairs = match pairs.is_empty() && self.random.one_in(8) {
                true => self.pairs(self.free() - length).0,
                false => pairs.to_vec(),
            };
            self.push_right(Call::Put { stamp: i as u64 + 1, path, data, pairs });
        }
    }

    fn fill_uploads(&mut self, pairs: &[u8]) {
        for _ in 0..14 + self.random.below(4) {
            let (stamp, path) = (1 + self.random.draw() % 1000, self.good_path());
            self.push_right(Call::Initiate { stamp, path, pairs: pairs.to_vec() });
        }
    }

    /// PARTs of data below this length, about as many as there can be, over some uploads.
    fn fill_parts(&mut self, below: usize) {
        for _ in 0..1 + self.random.below(4) {
            let (path, pairs) = (self.good_path(), self.pairs(self.free()).0);
            self.push_right(Call::Initiate { stamp: 7, path, pairs });
        }
        let open: Vec<u32> = self.model.uploads.keys().copied().collect();
        if open.is_empty() {
            return;
        }
        let mut numbers: Vec<u16> = (1..=300).map(|i| i * 33).collect();
        self.random.shuffle(&mut numbers);
        for part in numbers.into_iter().take(MOST_PARTS - 1 + self.random.below(4)) {
            let length = self.short(below);
            let (upload, data) = (*self.random.pick(&open), self.random.bytes(length));
            self.push_right(Call::Part { upload, part, data });
        }
    }

    /// The bytes of the arena that are free.
    fn free(&self) -> usize {
        self.arena - self.model.held()
    }

    /// A length below this that mostly fits.
    fn short(&mut self, below: usize) -> usize {
        self.random.below(below).min(self.free())
    }

    fn call(&mut self) -> Call {
        let mut place = self.random.below(self.weights.iter().sum());
        let mut verb = 0;
        while place >= self.weights[verb] {
            place -= self.weights[verb];
            verb += 1;
        }
        // A full store stays full for a while, and many deletes mostly have something to delete.
        let objects = self.model.objects.len();
        if [3, 11].contains(&verb) && objects == MOST_OBJECTS && !self.random.one_in(4) {
            verb = 4;
        } else if verb == 11 && objects < self.random.below(6) && !self.random.one_in(4) {
            verb = 0;
        }
        // Most calls that name an upload have one to name, most uploads get some parts, and most
        // sweeps have some uploads to choose from.
        let uploads = self.model.uploads.len();
        if (7..10).contains(&verb) && uploads == 0 && !self.random.one_in(4) {
            verb = 6;
        } else if (8..10).contains(&verb) && self.model.parts() < self.random.below(12) {
            verb = 7;
        } else if verb == 12 && uploads < self.random.below(6) && !self.random.one_in(6) {
            verb = if self.random.one_in(2) { 6 } else { 7 };
        }
        match verb {
            0 => {
                let (stamp, path) = (self.stamp(), self.path());
                let object = self.model.objects.get(&path);
                let free = self.free() + object.map_or(0, held_by);
                let old = object.map_or(0, |object| object.data.len());
                let (pairs, held) = self.pairs(free);
                let data = self.data(free.saturating_sub(held), old);
                Call::Put { stamp, path, data, pairs }
            }
            1 => {
                let path = self.path_or_root();
                let (need, pairs_need) = self.needs(&path);
                let (buffer, pairs_buffer) = (self.buffer(need), self.buffer(pairs_need));
                Call::Get { path, buffer, pairs_buffer }
            }
            2 => {
                let path = self.path_or_root();
                let pairs_need = self.needs(&path).1;
                Call::Head { path, pairs_buffer: self.buffer(pairs_need) }
            }
            3 => Call::Delete { path: self.path() },
            4 => {
                let (stamp, source) = (self.stamp(), self.path());
                let destination = if self.random.one_in(6) { source.clone() } else { self.path() };
                Call::Copy { stamp, source, destination }
            }
            5 => self.list(),
            6 => {
                let (stamp, path, free) = (self.stamp(), self.path(), self.free());
                Call::Initiate { stamp, path, pairs: self.pairs(free).0 }
            }
            7 => self.part(),
            8 => self.commit(),
            9 => Call::Abort { upload: self.upload() },
            10 => self.uploads(),
            11 => self.delete_objects(),
            _ => self.sweep(),
        }
    }

    fn stamp(&mut self) -> u64 {
        match self.random.below(16) {
            0 => 0,
            1 => 1,
            2 => u64::MAX,
            3 => self.random.draw(),
            _ => 1 + self.random.draw() % 1000,
        }
    }

    fn good_path(&mut self) -> Vec<u8> {
        self.random.pick(&self.pool).clone()
    }

    fn stored_path(&mut self) -> Option<Vec<u8>> {
        let count = self.model.objects.len();
        (count > 0).then(|| {
            let place = self.random.below(count);
            self.model.objects.keys().nth(place).expect("a path").clone()
        })
    }

    fn path(&mut self) -> Vec<u8> {
        if self.random.one_in(16) {
            return bad_path(&mut self.random);
        }
        if !self.random.one_in(3) {
            if let Some(path) = self.stored_path() {
                return path;
            }
        }
        self.good_path()
    }

    fn path_or_root(&mut self) -> Vec<u8> {
        if self.random.one_in(16) {
            Vec::new()
        } else {
            self.path()
        }
    }

    /// Data for a place that holds so many bytes, where so many are free for it.
    fn data(&mut self, free: usize, old: usize) -> Vec<u8> {
        let mut length = match self.random.below(12) {
            0 => 0,
            1 => 1,
            2 => free,
            3 => free + 1,
            4 => *self.random.pick(&DIGEST_EDGES),
            5 => self.random.below(self.arena + 2),
            6 => old,
            7 => self.random.below(free + 1),
            _ => self.random.below(free.min(100) + 1),
        };
        if length > 16_384 && !self.random.one_in(8) {
            length %= 4096;
        }
        self.random.bytes(length)
    }

    /// Pairs for a PUT or an INITIATE, and the bytes that they hold where they are good.
    fn pairs(&mut self, free: usize) -> (Vec<u8>, usize) {
        if self.random.below(8) >= self.paired && !self.random.one_in(50) {
            return (Vec::new(), 0);
        }
        let mut pairs = match self.random.one_in(12) {
            true => self.fitted(free),
            false => self.pair_list(free < 100),
        };
        let held = pairs.iter().map(|(key, value)| key.len() + value.len()).sum();
        if self.random.one_in(3) {
            for _ in 0..1 + self.random.below(3) {
                let (key, length) = (self.random.pick(&SYSTEM_KEYS).to_vec(), self.random.below(9));
                let value = good_value(&mut self.random, length);
                let at = self.random.below(pairs.len() + 1);
                pairs.insert(at, (key, value));
            }
        }
        if self.random.one_in(6) {
            self.spoil(&mut pairs);
        }
        let mut bytes = encoded(&pairs);
        match self.random.below(40) {
            0 => bytes.truncate(self.random.below(bytes.len() + 1)),
            1 => drop(bytes.pop()),
            2 => {
                let left_over = 1 + self.random.below(3);
                bytes.extend(self.random.bytes(left_over));
            }
            3 => {
                let length = self.random.below(12);
                bytes = self.random.bytes(length);
            }
            _ => (),
        }
        (bytes, held)
    }

    /// Good pairs with different keys, short ones where that is asked, now and then one or two too
    /// many.
    fn pair_list(&mut self, short: bool) -> PairList {
        let count = match self.random.below(16) {
            0..=2 => MOST_PAIRS,
            3 => MOST_PAIRS + 1,
            4 => MOST_PAIRS + 2,
            5 => 1,
            _ => self.random.below(MOST_PAIRS),
        };
        let mut pairs = PairList::new();
        while pairs.len() < count {
            let key = match self.random.below(24) {
                _ if short => self.random.pick(&KEYS[..12]).as_bytes().to_vec(),
                0 => good_key(&mut self.random, LONGEST_KEY),
                1 => good_key(&mut self.random, LONGEST_KEY - 1),
                2 => {
                    let length = 1 + self.random.below(LONGEST_KEY);
                    good_key(&mut self.random, length)
                }
                _ => self.random.pick(&KEYS).as_bytes().to_vec(),
            };
            let length = match self.random.below(24) {
                3.. if short => self.random.below(2),
                0 => LONGEST_VALUE,
                1 => LONGEST_VALUE - 1,
                2..=7 => 0,
                _ => self.random.below(7),
            };
            if pairs.iter().all(|(other, _)| *other != key) {
                pairs.push((key, good_value(&mut self.random, length)));
            }
        }
        pairs
    }

    /// One pair that takes just what is free, or a byte more.
    fn fitted(&mut self, free: usize) -> PairList {
        let held = (free + self.random.below(2)).clamp(1, LONGEST_KEY + LONGEST_VALUE);
        let least = held.saturating_sub(LONGEST_VALUE).max(1);
        let length = least + self.random.below(held.min(LONGEST_KEY) - least + 1);
        let key = good_key(&mut self.random, length);
        vec![(key, good_value(&mut self.random, held - length))]
    }

    /// Makes one of the pairs a bad one, or two of them equal.
    fn spoil(&mut self, pairs: &mut PairList) {
        if pairs.is_empty() {
            return;
        }
        let at = self.random.below(pairs.len());
        let (key, value) = &mut pairs[at];
        let (in_key, in_value) =
            (self.random.below(key.len().max(1)), self.random.below(value.len() + 1));
        match self.random.below(8) {
            0 | 1 => key[in_key] = *self.random.pick(&NO_KEY_BYTES),
            2 => value.insert(in_value, *self.random.pick(&NO_VALUE_BYTES)),
            3 => {
                let length = *self.random.pick(&[0, 33, 34, 64, 255]);
                *key = good_key(&mut self.random, length);
            }
            4 => {
                let length = *self.random.pick(&[65, 66, 128, 255]);
                *value = good_value(&mut self.random, length);
            }
            5 | 6 => {
                let twice = (key.clone(), value.clone());
                let to = self.random.below(pairs.len() + 1);
                pairs.insert(to, twice);
            }
            _ => {
                let length = self.random.below(9);
                let twice = (key.clone(), good_value(&mut self.random, length));
                pairs.push(twice);
            }
        }
    }

    /// The bytes of an object's data and of its pairs.
    fn needs(&self, path: &[u8]) -> (usize, usize) {
        let object = self.model.objects.get(path);
        object.map_or((0, 0), |object| (object.data.len(), pair_bytes(&object.pairs).len()))
    }

    /// GET into buffers for which there is just room.
    fn get_fitting(&self, path: &[u8]) -> Call {
        let (need, pairs_need) = self.needs(path);
        let (buffer, pairs_buffer) = (vec![0; need], vec![0; pairs_need]);
        Call::Get { path: path.to_vec(), buffer, pairs_buffer }
    }

    /// A buffer of about this length.
    fn buffer(&mut self, need: usize) -> Vec<u8> {
        let length = match self.random.below(8) {
            0 | 1 => need.saturating_sub(1),
            2 => self.random.below(need + 1),
            3 => need + 1 + self.random.below(70),
            4 => need + 1,
            _ => need,
        };
        self.random.bytes(length)
    }

    /// The bytes that a listing writes.
    fn need(&mut self, call: Call) -> usize {
        match self.model.call(&call).answer {
            Answer::Written { bytes, .. } => bytes as usize,
            other => panic!("{other:?}"),
        }
    }

    /// Part of a path, or something else.
    fn piece(&mut self, back: bool) -> Vec<u8> {
        let path = match self.random.one_in(2) {
            true => self.stored_path().unwrap_or_default(),
            false => self.good_path(),
        };
        let cut = self.random.below(path.len() + 1);
        match self.random.below(16) {
            0 => path,
            1 => [path, b"/".to_vec()].concat(),
            2 => {
                let length = self.random.below(5);
                self.random.bytes(length)
            }
            3 => self.random.bytes(300),
            4 => vec![b'a'],
            5..=8 => Vec::new(),
            _ if back => path[cut..].to_vec(),
            _ => path[..cut].to_vec(),
        }
    }

    fn list(&mut self) -> Call {
        let (prefix, suffix) = (self.piece(false), self.piece(true));
        let buffer = vec![0; MOST_OBJECTS * 178];
        let (p, s) = (prefix.clone(), suffix.clone());
        let need = self.need(Call::List { prefix: p, suffix: s, buffer });
        Call::List { prefix, suffix, buffer: self.buffer(need) }
    }

    fn uploads(&mut self) -> Call {
        let prefix = self.piece(false);
        let need = self.need(Call::Uploads { prefix: prefix.clone(), buffer: vec![0; 16 * 143] });
        Call::Uploads { prefix, buffer: self.buffer(need) }
    }

    fn upload(&mut self) -> u32 {
        let open: Vec<u32> = self.model.uploads.keys().copied().collect();
        match self.random.below(24) {
            0 => 0,
            1 => self.model.next as u32,
            2 => 1 + self.random.below(self.model.next as usize) as u32,
            _ if open.is_empty() => 1,
            3 => self.random.pick(&open) ^ 1 << self.random.below(32),
            4..=14 => {
                let most = open.iter().max_by_key(|upload| self.model.uploads[upload].parts.len());
                *most.expect("an upload")
            }
            _ => *self.random.pick(&open),
        }
    }

    fn part(&mut self) -> Call {
        let upload = self.upload();
        let parts: Vec<(u16, usize)> = match self.model.uploads.get(&upload) {
            Some(upload) => upload.parts.iter().map(|(i, part)| (*i, part.data.len())).collect(),
            None => Vec::new(),
        };
        let (part, old) = match self.random.below(24) {
            0 => (0, 0),
            1 | 2 => (*self.random.pick(&PART_EDGES), 0),
            3 => (self.random.draw() as u16, 0),
            4..=10 if !parts.is_empty() => *self.random.pick(&parts),
            _ => (1 + self.random.below(12) as u16, 0),
        };
        let free = self.free() + old;
        Call::Part { upload, part, data: self.data(free, old) }
    }

    fn commit(&mut self) -> Call {
        let upload = self.upload();
        let mut parts: Vec<u16> = match self.model.uploads.get(&upload) {
            Some(upload) => upload.parts.keys().copied().collect(),
            None => vec![1],
        };
        match self.random.below(4) {
            0 => parts.reverse(),
            1 => (),
            _ => self.random.shuffle(&mut parts),
        }
        let at = self.random.below(parts.len() + 1);
        match self.random.below(16) {
            0 => parts.truncate(parts.len().saturating_sub(1)),
            1 if at < parts.len() => parts.insert(at, parts[at]),
            2 if !parts.is_empty() => parts.push(parts[0]),
            3 if self.random.one_in(3) => parts.insert(at, *self.random.pick(&PART_EDGES)),
            3 => parts.insert(at, self.random.below(20) as u16),
            4 if at < parts.len() => parts[at] ^= 1 << self.random.below(16),
            5 if at < parts.len() => parts[at] = parts[0],
            6 => parts.clear(),
            7 if self.random.one_in(4) => {
                parts = (1..=self.random.below(12_000) as u16).collect();
            }
            _ => (),
        }
        let mut list: Vec<u8> = parts.iter().flat_map(|part| part.to_le_bytes()).collect();
        if self.random.one_in(20) {
            list.push(self.random.draw() as u8);
        } else if self.random.one_in(40) {
            list.pop();
        }
        Call::Commit { upload, list }
    }

    /// With a stamp about the start of an open upload, mostly, and about as many as are due.
    fn sweep(&mut self) -> Call {
        let starts: Vec<u64> = self.model.uploads.values().map(|upload| upload.started).collect();
        let stamp = match self.random.below(16) {
            0..=3 => self.stamp(),
            _ if starts.is_empty() => self.stamp(),
            4..=6 => self.random.pick(&starts) - 1,
            7..=10 => *self.random.pick(&starts),
            _ => self.random.pick(&starts).saturating_add(1),
        };
        let due = starts.iter().filter(|start| **start < stamp).count() as u32;
        let most = match self.random.below(16) {
            0 | 1 => 0,
            2..=4 => 1,
            5..=7 => due,
            8 => due + 1,
            9 => due.saturating_sub(1),
            10 => u32::MAX,
            11 => 1 << self.random.below(32),
            _ => self.random.below(6) as u32,
        };
        Call::Sweep { stamp, most }
    }

    /// A few places, now and then hundreds or about as many as there can be.
    fn delete_objects(&mut self) -> Call {
        let count = match self.random.below(32) {
            0 => MOST_PLACES - 1 + self.random.below(4),
            1 => self.random.below(300),
            2 => 0,
            3..=5 => self.random.below(12),
            _ => 1 + self.random.below(3),
        };
        let paths: Vec<Vec<u8>> = (0..count.min(300)).map(|_| self.path()).collect();
        let (names, spans) = end_to_end(&paths);
        let places = (0..count).map(|i| self.place(i, &spans, names.len())).collect::<Vec<_>>();
        let mut places = place_bytes(&places);
        if self.random.one_in(if count < MOST_PLACES - 1 { 16 } else { 3 }) {
            let left_over = 1 + self.random.below(7);
            places.extend(self.random.bytes(left_over));
        }
        Call::DeleteObjects { names, places, buffer: self.buffer(count) }
    }

    /// The place of a name, mostly the i-th; or one that is empty, overlaps other names, ends about
    /// where the names end, or passes 32 bits.
    fn place(&mut self, i: usize, spans: &[(usize, usize)], end: usize) -> (usize, usize) {
        let (start, length) = match spans.get(i) {
            Some(span) if !self.random.one_in(8) => *span,
            _ => *self.random.pick(spans),
        };
        let last = u32::MAX as usize;
        match self.random.below(32) {
            0 => (start, 0),
            1 => (start, length + 1),
            2 => (start, length / 2),
            3 => (start + length / 2, length - length / 2),
            4 => (start, end - start),
            5 => (start, end - start + 1),
            6 => (end, self.random.below(3)),
            7 => (last, last),
            8 => (start, last - self.random.below(2)),
            // To the end of the first name, were starts counted modulo 2^32.
            9 => {
                let before = self.random.below(4);
                (last - before, before + 1 + spans[0].1)
            }
            10 => (self.random.draw() as u32 as usize, self.random.below(200)),
            _ => (start, length),
        }
    }

    /// All objects, in any order.
    fn delete_all(&mut self) {
        let mut paths: Vec<Vec<u8>> = self.model.objects.keys().cloned().collect();
        self.random.shuffle(&mut paths);
        let (names, spans) = end_to_end(&paths);
        let buffer = self.random.bytes(spans.len());
        self.push_right(Call::DeleteObjects { names, places: place_bytes(&spans), buffer });
    }

    /// Calls that together show the whole state: all listings, all data, each upload committed, N.
    fn show_all(&mut self) {
        let list = Call::List { prefix: vec![], suffix: vec![], buffer: vec![0; 256 * 178] };
        let uploads = Call::Uploads { prefix: vec![], buffer: vec![0; 16 * 143] };
        self.push_right(list.clone());
        self.push_right(uploads.clone());
        let paths: Vec<Vec<u8>> = self.model.objects.keys().cloned().collect();
        for path in &paths {
            // Of many objects, some: each list costs about the same then.
            if paths.len() < 40 || self.random.one_in(8) {
                self.push_right(self.get_fitting(path));
            }
        }
        let open: Vec<u32> = self.model.uploads.keys().copied().collect();
        for upload in open {
            let path = self.model.uploads[&upload].path.clone();
            let mut parts: Vec<u16> = self.model.uploads[&upload].parts.keys().copied().collect();
            self.random.shuffle(&mut parts);
            if self.model.objects.len() == MOST_OBJECTS {
                let first = self.model.objects.keys().next().expect("a path").clone();
                self.push_right(Call::Delete { path: first });
            }
            let list = parts.iter().flat_map(|part| part.to_le_bytes()).collect();
            self.push_right(Call::Commit { upload, list });
            self.push_right(self.get_fitting(&path));
        }
        self.push_right(Call::Initiate { stamp: 1, path: b"last".to_vec(), pairs: Vec::new() });
        self.push_right(uploads);
        self.push_right(list);
    }
}

#[cfg(test)]
mod tests {
    use super::*;

    #[test]
    fn paths_are_what_they_are_called() {
        let mut random = Random::new(1, 1);
        for _ in 0..2000 {
            assert!(pool(&mut random).iter().all(|path| model::path_ok(path)));
            let path = bad_path(&mut random);
            assert!(!model::path_ok(&path) || path.len() < 13, "{path:?}");
        }
    }
}
