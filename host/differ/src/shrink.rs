//! A smaller list that still shows a difference.

use crate::layout::without_pairs;
use crate::list::{renumber, Bit, CarryOver, Lending, Line, List, Step};
use model::{name_at, path_ok, Answer, Call, Model, NUMBERS_END};
use std::collections::{BTreeMap, BTreeSet};
use std::time::{Duration, Instant};

/// No new list is tried after this long.
const LONGEST: Duration = Duration::from_secs(240);

/// Takes steps out and makes arguments plainer as long as the list fails. `fails` gives the step
/// that does.
pub fn shrink(list: &List, fails: impl FnMut(&List) -> Option<usize>) -> List {
    let mut search = Search { best: list.clone(), fails, start: Instant::now() };
    search.accepts(list.clone());
    loop {
        let before = search.best.clone();
        // First, since lists over a small arena are quick to try.
        search.smaller_arena();
        search.fewer_steps();
        search.fewer_uploads();
        search.fewer_parts();
        search.closer_stamps();
        search.plainer_steps();
        search.shorter_paths();
        if search.best == before {
            return search.best;
        }
    }
}

struct Search<F> {
    best: List,
    fails: F,
    start: Instant,
}

impl<F: FnMut(&List) -> Option<usize>> Search<F> {
    /// Takes the list where it fails, without the steps after that.
    fn accepts(&mut self, list: List) -> bool {
        if self.start.elapsed() > LONGEST || self.best.steps.is_empty() {
            return false;
        }
        let step = (self.fails)(&list);
        if let Some(step) = step {
            self.best = list;
            self.best.steps.truncate(step);
        }
        step.is_some()
    }

    /// The best list with a change.
    fn accepts_with(&mut self, change: impl FnOnce(&mut List)) -> bool {
        let mut list = self.best.clone();
        change(&mut list);
        list != self.best && self.accepts(list)
    }

    /// Without runs of steps, long ones first.
    fn fewer_steps(&mut self) {
        let mut size = self.best.steps.len().div_ceil(2);
        while size > 0 {
            let mut end = self.best.steps.len();
            while end > 0 {
                end = end.min(self.best.steps.len());
                let start = end.saturating_sub(size);
                self.accepts_with(|list| drop(list.steps.drain(start..end)));
                end = start;
            }
            size /= 2;
        }
    }

    /// Over an arena of the first of these lengths that will do, and with no number left where the
    /// list starts late.
    fn smaller_arena(&mut self) {
        let before = self.best.arena;
        let arenas = [0, 1, 4, 16, 64, 256, 1024, 4096, 16_384];
        for arena in arenas.into_iter().filter(|arena| *arena < before) {
            let smaller = |list: &mut List| {
                list.arena = arena;
                let lent = list.steps.iter_mut().filter_map(Step::lending_mut);
                let right = lent.filter(|lending| lending.arena == before);
                right.for_each(|lending| lending.arena = arena);
            };
            let and_later = |list: &mut List| {
                smaller(list);
                list.next = NUMBERS_END;
            };
            let late = self.best.next > 1;
            if self.accepts_with(smaller) || late && self.accepts_with(and_later) {
                return;
            }
        }
    }

    /// Without an upload and all that names it; the later ones move up, or, where the list starts at
    /// a later number, the earlier ones down.
    fn fewer_uploads(&mut self) {
        let mut i = 0;
        while i < self.best.steps.len() {
            let Some(gone) = opened(&self.best)[i] else {
                i += 1;
                continue;
            };
            let moved_up = |list: &mut List| {
                without_upload(list, i, gone);
                let named = list.steps.iter_mut().filter_map(upload_of);
                named.filter(|upload| **upload > gone).for_each(|upload| *upload -= 1);
            };
            let moved_down = |list: &mut List| {
                without_upload(list, i, gone);
                list.next += 1;
                let named = list.steps.iter_mut().filter_map(upload_of);
                named.filter(|upload| **upload < gone).for_each(|upload| *upload += 1);
            };
            let late = self.best.next > 1;
            if !self.accepts_with(moved_up) && !(late && self.accepts_with(moved_down)) {
                i += 1;
            }
        }
    }

    /// Without a part, also in the lists that name it; many parts at once first.
    fn fewer_parts(&mut self) {
        let mut parts: Vec<(u32, u16)> = self.best.steps.iter().filter_map(part).collect();
        parts.dedup();
        let mut size = parts.len().div_ceil(2);
        while size > 0 {
            for gone in parts.chunks(size) {
                self.accepts_with(|list| {
                    list.steps.retain(|step| part(step).is_none_or(|part| !gone.contains(&part)));
                    for step in &mut list.steps {
                        if let Step::Call(Call::Commit { upload, list }, _) = step {
                            let stays = |pair: &&[u8]| {
                                pair.len() < 2
                                    || !gone.contains(&(
                                        *upload,
                                        u16::from_le_bytes([pair[0], pair[1]]),
                                    ))
                            };
                            *list = list.chunks(2).filter(stays).collect::<Vec<_>>().concat();
                        }
                    }
                });
            }
            size /= 2;
        }
    }

    /// With the starts of uploads and the stamps of sweeps, all at once, as small as they can be in
    /// their order, and still equal or one apart where they are.
    fn closer_stamps(&mut self) {
        let mut steps = self.best.steps.clone();
        let stamps: BTreeSet<u64> = steps.iter_mut().filter_map(compared).map(|at| *at).collect();
        let (mut closer, mut before, mut last) = (BTreeMap::new(), 0, 0);
        for stamp in stamps {
            last += (stamp - before).min(2);
            before = stamp;
            closer.insert(stamp, last);
        }
        self.accepts_with(|list| {
            list.steps.iter_mut().filter_map(compared).for_each(|stamp| *stamp = closer[stamp]);
        });
    }

    fn plainer_steps(&mut self) {
        let mut i = 0;
        while i < self.best.steps.len() {
            let forms = plainer(&self.best.steps[i], self.best.arena);
            let plainer =
                forms.into_iter().any(|step| self.accepts_with(|list| list.steps[i] = step));
            if !plainer {
                i += 1;
            }
        }
    }

    /// With each good path as short as can be, under a name of its own.
    fn shorter_paths(&mut self) {
        let mut named = BTreeSet::new();
        for step in &mut self.best.steps.clone() {
            named.extend(paths(step).into_iter().map(|path| path.clone()));
        }
        let short = (b'a'..=b'z').map(|letter| vec![letter]);
        for name in short.filter(|name| !named.contains(name)).collect::<Vec<_>>() {
            let Some(long) = named.iter().find(|path| path.len() > 1 && path_ok(path)).cloned()
            else {
                return;
            };
            self.accepts_with(|list| {
                list.steps.iter_mut().for_each(|step| rename(step, &long, &name));
            });
            named.remove(&long);
        }
    }
}

/// The number that each step answers, where it opens an upload.
fn opened(list: &List) -> Vec<Option<u32>> {
    let mut model = Model::fresh(list.arena);
    model.next = list.next;
    let answer = |step: &Step| match step {
        Step::Call(call, _) => match model.call(call).answer {
            Answer::Upload(number) => Some(number),
            _ => None,
        },
        Step::CarryOver(_) => {
            model = without_pairs(&model);
            None
        }
        Step::OlderPart { upload, part, number } => {
            renumber(&mut model, *upload, *part, *number);
            None
        }
        _ => None,
    };
    list.steps.iter().map(answer).collect()
}

/// The upload that a step names.
fn upload_of(step: &mut Step) -> Option<&mut u32> {
    match step {
        Step::Call(Call::Part { upload, .. }, _)
        | Step::Call(Call::Commit { upload, .. }, _)
        | Step::Call(Call::Abort { upload }, _)
        | Step::OlderPart { upload, .. } => Some(upload),
        _ => None,
    }
}

/// Takes out the step that opens an upload, and all that name it.
fn without_upload(list: &mut List, step: usize, gone: u32) {
    list.steps.remove(step);
    list.steps.retain_mut(|step| upload_of(step).is_none_or(|upload| *upload != gone));
}

/// The stamp of a step where sweeps compare it.
fn compared(step: &mut Step) -> Option<&mut u64> {
    match step {
        Step::Call(Call::Initiate { stamp, .. }, _) | Step::Call(Call::Sweep { stamp, .. }, _) => {
            Some(stamp)
        }
        _ => None,
    }
}

/// The part that a step sets.
fn part(step: &Step) -> Option<(u32, u16)> {
    match step {
        Step::Call(Call::Part { upload, part, .. }, _) => Some((*upload, *part)),
        _ => None,
    }
}

/// The paths that a step names.
fn paths(step: &mut Step) -> Vec<&mut Vec<u8>> {
    let Step::Call(call, _) = step else { return Vec::new() };
    match call {
        Call::Put { path, .. } | Call::Get { path, .. } | Call::Head { path, .. } => vec![path],
        Call::Delete { path } | Call::Initiate { path, .. } => vec![path],
        Call::Copy { source, destination, .. } => vec![source, destination],
        _ => Vec::new(),
    }
}

/// The step with another name for a path.
fn rename(step: &mut Step, path: &[u8], name: &[u8]) {
    for found in paths(step).into_iter().filter(|found| **found == path) {
        *found = name.to_vec();
    }
    if let Step::Call(Call::DeleteObjects { names, places, .. }, _) = step {
        if places.chunks_exact(8).any(|place| name_at(names, place) == Some(path)) {
            let renamed = |found| if found == path { name } else { found };
            (*names, *places) = laid_apart(names, places, renamed);
        }
    }
}

/// The names of DELETE_OBJECTS, each changed and one time, end to end; places outside them stay.
fn laid_apart<'a>(
    names: &'a [u8],
    places: &[u8],
    change: impl Fn(&'a [u8]) -> &'a [u8],
) -> (Vec<u8>, Vec<u8>) {
    let (mut apart, mut moved, mut starts) = (Vec::new(), Vec::new(), BTreeMap::new());
    for place in places.chunks(8) {
        let name = if place.len() == 8 { name_at(names, place).map(&change) } else { None };
        let Some(name) = name else {
            moved.extend(place);
            continue;
        };
        let start = *starts.entry(name).or_insert(apart.len());
        if start == apart.len() {
            apart.extend(name);
        }
        moved.extend((start as u32).to_le_bytes());
        moved.extend((name.len() as u32).to_le_bytes());
    }
    (apart, moved)
}

/// The bits without one of them.
fn fewer_bits(bits: &[Bit]) -> Vec<Vec<Bit>> {
    (0..bits.len()).map(|i| [&bits[..i], &bits[i + 1..]].concat()).collect()
}

/// Plainer forms of a step, each strictly plainer than it.
fn plainer(step: &Step, arena: usize) -> Vec<Step> {
    match step {
        Step::Flip(bits) if bits.len() > 1 => {
            fewer_bits(bits).into_iter().map(Step::Flip).collect()
        }
        Step::CarryOver(made) => {
            let right = CarryOver::right(arena, 0);
            let mut forms = vec![
                CarryOver { lending: right.lending, ..made.clone() },
                CarryOver { former: right.former, ..made.clone() },
                CarryOver { fill: 0, ..made.clone() },
            ];
            let fewer = fewer_bits(&made.bits).into_iter();
            forms.extend(fewer.map(|bits| CarryOver { bits, ..made.clone() }));
            forms.into_iter().filter(|form| form != made).map(Step::CarryOver).collect()
        }
        Step::Call(call, lending) => {
            let plainer = plainer_lendings(lending, arena).map(|to| Step::Call(call.clone(), to));
            let calls = plainer_calls(call).into_iter();
            plainer.chain(calls.map(|call| Step::Call(call, *lending))).collect()
        }
        Step::Line(line, lending) => {
            let plainer = plainer_lendings(lending, arena).map(|to| Step::Line(line.clone(), to));
            plainer.chain(plainer_lines(line).map(|line| Step::Line(line, *lending))).collect()
        }
        _ => Vec::new(),
    }
}

/// All as the store wants it, by a line still or not, or the guard pages alone at their plain side.
fn plainer_lendings(lending: &Lending, arena: usize) -> impl Iterator<Item = Lending> {
    let (lending, right) = (*lending, Lending::right(arena));
    let by_line = Lending { by_line: lending.by_line, ..right };
    let plainer = [right, by_line, Lending { sides: 0, ..lending }];
    plainer.into_iter().filter(move |plainer| *plainer != lending)
}

/// The line with shorter or zeroed buffers, or without a run of bytes.
fn plainer_lines(line: &Line) -> impl Iterator<Item = Line> + '_ {
    let with = |text: Vec<u8>| Line { text, ..line.clone() };
    let (text, mut size, mut lines) = (&line.text, line.text.len().div_ceil(2), Vec::new());
    lines.extend(shorter(&line.buffer).into_iter().map(|buffer| Line { buffer, ..line.clone() }));
    let second = shorter(&line.pairs_buffer).into_iter();
    lines.extend(second.map(|pairs_buffer| Line { pairs_buffer, ..line.clone() }));
    while size > 0 && text.len() / size <= 64 {
        for from in (0..text.len()).step_by(size) {
            let to = text.len().min(from + size);
            lines.push(with([&text[..from], &text[to..]].concat()));
        }
        size /= 2;
    }
    lines.into_iter()
}

/// The call with shorter or zeroed data, answer buffers, prefix, suffix or names, fewer places, fewer
/// or plainer pairs, fewer uploads to sweep, or a small stamp.
fn plainer_calls(call: &Call) -> Vec<Call> {
    let mut calls = plainer_deletes(call);
    calls.extend(plainer_pairs(call));
    if let Call::Sweep { stamp, most } = *call {
        let fewer = [0, 1, most.clamp(1, 17) - 1].into_iter().filter(|fewer| *fewer < most);
        calls.extend(fewer.map(|most| Call::Sweep { stamp, most }));
    }
    for i in 0..3 {
        let mut probe = call.clone();
        let Some(bytes) = loose_bytes(&mut probe).into_iter().nth(i) else { break };
        for form in shorter(bytes) {
            let mut plainer = call.clone();
            *loose_bytes(&mut plainer).swap_remove(i) = form;
            calls.push(plainer);
        }
    }
    let mut plainer = call.clone();
    match &mut plainer {
        Call::Put { stamp, .. } | Call::Copy { stamp, .. } | Call::Initiate { stamp, .. }
            if *stamp > 9 =>
        {
            *stamp = *stamp % 9 + 1;
            calls.push(plainer);
        }
        _ => (),
    }
    calls
}

/// DELETE_OBJECTS with the names that are named alone, or without a run of places and as many bytes
/// for results.
fn plainer_deletes(call: &Call) -> Vec<Call> {
    let Call::DeleteObjects { names, places, buffer } = call else { return Vec::new() };
    let mut calls = Vec::new();
    let (apart, moved) = laid_apart(names, places, |name| name);
    if apart.len() < names.len() {
        calls.push(Call::DeleteObjects { names: apart, places: moved, buffer: buffer.clone() });
    }
    let count = places.chunks(8).len();
    let mut size = count.div_ceil(2);
    while size > 0 && count / size <= 32 {
        for from in (0..count).step_by(size) {
            let (front, back) = (8 * from, places.len().min(8 * (from + size)));
            calls.push(Call::DeleteObjects {
                names: names.clone(),
                places: [&places[..front], &places[back..]].concat(),
                buffer: buffer[..buffer.len().saturating_sub(size)].to_vec(),
            });
        }
        size /= 2;
    }
    calls
}

/// PUT or INITIATE without a pair, or with a shorter key or value; malformed bytes that are shorter.
fn plainer_pairs(call: &Call) -> Vec<Call> {
    let bytes = match call {
        Call::Put { pairs, .. } | Call::Initiate { pairs, .. } => pairs,
        _ => return Vec::new(),
    };
    let with = |plainer: Vec<u8>| {
        let mut call = call.clone();
        if let Call::Put { pairs, .. } | Call::Initiate { pairs, .. } = &mut call {
            *pairs = plainer;
        }
        call
    };
    let (pairs, cut) = split_pairs(bytes);
    let joined = |pairs: &[Pair]| {
        let counted = |bytes: &[u8]| [&[bytes.len() as u8], bytes].concat();
        let bytes = pairs.iter().flat_map(|(key, value)| [counted(key), counted(value)].concat());
        bytes.chain(cut.iter().copied()).collect()
    };
    let mut forms: Vec<Vec<u8>> = Vec::new();
    if !bytes.is_empty() {
        forms.push(Vec::new());
    }
    if !cut.is_empty() {
        forms.push(bytes[..bytes.len() - 1].to_vec());
    }
    for (i, (key, value)) in pairs.iter().enumerate() {
        forms.push(joined(&[&pairs[..i], &pairs[i + 1..]].concat()));
        let mut shorter = |key, value| {
            let mut plainer = pairs.clone();
            plainer[i] = (key, value);
            forms.push(joined(&plainer));
        };
        for length in [0, value.len() / 2, value.len().saturating_sub(1)] {
            if length < value.len() {
                shorter(key, &value[..length]);
            }
        }
        for length in [1, key.len().saturating_sub(1)] {
            if length < key.len() {
                shorter(&key[..length], value);
            }
        }
    }
    forms.into_iter().map(with).collect()
}

type Pair<'a> = (&'a [u8], &'a [u8]);

/// The pairs in these bytes, and what is cut off after them.
fn split_pairs(mut bytes: &[u8]) -> (Vec<Pair<'_>>, &[u8]) {
    let counted = |bytes: &[u8]| bytes.first().map_or(0, |length| 1 + usize::from(*length));
    let mut pairs = Vec::new();
    while !bytes.is_empty() {
        let middle = counted(bytes);
        let Some(rest) = bytes.get(middle..).filter(|rest| !rest.is_empty()) else { break };
        let Some(value) = rest.get(1..counted(rest)) else { break };
        pairs.push((&bytes[1..middle], value));
        bytes = &rest[1 + value.len()..];
    }
    (pairs, bytes)
}

/// The bytes of a call that may be of any length.
fn loose_bytes(call: &mut Call) -> Vec<&mut Vec<u8>> {
    match call {
        Call::Put { data, .. } | Call::Part { data, .. } => vec![data],
        Call::Get { buffer, pairs_buffer, .. } => vec![buffer, pairs_buffer],
        Call::Head { pairs_buffer, .. } => vec![pairs_buffer],
        Call::DeleteObjects { names, buffer, .. } => vec![buffer, names],
        Call::List { prefix, suffix, buffer } => vec![buffer, prefix, suffix],
        Call::Uploads { prefix, buffer } => vec![buffer, prefix],
        _ => Vec::new(),
    }
}

fn shorter(bytes: &[u8]) -> Vec<Vec<u8>> {
    let mut forms = Vec::new();
    for length in [0, bytes.len() / 2, bytes.len().saturating_sub(1)] {
        if length < bytes.len() {
            forms.push(bytes[..length].to_vec());
        }
    }
    if bytes.iter().any(|byte| *byte != 0) {
        forms.push(vec![0; bytes.len()]);
    }
    forms
}
