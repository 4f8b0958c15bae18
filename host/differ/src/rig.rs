//! One list over the library and over the model, compared after each call.

use crate::guard::Region;
use crate::layout::{self, state_of, NEXT_AT};
use crate::library::Library;
use crate::list::{flip, renumber, CarryOver, Lending, Line, List, Said, Step};
use crate::random::Random;
use crate::reply::{bytes_of, REPLY_LEN};
use crate::tally::Tally;
use model::{pair_bytes, Answer, Call, Model, Reply, Upload};
use model::{LARGEST_ARENA, LAST_PART, NOT_A_LINE};
use rathnodi::TABLES_LEN;
use std::sync::atomic::Ordering::Relaxed;

/// More than any length that is lent.
const LARGEST: usize = LARGEST_ARENA + 4096;
/// What a reply holds beforehand.
const REPLY_BEFORE: u8 = 0xd3;

/// Where and how the two stores differ; step 0 is FRESH.
#[derive(Debug)]
pub struct Difference {
    pub step: usize,
    pub what: String,
}

struct Memory {
    tables: Region,
    arena: Region,
}

pub struct Rig {
    library: Box<dyn Library>,
    tally: &'static Tally,
    /// The store's memory, and that of a call that is lent other lengths.
    home: Memory,
    odd: Memory,
    /// The home memory as it was.
    tables_before: Vec<u8>,
    arena_before: Vec<u8>,
    former: Region,
    first: Region,
    second: Region,
    third: Region,
    answer: Region,
    pairs_answer: Region,
    reply: Region,
}

/// The argument slices of a call; some may be unused.
fn arguments(call: &Call) -> [&[u8]; 3] {
    match call {
        Call::Put { path, data, pairs, .. } => [path, data, pairs],
        Call::Copy { source, destination, .. } => [source, destination, &[]],
        Call::DeleteObjects { names, places, .. } => [names, places, &[]],
        Call::List { prefix, suffix, .. } => [prefix, suffix, &[]],
        Call::Initiate { path, pairs, .. } => [path, pairs, &[]],
        Call::Get { path, .. } | Call::Head { path, .. } | Call::Delete { path } => {
            [path, &[], &[]]
        }
        Call::Part { data, .. } => [data, &[], &[]],
        Call::Commit { list, .. } => [list, &[], &[]],
        Call::Abort { .. } | Call::Sweep { .. } => [&[], &[], &[]],
        Call::Uploads { prefix, .. } => [prefix, &[], &[]],
    }
}

fn has_reply(call: &Call) -> bool {
    match call {
        Call::Put { .. } | Call::Delete { .. } | Call::DeleteObjects { .. } => false,
        Call::Copy { .. } | Call::Commit { .. } | Call::Abort { .. } => false,
        Call::Get { .. } | Call::Head { .. } | Call::List { .. } => true,
        Call::Initiate { .. } | Call::Part { .. } => true,
        Call::Sweep { .. } | Call::Uploads { .. } => true,
    }
}

fn only_reads(call: &Call) -> bool {
    matches!(call, Call::Get { .. } | Call::Head { .. } | Call::List { .. } | Call::Uploads { .. })
}

/// The call concerns a part above 10,000, which an older store holds.
fn concerns_older_parts(state: &Model, call: &Call) -> bool {
    let holds = |upload: &Upload| upload.parts.range(LAST_PART + 1..).next().is_some();
    match call {
        Call::Commit { upload, .. } | Call::Abort { upload } => {
            state.uploads.get(upload).is_some_and(holds)
        }
        Call::Part { upload, part, .. } if *part > LAST_PART => {
            state.uploads.get(upload).is_some_and(|upload| upload.parts.contains_key(part))
        }
        Call::Uploads { prefix, .. } => {
            state.uploads.values().any(|upload| upload.path.starts_with(prefix) && holds(upload))
        }
        _ => false,
    }
}

/// The bytes cut or lengthened by zeros.
fn resized(bytes: &[u8], length: usize) -> Vec<u8> {
    let mut bytes = bytes.to_vec();
    bytes.resize(length, 0);
    bytes
}

/// Says the first byte that is not as it should be.
fn same(what: &str, expected: &[u8], found: &[u8]) -> Result<(), String> {
    if expected == found {
        return Ok(());
    }
    let at = expected.iter().zip(found).position(|(a, b)| a != b).unwrap_or(0);
    let (wanted, got) = (expected.get(at), found.get(at));
    Err(format!("{what}, byte {at}: expected {wanted:?}, found {got:?}"))
}

/// The memory begins with the state's bytes.
fn stands_for(memory: &Memory, state: &Model) -> Result<(), String> {
    let bytes = layout::bytes_of(state);
    let (tables, arena) = (memory.tables.bytes(), memory.arena.bytes());
    same("the tables' state", &bytes.tables, &tables[..bytes.tables.len()])?;
    same("the arena's state", &bytes.arena, &arena[..bytes.arena.len()])
}

impl Rig {
    pub fn new(library: Box<dyn Library>, tally: &'static Tally) -> Rig {
        let memory = || Memory { tables: Region::new(2 * TABLES_LEN), arena: Region::new(LARGEST) };
        Rig {
            library,
            tally,
            home: memory(),
            odd: memory(),
            tables_before: Vec::new(),
            arena_before: Vec::new(),
            former: Region::new(2 * TABLES_LEN),
            first: Region::new(LARGEST),
            second: Region::new(LARGEST),
            third: Region::new(LARGEST),
            answer: Region::new(LARGEST),
            pairs_answer: Region::new(LARGEST),
            reply: Region::new(1024),
        }
    }

    pub fn run(&mut self, list: &List) -> Result<(), Difference> {
        self.tally.step.store(0, Relaxed);
        let at = |step| move |what| Difference { step, what };
        let mut model = Some(self.start(list).map_err(at(0))?);
        for (i, step) in list.steps.iter().enumerate() {
            self.tally.step.store(i as u64 + 1, Relaxed);
            match step {
                Step::Call(call, lending) => self.call(call, lending, &mut model),
                Step::Line(line, lending) => self.line(line, lending, &mut model),
                Step::Fresh(lending) => self.fresh(lending, &mut model),
                Step::CarryOver(step) => self.carry_over(step, list, &mut model),
                Step::OlderPart { upload, part, number } => {
                    if let Some(state) = &mut model {
                        renumber(state, *upload, *part, *number);
                        let rows = layout::bytes_of(state).tables;
                        self.home.tables.bytes_mut()[..rows.len()].copy_from_slice(&rows);
                        self.keep();
                    }
                    Ok(())
                }
                Step::Flip(_) | Step::Scribble { .. } => {
                    self.damage(step);
                    model = state_of(self.home.tables.bytes(), self.home.arena.bytes());
                    let count =
                        if model.is_some() { &self.tally.whole } else { &self.tally.broken };
                    count.fetch_add(1, Relaxed);
                    Ok(())
                }
            }
            .map_err(at(i + 1))?;
        }
        Ok(())
    }

    /// FRESH over filled memory, and N as the list wants it.
    fn start(&mut self, list: &List) -> Result<Model, String> {
        let mut random = Random::new(list.fill, 0);
        let (tables_side, arena_side) = list.sides;
        random.fill(self.home.tables.place(TABLES_LEN, tables_side));
        random.fill(self.home.arena.place(list.arena, arena_side));
        let mut model = None;
        self.keep();
        self.fresh(&Lending::right(list.arena), &mut model)?;
        let mut model = model.ok_or("FRESH was refused")?;
        let next = &mut self.home.tables.bytes_mut()[NEXT_AT..NEXT_AT + 8];
        next.copy_from_slice(&list.next.to_le_bytes());
        model.next = list.next;
        self.keep();
        Ok(model)
    }

    /// Takes the home memory as what later refusals must leave.
    fn keep(&mut self) {
        self.tables_before.clear();
        self.tables_before.extend(self.home.tables.bytes());
        self.arena_before.clear();
        self.arena_before.extend(self.home.arena.bytes());
    }

    /// The memory that a call is lent, and whether it is not the home memory.
    fn lend_memory(&mut self, lending: &Lending) -> bool {
        let (tables, arena) = (self.home.tables.bytes(), self.home.arena.bytes());
        let odd = lending.tables != tables.len() || lending.arena != arena.len();
        if odd {
            self.odd.tables.lend(&resized(tables, lending.tables), lending.side(4));
            self.odd.arena.lend(&resized(arena, lending.arena), lending.side(5));
        }
        odd
    }

    /// The lent memory is as before the call.
    fn memory_kept(&mut self, odd: bool, lending: &Lending) -> Result<(), String> {
        if odd {
            let tables = resized(&self.tables_before, lending.tables);
            let arena = resized(&self.arena_before, lending.arena);
            same("tables of another length", &tables, self.odd.tables.bytes())?;
            same("an arena of another length", &arena, self.odd.arena.bytes())?;
        }
        self.home_kept()
    }

    /// The home memory is as before the call.
    fn home_kept(&self) -> Result<(), String> {
        same("tables", &self.tables_before, self.home.tables.bytes())?;
        same("arena", &self.arena_before, self.home.arena.bytes())
    }

    /// No byte beside a lent slice has changed.
    fn kept_beside(&mut self) -> Result<(), String> {
        for (what, region) in [
            ("tables", &mut self.home.tables),
            ("arena", &mut self.home.arena),
            ("tables of another length", &mut self.odd.tables),
            ("arena of another length", &mut self.odd.arena),
            ("former tables", &mut self.former),
            ("first argument", &mut self.first),
            ("second argument", &mut self.second),
            ("third argument", &mut self.third),
            ("answer", &mut self.answer),
            ("second answer", &mut self.pairs_answer),
            ("reply", &mut self.reply),
        ] {
            if !region.kept_beside() {
                return Err(format!("a byte beside the {what} has changed"));
            }
        }
        Ok(())
    }

    fn fresh(&mut self, lending: &Lending, model: &mut Option<Model>) -> Result<(), String> {
        let odd = self.lend_memory(lending);
        let expected = if lending.tables != TABLES_LEN {
            1
        } else if lending.arena > LARGEST_ARENA {
            2
        } else {
            0
        };
        let memory = if odd { &mut self.odd } else { &mut self.home };
        let number = self.library.fresh(memory.tables.bytes_mut(), memory.arena.bytes_mut());
        if number != expected {
            return Err(format!("FRESH answered {number}, expected {expected}"));
        }
        self.tally.count(None, number);
        self.kept_beside()?;
        if number != 0 {
            return self.memory_kept(odd, lending);
        }
        let fresh = Model::fresh(lending.arena);
        if odd {
            self.home_kept()?;
            return stands_for(&self.odd, &fresh);
        }
        stands_for(&self.home, &fresh)?;
        *model = Some(fresh);
        self.keep();
        Ok(())
    }

    /// The former tables and the new ones stand apart from the home memory, which is theirs once
    /// they are carried over.
    fn carry_over(
        &mut self,
        step: &CarryOver,
        list: &List,
        model: &mut Option<Model>,
    ) -> Result<(), String> {
        let lending = &step.lending;
        let fresh = Model::fresh(list.arena);
        let (rows, data) = step.memory(model.as_ref().unwrap_or(&fresh));
        let mut tables = resized(self.home.tables.bytes(), lending.tables);
        self.former.lend(&rows, lending.side(0));
        self.odd.tables.lend(&tables, lending.side(4));
        self.odd.arena.lend(&data, lending.side(5));
        let stands_for = step.carries(&rows, &data);
        let expected = if stands_for.is_some() { 0 } else { 1 };

        let (former, arena) = (self.former.bytes(), self.odd.arena.bytes());
        let number = self.library.carry_over(former, arena, self.odd.tables.bytes_mut());

        if number != expected {
            return Err(format!("carry_over answered {number}, expected {expected}"));
        }
        self.tally.count_carry_over(number);
        if number == 0 {
            tables[..rows.len()].copy_from_slice(&rows);
        }
        same("former tables", &rows, self.former.bytes())?;
        same("the former store's arena", &data, self.odd.arena.bytes())?;
        same("new tables", &tables, self.odd.tables.bytes())?;
        self.kept_beside()?;
        self.home_kept()?;
        if number == 0 && data.len() == list.arena {
            self.home.tables.bytes_mut().copy_from_slice(&tables);
            self.home.arena.bytes_mut().copy_from_slice(&data);
            *model = stands_for;
            self.keep();
        }
        Ok(())
    }

    fn call(
        &mut self,
        call: &Call,
        lending: &Lending,
        model: &mut Option<Model>,
    ) -> Result<(), String> {
        if let Some(line) = Line::of(call).filter(|_| lending.by_line) {
            return self.line(&line, lending, model);
        }
        let [first, second, third] = arguments(call);
        self.first.lend(first, lending.side(0));
        self.second.lend(second, lending.side(1));
        self.third.lend(third, lending.side(6));
        self.answer.lend(call.buffer(), lending.side(2));
        self.pairs_answer.lend(call.pairs_buffer(), lending.side(7));
        self.reply.place(lending.reply, lending.side(3)).fill(REPLY_BEFORE);
        let odd = self.lend_memory(lending);
        // Where other hands changed the arena's length in the tables, an arena of that length is the right one.
        let mut other = None;
        if odd {
            other = state_of(self.odd.tables.bytes(), self.odd.arena.bytes());
        }
        let state = if odd { &mut other } else { model };
        let wrong_reply = has_reply(call) && lending.reply != REPLY_LEN;
        let older = state.as_ref().is_some_and(|state| concerns_older_parts(state, call));
        let expected = match state {
            Some(state) if !wrong_reply => state.call(call),
            _ => Reply::refused(1, call),
        };

        let number = self.make(call, odd);

        if number != expected.number {
            return Err(format!("answered {number}, expected {}", expected.number));
        }
        self.tally.count(Some(call), number);
        if older {
            self.tally.count_older(call, number);
        }
        if let (Call::DeleteObjects { places, .. }, 0) = (call, number) {
            self.tally.count_places(&expected.buffer[..places.len() / 8]);
        }
        match expected.answer {
            Answer::Swept { count, more } => self.tally.count_sweep(count, more),
            Answer::Metadata { pairs, .. } => self.tally.count_pairs(pairs),
            _ => (),
        }
        if let (Call::Get { path, buffer, pairs_buffer }, 7, Some(state)) =
            (call, number, state.as_ref())
        {
            let object = &state.objects[path];
            let short = object.data.len() > buffer.len();
            self.tally.count_short(short, pair_bytes(&object.pairs).len() > pairs_buffer.len());
        }
        let reply = if number == 0 && has_reply(call) {
            bytes_of(&expected.answer).to_vec()
        } else {
            vec![REPLY_BEFORE; lending.reply]
        };
        same("reply", &reply, self.reply.bytes())?;
        same("answer", &expected.buffer, self.answer.bytes())?;
        same("second answer", &expected.pairs_buffer, self.pairs_answer.bytes())?;
        same("first argument", first, self.first.bytes())?;
        same("second argument", second, self.second.bytes())?;
        same("third argument", third, self.third.bytes())?;
        self.kept_beside()?;
        if number != 0 || only_reads(call) {
            return self.memory_kept(odd, lending);
        }
        self.memory_changed(odd, state.as_ref())
    }

    /// The lent memory stands for this state; where it is not the home memory, that is as before.
    fn memory_changed(&mut self, odd: bool, state: Option<&Model>) -> Result<(), String> {
        if odd {
            self.home_kept()?;
        } else {
            self.keep();
        }
        let memory = if odd { &self.odd } else { &self.home };
        state.map_or(Ok(()), |state| stands_for(memory, state))
    }

    /// A line: the call that it says, or 9, or 2 where that is too wide. All of the reply is written
    /// by every call that is accepted.
    fn line(
        &mut self,
        line: &Line,
        lending: &Lending,
        model: &mut Option<Model>,
    ) -> Result<(), String> {
        self.first.lend(&line.text, lending.side(0));
        self.answer.lend(&line.buffer, lending.side(2));
        self.pairs_answer.lend(&line.pairs_buffer, lending.side(7));
        self.reply.place(lending.reply, lending.side(3)).fill(REPLY_BEFORE);
        let odd = self.lend_memory(lending);
        let mut other = None;
        if odd {
            other = state_of(self.odd.tables.bytes(), self.odd.arena.bytes());
        }
        let state = if odd { &mut other } else { model };
        let said = line.said();
        let whole = lending.reply == REPLY_LEN && state.is_some();
        let made = match (&said, state.as_mut()) {
            (Said::Call(call), Some(state)) if whole => Some((call, state.call(call))),
            _ => None,
        };
        let expected = match (&said, &made) {
            _ if !whole => 1,
            (Said::Nothing, _) => NOT_A_LINE,
            (_, None) => 2,
            (_, Some((_, reply))) => reply.number,
        };

        let memory = if odd { &mut self.odd } else { &mut self.home };
        let number = self.library.replay_line(
            memory.tables.bytes_mut(),
            memory.arena.bytes_mut(),
            self.first.bytes(),
            self.answer.bytes_mut(),
            self.pairs_answer.bytes_mut(),
            self.reply.bytes_mut(),
        );

        if number != expected {
            return Err(format!("answered {number}, expected {expected}"));
        }
        self.tally.count_line(line, &said, number);
        let (mut reply, mut answer, mut pairs_answer) =
            (vec![REPLY_BEFORE; lending.reply], line.buffer.clone(), line.pairs_buffer.clone());
        let mut changes = false;
        if let Some((call, made)) = made.filter(|(_, made)| made.number == 0) {
            if let Answer::Metadata { pairs, .. } = made.answer {
                self.tally.count_pairs(pairs);
            }
            reply = bytes_of(&made.answer).to_vec();
            // A buffer that is not the call's own has no bytes in what it answers.
            answer.splice(..made.buffer.len(), made.buffer);
            pairs_answer.splice(..made.pairs_buffer.len(), made.pairs_buffer);
            changes = !only_reads(call);
        }
        same("reply", &reply, self.reply.bytes())?;
        same("answer", &answer, self.answer.bytes())?;
        same("second answer", &pairs_answer, self.pairs_answer.bytes())?;
        same("line", &line.text, self.first.bytes())?;
        self.kept_beside()?;
        if changes {
            self.memory_changed(odd, state.as_ref())
        } else {
            self.memory_kept(odd, lending)
        }
    }

    /// Makes the call over what is placed.
    fn make(&mut self, call: &Call, odd: bool) -> u32 {
        let memory = if odd { &mut self.odd } else { &mut self.home };
        let (tables, arena) = (memory.tables.bytes_mut(), memory.arena.bytes_mut());
        let (first, second, third) = (self.first.bytes(), self.second.bytes(), self.third.bytes());
        let (answer, reply) = (self.answer.bytes_mut(), self.reply.bytes_mut());
        let pairs_answer = self.pairs_answer.bytes_mut();
        let library = &mut self.library;
        match call {
            Call::Put { stamp, .. } => library.put(tables, arena, *stamp, first, second, third),
            Call::Get { .. } => library.get(tables, arena, first, answer, pairs_answer, reply),
            Call::Head { .. } => library.head(tables, arena, first, pairs_answer, reply),
            Call::Delete { .. } => library.delete(tables, arena, first),
            Call::DeleteObjects { .. } => {
                library.delete_objects(tables, arena, first, second, answer)
            }
            Call::Copy { stamp, .. } => library.copy(tables, arena, *stamp, first, second),
            Call::List { .. } => library.list(tables, arena, first, second, answer, reply),
            Call::Initiate { stamp, .. } => {
                library.initiate(tables, arena, *stamp, first, second, reply)
            }
            Call::Part { upload, part, .. } => {
                library.part(tables, arena, *upload, *part, first, reply)
            }
            Call::Commit { upload, .. } => library.commit(tables, arena, *upload, first),
            Call::Abort { upload } => library.abort(tables, arena, *upload),
            Call::Sweep { stamp, most } => library.sweep(tables, arena, *stamp, *most, reply),
            Call::Uploads { .. } => library.uploads(tables, arena, first, answer, reply),
        }
    }

    fn damage(&mut self, step: &Step) {
        let (tables, arena) = (self.home.tables.bytes_mut(), self.home.arena.bytes_mut());
        match step {
            Step::Flip(bits) => flip(tables, arena, bits),
            Step::Scribble { from, seed } => Random::new(*seed, 0).fill(&mut tables[*from..]),
            Step::Call(..) | Step::Line(..) | Step::Fresh(..) => (),
            Step::CarryOver(..) | Step::OlderPart { .. } => (),
        }
        self.keep();
    }
}
