//! All calls on one input: on a plan file with speeds, on a plan in hand with a run and speeds, on one
//! for the desk, on texts of job lists, on a list in hand, and on a reading and a log of the meter.

use gateway::{Plan, Run};
use reference::edition::{LARGEST_FILE, MOST_JOBS, TABLE_PLACES};
use reference::generate::{damaged_input, desk_input, file, hand, job_list, job_text, quoted_list};
use reference::generate::{fixed_files, fixed_hands, fixed_lists, fixed_texts};
use reference::generate::{fixed_logs, fixed_readings, log_input, reading_input};
use reference::generate::{shift_input, words, Prng, Purpose};
use reference::generate::{DeskInput, FileInput, HandInput, Lent, ListInput, LogInput};
use reference::generate::{ReadingInput, ShiftInput};
use reference::joblist::import;
use reference::reader::reader;
use reference::refusal::{DONE, TOO_SHORT};

use crate::both::{Both, Difference};
use crate::buffer::Buffer;
use crate::desks::{fixed_desks, on_desk};
use crate::lists::{on_list, on_text};
use crate::memory::Memory;
use crate::meters::{on_log, on_reading};
use crate::night::{night, standings, Course, Wrapped};
use crate::shorts::{short, short_read, SHORTS};
use crate::twist::twist;
use crate::words::{plan_of, run_of, run_of_any, words_of_plan, words_of_run};
use crate::{desks, meters, plans, shifts, texts, wrapper};

/// Buffers that are just long enough for every plan.
pub const ENOUGH: Lent = Lent {
    table: TABLE_PLACES,
    output: LARGEST_FILE,
    grants: MOST_JOBS,
};

/// Calls with a short buffer on each plan.
const SHORTS_OF_A_PLAN: usize = 2;

/// The inputs that are the same for every seed.
pub struct Fixed {
    files: Vec<FileInput>,
    hands: Vec<HandInput>,
    desks: Vec<DeskInput>,
    texts: Vec<Vec<u8>>,
    lists: Vec<ListInput>,
    readings: Vec<ReadingInput>,
    logs: Vec<LogInput>,
}

impl Fixed {
    pub fn new() -> Fixed {
        Fixed {
            files: fixed_files(),
            hands: fixed_hands(),
            desks: fixed_desks(),
            texts: fixed_texts(),
            lists: fixed_lists(),
            readings: fixed_readings(),
            logs: fixed_logs(),
        }
    }

    /// The first input whose file, with the table lent to it, is read as this number.
    pub fn first_read_as(&self, number: u8) -> Option<u64> {
        let read = |input: &FileInput| reader(&input.file, &mut vec![0; input.lent.table]).number;
        let at = self.files.iter().position(|input| read(input) == number)?;
        Some(at as u64)
    }

    /// The first input whose text is imported as this number.
    pub fn first_imported_as(&self, number: u8) -> Option<u64> {
        let imported = |text: &[u8]| import(text).map_or_else(|fault| fault.number, |_| DONE);
        let at = self.texts.iter().position(|text| imported(text) == number)?;
        Some(at as u64)
    }

    /// The first input whose desk answers this number.
    pub fn first_drawn_as(&self, number: u8) -> Option<u64> {
        let at = self.desks.iter().position(|input| desks::answer(input) == number)?;
        Some(at as u64)
    }

    /// The first input whose log is read as this number.
    pub fn first_metered_as(&self, number: u8) -> Option<u64> {
        let at = self.logs.iter().position(|input| meters::answer(input) == number)?;
        Some(at as u64)
    }

    /// The longest of the lists counts.
    pub fn count(&self) -> u64 {
        let plans = self.files.len().max(self.hands.len()).max(self.desks.len());
        let lists = self.texts.len().max(self.lists.len());
        let meters = self.readings.len().max(self.logs.len());
        plans.max(lists).max(meters) as u64
    }

    fn input(&self, at: usize) -> Input {
        Input {
            file: self.files.get(at).cloned(),
            hand: self.hands.get(at).cloned(),
            desk: self.desks.get(at).cloned(),
            texts: self.texts.get(at).cloned().into_iter().collect(),
            list: self.lists.get(at).cloned(),
            reading: self.readings.get(at).copied(),
            log: self.logs.get(at).cloned(),
        }
    }
}

/// What calls are made on. Any part may be missing.
#[derive(Default)]
pub struct Input {
    pub file: Option<FileInput>,
    pub hand: Option<HandInput>,
    pub desk: Option<DeskInput>,
    pub texts: Vec<Vec<u8>>,
    pub list: Option<ListInput>,
    pub reading: Option<ReadingInput>,
    pub log: Option<LogInput>,
}

/// What is drawn from a seed: inputs of every call, files that the reader refuses, or texts.
#[derive(Clone, Copy)]
pub enum Kind {
    Every,
    Damaged,
    Texts,
}

/// So many inputs of a kind, of each of these seeds.
pub struct Drawn {
    pub kind: Kind,
    pub count: u64,
    pub seeds: Vec<u64>,
}

impl Drawn {
    pub fn sources(&self) -> impl Iterator<Item = Source> + '_ {
        let source = |&seed| Source::Drawn(self.kind, seed);
        self.seeds.iter().map(source)
    }
}

/// Where inputs come from.
pub enum Source {
    Fixed(Fixed),
    Drawn(Kind, u64),
}

impl Source {
    /// What it is called in messages.
    pub fn name(&self) -> String {
        match self {
            Source::Fixed(_) => "fixed".to_string(),
            Source::Drawn(Kind::Every, seed) => format!("seed {}", seed),
            Source::Drawn(Kind::Damaged, seed) => format!("damaged files of seed {}", seed),
            Source::Drawn(Kind::Texts, seed) => format!("texts of seed {}", seed),
        }
    }

    /// The input of a number.
    pub fn input(&self, number: u64) -> Input {
        match self {
            Source::Fixed(fixed) => fixed.input(number as usize),
            Source::Drawn(Kind::Every, seed) => Input {
                file: Some(file(*seed, number)),
                hand: Some(hand(*seed, number)),
                desk: Some(desk_input(*seed, number)),
                texts: vec![job_text(*seed, number), quoted_list(*seed, number).1],
                list: Some(job_list(*seed, number)),
                reading: Some(reading_input(*seed, number)),
                log: Some(log_input(*seed, number)),
            },
            Source::Drawn(Kind::Damaged, seed) => Input {
                file: Some(damaged_input(*seed, number)),
                ..Input::default()
            },
            Source::Drawn(Kind::Texts, seed) => Input {
                texts: vec![texts::text(*seed, number)],
                ..Input::default()
            },
        }
    }

    /// Makes every call on the input of a number.
    pub fn compare(&self, both: &mut Both, number: u64) -> Result<(), Difference> {
        let seed = match self {
            Source::Fixed(_) => 0,
            Source::Drawn(_, seed) => *seed,
        };
        let origin = Origin { seed, number };
        let prng = &mut Prng::new(seed, Purpose::Lending, number);
        let input = self.input(number);
        if let Some(file) = &input.file {
            on_file(both, prng, file, origin)?;
        }
        if let Some(hand) = &input.hand {
            on_hand(both, prng, hand, origin)?;
        }
        if let Some(desk) = &input.desk {
            on_desk(both, prng, desk)?;
        }
        for text in &input.texts {
            on_text(both, prng, text)?;
        }
        if let Some(list) = &input.list {
            on_list(both, prng, list)?;
        }
        if let Some(reading) = &input.reading {
            on_reading(both, reading)?;
        }
        if let Some(log) = &input.log {
            on_log(both, prng, log)?;
        }
        Ok(())
    }
}

/// What an input is drawn from.
#[derive(Clone, Copy)]
struct Origin {
    seed: u64,
    number: u64,
}

impl Origin {
    /// A night at these speeds that begins with the run in memory. One with a wrong mark has no
    /// words of the host.
    fn course<'a>(&self, memory: &Memory, speeds: &'a [u16]) -> Course<'a> {
        let plan = plan_of(memory.plan.contents());
        let run = run_of(memory.run.contents());
        let words = run.map(|run| words(self.seed, self.number, &plan, &run, speeds));
        Course {
            speeds,
            words: words.unwrap_or_default(),
        }
    }

    /// A shift that goes on from the run in memory, one with a wrong mark too.
    fn shift(&self, memory: &Memory) -> ShiftInput {
        let plan = plan_of(memory.plan.contents());
        let run = run_of_any(memory.run.contents());
        shift_input(self.seed, self.number, &plan, &run)
    }
}

/// Reads the file and looks up names; then all calls on the plan that was read.
fn on_file(
    both: &mut Both,
    prng: &mut Prng,
    input: &FileInput,
    origin: Origin,
) -> Result<(), Difference> {
    let mut file = Buffer::of("file", &input.file, input.file.len());
    let mut memory = Memory::known(prng, &input.lent);
    if prng.once_in(4) {
        short_read(both, prng, &mut file, &mut memory)?;
    }
    let mut answer = both.read(&mut file, &mut memory)?;
    if answer == u32::from(TOO_SHORT) {
        memory = Memory::known(prng, &ENOUGH);
        answer = both.read(&mut file, &mut memory)?;
    }
    names(both, prng, &mut file, memory.jobs())?;
    let plan = match wrapper::read(both, &file, answer, &memory)? {
        Some(plan) => plan,
        None => return Ok(()),
    };
    let (started, run) = plans::compare(both, prng, &mut memory, Some(&plan))?;
    shorts(both, prng, &mut memory, origin.number)?;
    if started != u32::from(DONE) {
        return Ok(());
    }
    let course = origin.course(&memory, &input.speeds);
    let wrapped = wrapped(&memory, Some(&plan), run);
    let shift = origin.shift(&memory);
    shifts::drawn(both, prng, &mut memory, &shift, &wrapped)?;
    night(both, prng, &mut memory, &course, wrapped)
}

/// The plan and the run for the wrapper. It always lends enough grants: a night with too few is
/// none for it.
fn wrapped<'a>(memory: &Memory, plan: Option<&'a Plan>, run: Option<Run>) -> Wrapped<'a> {
    let has_grants = memory.grants.lent() >= memory.jobs();
    plan.zip(run).filter(|_| has_grants)
}

/// Names at positions that the file has, at the first that it has not, and far beyond.
fn names(
    both: &mut Both,
    prng: &mut Prng,
    file: &mut Buffer<u8>,
    jobs: usize,
) -> Result<(), Difference> {
    let far = prng.pick(&[MOST_JOBS, 1 << 8, 1 << 32, usize::MAX]);
    for position in [prng.index(jobs.max(1)), jobs.saturating_sub(1), jobs, far] {
        let begins = both.name(file, position)?;
        wrapper::name(both, file, position, begins)?;
    }
    Ok(())
}

/// All calls but those that take a file or a text, the slots from the run that is given.
fn on_hand(
    both: &mut Both,
    prng: &mut Prng,
    input: &HandInput,
    origin: Origin,
) -> Result<(), Difference> {
    let mut memory = Memory::known(prng, &input.lent);
    memory.plan.put(0, &words_of_plan(&input.plan));
    memory.table.put(0, &input.table);
    memory.run.put(0, &words_of_run(&input.run));
    twist(prng, &mut memory);
    let given = memory.run.contents().to_vec();
    let plan = wrapper::in_hand(&memory);
    plans::compare(both, prng, &mut memory, plan.as_ref())?;
    memory.run.put(0, &given);
    shorts(both, prng, &mut memory, origin.number)?;
    let run = wrapper::run_in_hand(both, &memory)?;
    let wrapped = wrapped(&memory, plan.as_ref(), run);
    standings(both, prng, &mut memory, &wrapped)?;
    let shift = origin.shift(&memory);
    shifts::drawn(both, prng, &mut memory, &shift, &wrapped)?;
    let course = origin.course(&memory, &input.speeds);
    night(both, prng, &mut memory, &course, wrapped)
}

/// Some calls with a short buffer; numbers that follow each other take turns.
fn shorts(
    both: &mut Both,
    prng: &mut Prng,
    memory: &mut Memory,
    number: u64,
) -> Result<(), Difference> {
    let first = number as usize % SHORTS.len() * SHORTS_OF_A_PLAN;
    for turn in first..first + SHORTS_OF_A_PLAN {
        short(both, prng, memory, SHORTS[turn % SHORTS.len()])?;
    }
    Ok(())
}
