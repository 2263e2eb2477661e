//! The memory that a host lends to the calls for one plan and its run, to a shift, to the calls on job
//! lists, and to that on a meter log.

use gateway::LONGEST_LIST;
use reference::edition::{MOST_JOBS, TABLE_PLACES};
use reference::generate::{Lent, LogInput, Prng, ShiftInput};

use crate::buffer::Buffer;
use crate::words::{JOB_COUNT, LIST_WORDS, LOCATION_WORDS, PAIR_WORDS, PLAN_WORDS, RUN_WORDS};

pub struct Memory {
    pub plan: Buffer<u64>,
    pub table: Buffer<u32>,
    pub run: Buffer<u32>,
    pub grants: Buffer<u32>,
    pub location: Buffer<u64>,
    pub pair: Buffer<u64>,
    pub out: Buffer<u8>,
    pub written: Buffer<usize>,
    pub offset: Buffer<usize>,
    pub slack: Buffer<i64>,
    /// The length of the plan's file, once it has been written; 0 before.
    pub exact: usize,
}

impl Memory {
    /// Known words everywhere; plan, run, location and pair are as long as they must be, or longer.
    pub fn known(prng: &mut Prng, lent: &Lent) -> Memory {
        let mut spare = || prng.pick(&[0, 0, 1, 5]);
        Memory {
            plan: Buffer::known("plan", PLAN_WORDS + spare()),
            table: Buffer::known("table", lent.table),
            run: Buffer::known("run", RUN_WORDS + spare()),
            grants: Buffer::known("grants", lent.grants),
            location: Buffer::known("location", LOCATION_WORDS + spare()),
            pair: Buffer::known("pair", PAIR_WORDS + spare()),
            out: Buffer::known("out", lent.output),
            written: Buffer::known("written", 1),
            offset: Buffer::known("offset", 1),
            slack: Buffer::known("slack", 1),
            exact: 0,
        }
    }

    /// The jobs that the plan counts, as far as there are records.
    pub fn jobs(&self) -> usize {
        self.plan.contents()[JOB_COUNT].min(MOST_JOBS as u64) as usize
    }

    /// The places of the table that belong to a plan; fewer if the table has fewer.
    pub fn own_places(&self) -> &[u32] {
        let table = self.table.contents();
        &table[..table.len().min(TABLE_PLACES)]
    }

    pub fn lend_all(&mut self) {
        self.plan.lend_all();
        self.table.lend_all();
        self.run.lend_all();
        self.grants.lend_all();
        self.location.lend_all();
        self.pair.lend_all();
        self.out.lend_all();
    }

    /// Lends of each buffer but the output all that there is or just what is needed.
    pub fn lend_enough(&mut self, prng: &mut Prng) {
        self.lend_all();
        let jobs = self.jobs();
        if prng.once_in(2) {
            self.plan.lend(PLAN_WORDS);
        }
        if prng.once_in(2) {
            self.table.lend(TABLE_PLACES);
        }
        if prng.once_in(2) {
            self.run.lend(RUN_WORDS);
        }
        if prng.once_in(2) {
            self.location.lend(LOCATION_WORDS);
        }
        if prng.once_in(2) {
            self.pair.lend(PAIR_WORDS);
        }
        if prng.once_in(2) {
            self.grants.lend(jobs);
        }
    }
}

/// What is lent to a shift beside plan, table and run.
pub struct Shift {
    pub speeds: Buffer<u16>,
    pub rows: Buffer<u32>,
    pub numbers: Buffer<u8>,
}

impl Shift {
    /// The speeds of a drawn shift, and known words in its outputs.
    pub fn of(input: &ShiftInput) -> Shift {
        Shift {
            speeds: Buffer::of("speeds", &input.speeds, input.speeds.len()),
            rows: Buffer::known("rows", input.rows),
            numbers: Buffer::known("numbers", input.numbers),
        }
    }

    /// These speeds, and outputs with as many places as they need in a plan of so many jobs, and
    /// some to spare.
    pub fn at(speeds: &[u16], jobs: usize, spare: usize) -> Shift {
        Shift::of(&ShiftInput {
            speeds: speeds.to_vec(),
            rows: speeds.len() * jobs + spare,
            numbers: speeds.len() + spare,
        })
    }
}

/// What is lent to the two calls on job lists.
pub struct Listing {
    /// A list of its own, or a plan from its job count on.
    pub list: Buffer<u64>,
    pub out: Buffer<u8>,
    pub written: Buffer<usize>,
    pub offset: Buffer<usize>,
}

impl Listing {
    fn of(list: Buffer<u64>) -> Listing {
        Listing {
            list,
            out: Buffer::known("out", LONGEST_LIST),
            written: Buffer::known("written", 1),
            offset: Buffer::known("offset", 1),
        }
    }

    /// Known words everywhere; the list is as long as it must be, or longer. Some are a plan's.
    pub fn known(prng: &mut Prng) -> Listing {
        let spare = prng.pick(&[0, 0, 1, 5]);
        if prng.once_in(4) {
            let plan = Buffer::known("plan", PLAN_WORDS + spare);
            return Listing::of(plan.part_from(JOB_COUNT));
        }
        Listing::of(Buffer::known("list", LIST_WORDS + spare))
    }

    /// A copy of the words of this plan.
    pub fn of_plan(plan: &Buffer<u64>) -> Listing {
        let words = plan.contents();
        let plan = Buffer::of("plan", words, words.len());
        Listing::of(plan.part_from(JOB_COUNT))
    }

    pub fn lend_all(&mut self) {
        self.list.lend_all();
        self.out.lend_all();
    }
}

/// What is lent to the call on a meter log, and the normal rate.
pub struct Metering {
    pub log: Buffer<u8>,
    pub n: u16,
    pub speeds: Buffer<u16>,
    pub count: Buffer<usize>,
    pub offset: Buffer<usize>,
}

impl Metering {
    /// The bytes of a log, and known words in all that it may leave.
    pub fn of(input: &LogInput) -> Metering {
        Metering {
            log: Buffer::of("log", &input.log, input.log.len()),
            n: input.n,
            speeds: Buffer::known("speeds", input.list),
            count: Buffer::known("count", 1),
            offset: Buffer::known("offset", 1),
        }
    }
}
