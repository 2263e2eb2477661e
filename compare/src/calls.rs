//! The calls for hosts: each is made by the archive and by the model, and the two are compared.
//!
//! What a call only hands out, and never reads, is laid over known words.

use gateway::calls::*;
use reference::generate::ReadingInput;
use reference::meter::Reading;

use crate::both::{Both, Difference};
use crate::buffer::{Buffer, Lent};
use crate::memory::{Listing, Memory, Metering, Shift};
use crate::model;
use crate::tally::{Call, NAME_SHOWN, NO_NAME};

// SAFETY of all calls below: each pointer is a buffer's and valid for the length beside it, and no
// two buffers overlap.
impl Both {
    pub fn read(&mut self, file: &mut Buffer<u8>, memory: &mut Memory) -> Result<u32, Difference> {
        memory.offset.renew();
        let Memory {
            plan,
            table,
            offset,
            ..
        } = memory;
        let got = unsafe {
            gateway_read(
                file.archive(),
                file.lent(),
                plan.archive_mut(),
                plan.lent(),
                table.archive_mut(),
                table.lent(),
                offset.archive_mut(),
            )
        };
        let wrong_at = &mut offset.model_mut()[0];
        let expected = model::read(file.model(), plan.model_mut(), table.model_mut(), wrong_at);
        self.finish(Call::Read, got, expected, &mut [file, plan, table, offset])
    }

    /// Where the name begins, or 0.
    pub fn name(&mut self, file: &mut Buffer<u8>, position: usize) -> Result<usize, Difference> {
        let got = unsafe { gateway_name(file.archive(), file.lent(), position) };
        let expected = model::name(file.model(), position);
        let counted = if expected == 0 { NO_NAME } else { NAME_SHOWN };
        let answers = (got as u64, expected as u64);
        self.compare(Call::Name, answers, counted, &mut [file])?;
        Ok(expected)
    }

    pub fn write(&mut self, memory: &mut Memory) -> Result<u32, Difference> {
        memory.out.renew();
        memory.written.renew();
        let Memory {
            plan,
            table,
            out,
            written,
            ..
        } = memory;
        let got = unsafe {
            gateway_write(
                plan.archive(),
                plan.lent(),
                table.archive(),
                table.lent(),
                out.archive_mut(),
                out.lent(),
                written.archive_mut(),
            )
        };
        let length = &mut written.model_mut()[0];
        let expected = model::write(plan.model(), table.model(), out.model_mut(), length);
        self.finish(Call::Write, got, expected, &mut [plan, table, out, written])
    }

    pub fn judge(&mut self, memory: &mut Memory) -> Result<u32, Difference> {
        memory.location.renew();
        let Memory {
            plan, table, location, ..
        } = memory;
        let got = unsafe {
            gateway_judge(
                plan.archive(),
                plan.lent(),
                table.archive(),
                table.lent(),
                location.archive_mut(),
                location.lent(),
            )
        };
        let expected = model::judge(plan.model(), table.model(), location.model_mut());
        self.finish(Call::Judge, got, expected, &mut [plan, table, location])
    }

    pub fn slack(&mut self, memory: &mut Memory) -> Result<u32, Difference> {
        memory.slack.renew();
        memory.location.renew();
        let Memory {
            plan,
            table,
            slack,
            location,
            ..
        } = memory;
        let got = unsafe {
            gateway_slack(
                plan.archive(),
                plan.lent(),
                table.archive(),
                table.lent(),
                slack.archive_mut(),
                location.archive_mut(),
                location.lent(),
            )
        };
        let figure = &mut slack.model_mut()[0];
        let expected = model::slack(plan.model(), table.model(), figure, location.model_mut());
        self.finish(Call::Slack, got, expected, &mut [plan, table, slack, location])
    }

    pub fn draw(&mut self, memory: &mut Memory) -> Result<u32, Difference> {
        let Memory { plan, table, .. } = memory;
        let (places, length) = (table.archive_mut(), table.lent());
        let got = unsafe { gateway_draw(plan.archive(), plan.lent(), places, length) };
        let expected = model::draw(plan.model(), table.model_mut());
        self.finish(Call::Draw, got, expected, &mut [plan, table])
    }

    pub fn shortage(&mut self, memory: &mut Memory) -> Result<u32, Difference> {
        memory.pair.renew();
        let Memory { plan, pair, .. } = memory;
        let (words, length) = (pair.archive_mut(), pair.lent());
        let got = unsafe { gateway_shortage(plan.archive(), plan.lent(), words, length) };
        let expected = model::shortage(plan.model(), pair.model_mut());
        self.finish(Call::Shortage, got, expected, &mut [plan, pair])
    }

    pub fn start(&mut self, memory: &mut Memory) -> Result<u32, Difference> {
        memory.location.renew();
        let Memory {
            plan,
            table,
            run,
            location,
            ..
        } = memory;
        let got = unsafe {
            gateway_start(
                plan.archive(),
                plan.lent(),
                table.archive(),
                table.lent(),
                run.archive_mut(),
                run.lent(),
                location.archive_mut(),
                location.lent(),
            )
        };
        let (run_words, location_words) = (run.model_mut(), location.model_mut());
        let expected = model::start(plan.model(), table.model(), run_words, location_words);
        self.finish(Call::Start, got, expected, &mut [plan, table, run, location])
    }

    pub fn step(&mut self, memory: &mut Memory, speed: u16) -> Result<u32, Difference> {
        let Memory {
            plan,
            table,
            run,
            grants,
            ..
        } = memory;
        let got = unsafe {
            gateway_step(
                plan.archive(),
                plan.lent(),
                table.archive(),
                table.lent(),
                run.archive_mut(),
                run.lent(),
                speed,
                grants.archive_mut(),
                grants.lent(),
            )
        };
        let (run_words, grant_words) = (run.model_mut(), grants.model_mut());
        let expected = model::step(plan.model(), table.model(), run_words, speed, grant_words);
        self.finish(Call::Step, got, expected, &mut [plan, table, run, grants])
    }

    pub fn shift(&mut self, memory: &mut Memory, shift: &mut Shift) -> Result<u32, Difference> {
        let Memory {
            plan, table, run, ..
        } = memory;
        let Shift {
            speeds,
            rows,
            numbers,
        } = shift;
        let got = unsafe {
            gateway_shift(
                plan.archive(),
                plan.lent(),
                table.archive(),
                table.lent(),
                run.archive_mut(),
                run.lent(),
                speeds.archive(),
                speeds.lent(),
                rows.archive_mut(),
                rows.lent(),
                numbers.archive_mut(),
                numbers.lent(),
            )
        };
        let (run_words, outputs) = (run.model_mut(), (rows.model_mut(), numbers.model_mut()));
        let (plan_words, places) = (plan.model(), table.model());
        let expected = model::shift(plan_words, places, run_words, speeds.model(), outputs);
        let buffers: &mut [&mut dyn Lent] = &mut [plan, table, run, speeds, rows, numbers];
        self.finish(Call::Shift, got, expected, buffers)
    }

    pub fn end(&mut self, memory: &mut Memory, position: usize) -> Result<u32, Difference> {
        if self.tells {
            println!("the job at position {} is said to have ended", position);
        }
        let Memory { plan, run, .. } = memory;
        let (words, length) = (run.archive_mut(), run.lent());
        let got = unsafe { gateway_end(plan.archive(), plan.lent(), words, length, position) };
        let expected = model::end(plan.model(), run.model_mut(), position);
        self.finish(Call::End, got, expected, &mut [plan, run])
    }

    pub fn outcome(&mut self, memory: &mut Memory, position: usize) -> Result<u32, Difference> {
        let Memory { plan, run, .. } = memory;
        let (words, length) = (run.archive(), run.lent());
        let got = unsafe { gateway_outcome(plan.archive(), plan.lent(), words, length, position) };
        let expected = model::outcome(plan.model(), run.model(), position);
        self.finish(Call::Outcome, got, expected, &mut [plan, run])
    }

    pub fn import(
        &mut self,
        text: &mut Buffer<u8>,
        listing: &mut Listing,
    ) -> Result<u32, Difference> {
        listing.offset.renew();
        let Listing { list, offset, .. } = listing;
        let (words, length) = (list.archive_mut(), list.lent());
        let wrong_at = offset.archive_mut();
        let got = unsafe { gateway_import(text.archive(), text.lent(), words, length, wrong_at) };
        let wrong_at = &mut offset.model_mut()[0];
        let expected = model::import(text.model(), list.model_mut(), wrong_at);
        self.finish(Call::Import, got, expected, &mut [text, list, offset])
    }

    pub fn export(&mut self, listing: &mut Listing) -> Result<u32, Difference> {
        listing.out.renew();
        listing.written.renew();
        let Listing {
            list, out, written, ..
        } = listing;
        let (bytes, room) = (out.archive_mut(), out.lent());
        let length = written.archive_mut();
        let got = unsafe { gateway_export(list.archive(), list.lent(), bytes, room, length) };
        let length = &mut written.model_mut()[0];
        let expected = model::export(list.model(), out.model_mut(), length);
        self.finish(Call::Export, got, expected, &mut [list, out, written])
    }

    pub fn speed(
        &mut self,
        input: &ReadingInput,
        speed: &mut Buffer<u16>,
    ) -> Result<u32, Difference> {
        if self.tells {
            println!("a reading of {:#018x} and {:#018x}", input.mean, input.lowest);
        }
        let reading = Reading {
            mean: f64::from_bits(input.mean),
            lowest: f64::from_bits(input.lowest),
        };
        let told = speed.archive_mut();
        let got = unsafe { gateway_meter(reading.mean, reading.lowest, input.n, told) };
        let expected = model::speed(reading, input.n, &mut speed.model_mut()[0]);
        self.finish(Call::Speed, got, expected, &mut [speed])
    }

    pub fn speeds(&mut self, lent: &mut Metering) -> Result<u32, Difference> {
        lent.speeds.renew();
        lent.count.renew();
        lent.offset.renew();
        let Metering {
            log,
            n,
            speeds,
            count,
            offset,
        } = lent;
        let got = unsafe {
            gateway_speeds(
                log.archive(),
                log.lent(),
                *n,
                speeds.archive_mut(),
                speeds.lent(),
                count.archive_mut(),
                offset.archive_mut(),
            )
        };
        let singles = (&mut count.model_mut()[0], &mut offset.model_mut()[0]);
        let expected = model::speeds(log.model(), *n, speeds.model_mut(), singles);
        self.finish(Call::Speeds, got, expected, &mut [log, speeds, count, offset])
    }

    /// Compares a call whose answer is a number, and gives that number.
    fn finish(
        &mut self,
        call: Call,
        got: u32,
        expected: u32,
        buffers: &mut [&mut dyn Lent],
    ) -> Result<u32, Difference> {
        let answers = (got.into(), expected.into());
        self.compare(call, answers, expected, buffers)?;
        Ok(expected)
    }
}
