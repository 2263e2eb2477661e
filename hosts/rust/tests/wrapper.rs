//! The wrapper as a project of one's own sees it: what goes in comes out, and what no plan, run, job list or reading can be is refused in words.

use gateway::{export_jobs, import_jobs, index, read_log, refusal, speed_of, Grade, Job, Outcome, Plan, Reading, Refusal, Run, Shortage};
use gateway::{LARGEST_LOG, LONGEST_LIST, MOST_JOBS, MOST_SPEEDS, PLAN_WORDS, RUN_WORDS, TABLE_PLACES};

const OTHER: usize = 0;
const ESSENTIAL: usize = 1;

fn jobs() -> [Job; 2] {
    [
        Job { name: *b"Mirror-A", grade: Grade::Lo, release: 0, size: 6, deadline: 5 },
        Job { name: *b"mirror-A", grade: Grade::Hi, release: 1, size: 8, deadline: 10 },
    ]
}

/// Plan E of docs/RULES.md.
fn plan_e() -> Plan {
    let mut plan = Plan::new(2, 1, &jobs()).unwrap();
    for (job, interval, units) in [(0, 0, 2), (0, 1, 4), (1, 1, 4), (1, 2, 4)] {
        assert!(plan.allot(job, interval, units));
    }
    plan
}

#[test]
fn rates_and_jobs_come_out_as_they_went_in() {
    let plan = plan_e();
    assert_eq!((plan.normal_rate(), plan.floor(), plan.job_count()), (2, 1, 2));
    assert!(plan.jobs().eq(jobs()));
    assert_eq!(plan.job(ESSENTIAL), Some(jobs()[ESSENTIAL]));
    assert_eq!(plan.job(2), None);
    assert_eq!(plan.allotment(1, 2), Some(4));
}

#[test]
fn a_plan_is_taken_back_from_its_words() {
    let plan = plan_e();
    let again = Plan::from_words(plan.words(), plan.table()).unwrap();
    assert_eq!(again.write(), plan.write());
    assert_eq!(again.words(), plan.words());
}

#[test]
fn words_that_no_plan_has_are_refused() {
    let plan = plan_e();
    let number = |words: &[u64], table: &[u32]| Plan::from_words(words, table).unwrap_err().number();
    assert_eq!(number(&plan.words()[1..], plan.table()), refusal::BUFFER_TOO_SHORT);
    assert_eq!(number(plan.words(), &plan.table()[1..]), refusal::BUFFER_TOO_SHORT);
    // Normal rate, floor and count; of the first job grade, release and deadline.
    for at in [0, 1, 2, 4, 5, 7] {
        let mut words = *plan.words();
        words[at] = u64::MAX;
        assert_eq!(number(&words, plan.table()), refusal::UNSOUND, "word {at}");
    }
    // Words of a job that is not counted are not looked at.
    let mut words = *plan.words();
    words[PLAN_WORDS - 1] = u64::MAX;
    assert!(Plan::from_words(&words, &[0; TABLE_PLACES]).is_ok());
}

#[test]
fn a_run_is_taken_back_from_its_words_in_any_slot() {
    let plan = plan_e();
    let (mut kept, mut stored) = (plan.start().unwrap(), plan.start().unwrap());
    for speed in [2, 2, 2, 1, 1, 1, 1, 1, 1, 1] {
        stored = Run::from_words(stored.words()).unwrap();
        assert_eq!(kept.step(&plan, speed), stored.step(&plan, speed));
        assert_eq!(kept, stored);
    }
    assert_eq!(kept.outcome(&plan, ESSENTIAL), Ok(Outcome::Met));
    assert_eq!(kept.step(&plan, 1).unwrap_err().number(), refusal::CLOCK_AT_END);
}

#[test]
fn words_that_no_run_has_are_refused() {
    let words = *plan_e().start().unwrap().words();
    assert_eq!(Run::from_words(&words[1..]).unwrap_err().number(), refusal::BUFFER_TOO_SHORT);
    for mark in [index::SLOW, index::BELOW_FLOOR].into_iter().chain(index::ENDED..RUN_WORDS) {
        let mut changed = words;
        changed[mark] = 1;
        assert!(Run::from_words(&changed).is_ok(), "word {mark}");
        changed[mark] = 2;
        assert_eq!(Run::from_words(&changed).unwrap_err().number(), refusal::UNSOUND, "word {mark}");
    }
    assert_eq!((index::ENDED, RUN_WORDS), (index::CARRIED + MOST_JOBS, index::ENDED + MOST_JOBS));
}

/// The essential transfer ends after two slots. It gets nothing more, and the other one has its units two slots earlier than planned.
#[test]
fn what_an_ended_job_leaves_goes_to_the_others() {
    let plan = plan_e();
    let mut run = plan.start().unwrap();
    run.step(&plan, 2).unwrap();
    run.step(&plan, 2).unwrap();
    let mut told = *run.words();
    told[index::ENDED + ESSENTIAL] = 1;
    assert_eq!(run.end(&plan, ESSENTIAL), Ok(()));
    assert_eq!(run.words(), &told);
    run = Run::from_words(run.words()).unwrap();
    assert_eq!([2, 2, 2].map(|speed| run.step(&plan, speed).unwrap()), [[2, 0], [2, 0], [0, 0]]);
    assert_eq!([OTHER, ESSENTIAL].map(|job| run.outcome(&plan, job)), [Ok(Outcome::Met), Ok(Outcome::Ended)]);
    assert_eq!([OTHER, ESSENTIAL, MOST_JOBS].map(|job| run.has_ended(job)), [Some(false), Some(true), None]);
    assert_eq!(run.carried(MOST_JOBS), None);
}

#[test]
fn a_job_that_is_not_running_cannot_end() {
    let plan = plan_e();
    let mut run = plan.start().unwrap();
    let refused = |run: &Run, job: usize| {
        let mut after = run.clone();
        let refusal = after.end(&plan, job).unwrap_err();
        assert_eq!(&after, run);
        refusal
    };
    assert_eq!(refused(&run, ESSENTIAL).number(), refusal::CANNOT_END);
    for job in [2, MOST_JOBS, 1 << 8, 1 << 32, usize::MAX] {
        assert_eq!(refused(&run, job).to_string(), "refused 25: there is no such job");
    }
    run.step(&plan, 1).unwrap();
    let discarded = refused(&run, OTHER);
    assert_eq!((discarded.number(), discarded.offset()), (refusal::CANNOT_END, None));
    assert_eq!(run.end(&plan, ESSENTIAL), Ok(()));
    let ended = refused(&run, ESSENTIAL);
    assert_eq!(ended.to_string(), "refused 26: the job is not running: it is not yet released, or it is over already");
}

/// Another job's end is no ground against the promise: the essential transfer has its size at the floor.
#[test]
fn an_ended_job_stays_ended_in_a_slow_slot() {
    let plan = plan_e();
    let mut run = plan.start().unwrap();
    run.step(&plan, 2).unwrap();
    run.end(&plan, OTHER).unwrap();
    while run.step(&plan, plan.floor()).is_ok() {}
    assert!(run.is_slow() && !run.is_below_floor());
    assert_eq!([OTHER, ESSENTIAL].map(|job| run.outcome(&plan, job)), [Ok(Outcome::Ended), Ok(Outcome::Met)]);
    assert_eq!(run.carried(OTHER), Some(2));
    assert_eq!(Outcome::Ended.to_string(), "ended");
}

#[test]
fn a_measured_speed_is_at_most_the_normal_rate() {
    let plan = plan_e();
    let measured = [0, 1, 2, 3, 65_536, 65_537, u64::MAX];
    assert_eq!(measured.map(|units| plan.speed(units)), [0, 1, 2, 2, 2, 2, 2]);
}

/// The link carried 1 unit of the 2 that were said, and it was one of the essential transfer's. At 1 the step grants just that unit, so the
/// night goes on from the run before the slot, and what is essential ends in time at the floor.
#[test]
fn a_slot_is_told_again_if_the_lesser_speed_grants_what_went() {
    let plan = plan_e();
    let mut run = plan.start().unwrap();
    run.step(&plan, 2).unwrap();
    let before = run.clone();
    assert_eq!(run.step(&plan, 2), Ok(vec![0, 2]));
    run = before;
    assert_eq!(run.step(&plan, 1), Ok(vec![0, 1]));
    while run.step(&plan, plan.floor()).is_ok() {}
    assert_eq!(run.outcome(&plan, ESSENTIAL), Ok(Outcome::Met));
    assert!(!run.is_below_floor());
}

/// Units that did not go are taken back: they are granted again, and the outcome tells what really went.
#[test]
fn units_that_did_not_go_are_granted_again() {
    let plan = plan_e();
    let mut run = plan.start().unwrap();
    run.step(&plan, 2).unwrap();
    run.step(&plan, 2).unwrap();
    let mut words = *run.words();
    words[index::CARRIED + ESSENTIAL] -= 2;
    words[index::SLOW] = 1;
    words[index::BELOW_FLOOR] = 1;
    run = Run::from_words(&words).unwrap();
    assert_eq!(run.carried(ESSENTIAL), Some(0));
    assert_eq!(run.step(&plan, 2), Ok(vec![0, 2]));
    while run.step(&plan, 1).is_ok() {}
    assert_eq!(run.outcome(&plan, ESSENTIAL), Ok(Outcome::Met));
    assert!(run.is_below_floor());
}

/// The plan of case P5 in docs/RULES.md without its table, but with this size of the first job.
fn p5_of_size(size: u64) -> Plan {
    let job = |name: &[u8; 8], grade, size, deadline| Job { name: *name, grade, release: 0, size, deadline };
    let jobs = [
        job(b"catalog1", Grade::Hi, size, 10),
        job(b"catalog2", Grade::Hi, 4, 16),
        job(b"images-1", Grade::Lo, 6, 4),
        job(b"images-2", Grade::Lo, 10, 12),
    ];
    Plan::new(2, 1, &jobs).unwrap()
}

/// The jobs' units in the first four intervals.
fn rows_of(plan: &Plan) -> Vec<[u32; 4]> {
    (0..plan.job_count()).map(|job| [0, 1, 2, 3].map(|interval| plan.allotment(job, interval).unwrap())).collect()
}

fn is_empty(plan: &Plan) -> bool {
    plan.table().iter().all(|&units| units == 0)
}

#[test]
fn a_timetable_takes_the_place_of_the_table() {
    let mut plan = p5_of_size(8);
    let words = *plan.words();
    for place in [(0, 0), (3, 3), (31, 62)] {
        assert!(plan.allot(place.0, place.1, u32::MAX));
    }
    assert_eq!(plan.draw_up(), Ok(()));
    assert_eq!(rows_of(&plan), [[2, 6, 0, 0], [0, 0, 0, 4], [6, 0, 0, 0], [0, 6, 4, 0]]);
    assert_eq!((plan.words(), plan.table().iter().sum::<u32>()), (&words, 28));
    assert_eq!((plan.judge(), plan.shortage()), (Ok(()), Ok(None)));
    let mut run = plan.start().unwrap();
    while run.step(&plan, plan.normal_rate()).is_ok() {}
    assert!((0..4).all(|job| run.outcome(&plan, job) == Ok(Outcome::Met)));
}

/// From 0 to 4 the link carries 8 units and from 4 to 10 at the floor 6. `images-1` has 6 of them, and 9 are too many for `catalog1`.
#[test]
fn jobs_without_a_timetable_are_refused_with_the_times_and_the_units() {
    let mut plan = p5_of_size(9);
    plan.allot(0, 0, 9);
    assert_eq!(plan.shortage(), Ok(Some(Shortage { essential: 10, other: 4, asked: 15, carries: 14 })));
    assert_eq!(plan.allotment(0, 0), Some(9));
    assert_eq!(plan.draw_up().unwrap_err().to_string(), "refused 29: no timetable exists for these rates and jobs");
    assert!(is_empty(&plan));
}

#[test]
fn jobs_of_several_releases_are_refused() {
    let mut plan = plan_e();
    let refused = plan.shortage().unwrap_err();
    assert_eq!((refused.to_string().as_str(), refused.offset()), ("refused 28: the jobs have not all the same release", None));
    assert!(!is_empty(&plan));
    assert_eq!(plan.draw_up().unwrap_err().number(), refusal::RELEASES_DIFFER);
    assert!(is_empty(&plan));
}

/// Rule 4 comes before releases that differ, and there is no timetable without a job.
#[test]
fn rates_or_jobs_that_break_a_rule_leave_the_table() {
    for (floor, jobs) in [(2, &jobs()[..]), (1, &[])] {
        let mut plan = Plan::new(2, floor, jobs).unwrap();
        plan.allot(0, 0, 7);
        assert_eq!(plan.draw_up().unwrap_err().number(), refusal::UNSOUND);
        assert_eq!(plan.allotment(0, 0), Some(7));
        assert_eq!(plan.shortage().unwrap_err().number(), refusal::UNSOUND);
    }
}

/// What stands in rows and numbers before a shift.
const ROW_MARK: u32 = 77_777;
const NUMBER_MARK: u8 = 99;

/// A shift into rows and numbers with this many places more than it needs, and what it leaves there.
fn shift_with_spare(run: &mut Run, plan: &Plan, speeds: &[u16], spare: usize) -> (Result<(), Refusal>, Vec<u32>, Vec<u8>) {
    let mut rows = vec![ROW_MARK; speeds.len() * plan.job_count() + spare];
    let mut numbers = vec![NUMBER_MARK; speeds.len() + spare];
    (run.shift(plan, speeds, &mut rows, &mut numbers), rows, numbers)
}

/// Refused speeds at the beginning, in the middle, and after the last deadline.
#[test]
fn a_shift_is_its_slots_one_after_the_other() {
    let plan = plan_e();
    let (mut run, mut single) = (plan.start().unwrap(), plan.start().unwrap());
    let speeds = [3, 2, 2, u16::MAX, 2, 1, 1, 0, 2, 3, 1, 1, 1, 2, 3];
    let (shifted, rows, numbers) = shift_with_spare(&mut run, &plan, &speeds, 0);
    assert_eq!(shifted, Ok(()));
    for (k, &speed) in speeds.iter().enumerate() {
        let granted = if numbers[k] == refusal::DONE { Ok(rows[plan.row(k)].to_vec()) } else { Err(numbers[k]) };
        assert_eq!(single.step(&plan, speed).map_err(|refusal| refusal.number()), granted, "speed {k}");
        assert!(granted.is_ok() || rows[plan.row(k)] == [ROW_MARK; 2], "speed {k}");
    }
    assert_eq!(run, single);
    assert_eq!((numbers[3], numbers[13], numbers[14]), (refusal::SPEED_ABOVE_NORMAL, refusal::CLOCK_AT_END, refusal::CLOCK_AT_END));
}

#[test]
fn a_shift_writes_its_rows_and_numbers_and_nothing_beyond() {
    let plan = plan_e();
    let mut run = plan.start().unwrap();
    let (shifted, rows, numbers) = shift_with_spare(&mut run, &plan, &[2, 3, 2], 2);
    assert_eq!(shifted, Ok(()));
    assert_eq!(rows, [2, 0, ROW_MARK, ROW_MARK, 0, 2, ROW_MARK, ROW_MARK]);
    assert_eq!(numbers, [refusal::DONE, refusal::SPEED_ABOVE_NORMAL, refusal::DONE, NUMBER_MARK, NUMBER_MARK]);
    assert_eq!((run.clock(), run.carried(OTHER), run.carried(ESSENTIAL)), (2, Some(2), Some(2)));
    assert_eq!(refusal::words(numbers[0]), "done");
}

#[test]
fn a_shift_without_speeds_is_done() {
    let plan = plan_e();
    let mut run = plan.start().unwrap();
    assert_eq!(run.shift(&plan, &[], &mut [], &mut []), Ok(()));
    assert_eq!(run, plan.start().unwrap());
}

#[test]
fn a_shift_has_no_more_speeds_than_it_may() {
    let plan = plan_e();
    let mut run = plan.start().unwrap();
    let (refused, rows, numbers) = shift_with_spare(&mut run, &plan, &[2; MOST_SPEEDS + 1], 0);
    assert_eq!(refused.unwrap_err().to_string(), "refused 27: a shift or a meter log has too many speeds");
    assert_eq!(run, plan.start().unwrap());
    assert!(rows.iter().all(|&units| units == ROW_MARK) && numbers.iter().all(|&number| number == NUMBER_MARK));
    let (shifted, _, numbers) = shift_with_spare(&mut run, &plan, &[2; MOST_SPEEDS], 0);
    assert_eq!(shifted, Ok(()));
    assert_eq!((run.clock(), numbers[MOST_SPEEDS - 1]), (10, refusal::CLOCK_AT_END));
}

#[test]
fn a_shift_with_too_little_room_changes_nothing() {
    let plan = plan_e();
    let before = plan.start().unwrap();
    for (places, count) in [(5, 3), (6, 2), (0, 3), (6, 0)] {
        let (mut run, mut rows, mut numbers) = (before.clone(), vec![ROW_MARK; places], vec![NUMBER_MARK; count]);
        let refused = run.shift(&plan, &[2; 3], &mut rows, &mut numbers).unwrap_err();
        assert_eq!((refused.number(), refused.offset()), (refusal::BUFFER_TOO_SHORT, None));
        assert_eq!((run, rows, numbers), (before.clone(), vec![ROW_MARK; places], vec![NUMBER_MARK; count]));
    }
}

/// 21 comes before 27, and 27 before 22.
#[test]
fn a_shift_is_refused_for_the_first_of_its_grounds() {
    let plan = plan_e();
    let run = plan.start().unwrap();
    let refused = |run: &Run| run.clone().shift(&plan, &[2; MOST_SPEEDS + 1], &mut [], &mut []).unwrap_err().number();
    assert_eq!(refused(&run), refusal::TOO_MANY_SPEEDS);
    let mut words = *run.words();
    words[index::CARRIED] = 7;
    let unsound = Run::from_words(&words).unwrap();
    assert_eq!(refused(&unsound), refusal::UNSOUND);
    assert_eq!(unsound.clone().shift(&plan, &[], &mut [], &mut []).unwrap_err().number(), refusal::UNSOUND);
}

/// The same night as in the slots of `what_an_ended_job_leaves_goes_to_the_others`: up to the word, the word, and the rest.
#[test]
fn a_word_stands_between_two_shifts() {
    let plan = plan_e();
    let mut run = plan.start().unwrap();
    assert_eq!(shift_with_spare(&mut run, &plan, &[2, 2], 0).1, [2, 0, 0, 2]);
    assert_eq!(run.end(&plan, ESSENTIAL), Ok(()));
    run = Run::from_words(run.words()).unwrap();
    assert_eq!(shift_with_spare(&mut run, &plan, &[2, 2, 2], 0).1, [2, 0, 2, 0, 0, 0]);
    assert_eq!([OTHER, ESSENTIAL].map(|job| run.outcome(&plan, job)), [Ok(Outcome::Met), Ok(Outcome::Ended)]);
}

#[test]
fn what_is_shown_can_be_read() {
    let plan = plan_e();
    let shown = format!("{plan:?}");
    assert!(shown.contains(r#"normal_rate: 2, floor: 1, jobs: [Job { name: "Mirror-A", grade: Lo, release: 0, size: 6, deadline: 5 }"#), "{shown}");
    assert!(shown.ends_with("allotments: [(0, 0, 2), (0, 1, 4), (1, 1, 4), (1, 2, 4)] }"), "{shown}");
    let mut run = plan.start().unwrap();
    run.end(&plan, OTHER).unwrap();
    let shown = format!("{run:?}");
    assert!(shown.starts_with("Run { clock: 0, slow: false, below_floor: false, carried: [0, 0,"), "{shown}");
    assert!(shown.ends_with("0], ended: [0] }"), "{shown}");
}

#[test]
fn a_refusal_says_what_and_where() {
    let mut plan = plan_e();
    plan.allot(1, 1, 2);
    plan.allot(1, 2, 6);
    let refusal = plan.judge().unwrap_err();
    assert_eq!(refusal.to_string(), "refused 18: the floor cannot carry what is essential in time (interval 2, deadline 10)");
}

/// The release of plan E's second job begins at byte 42: the head has 10 bytes, a job 22, and its length byte, name and grade come before.
#[test]
fn a_refused_file_says_at_which_byte() {
    let file = plan_e().write().unwrap();
    let refused = |at: usize, byte: u8| {
        let mut wrong = file.clone();
        wrong[at] = byte;
        Plan::read(&wrong).unwrap_err()
    };
    let of_deadline = refused(53, 1);
    assert_eq!((of_deadline.number(), of_deadline.offset()), (refusal::WRONG_JOB_BOUNDS, Some(42)));
    assert_eq!(of_deadline.to_string(), "refused 9: a release, a size or a deadline does not keep to its bounds (byte 42)");
    assert_eq!(refused(0, 2).offset(), Some(0));
    assert_eq!(refused(32, 20).offset(), Some(32));
    let empty = Plan::read(&[]).unwrap_err();
    assert_eq!((empty.number(), empty.offset()), (refusal::WRONG_VERSION, Some(0)));
    let cut = Plan::read(&file[..1]).unwrap_err();
    assert_eq!((cut.number(), cut.offset()), (refusal::WRONG_EXTENT, Some(1)));
}

#[test]
fn a_plan_in_hand_is_refused_at_no_byte() {
    let mut plan = plan_e();
    plan.allot(1, 2, 3);
    assert_eq!(plan.judge().unwrap_err().offset(), None);
    assert_eq!(Plan::from_words(&[], &[]).unwrap_err().offset(), None);
    // The same number as the reader's, but no file.
    let too_many = Plan::new(2, 1, &[jobs()[0]; MOST_JOBS + 1]).unwrap_err();
    assert_eq!((too_many.number(), too_many.offset()), (refusal::WRONG_JOB_COUNT, None));
}

/// The text of plan E's jobs.
const TEXT: &str = "name,grade,release,size,deadline\r\nMirror-A,L,0,6,5\r\nmirror-A,H,1,8,10\r\n";

/// The refusal of the text in which one part is another.
fn refused_with(part: &str, other: &str) -> Refusal {
    assert!(TEXT.contains(part));
    import_jobs(TEXT.replace(part, other).as_bytes()).unwrap_err()
}

#[test]
fn jobs_are_exported_and_imported_again() {
    assert_eq!(export_jobs(&jobs()).unwrap(), TEXT.as_bytes());
    assert_eq!(import_jobs(TEXT.as_bytes()), Ok(jobs().to_vec()));
    let quoted = TEXT.replace("mirror-A,H,1", r#""mirror-A","H","1""#);
    assert_eq!(import_jobs(quoted.as_bytes()), Ok(jobs().to_vec()));
    let of_plan: Vec<Job> = plan_e().jobs().collect();
    assert_eq!(export_jobs(&of_plan).unwrap(), TEXT.as_bytes());
}

#[test]
fn a_name_is_in_quotes_only_if_it_must_be() {
    let named = |name: &[u8; 8]| Job { name: *name, ..jobs()[0] };
    let exported = export_jobs(&[named(b"a,\"b\",c\""), named(b"a;'b\\'c+")]).unwrap();
    let lines = String::from_utf8(exported.clone()).unwrap();
    assert!(lines.ends_with("\r\n\"a,\"\"b\"\",c\"\"\",L,0,6,5\r\na;'b\\'c+,L,0,6,5\r\n"), "{lines}");
    let imported = import_jobs(&exported).unwrap();
    assert_eq!([imported[0].name_text(), imported[1].name_text()], ["a,\"b\",c\"", "a;'b\\'c+"]);
}

/// The second line begins at byte 52, its name there, its grade at 61 and its release at 63.
#[test]
fn a_refused_text_says_at_which_byte() {
    let places = [
        (refused_with("name", "Name"), refusal::WRONG_HEADER, 0),
        (refused_with("10\r\n", "10\n"), refusal::WRONG_LINE, 52),
        (refused_with("mirror-A", "mirror A"), refusal::WRONG_NAME_BYTE, 52),
        (refused_with("mirror-A", "Mirror-A"), refusal::NAME_TAKEN, 52),
        (refused_with("H", "HH"), refusal::WRONG_GRADE, 61),
        (refused_with("8,10", "8,1"), refusal::WRONG_JOB_BOUNDS, 63),
    ];
    for (refused, number, offset) in places {
        assert_eq!((refused.number(), refused.offset()), (number, Some(offset)), "{refused}");
    }
    assert_eq!(refused_with("H", "HH").to_string(), "refused 8: a grade is neither LO nor HI (byte 61)");
    let empty = import_jobs(&[]).unwrap_err();
    assert_eq!(empty.to_string(), "refused 24: the job list does not begin with its header (byte 0)");
    let no_line = import_jobs(&TEXT.as_bytes()[..34]).unwrap_err();
    assert_eq!((no_line.number(), no_line.offset()), (refusal::WRONG_JOB_COUNT, Some(34)));
}

#[test]
fn jobs_that_no_list_has_are_refused_at_no_byte() {
    let number = |jobs: &[Job]| {
        let refused = export_jobs(jobs).unwrap_err();
        assert_eq!(refused.offset(), None);
        refused.number()
    };
    assert_eq!(number(&[]), refusal::UNSOUND);
    assert_eq!(number(&[jobs()[0]; 2]), refusal::UNSOUND);
    assert_eq!(number(&[Job { size: u64::MAX, ..jobs()[0] }]), refusal::UNSOUND);
    let mut many: Vec<Job> = (0..=MOST_JOBS as u8).map(|i| Job { name: [b'!' + i; 8], ..jobs()[0] }).collect();
    assert_eq!(number(&many), refusal::UNSOUND);
    many.pop();
    let exported = export_jobs(&many).unwrap();
    assert!(exported.len() <= LONGEST_LIST);
    assert_eq!(import_jobs(&exported), Ok(many));
}

fn speed(mean: f64, lowest: f64, n: u16) -> Result<u16, u8> {
    speed_of(Reading { mean, lowest }, n).map_err(|refusal| refusal.number())
}

#[test]
fn a_reading_is_rounded_down_and_cut_to_the_normal_rate() {
    let lowest = [0.0, 0.5, 1.0, 1.999, 2.0, 2.7, f64::MAX];
    assert_eq!(lowest.map(|lowest| speed(f64::MAX, lowest, 2)), [0, 0, 1, 1, 2, 2, 2].map(Ok));
    assert_eq!((speed(1_001.5, 1_000.0, 1_000), speed(1_001.5, 999.999, 1_000)), (Ok(1_000), Ok(999)));
    // The floats next to 2, and the least one above zero.
    let next = [2_f64.to_bits() - 1, 2_f64.to_bits() + 1, 1].map(f64::from_bits);
    assert_eq!(next.map(|lowest| speed(3.0, lowest, 1_000)), [1, 2, 0].map(Ok));
    assert_eq!((speed(0.0, -0.0, 2), speed(-0.0, 0.0, 2)), (Ok(0), Ok(0)));
}

#[test]
fn a_reading_is_refused_for_the_first_of_its_grounds() {
    let endless = [f64::NAN, f64::INFINITY, f64::NEG_INFINITY, f64::from_bits(f64::INFINITY.to_bits() + 1)];
    for rate in endless {
        assert_eq!((speed(rate, 1.0, 2), speed(1.0, rate, 2), speed(rate, -1.0, 2)), (Err(30), Err(30), Err(30)));
        assert_eq!((speed(rate, rate, 1), speed(rate, 1.0, 1_001)), (Err(refusal::WRONG_RATES), Err(refusal::WRONG_RATES)));
    }
    let above = f64::from_bits(1_f64.to_bits() + 1);
    assert_eq!((speed(1.0, above, 2), speed(1.0, -f64::from_bits(1), 2)), (Err(refusal::WRONG_LOWEST), Err(refusal::WRONG_LOWEST)));
    let refused = speed_of(Reading { mean: -1.0, lowest: -1.0 }, 2).unwrap_err();
    assert_eq!((refused.to_string().as_str(), refused.offset()), ("refused 31: the lowest rate of a reading is below zero or above the mean", None));
    let refused = speed_of(Reading { mean: f64::NAN, lowest: 1.0 }, 2).unwrap_err();
    assert_eq!((refused.to_string().as_str(), refused.number()), ("refused 30: the mean or the lowest rate of a reading is not finite", refusal::NOT_FINITE));
}

/// The log of readings: a mean and a lowest rate each.
fn log_of(readings: &[(f64, f64)]) -> Vec<u8> {
    let mut log = vec![1];
    log.extend((17 * readings.len() as u32).to_be_bytes());
    for (mean, lowest) in readings {
        log.push(16);
        log.extend(mean.to_be_bytes());
        log.extend(lowest.to_be_bytes());
    }
    log
}

/// What stands in a list before a log is read into it.
const SPEED_MARK: u16 = 7_777;

/// The log gives plan E the night of the rules.
#[test]
fn a_plan_is_run_at_the_speeds_of_a_log() {
    let plan = plan_e();
    let lowest = [2.0, 2.7, 65_537.0, 1.999, 1.0, 1.5, 1.25];
    let mut speeds = [SPEED_MARK; MOST_SPEEDS];
    let count = read_log(&log_of(&lowest.map(|lowest| (1e300, lowest))), plan.normal_rate(), &mut speeds).unwrap();
    assert_eq!((count, &speeds[..8]), (7, &[2, 2, 2, 1, 1, 1, 1, SPEED_MARK][..]));
    let mut run = plan.start().unwrap();
    let (shifted, _, numbers) = shift_with_spare(&mut run, &plan, &speeds[..count], 0);
    assert_eq!((shifted, numbers), (Ok(()), vec![refusal::DONE; 7]));
    assert_eq!([OTHER, ESSENTIAL].map(|job| run.outcome(&plan, job)), [Ok(Outcome::Discarded), Ok(Outcome::Met)]);
}

/// The refusal of a log, which leaves the list as it was.
fn refused_log(log: &[u8], n: u16, places: usize) -> (u8, Option<usize>) {
    let mut list = vec![SPEED_MARK; places];
    let refused = read_log(log, n, &mut list).unwrap_err();
    assert!(list.iter().all(|&speed| speed == SPEED_MARK));
    (refused.number(), refused.offset())
}

/// The second reading begins at byte 22, its mean at 23 and its lowest rate at 31.
#[test]
fn a_refused_log_says_at_which_byte() {
    let log = log_of(&[(3.0, 2.0), (1.0, 1.0)]);
    let changed = |at: usize, byte: u8| {
        let mut wrong = log.clone();
        wrong[at] = byte;
        refused_log(&wrong, 2, 2)
    };
    assert_eq!(changed(0, 2), (refusal::WRONG_VERSION, Some(0)));
    assert_eq!(changed(4, 33), (refusal::WRONG_EXTENT, Some(1)));
    assert_eq!(changed(22, 15), (refusal::WRONG_RECORD_LENGTH, Some(22)));
    assert_eq!(changed(23, 0x7F), (refusal::NOT_FINITE, Some(23)));
    assert_eq!(changed(31, 0xBF), (refusal::WRONG_LOWEST, Some(23)));
    let mut cut = log[..38].to_vec();
    cut[4] = 33;
    assert_eq!(refused_log(&cut, 2, 2), (refusal::WRONG_EXTENT, Some(31)));
    assert_eq!(refused_log(&[], 2, 2), (refusal::WRONG_VERSION, Some(0)));
    let mut wrong = log.clone();
    wrong[31] = 0xBF;
    let refused = read_log(&wrong, 2, &mut [0; 2]).unwrap_err();
    assert_eq!(refused.to_string(), "refused 31: the lowest rate of a reading is below zero or above the mean (byte 23)");
}

#[test]
fn a_wrong_rate_and_a_short_list_are_refused_at_no_byte() {
    let log = log_of(&[(3.0, 2.0), (3.0, 1.0)]);
    for n in [0, 1, 1_001, u16::MAX] {
        assert_eq!(refused_log(&log, n, 2), (refusal::WRONG_RATES, None));
        assert_eq!(refused_log(&[], n, 0), (refusal::WRONG_RATES, None));
    }
    assert_eq!(refused_log(&log, 2, 1), (refusal::BUFFER_TOO_SHORT, None));
    // What stands in the log comes before.
    assert_eq!(refused_log(&log[..38], 2, 0), (refusal::WRONG_EXTENT, Some(1)));
    assert_eq!(read_log(&log_of(&[]), 2, &mut []), Ok(0));
}

#[test]
fn a_log_has_no_more_readings_than_a_shift_has_speeds() {
    let readings = [(3.0, 1.0); MOST_SPEEDS + 1];
    let most = log_of(&readings[1..]);
    let mut list = [SPEED_MARK; MOST_SPEEDS];
    assert_eq!((most.len(), read_log(&most, 2, &mut list)), (LARGEST_LOG, Ok(MOST_SPEEDS)));
    assert_eq!(list, [1; MOST_SPEEDS]);
    assert_eq!(refused_log(&log_of(&readings), 2, MOST_SPEEDS + 1), (refusal::TOO_MANY_SPEEDS, Some(LARGEST_LOG)));
}
