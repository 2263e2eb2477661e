//! Imports a job list through the archive, and prints its jobs as a description has them, or where the text is wrong and how. With `--export`
//! it writes the job list of a described plan or of a plan file.

use description::encoding::{is_plan_file, job_line};
use description::{filefault, textfault};
use gateway::{export_jobs, import_jobs, Grade, Job, Plan, Refusal};
use std::io::Write as _;
use std::process::exit;

const USAGE: &str = "usage: try-jobs JOBS
       try-jobs --export FILE";

// What the exit status says.
const DONE: i32 = 0;
const REFUSED: i32 = 1;
const WRONG_USE: i32 = 2;

/// What is printed, what is said beside it, and the exit status.
struct Tried {
    printed: Vec<u8>,
    said: String,
    status: i32,
}

fn verdict(refusal: &Refusal, place: Option<String>) -> String {
    let words = format!("refused {}: {}\n", refusal.number(), refusal.words());
    words + &place.map_or(String::new(), |place| format!("  {place}\n"))
}

// A job that was imported: its name is of ASCII signs, and its size fits.
fn line(job: &Job) -> String {
    let name = String::from_utf8_lossy(&job.name).into_owned();
    job_line(&description::Job { name, hi: job.grade == Grade::Hi, release: job.release, size: job.size as u32, deadline: job.deadline })
}

fn imported(text: &[u8]) -> Tried {
    let place = |refusal: &Refusal| refusal.offset().map(|offset| textfault::sentence(text, refusal.number(), offset));
    let (printed, status) = match import_jobs(text) {
        Ok(jobs) => {
            let s = if jobs.len() == 1 { "" } else { "s" };
            let lines: String = jobs.iter().map(|job| line(job) + "\n").collect();
            (format!("taken: {} job{s}\n{lines}", jobs.len()), DONE)
        }
        Err(refusal) => (verdict(&refusal, place(&refusal)), REFUSED),
    };
    Tried { printed: printed.into_bytes(), said: String::new(), status }
}

// The jobs of a plan file, or what is said of one that the reader refuses.
fn jobs_of_file(file: &[u8]) -> Result<Vec<Job>, String> {
    let place = |refusal: &Refusal| refusal.offset().map(|offset| filefault::sentence(file, refusal.number(), offset));
    Plan::read(file).map(|plan| plan.jobs().collect()).map_err(|refusal| verdict(&refusal, place(&refusal)))
}

fn jobs_of_text(text: &[u8]) -> Result<Vec<Job>, String> {
    let job = |job: &description::Job| Job {
        name: job.name.as_bytes().try_into().expect("a name of eight bytes"),
        grade: if job.hi { Grade::Hi } else { Grade::Lo },
        release: job.release,
        size: job.size.into(),
        deadline: job.deadline,
    };
    Ok(description::parse_bytes(text)?.jobs.iter().map(job).collect())
}

fn exported(path: &str, bytes: &[u8]) -> Result<Tried, String> {
    let jobs = if is_plan_file(path, bytes) { jobs_of_file(bytes) } else { Ok(jobs_of_text(bytes)?) };
    let hint = || Some(format!("tools/try-plan {path} says what is wrong, and where"));
    let text = jobs.and_then(|jobs| export_jobs(&jobs).map_err(|refusal| verdict(&refusal, hint())));
    Ok(match text {
        Ok(printed) => Tried { printed, said: String::new(), status: DONE },
        Err(said) => Tried { printed: Vec::new(), said, status: REFUSED },
    })
}

fn load(path: &str) -> Result<Vec<u8>, String> {
    std::fs::read(path).map_err(|fault| fault.to_string())
}

fn wrong_use(fault: &str) -> ! {
    eprintln!("{fault}");
    exit(WRONG_USE)
}

fn main() {
    let arguments: Vec<String> = std::env::args().skip(1).collect();
    let (path, tried) = match &arguments[..] {
        [path] => (path, load(path).map(|text| imported(&text))),
        [option, path] if option == "--export" => (path, load(path).and_then(|bytes| exported(path, &bytes))),
        _ => wrong_use(USAGE),
    };
    let Tried { printed, said, status } = tried.unwrap_or_else(|fault| wrong_use(&format!("try-jobs: {path}: {fault}")));
    if let Err(fault) = std::io::stdout().write_all(&printed) {
        wrong_use(&format!("try-jobs: {fault}"));
    }
    eprint!("{said}");
    exit(status);
}
