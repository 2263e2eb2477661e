//! Draws a night as an SVG picture: a row for each transfer with its window, what the plan allots and what was granted, and how it ended;
//! below them the speed of the link. Long nights are drawn in columns of several slots.

mod nightlines;

use description::{Description, FORM};
use nightlines::{night, Ending, Night};
use std::fmt::Write as _;
use std::io::Read as _;
use std::process::exit;

const USAGE: &str = "usage: nightpicture DESCRIPTION < OUTPUT > PICTURE.svg    OUTPUT is what runplan or try-plan prints
       nightpicture --help                               how a description is written";

// All lengths are in pixels.
const LEAST_PLOT: f64 = 560.0;
const MOST_PLOT: f64 = 840.0;
const WIDEST_SLOT: f64 = 56.0;
const MOST_COLUMNS: u32 = 120;
const EDGE: f64 = 20.0;
const GAP: f64 = 14.0;
const HEAD: f64 = 78.0;
const ROW: f64 = 74.0;
const BAR: f64 = 40.0;
const BELOW_BAR: f64 = 22.0;
const AXIS: f64 = 44.0;
const LEGEND_LINE: f64 = 20.0;
const LEGEND_COLUMNS: usize = 2;
// The widest sign of a usual font, at the size of most texts.
const SIGN: f64 = 8.0;

const HI_PAINT: &str = "#1f4e9c";
const LO_PAINT: &str = "#4f9d84";
const SLOW_PAINT: &str = "#fbe8d3";
const BELOW_FLOOR_PAINT: &str = "#f3c6c6";
const NOT_RUN_PAINT: &str = "#f0f1f3";
const LINK_PAINT: &str = "#b4bac4";
const LOWEST_PAINT: &str = "#6d7683";
const BOUNDARY: &str = "stroke=\"#c3c8d0\"";
const WINDOW: &str = "fill=\"none\" stroke=\"#7d8590\" stroke-dasharray=\"3 3\"";
const NORMAL: &str = "stroke=\"#7d8590\" stroke-dasharray=\"3 3\"";
const FLOOR: &str = "stroke=\"#b03a2e\" stroke-width=\"1.5\" stroke-dasharray=\"6 3\"";
const RELEASE: &str = "stroke=\"#222\" stroke-width=\"2.5\"";
const DEADLINE: &str = "stroke=\"#c0392b\" stroke-width=\"2.5\"";

fn wide(text: &str) -> f64 {
    SIGN * text.chars().count() as f64
}

fn escaped(text: &str) -> String {
    text.replace('&', "&amp;").replace('<', "&lt;").replace('>', "&gt;")
}

fn paint(hi: bool) -> &'static str {
    if hi {
        HI_PAINT
    } else {
        LO_PAINT
    }
}

fn colour(outcome: &str) -> &'static str {
    match outcome {
        "met" => "#1a7f4b",
        "discarded" => "#6b6f76",
        "missed" => "#c0392b",
        _ => "#8a6d1b",
    }
}

/// The least of 1, 2, 5, 10, 20, 50 and so on that is enough.
fn round_number(enough: impl Fn(u32) -> bool) -> u32 {
    let rising = (0..).flat_map(|power| [1, 2, 5].map(|digit| digit * 10_u32.pow(power)));
    rising.take(27).find(|&number| enough(number)).unwrap_or(u32::MAX)
}

/// Slots that are drawn as one column.
struct Column {
    from: u32,
    to: u32,
    /// Units, for each job.
    grants: Vec<u32>,
    speed: f64,
    lowest: u32,
}

/// What is drawn, and where it stands.
struct Picture<'a> {
    d: &'a Description,
    night: &'a Night,
    svg: String,
    first: u32,
    last: u32,
    slots_in_column: u32,
    slot: f64,
    left: f64,
    right: f64,
    top: f64,
}

impl<'a> Picture<'a> {
    fn new(d: &'a Description, night: &'a Night) -> Picture<'a> {
        let intervals = d.intervals();
        let (first, last) = (intervals[0].from, intervals[intervals.len() - 1].to);
        let span = f64::from(last - first);
        let widest = |texts: Vec<String>| texts.iter().map(|text| wide(text)).fold(0.0, f64::max);
        let left = EDGE + GAP + widest(d.jobs.iter().map(window_words).collect());
        let right = EDGE + GAP + widest(d.jobs.iter().zip(&night.endings).map(|(job, ending)| carried_words(job, ending)).collect());
        Picture {
            d,
            night,
            svg: String::new(),
            first,
            last,
            slots_in_column: round_number(|slots| (last - first + slots - 1) / slots <= MOST_COLUMNS),
            slot: (WIDEST_SLOT * span).clamp(LEAST_PLOT, MOST_PLOT) / span,
            left,
            right,
            top: if night.refusals.is_empty() { HEAD } else { HEAD + LEGEND_LINE },
        }
    }

    fn x(&self, time: u32) -> f64 {
        self.left + f64::from(time - self.first) * self.slot
    }

    // The line on which the bars of a row stand.
    fn base(&self, row: usize) -> f64 {
        self.top + ROW * (row + 1) as f64 - BELOW_BAR
    }

    fn bottom(&self) -> f64 {
        self.top + ROW * (self.d.jobs.len() + 1) as f64
    }

    fn width(&self) -> f64 {
        self.x(self.last) + self.right
    }

    // Bars are as high as their part of the normal rate.
    fn bar(&self, units_per_slot: f64) -> f64 {
        BAR * units_per_slot / f64::from(self.d.normal)
    }

    fn end_of_run(&self) -> u32 {
        self.first + self.night.slots.len() as u32
    }

    fn slow_from(&self) -> Option<u32> {
        self.night.slots.iter().find(|slot| slot.slow).map(|slot| slot.clock)
    }

    fn below_floor_from(&self) -> Option<u32> {
        self.night.slots.iter().find(|slot| slot.speed < self.d.floor.into()).map(|slot| slot.clock)
    }

    fn columns(&self) -> Vec<Column> {
        let chunks = self.night.slots.chunks(self.slots_in_column as usize);
        let column = |slots: &[nightlines::Slot]| {
            let mut grants = vec![0; self.d.jobs.len()];
            for (job, units) in slots.iter().flat_map(|slot| &slot.grants) {
                grants[*job] += units;
            }
            let speed = slots.iter().map(|slot| f64::from(slot.speed)).sum::<f64>() / slots.len() as f64;
            let lowest = slots.iter().map(|slot| slot.speed).min().unwrap_or_default();
            Column { from: slots[0].clock, to: slots[0].clock + slots.len() as u32, grants, speed, lowest }
        };
        chunks.map(column).collect()
    }

    fn rect(&mut self, x: f64, y: f64, width: f64, height: f64, style: &str) {
        let _ = writeln!(self.svg, "<rect x=\"{x:.1}\" y=\"{y:.1}\" width=\"{width:.1}\" height=\"{height:.1}\" {style}/>");
    }

    fn text(&mut self, x: f64, y: f64, class: &str, ink: &str, text: &str) {
        let _ = writeln!(self.svg, "<text x=\"{x:.1}\" y=\"{y:.1}\" class=\"{class}\" fill=\"{ink}\">{}</text>", escaped(text));
    }

    fn line(&mut self, x1: f64, y1: f64, x2: f64, y2: f64, style: &str) {
        let _ = writeln!(self.svg, "<line x1=\"{x1:.1}\" y1=\"{y1:.1}\" x2=\"{x2:.1}\" y2=\"{y2:.1}\" {style}/>");
    }

    fn heading(&mut self) {
        self.text(EDGE, 28.0, "t", "#222", "A night on the link");
        let columns = match self.slots_in_column {
            1 => "a column for each slot".to_string(),
            many => format!("each column is the average of {many} slots"),
        };
        let (span, Description { normal, floor, .. }) = (self.last - self.first, self.d);
        let slots = if span == 1 { "slot" } else { "slots" };
        self.text(EDGE, 48.0, "s", "#555", &format!("normal rate {normal}, floor {floor}; {span} {slots}, {columns}"));
        let refusals = &self.night.refusals;
        if !refusals.is_empty() {
            let mut numbers = refusals.clone();
            numbers.sort_unstable();
            numbers.dedup();
            let told: Vec<String> = numbers.iter().map(|number| format!("{} by {number}", refusals.iter().filter(|n| *n == number).count())).collect();
            self.text(EDGE, 66.0, "s", "#c0392b", &format!("speeds refused: {}", told.join(", ")));
        }
    }

    // What the marks say, from the first slot that set them to the end of the run. Either may be set without the other, so that
    // the below-floor mark has the lower half for itself.
    fn shading(&mut self) {
        let (top, height) = (self.top, self.bottom() - self.top);
        let end = self.end_of_run();
        let parts = [
            (self.slow_from(), end, 0.0, SLOW_PAINT),
            (self.below_floor_from(), end, height / 2.0, BELOW_FLOOR_PAINT),
            (Some(end).filter(|&end| end < self.last), self.last, 0.0, NOT_RUN_PAINT),
        ];
        for (from, to, down, paint) in parts {
            if let Some(from) = from.filter(|&from| from < to) {
                self.rect(self.x(from), top + down, self.x(to) - self.x(from), height - down, &format!("fill=\"{paint}\""));
            }
        }
    }

    fn intervals(&mut self) {
        let (top, bottom) = (self.top, self.bottom());
        for (at, interval) in self.d.intervals().iter().enumerate() {
            let (from, to) = (self.x(interval.from), self.x(interval.to));
            self.line(from, top - 6.0, from, bottom, BOUNDARY);
            self.line(to, top - 6.0, to, bottom, BOUNDARY);
            if wide(&at.to_string()) < to - from {
                self.text((from + to) / 2.0, top - 8.0, "m", "#7d8590", &at.to_string());
            }
        }
        self.text(self.left - GAP, top - 8.0, "e", "#7d8590", "interval");
    }

    // Times at even distances, far enough from each other for the longest.
    fn times(&mut self) {
        let (y, longest) = (self.bottom(), wide(&self.last.to_string()));
        let every = round_number(|slots| f64::from(slots) * self.slot >= longest + GAP);
        let ticks = (self.first..=self.last).filter(|time| time % every == 0);
        for time in ticks {
            let x = self.x(time);
            self.line(x, y, x, y + 5.0, "stroke=\"#7d8590\"");
            self.text(x, y + 19.0, "m", "#555", &time.to_string());
        }
        self.text(self.left - longest, y + 19.0, "e", "#555", "time");
    }

    // A number in its bar, or above one that is too low for it.
    fn number(&mut self, x: f64, base: f64, height: f64, number: u32) {
        let (y, ink) = if height >= 16.0 { (base - height + 13.0, "#fff") } else { (base - height - 3.0, "#333") };
        self.text(x, y, "m", ink, &number.to_string());
    }

    fn numbers_fit(&self) -> bool {
        self.slots_in_column == 1 && wide(&self.d.normal.to_string()) <= self.slot
    }

    fn allotments(&mut self, job: usize) {
        let (intervals, base) = (self.d.intervals(), self.base(job));
        for row in self.d.rows.iter().filter(|row| row.name == self.d.jobs[job].name) {
            let interval = intervals[usize::from(row.interval)];
            let (from, to) = (self.x(interval.from), self.x(interval.to));
            let height = self.bar(f64::from(row.units) / f64::from(interval.to - interval.from));
            self.rect(from, base - height, to - from, height, &allotted_style(self.d.jobs[job].hi));
            let units = row.units.to_string();
            if wide(&units) < to - from {
                self.text((from + to) / 2.0, base + 14.0, "m", paint(self.d.jobs[job].hi), &units);
            }
        }
    }

    fn transfer(&mut self, at: usize, columns: &[Column]) {
        let (d, night) = (self.d, self.night);
        let (job, ending, base) = (&d.jobs[at], &night.endings[at], self.base(at));
        let (from, to, edge) = (self.x(job.release), self.x(job.deadline), self.x(self.last));
        self.allotments(at);
        for column in columns.iter().filter(|column| column.grants[at] > 0) {
            // The part of the column that lies in the window.
            let (begin, end) = (column.from.max(job.release), column.to.min(job.deadline));
            let height = self.bar(f64::from(column.grants[at]) / f64::from(end - begin));
            let (x, width) = (self.x(begin), self.x(end) - self.x(begin));
            self.rect(x + width * 0.06, base - height, width * 0.88, height, &format!("fill=\"{}\"", paint(job.hi)));
            if self.numbers_fit() {
                self.number(x + width / 2.0, base, height, column.grants[at]);
            }
        }
        self.rect(from, base - BAR, to - from, BAR, WINDOW);
        self.line(self.left, base, edge, base, BOUNDARY);
        self.line(from, base - BAR - 3.0, from, base + 3.0, RELEASE);
        self.line(to, base - BAR - 3.0, to, base + 3.0, DEADLINE);
        let names = self.left - GAP;
        self.text(names, base - 20.0, "n", "#222", &job.name);
        self.text(names, base - 3.0, "e", paint(job.hi), &window_words(job));
        self.text(edge + GAP, base - 20.0, "o", colour(&ending.outcome), &ending.outcome);
        self.text(edge + GAP, base - 3.0, "s", "#444", &carried_words(job, ending));
    }

    fn link(&mut self, columns: &[Column]) {
        let base = self.base(self.d.jobs.len());
        let (left, edge) = (self.left, self.x(self.last));
        for column in columns {
            let (x, width) = (self.x(column.from), self.x(column.to) - self.x(column.from));
            let (height, lowest) = (self.bar(column.speed), self.bar(column.lowest.into()));
            self.rect(x, base - height, width, height, &format!("fill=\"{LINK_PAINT}\""));
            if self.slots_in_column > 1 {
                self.rect(x, base - lowest, width, lowest, &format!("fill=\"{LOWEST_PAINT}\""));
            }
            if self.numbers_fit() {
                self.text(x + width / 2.0, base + 14.0, "m", "#333", &column.lowest.to_string());
            }
        }
        let floor = base - self.bar(self.d.floor.into());
        self.rect(left, base - BAR, edge - left, BAR, WINDOW);
        self.line(left, floor, edge, floor, FLOOR);
        self.text(left - GAP, base - 20.0, "n", "#222", "link");
        self.text(left - GAP, base - 3.0, "e", "#555", "speed");
    }

    // Each entry: how its sign is drawn, and its words.
    fn legend_entries(&self) -> Vec<(Sign, String)> {
        let filled = |paint: &str| Sign::Area(format!("fill=\"{paint}\""));
        let mut entries = vec![
            (filled(HI_PAINT), "HI (essential): units granted".to_string()),
            (filled(LO_PAINT), "LO (other): units granted".to_string()),
            (Sign::Window, "window: release (black) to deadline (red)".to_string()),
            (Sign::Line(NORMAL), "the normal rate".to_string()),
            (Sign::Area(allotted_style(true)), "allotted to an interval; units below, where they fit".to_string()),
            (Sign::Line(BOUNDARY), "boundary; interval numbers on top, where they fit".to_string()),
            (Sign::Line(FLOOR), "the floor".to_string()),
        ];
        let of_speed = if self.slots_in_column == 1 { "speed of the link" } else { "speed of the link, average" };
        entries.push((filled(LINK_PAINT), of_speed.to_string()));
        if self.slots_in_column > 1 {
            entries.push((filled(LOWEST_PAINT), "lowest speed in the column".to_string()));
        }
        if self.slow_from().is_some() {
            entries.push((filled(SLOW_PAINT), "slow mark set: HI jobs alone are served".to_string()));
        }
        if self.below_floor_from().is_some() {
            entries.push((filled(BELOW_FLOOR_PAINT), "below-floor mark set: nothing is promised".to_string()));
        }
        if self.end_of_run() < self.last {
            entries.push((filled(NOT_RUN_PAINT), "no speed given".to_string()));
        }
        entries
    }

    // The legend, and where the picture ends.
    fn legend(&mut self) -> f64 {
        let (entries, top) = (self.legend_entries(), self.bottom() + AXIS);
        let column = (self.width() - 2.0 * EDGE) / LEGEND_COLUMNS as f64;
        let lines = (entries.len() + LEGEND_COLUMNS - 1) / LEGEND_COLUMNS;
        for (at, (sign, words)) in entries.iter().enumerate() {
            let (x, y) = (EDGE + column * (at / lines) as f64, top + LEGEND_LINE * (at % lines) as f64);
            match sign {
                Sign::Area(style) => self.rect(x, y, 28.0, 12.0, style),
                Sign::Line(style) => self.line(x, y + 6.0, x + 28.0, y + 6.0, style),
                Sign::Window => {
                    self.rect(x, y, 28.0, 12.0, WINDOW);
                    self.line(x, y - 1.0, x, y + 13.0, RELEASE);
                    self.line(x + 28.0, y - 1.0, x + 28.0, y + 13.0, DEADLINE);
                }
            }
            self.text(x + 38.0, y + 10.0, "s", "#333", words);
        }
        top + LEGEND_LINE * lines as f64 + GAP
    }

    fn drawn(mut self) -> String {
        let columns = self.columns();
        self.heading();
        self.shading();
        self.intervals();
        for at in 0..self.d.jobs.len() {
            self.transfer(at, &columns);
        }
        self.link(&columns);
        self.times();
        let (height, width) = (self.legend(), self.width());
        format!(
            "<svg xmlns=\"http://www.w3.org/2000/svg\" viewBox=\"0 0 {width:.0} {height:.0}\" width=\"{width:.0}\" height=\"{height:.0}\">\n\
             <style>text{{font:12px sans-serif}}.t{{font-size:18px;font-weight:bold}}.m{{text-anchor:middle}}.e{{text-anchor:end}}\
             .n{{text-anchor:end;font:bold 14px monospace}}.o{{font-size:15px;font-weight:bold}}</style>\n\
             <rect width=\"{width:.0}\" height=\"{height:.0}\" fill=\"#fff\"/>\n{}</svg>\n",
            self.svg
        )
    }
}

/// What stands beside the words of a legend.
enum Sign {
    Area(String),
    Line(&'static str),
    Window,
}

fn allotted_style(hi: bool) -> String {
    let paint = paint(hi);
    format!("fill=\"{paint}\" fill-opacity=\"0.15\" stroke=\"{paint}\" stroke-opacity=\"0.6\"")
}

fn window_words(job: &description::Job) -> String {
    format!("{}, {} to {}", if job.hi { "HI" } else { "LO" }, job.release, job.deadline)
}

fn carried_words(job: &description::Job, ending: &Ending) -> String {
    format!("{} of {} units", ending.carried, job.size)
}

fn made(path: &str) -> Result<String, String> {
    let d = description::load(path)?;
    let mut printed = String::new();
    std::io::stdin().read_to_string(&mut printed).map_err(|fault| format!("standard input: {fault}"))?;
    let night = night(&d, &printed).map_err(|fault| format!("{path}: {fault}"))?;
    Ok(Picture::new(&d, &night).drawn())
}

fn main() {
    let arguments: Vec<String> = std::env::args().skip(1).collect();
    let words: Vec<&str> = arguments.iter().map(String::as_str).collect();
    let path = match words[..] {
        ["--help"] => {
            print!("{USAGE}\n\n{FORM}");
            return;
        }
        [path] => path,
        _ => {
            eprintln!("{USAGE}");
            exit(2);
        }
    };
    match made(path) {
        Ok(svg) => print!("{svg}"),
        Err(fault) => {
            eprintln!("nightpicture: {fault}");
            exit(1);
        }
    }
}
