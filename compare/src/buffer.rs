//! A lent buffer twice, for the archive and for the model, between borders of known words.

use std::fmt::Display;

/// Words before and after what is lent.
const BORDER: usize = 4;
/// Most words of a buffer that are told.
const MOST_TOLD: usize = 60;

/// An element of a buffer.
pub trait Word: Copy + PartialEq + Display {
    /// What stands at a place before a call puts something there.
    fn known(place: usize) -> Self;
    /// Another word.
    fn spoilt(self) -> Self;
}

macro_rules! word {
    ($($kind:ty: $first:expr),*) => {$(
        impl Word for $kind {
            fn known(place: usize) -> $kind {
                ($first as $kind).wrapping_add(place as $kind)
            }

            fn spoilt(self) -> $kind {
                self.wrapping_add(1)
            }
        }
    )*};
}

// No answer comes near these, except to the bytes.
word!(
    u8: 0xA5,
    u16: u16::MAX / 3 * 2,
    u32: u32::MAX / 3 * 2,
    u64: u64::MAX / 3 * 2,
    i64: i64::MIN / 3,
    usize: usize::MAX / 3
);

/// A word of a buffer or of its borders.
#[derive(Clone, Copy, Debug, PartialEq, Eq)]
pub enum Spot {
    LastBefore,
    First,
    Last,
    FirstAfter,
    /// So many words after the first one.
    At(usize),
}

pub const SPOTS: [Spot; 4] = [Spot::LastBefore, Spot::First, Spot::Last, Spot::FirstAfter];

/// The memory that one pointer of a call points into. Both copies hold border, contents and border.
pub struct Buffer<T> {
    name: &'static str,
    archive: Vec<T>,
    model: Vec<T>,
    /// Where the contents begin in both copies.
    begins: usize,
    lent: usize,
}

impl<T: Word> Buffer<T> {
    /// A buffer of known words.
    pub fn known(name: &'static str, length: usize) -> Buffer<T> {
        Buffer::of(name, &[], length)
    }

    /// A buffer that begins with these words; known words follow up to its length.
    pub fn of(name: &'static str, first: &[T], length: usize) -> Buffer<T> {
        let mut archive: Vec<T> = (0..length + 2 * BORDER).map(T::known).collect();
        archive[BORDER..BORDER + first.len()].copy_from_slice(first);
        Buffer {
            name,
            model: archive.clone(),
            archive,
            begins: BORDER,
            lent: length,
        }
    }

    /// The part of it from an element on, all of it lent; the elements before belong to the border.
    pub fn part_from(mut self, first: usize) -> Buffer<T> {
        self.begins += first;
        self.lend_all();
        self
    }

    /// Puts known words into it again.
    pub fn renew(&mut self) {
        for (place, word) in self.archive.iter_mut().enumerate() {
            *word = T::known(place);
        }
        self.model.copy_from_slice(&self.archive);
    }

    /// Lends this many elements from now on; those beyond belong to the border then.
    pub fn lend(&mut self, length: usize) {
        self.lent = length.min(self.length());
    }

    pub fn lend_all(&mut self) {
        self.lent = self.length();
    }

    pub fn lent(&self) -> usize {
        self.lent
    }

    fn length(&self) -> usize {
        self.model.len() - BORDER - self.begins
    }

    /// What both copies hold, as long as no difference was found.
    pub fn contents(&self) -> &[T] {
        &self.model[self.begins..self.begins + self.length()]
    }

    /// The known words that stood where its contents are, before anything was put there.
    pub fn known_words(&self) -> Vec<T> {
        (self.begins..self.begins + self.length()).map(T::known).collect()
    }

    /// Puts words into both copies.
    pub fn put(&mut self, at: usize, words: &[T]) {
        let place = self.begins + at..self.begins + at + words.len();
        self.archive[place.clone()].copy_from_slice(words);
        self.model[place].copy_from_slice(words);
    }

    pub fn archive(&self) -> *const T {
        self.archive[self.begins..].as_ptr()
    }

    pub fn archive_mut(&mut self) -> *mut T {
        self.archive[self.begins..].as_mut_ptr()
    }

    pub fn model(&self) -> &[T] {
        &self.model[self.begins..self.begins + self.lent]
    }

    pub fn model_mut(&mut self) -> &mut [T] {
        &mut self.model[self.begins..self.begins + self.lent]
    }
}

/// What a comparison asks of a buffer of any kind of word.
pub trait Lent {
    /// The first words of the archive's copy; equal ones in a row are told once.
    fn told(&self) -> String;
    /// Where the archive's copy is another than the model's, and how; the borders count too.
    fn difference(&self) -> Option<String>;
    /// Changes a word of the archive's copy, if there is such a word.
    fn spoil(&mut self, spot: Spot);
}

impl<T: Word> Lent for Buffer<T> {
    fn told(&self) -> String {
        let mut told = format!("  {}, {} lent:", self.name, self.lent);
        let mut rest = &self.archive[self.begins..self.begins + self.length()];
        for _ in 0..MOST_TOLD {
            let word = match rest.first() {
                Some(word) => word,
                None => return told,
            };
            let times = rest.iter().take_while(|other| *other == word).count();
            told.push_str(&match times {
                1 => format!(" {}", word),
                _ => format!(" {} ({} times)", word, times),
            });
            rest = &rest[times..];
        }
        told.push_str(" ..");
        told
    }

    fn difference(&self) -> Option<String> {
        if self.archive == self.model {
            return None;
        }
        let differs = |&at: &usize| self.archive[at] != self.model[at];
        let at = (0..self.model.len()).find(differs)?;
        let place = at as i64 - self.begins as i64;
        Some(format!(
            "{}[{}], of {} lent: expected {}, got {}",
            self.name, place, self.lent, self.model[at], self.archive[at]
        ))
    }

    fn spoil(&mut self, spot: Spot) {
        let at = match spot {
            Spot::LastBefore => self.begins - 1,
            Spot::First | Spot::Last if self.lent == 0 => return,
            Spot::First => self.begins,
            Spot::Last => self.begins + self.lent - 1,
            Spot::FirstAfter => self.begins + self.lent,
            Spot::At(word) => self.begins + word,
        };
        self.archive[at] = self.archive[at].spoilt();
    }
}
