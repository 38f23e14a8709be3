//! The lines that a run prints.
use crate::decimal;
use crate::output::{Output, ROOM};
use crate::scenario::{Scenario, WORKS};

/// A text of at most sixteen bytes, which is copied whole.
#[derive(Clone, Copy)]
struct Short {
    bytes: [u8; 16],
    len: u8,
}

impl Short {
    #[inline]
    fn put(&self, room: &mut [u8; ROOM], at: usize) -> usize {
        room[at..at + 16].copy_from_slice(&self.bytes);
        at + self.len as usize
    }
}

/// Writes the lines of a run. The text of a time is made once for all lines of that time.
pub struct Lines {
    output: Output,
    /// The time of the last line, and its text with a blank behind it.
    time: u64,
    time_text: Short,
    /// The names of the works, with a blank behind each.
    names: Box<[Short; WORKS]>,
}

/// A line, as far as it is written.
pub struct Line<'l> {
    room: &'l mut [u8; ROOM],
    names: &'l [Short; WORKS],
    at: usize,
}

impl Line<'_> {
    /// Words of the line.
    #[inline]
    pub fn text<const N: usize>(mut self, words: &[u8; N]) -> Self {
        self.room[self.at..self.at + N].copy_from_slice(words);
        self.at += N;
        self
    }

    /// Takes so many bytes away from the line's end.
    #[inline]
    pub fn cut(mut self, bytes: u8) -> Self {
        self.at -= bytes as usize;
        self
    }

    /// The name of a work, and a blank.
    #[inline]
    pub fn name(mut self, work: u8) -> Self {
        self.at = self.names[work as usize].put(self.room, self.at);
        self
    }

    /// The name of a work, and the end of the line.
    #[inline]
    pub fn name_and_end(self, work: u8) -> Self {
        let line = self.name(work);
        line.room[line.at - 1] = b'\n';
        line
    }

    /// A number.
    #[inline]
    pub fn number(mut self, number: u64) -> Self {
        self.at = decimal::put(self.room, self.at, number);
        self
    }
}

impl Lines {
    /// The lines of a scenario.
    pub fn new(scenario: &Scenario, output: Output) -> Lines {
        let mut names = Box::new([Short { bytes: [0; 16], len: 0 }; WORKS]);
        for (short, work) in names.iter_mut().zip(&scenario.works) {
            let len = work.name.len();
            short.bytes = work.name.bytes();
            short.bytes[len] = b' ';
            short.len = len as u8 + 1;
        }
        let mut lines = Lines { output, time: 0, time_text: Short { bytes: [0; 16], len: 0 }, names };
        lines.show_anew(0);
        lines
    }

    /// Makes the text of a time. Where only its last digit is another than before, only that is changed.
    fn show(&mut self, time: u64) {
        let last = &mut self.time_text.bytes[self.time_text.len as usize % 16 - 2];
        let digit = u64::from(*last) + (time - self.time);
        if digit <= b'9'.into() {
            *last = digit as u8;
            self.time = time;
        } else {
            self.show_anew(time);
        }
    }

    fn show_anew(&mut self, time: u64) {
        let mut text = [b' '; 32];
        let len = decimal::put(&mut text, 0, time);
        text[len] = b' ';
        self.time = time;
        self.time_text.bytes.copy_from_slice(&text[..16]);
        self.time_text.len = len as u8 + 1;
    }

    /// Writes a line that begins with this time.
    #[inline]
    pub fn write(&mut self, time: u64, words: impl FnOnce(Line) -> Line) {
        if time != self.time {
            self.show(time);
        }
        let room = self.output.room();
        let at = self.time_text.put(room, 0);
        let end = words(Line { room, names: &self.names, at }).at;
        self.output.wrote(end);
    }

    /// What goes out.
    pub fn into_output(self) -> Output {
        self.output
    }
}
