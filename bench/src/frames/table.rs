//! Tables: engines that do the same work, compared and then timed in turn, a row of
//! them at a time.

use super::Size;
use std::hint::black_box;
use std::time::Instant;

/// Something that is timed. It does its work once, and answers what came of it, cells or
/// the bytes of a number, if asked for, else nothing.
pub struct Engine<'a> {
    name: &'static str,
    run: Box<dyn FnMut(bool) -> Vec<u8> + 'a>,
    compared: bool,
}

impl<'a> Engine<'a> {
    pub fn new(name: &'static str, run: impl FnMut(bool) -> Vec<u8> + 'a) -> Engine<'a> {
        let (run, compared) = (Box::new(run), true);
        Engine {
            name,
            run,
            compared,
        }
    }

    /// The same, but what comes of it isn't compared: it copies bytes alone, or has another
    /// result.
    pub fn uncompared(self) -> Engine<'a> {
        Engine {
            compared: false,
            ..self
        }
    }
}

/// The cells if they were asked for. They may not be all alike: an engine that writes one
/// value everywhere would agree.
pub fn asked(read: bool, cells: &[u8]) -> Vec<u8> {
    if read {
        assert!(cells.contains(&0) && cells.contains(&1), "cells all alike");
        cells.to_vec()
    } else {
        Vec::new()
    }
}

/// The same where 0 or 1 may be missing, as long as some other value is there.
pub fn asked_any(read: bool, cells: &[u8]) -> Vec<u8> {
    if read {
        assert!(
            cells.iter().any(|cell| *cell != cells[0]),
            "cells all alike"
        );
        cells.to_vec()
    } else {
        Vec::new()
    }
}

/// Memory that an engine works on: bytes that it reads, some between, and bytes that it
/// writes. It starts with a page, so that of two engines neither is the better for where
/// its bytes stand.
pub struct Lent {
    memory: Vec<u8>,
    start: usize,
    /// From the start to the bytes written.
    far: usize,
    read: usize,
    written: usize,
}

pub const PAGE: usize = 4096;

impl Lent {
    /// What is written holds no cells.
    pub fn new(read: &[u8], between: usize, written: usize) -> Lent {
        let far = read.len() + between;
        let mut memory = vec![7; far + written + PAGE];
        let start = memory.as_ptr().align_offset(PAGE);
        memory[start..start + read.len()].copy_from_slice(read);
        Lent {
            memory,
            start,
            far,
            read: read.len(),
            written,
        }
    }

    /// With as many bytes between as are written, or some more. Code that has to find out
    /// whether the two overlap may take another way where they are close.
    pub fn apart(read: &[u8], written: usize) -> Lent {
        let far = (read.len() + written).next_multiple_of(64);
        Lent::new(read, far - read.len(), written)
    }

    /// The bytes read, and those written.
    pub fn parts(&mut self) -> (&[u8], &mut [u8]) {
        let (before, after) = self.memory[self.start..].split_at_mut(self.far);
        (&before[..self.read], &mut after[..self.written])
    }
}

/// How a table is measured: rounds that count, and how often each engine works in one.
/// And how many decimals the microseconds have.
#[derive(Clone, Copy)]
pub struct Pace {
    pub rounds: usize,
    pub times: usize,
    pub decimals: usize,
}

/// Characters of the first column.
const FIRST: usize = 38;

/// A table that is printed while it is measured.
pub struct Table {
    pub size: Size,
    pace: Pace,
    what: &'static str,
    /// The engines that are timed, all of them if there is no list.
    only: Option<&'static [&'static str]>,
    /// The columns: the engines of the first row, without the library. No row has others.
    columns: Option<Vec<&'static str>>,
}

/// A row as it was measured, each engine's seconds by round; the first of its engines is
/// the library.
pub struct Row {
    pub size: Size,
    pub name: String,
    engines: Vec<&'static str>,
    seconds: Vec<Vec<f64>>,
}

impl Row {
    /// Of the library, the median of the rounds.
    pub fn microseconds(&self) -> f64 {
        crate::median(self.seconds[0].clone()) * 1e6
    }

    /// The library's time over this engine's in the same round, if that was timed: the
    /// median of the rounds. A machine that changes its pace between two rounds changes
    /// no ratio.
    pub fn over(&self, engine: &str) -> Option<f64> {
        let place = self.engines.iter().position(|&name| name == engine)?;
        let rounds = self.seconds[0].iter().zip(&self.seconds[place]);
        Some(crate::median(rounds.map(|(one, two)| one / two).collect()))
    }
}

impl Table {
    pub fn new(what: &'static str, size: Size, pace: Pace) -> Table {
        Table {
            size,
            pace,
            what,
            only: None,
            columns: None,
        }
    }

    /// The same table with these engines timed; all of them are compared.
    pub fn only(self, engines: &'static [&'static str]) -> Table {
        Table {
            only: Some(engines),
            ..self
        }
    }

    /// Compares, measures and prints one row.
    pub fn row(&mut self, name: String, mut engines: Vec<Engine>) -> Row {
        assert_agreement(&format!("{}, {name}", self.size), &mut engines);
        if let Some(only) = self.only {
            engines.retain(|engine| only.contains(&engine.name));
        }
        let names = engines.iter().map(|engine| engine.name).collect();
        let row = Row {
            size: self.size,
            name,
            engines: names,
            seconds: measure(&mut engines, self.pace),
        };
        self.print(&row);
        row
    }

    /// The library's microseconds, and its time over each other's, with a dash for an engine
    /// that the row hasn't; the names of the columns above the first row.
    fn print(&mut self, row: &Row) {
        let what = format!("{}, {}", self.what, self.size);
        let columns = self.columns.get_or_insert_with(|| {
            let others = row.engines[1..].to_vec();
            let names: Vec<String> = others.iter().map(|name| format!("{name:>16}")).collect();
            println!("{what:<FIRST$}{:>10}{}", "us", names.concat());
            others
        });
        let ratio = |name: &&str| match row.over(name) {
            Some(ratio) => format!("{ratio:>16.2}"),
            None => format!("{:>16}", "-"),
        };
        let ratios: Vec<String> = columns.iter().map(ratio).collect();
        let (name, ratios) = (&row.name, ratios.concat());
        let (time, decimals) = (row.microseconds(), self.pace.decimals);
        println!("{name:<FIRST$}{time:>10.decimals$}{ratios}");
    }
}

/// All engines that are compared come to the same as the first.
fn assert_agreement(row: &str, engines: &mut [Engine]) {
    let wanted = (engines[0].run)(true);
    for engine in engines.iter_mut().filter(|engine| engine.compared) {
        let same = (engine.run)(true) == wanted;
        assert!(same, "{row}: {} and the library differ", engine.name);
    }
}

/// The seconds of each engine's work by round: in each of them every engine in turn works
/// so many times; one round before isn't counted.
fn measure(engines: &mut [Engine], pace: Pace) -> Vec<Vec<f64>> {
    let mut seconds = vec![Vec::new(); engines.len()];
    for round in 0..=pace.rounds {
        for (engine, seconds) in engines.iter_mut().zip(&mut seconds) {
            let start = Instant::now();
            for _ in 0..pace.times {
                black_box((engine.run)(black_box(false)));
            }
            let each = start.elapsed().as_secs_f64() / pace.times as f64;
            if round > 0 {
                seconds.push(each);
            }
        }
    }
    seconds
}
