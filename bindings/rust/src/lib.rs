//! Runs PostScript Level 2 programs in the host's own process, by the library behind `tallowmarch.h`.
//!
//! ```
//! use tallowmarch::{Outcome, Run};
//!
//! let report = Run::new(b"1 2 add =").run()?;
//! assert_eq!(report.printed, b"3\n");
//! assert_eq!(report.outcome, Outcome::Finished);
//! # Ok::<(), tallowmarch::Error>(())
//! ```
//!
//! A run is a value: nothing is shared between calls, so any number of threads may run programs at the same time. A call blocks its thread
//! until the program ended or its budget of steps is used up; allow it 256 KiB of stack, of which the deepest measured touched 149.
//!
//! A [`Schedule`] tells which context made each step. With it a run can be made again, step by step:
//!
//! ```
//! use tallowmarch::Run;
//!
//! let run = Run::new(b"mark {(a) print} fork mark {(b) print} fork join cleartomark join cleartomark").quantum(1);
//! let report = run.run()?;
//! let again = run.replay(&report.schedule)?;
//! assert_eq!(again.printed, report.printed);
//! # Ok::<(), tallowmarch::Error>(())
//! ```
//!
//! A run also stands between calls, which make slices of it: see [`Run::start`] and [`Standing`].
#![warn(missing_docs)]

use std::fmt;
use std::hash::{BuildHasher, Hasher, RandomState};

mod raw;
mod standing;
mod values;

pub use standing::{Counts, Slice, Slices, Standing};
pub use values::{definition, Defined, Value, What};

/// A program with the settings of its run. See [`Run::new`].
#[derive(Clone, Debug)]
#[must_use = "nothing is run until `run` is called"]
pub struct Run<'a> {
    program: &'a [u8],
    settings: raw::Settings,
    rooms: raw::Rooms,
}

impl<'a> Run<'a> {
    /// A run of a program, in a collected space of 65,536 words, by turns of 100 steps, for 4,294,967,295 steps at most.
    ///
    /// The keys of the table of names are taken from the system's random numbers. They change nothing of what is printed.
    pub fn new(program: &'a [u8]) -> Run<'a> {
        let settings = raw::Settings { space: 65_536, quantum: 100, steps: u32::MAX.into(), plain: 0, output: 0, entries: 0, keys: raw::Keys::random() };
        Run { program, settings, rooms: raw::Rooms::default() }
    }

    /// How many words, of 8 bytes, the program's objects may take: 4,096 to 1,048,576.
    pub fn space(mut self, words: u32) -> Self {
        self.settings.space = words.into();
        self
    }

    /// The most steps of a context's turn: 1 to 65,535.
    pub fn quantum(mut self, steps: u32) -> Self {
        self.settings.quantum = steps.into();
        self
    }

    /// The budget: the most steps of the run, at least 1. A program without end stops there, with [`Outcome::StepsOut`].
    ///
    /// ```
    /// use tallowmarch::{Outcome, Run};
    ///
    /// let report = Run::new(b"(on it) = {} loop").steps(1000).run()?;
    /// assert_eq!(report.outcome, Outcome::StepsOut);
    /// assert_eq!(report.printed, b"on it\n");
    /// assert_eq!(report.steps, 1000);
    /// # Ok::<(), tallowmarch::Error>(())
    /// ```
    pub fn steps(mut self, most: u32) -> Self {
        self.settings.steps = most.into();
        self
    }

    /// The most bytes that the run may print; 0 is no bound. A step that would print past it is not made, and ends the run, with
    /// [`Outcome::Memory`].
    ///
    /// ```
    /// use tallowmarch::{Outcome, Run};
    ///
    /// let report = Run::new(b"{(flood) =} loop").output(13).run()?;
    /// assert_eq!((report.outcome, &report.printed[..]), (Outcome::Memory, &b"flood\nflood\n"[..]));
    /// # Ok::<(), tallowmarch::Error>(())
    /// ```
    pub fn output(mut self, most: u64) -> Self {
        self.settings.output = most;
        self
    }

    /// The most entries that the run's schedule may have; 0 is no bound. A step that wants one more is not made, and ends the run, with
    /// [`Outcome::Memory`].
    ///
    /// ```
    /// use tallowmarch::{Outcome, Run};
    ///
    /// let program = b"mark {{(a) print} loop} fork {(b) print} loop";
    /// let report = Run::new(program).quantum(1).entries(13).run()?;
    /// assert_eq!((report.outcome, report.schedule.len()), (Outcome::Memory, 13));
    /// # Ok::<(), tallowmarch::Error>(())
    /// ```
    pub fn entries(mut self, most: u64) -> Self {
        self.settings.entries = most;
        self
    }

    /// The bytes and entries that there is room for at first: 16,384 and 1,024, where nothing is said. A run that comes to more is made again, with
    /// room for all.
    ///
    /// ```
    /// use tallowmarch::Run;
    ///
    /// let report = Run::new(b"1000 {(0123456789) print} repeat").rooms(10_000, 1).run()?;
    /// assert_eq!(report.printed.len(), 10_000);
    /// assert_eq!(Run::new(b"1000 {(0123456789) print} repeat").rooms(0, 0).run()?, report);
    /// # Ok::<(), tallowmarch::Error>(())
    /// ```
    pub fn rooms(mut self, bytes: usize, entries: usize) -> Self {
        self.rooms = raw::Rooms { bytes, entries };
        self
    }

    /// Memory that grows and is never collected, in place of a collected space.
    pub fn plain(mut self) -> Self {
        self.settings.plain = 1;
        self
    }

    /// Makes the run.
    ///
    /// # Errors
    ///
    /// [`Error::OutOfRange`] where a number of the settings is out of its range, and [`Error::NoRoom`] where there is no memory to start with.
    /// Whatever the program does is no error of the call: see [`Report::outcome`].
    ///
    /// ```
    /// use tallowmarch::{Error, Run};
    ///
    /// assert_eq!(Run::new(b"").space(1).run(), Err(Error::OutOfRange));
    /// ```
    pub fn run(&self) -> Result<Report, Error> {
        raw::run(self.program, &self.settings, self.rooms)
    }

    /// Goes on from a schedule that a run of this program by these settings was handed, for at most so many steps more as the settings say.
    ///
    /// The report is of the whole run, from its start: it begins with the given steps, and with what they printed. With [`Outcome::Memory`]
    /// it may end before the given steps do. The given steps are made again, so a host that looks at a clock doubles its budgets: then all
    /// runs together make at most some three times the steps of the last one.
    ///
    /// ```
    /// use tallowmarch::{Outcome, Run};
    ///
    /// let run = Run::new(b"1 1 1000 {=} for").steps(100);
    /// let first = run.run()?;
    /// let second = run.go_on(&first.schedule)?;
    /// assert_eq!((second.outcome, second.steps), (Outcome::StepsOut, 200));
    /// assert!(second.printed.starts_with(&first.printed));
    /// let last = run.steps(10_000).go_on(&second.schedule)?;
    /// assert_eq!(last.outcome, Outcome::Finished);
    /// assert!(last.printed.ends_with(b"\n1000\n"));
    /// # Ok::<(), tallowmarch::Error>(())
    /// ```
    ///
    /// # Errors
    ///
    /// [`Error::OtherSchedule`] where the run doesn't begin with the schedule, [`Error::BadEntry`] where one of its entries is none, [`Error::OutOfRange`]
    /// and [`Error::NoRoom`] as for [`Run::run`].
    ///
    /// ```
    /// use tallowmarch::{Error, Run};
    ///
    /// let other = Run::new(b"{} loop").steps(100).run()?;
    /// assert_eq!(Run::new(b"1 =").go_on(&other.schedule), Err(Error::OtherSchedule));
    /// # Ok::<(), Error>(())
    /// ```
    pub fn go_on(&self, schedule: &Schedule) -> Result<Report, Error> {
        raw::go_on(self.program, &self.settings, &schedule.0, self.rooms)
    }

    /// Starts a run that stands between calls, before its first step; it has a copy of the program. Its space is collected, and the steps of these
    /// settings don't count, since each slice has its own.
    ///
    /// # Errors
    ///
    /// [`Error::OutOfRange`] where a number of the settings is out of its range, or memory that grows is asked for, and [`Error::NoRoom`] where there
    /// is no memory to start with.
    ///
    /// ```
    /// use tallowmarch::{Error, Outcome, Run};
    ///
    /// let mut script = Run::new(b"1 1 3 {=} for").start()?;
    /// assert_eq!(script.advance(8)?, Outcome::StepsOut);
    /// assert_eq!(script.take(), b"1\n");
    /// assert_eq!(script.advance(1000)?, Outcome::Finished);
    /// assert_eq!(script.take(), b"2\n3\n");
    /// assert_eq!(Run::new(b"").plain().start().err(), Some(Error::OutOfRange));
    /// # Ok::<(), Error>(())
    /// ```
    pub fn start(&self) -> Result<Standing, Error> {
        Standing::new(self.program, &self.settings)
    }

    /// Follows a schedule of a run of this program, by whatever settings, over memory that grows and is never collected. It prints what that run
    /// printed. Of these settings the bound on the output alone counts. With [`Outcome::Memory`] the report has the schedule as far as it was
    /// followed.
    ///
    /// # Errors
    ///
    /// [`Error::BadEntry`] where an entry of the schedule is none, and [`Error::NoRoom`] where there is no memory to start with.
    ///
    /// ```
    /// use tallowmarch::{Entry, Error, Run, Schedule};
    ///
    /// let nobody: Schedule = [Entry { context: 0, steps: 1, refused: false, shown: None }].into_iter().collect();
    /// assert_eq!(Run::new(b"1 =").replay(&nobody), Err(Error::BadEntry));
    /// ```
    pub fn replay(&self, schedule: &Schedule) -> Result<Report, Error> {
        raw::replay(self.program, &self.settings, &schedule.0, self.rooms)
    }

    /// Where a context raised its last error under the steps of a schedule of a run of this program, by whatever settings; also an error that was
    /// caught. Nothing where it raised none, or isn't left behind the steps. The steps are made again, which takes some ten times as long as the run.
    ///
    /// # Errors
    ///
    /// [`Error::TooLarge`] where the run takes more words in all than memory that grows has, [`Error::BadEntry`] and [`Error::NoRoom`] as for
    /// [`Run::replay`].
    ///
    /// ```
    /// use tallowmarch::{Entry, Error, Position, Run, Schedule};
    ///
    /// let run = Run::new(b"1 0\n  idiv");
    /// let place = run.error_place(&run.run()?.schedule, 1)?.unwrap();
    /// assert_eq!((place.step, place.position), (3, Some(Position { line: 2, column: 3, offset: 6 })));
    /// assert_eq!(run.error_place(&Schedule::default(), 1)?, None);
    /// let nobody: Schedule = [Entry { context: 0, steps: 1, refused: false, shown: None }].into_iter().collect();
    /// assert_eq!(run.error_place(&nobody, 1), Err(Error::BadEntry));
    /// # Ok::<(), Error>(())
    /// ```
    pub fn error_place(&self, schedule: &Schedule, context: u32) -> Result<Option<ErrorPlace>, Error> {
        raw::error_place(self.program, &self.settings, &schedule.0, context)
    }
}

/// Where an error was raised.
#[derive(Clone, Copy, Debug, PartialEq, Eq, Hash)]
pub struct ErrorPlace {
    /// The number of the step in the run's schedule, from 1.
    pub step: u64,
    /// Where what raised it stands in the program; nothing where it doesn't stand there.
    pub position: Option<Position>,
}

/// A place in a program.
#[derive(Clone, Copy, Debug, PartialEq, Eq, Hash)]
pub struct Position {
    /// The line, from 1.
    pub line: u64,
    /// The column, a byte of the line, from 1.
    pub column: u64,
    /// The byte of the program, from 0.
    pub offset: u64,
}

/// What a run came to.
#[derive(Clone, Debug, PartialEq, Eq)]
pub struct Report {
    /// The bytes that the program printed.
    pub printed: Vec<u8>,
    /// Which context made each step.
    pub schedule: Schedule,
    /// How the run ended.
    pub outcome: Outcome,
    /// How many steps were made; 18,446,744,073,709,551,615 where there were more.
    pub steps: u64,
    /// The collector's cycles.
    pub flips: u64,
    /// The stores that the collector had to follow.
    pub taken: u64,
}

/// How a run ended.
#[derive(Clone, Copy, Debug, PartialEq, Eq, Hash)]
pub enum Outcome {
    /// Each context finished, and no error was reported.
    Finished,
    /// Each context finished, and at least one line of an error was printed.
    Faulted,
    /// A context is left, and all that are left wait.
    AllWaiting,
    /// A context is ready, and the steps are used up.
    StepsOut,
    /// Memory was refused, or more was to be printed or scheduled than the run may; the report has what was made so far.
    Memory,
}

/// Why there is no run, or nothing is told of it.
#[derive(Clone, Copy, Debug, PartialEq, Eq, Hash)]
pub enum Error {
    /// A number of the settings is out of its range.
    OutOfRange,
    /// There is no memory to start with.
    NoRoom,
    /// The schedule to go on from isn't that of a run of this program by these settings.
    OtherSchedule,
    /// An entry of the given schedule is none: its context or its steps are 0, or it shows a pair below 1.
    BadEntry,
    /// No context has this identifier, or it is ended.
    NoContext,
    /// The name is none that a program can have.
    BadName,
    /// The string has more than 65,535 bytes.
    LongString,
    /// The run takes more words in all than memory that grows has, so it can't be made again.
    TooLarge,
    /// The library is of another version than this crate.
    Version,
}

impl fmt::Display for Error {
    fn fmt(&self, f: &mut fmt::Formatter<'_>) -> fmt::Result {
        f.write_str(match self {
            Error::OutOfRange => "a number of the settings is out of its range",
            Error::NoRoom => "out of memory",
            Error::OtherSchedule => "the schedule is not that of a run by these settings",
            Error::BadEntry => "an entry of the schedule is none",
            Error::NoContext => "no context has this identifier",
            Error::BadName => "the name is none that a program can have",
            Error::LongString => "the string is too long",
            Error::TooLarge => "the run is too large to be made again",
            Error::Version => "libtallowmarch is of another version",
        })
    }
}

impl std::error::Error for Error {}

/// Neighbouring steps of one context in a schedule.
#[derive(Clone, Copy, Debug, PartialEq, Eq, Hash)]
pub struct Entry {
    /// The context's identifier, from 1.
    pub context: u32,
    /// How many steps, at least 1.
    pub steps: u32,
    /// Whether the last step finds no memory for an object.
    pub refused: bool,
    /// What a `vmstatus` in the last step shows, if one does: the words used, and the words there are, both from 1.
    pub shown: Option<(i32, i32)>,
}

/// Which context made each step of a run.
#[derive(Clone, Debug, Default, PartialEq, Eq)]
pub struct Schedule(Vec<raw::Entry>);

impl Schedule {
    /// The entries, in order.
    pub fn entries(&self) -> impl ExactSizeIterator<Item = Entry> + '_ {
        self.0.iter().map(|entry| Entry {
            context: entry.context,
            steps: entry.steps,
            refused: entry.refused != 0,
            shown: (entry.shown != 0).then_some((entry.used, entry.size)),
        })
    }

    /// How many entries there are.
    pub fn len(&self) -> usize {
        self.0.len()
    }

    /// Whether there is no entry.
    pub fn is_empty(&self) -> bool {
        self.0.is_empty()
    }
}

impl FromIterator<Entry> for Schedule {
    fn from_iter<I: IntoIterator<Item = Entry>>(entries: I) -> Schedule {
        let raw = |entry: Entry| {
            let (used, size) = entry.shown.unwrap_or_default();
            raw::Entry {
                context: entry.context,
                steps: entry.steps,
                refused: entry.refused.into(),
                shown: entry.shown.is_some().into(),
                used,
                size,
            }
        };
        Schedule(entries.into_iter().map(raw).collect())
    }
}

impl fmt::Display for Schedule {
    /// The text that `dpsrun --record` writes and `dpsrun --replay` reads: a line for each entry.
    fn fmt(&self, f: &mut fmt::Formatter<'_>) -> fmt::Result {
        for entry in self.entries() {
            write!(f, "{} {} {}", entry.context, entry.steps, u8::from(entry.refused))?;
            if let Some((used, size)) = entry.shown {
                write!(f, " {used} {size}")?;
            }
            writeln!(f)?;
        }
        Ok(())
    }
}

/// A random number of the system's, as a hash map of std takes its own.
fn random() -> u64 {
    RandomState::new().build_hasher().finish()
}
