//! Runs that stand between calls.

use std::sync::atomic::{AtomicBool, Ordering};

use crate::{raw, Error, Outcome, Schedule};

/// A run that stands between calls: [`advance`](Standing::advance) makes a slice of it, and [`take`](Standing::take) gives what was printed since.
/// [`Run::start`](crate::Run::start) starts one.
///
/// It may go from thread to thread, and its memory is given back where it is dropped.
///
/// ```
/// use std::thread;
/// use tallowmarch::{Outcome, Run};
///
/// let mut script = Run::new(b"(here ) print (there) =").start()?;
/// assert_eq!(script.advance(2)?, Outcome::StepsOut);
/// let elsewhere = thread::spawn(move || script.advance(1000).map(|outcome| (outcome, script.take())));
/// assert_eq!(elsewhere.join().unwrap()?, (Outcome::Finished, b"here there\n".to_vec()));
/// # Ok::<(), tallowmarch::Error>(())
/// ```
#[derive(Debug)]
pub struct Standing {
    pub(crate) handle: raw::Handle,
    /// How many of the printed bytes were taken.
    taken: usize,
}

impl Standing {
    pub(crate) fn new(program: &[u8], settings: &raw::Settings) -> Result<Standing, Error> {
        Ok(Standing { handle: raw::Handle::start(program, settings)?, taken: 0 })
    }

    /// Makes at most so many steps more, up to 4,294,967,295 in all, and tells how the run would have ended here: with [`Outcome::StepsOut`] it
    /// may go on, and with [`Outcome::Memory`] it tries again what memory was refused to. Where slices lie can't be seen in what is printed or in
    /// the schedule.
    ///
    /// # Errors
    ///
    /// [`Error::OutOfRange`] where no step is asked for; nothing has changed then.
    pub fn advance(&mut self, steps: u32) -> Result<Outcome, Error> {
        self.handle.advance(steps)
    }

    /// Makes slices of `slice` steps until so many are made in all, until it comes to another end, or until `stop` is true behind one of them, as
    /// another thread may set it at any time; one slice is made in any case. A run that was stopped tells [`Outcome::StepsOut`], and may go on.
    ///
    /// # Errors
    ///
    /// [`Error::OutOfRange`] where `steps` or `slice` is 0; nothing has changed then.
    ///
    /// ```
    /// use std::sync::atomic::{AtomicBool, Ordering};
    /// use std::thread;
    /// use tallowmarch::{Outcome, Run};
    ///
    /// let stop = AtomicBool::new(false);
    /// let mut script = Run::new(b"{} loop").start()?;
    /// thread::scope(|scope| {
    ///     scope.spawn(|| stop.store(true, Ordering::Relaxed));
    ///     assert_eq!(script.advance_until(u32::MAX, 1000, &stop), Ok(Outcome::StepsOut));
    /// });
    /// # Ok::<(), tallowmarch::Error>(())
    /// ```
    pub fn advance_until(&mut self, steps: u32, slice: u32, stop: &AtomicBool) -> Result<Outcome, Error> {
        let mut left = steps;
        loop {
            let now = left.min(slice);
            let outcome = self.advance(now)?;
            left -= now;
            if outcome != Outcome::StepsOut || left == 0 || stop.load(Ordering::Relaxed) {
                return Ok(outcome);
            }
        }
    }

    /// What was printed since it was taken last.
    pub fn take(&mut self) -> Vec<u8> {
        let printed = self.handle.printed(self.taken);
        self.taken += printed.len();
        printed
    }

    /// The schedule so far, from one of its entries on: the next slice may add steps to the last.
    pub fn entries(&mut self, from: usize) -> Schedule {
        Schedule(self.handle.entries(from))
    }

    /// How much it came to so far.
    pub fn counts(&mut self) -> Counts {
        let raw::Counts { bytes, entries, steps, flips, taken } = self.handle.counts();
        Counts { bytes, entries, steps, flips, taken }
    }

    /// Slices of so many steps, until one comes to another end than that its steps are used up.
    ///
    /// ```
    /// use tallowmarch::{Outcome, Run, Slice};
    ///
    /// let mut script = Run::new(b"1 1 100 {=} for").start()?;
    /// let slices = script.slices(50).collect::<Result<Vec<Slice>, _>>()?;
    /// assert_eq!(slices.last().map(|it| it.outcome), Some(Outcome::Finished));
    /// let printed: Vec<u8> = slices.into_iter().flat_map(|it| it.printed).collect();
    /// assert_eq!(printed, Run::new(b"1 1 100 {=} for").run()?.printed);
    /// # Ok::<(), tallowmarch::Error>(())
    /// ```
    pub fn slices(&mut self, steps: u32) -> Slices<'_> {
        Slices { run: self, steps, is_over: false }
    }
}

/// How much a run came to so far.
#[derive(Clone, Copy, Debug, PartialEq, Eq)]
pub struct Counts {
    /// The bytes that it printed.
    pub bytes: u64,
    /// The entries of its schedule.
    pub entries: u64,
    /// Its steps.
    pub steps: u64,
    /// The collector's cycles.
    pub flips: u64,
    /// The stores that the collector had to follow.
    pub taken: u64,
}

/// What a slice came to.
#[derive(Clone, Debug, PartialEq, Eq)]
pub struct Slice {
    /// What was printed in it, and before it if that was not taken.
    pub printed: Vec<u8>,
    /// How the run would have ended behind it.
    pub outcome: Outcome,
}

/// Slices of a run, one behind the other: see [`Standing::slices`].
#[derive(Debug)]
#[must_use = "no slice is made until it is asked for"]
pub struct Slices<'a> {
    run: &'a mut Standing,
    steps: u32,
    is_over: bool,
}

impl Iterator for Slices<'_> {
    type Item = Result<Slice, Error>;

    fn next(&mut self) -> Option<Result<Slice, Error>> {
        if self.is_over {
            return None;
        }
        let made = self.run.advance(self.steps).map(|outcome| Slice { printed: self.run.take(), outcome });
        self.is_over = !matches!(made, Ok(Slice { outcome: Outcome::StepsOut, .. }));
        Some(made)
    }
}

impl std::iter::FusedIterator for Slices<'_> {}
