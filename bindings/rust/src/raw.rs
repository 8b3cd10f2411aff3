//! What crosses to the library: the types of `tallowmarch.h`, and the calls, which are the only unsafe code.

use std::ffi::c_void;
use std::mem::size_of;
use std::ptr::null_mut;

use crate::{random, Defined, Error, ErrorPlace, Outcome, Position, Report, Schedule};

/// The version of `tallowmarch.h` that these types are of.
const VERSION: u32 = 400;
/// The items of the rooms that a call is given first.
#[derive(Clone, Copy, Debug)]
pub(crate) struct Rooms {
    pub(crate) bytes: usize,
    pub(crate) entries: usize,
}

impl Default for Rooms {
    fn default() -> Rooms {
        Rooms { bytes: 16_384, entries: 1_024 }
    }
}

#[repr(C)]
#[derive(Clone, Copy, Debug)]
pub(crate) struct Keys {
    first: u64,
    second: u64,
}

impl Keys {
    /// Keys that nobody knows.
    pub(crate) fn random() -> Keys {
        Keys { first: random(), second: random() }
    }
}

#[repr(C)]
#[derive(Clone, Copy, Debug)]
pub(crate) struct Settings {
    pub(crate) space: u64,
    pub(crate) quantum: u64,
    pub(crate) steps: u64,
    pub(crate) plain: u64,
    pub(crate) output: u64,
    pub(crate) entries: u64,
    pub(crate) keys: Keys,
}

impl Settings {
    /// How many numbers there are.
    const KNOWN: usize = size_of::<Settings>() / size_of::<u64>();

    /// Where the numbers stand: there is nothing else in it.
    fn numbers(&self) -> *const u64 {
        std::ptr::from_ref(self).cast()
    }
}

#[repr(C)]
#[derive(Clone, Copy, Debug, Default, PartialEq, Eq)]
pub(crate) struct Entry {
    pub(crate) context: u32,
    pub(crate) steps: u32,
    pub(crate) refused: u32,
    pub(crate) shown: u32,
    pub(crate) used: i32,
    pub(crate) size: i32,
}

#[repr(C)]
#[derive(Clone, Copy, Default)]
pub(crate) struct Counts {
    pub(crate) bytes: u64,
    pub(crate) entries: u64,
    pub(crate) steps: u64,
    pub(crate) flips: u64,
    pub(crate) taken: u64,
}

impl Counts {
    /// How many numbers there are.
    const KNOWN: usize = size_of::<Counts>() / size_of::<u64>();

    /// Where the numbers stand: there is nothing else in it.
    fn numbers(&mut self) -> *mut u64 {
        std::ptr::from_mut(self).cast()
    }
}

#[repr(C)]
#[derive(Clone, Copy, Default)]
pub(crate) struct Value {
    pub(crate) kind: u32,
    pub(crate) executable: u32,
    pub(crate) number: i64,
    pub(crate) length: u64,
}

#[repr(C)]
#[derive(Clone, Copy, Default)]
struct RaisedAt {
    step: u64,
    line: u64,
    column: u64,
    offset: u64,
}

/// Where a run has a value.
#[derive(Clone, Copy)]
pub(crate) enum Place<'a> {
    Operand(usize),
    Definition(&'a [u8]),
    ErrorName,
    ErrorCommand,
}

/// Whether a library of a version is one for these types: of the same first number, and behind a first one of 0 of the same second one.
fn fits(version: u32) -> bool {
    version / 10_000 == VERSION / 10_000 && (version >= 10_000 || version / 100 == VERSION / 100)
}

extern "C" {
    fn tallowmarch_version() -> u32;
    fn tallowmarch_run(
        program: *const u8,
        length: usize,
        settings: *const u64,
        settings_known: usize,
        printed: *mut u8,
        printed_room: usize,
        schedule: *mut Entry,
        schedule_room: usize,
        counts: *mut u64,
        counts_room: usize,
    ) -> u32;
    fn tallowmarch_go_on(
        program: *const u8,
        length: usize,
        settings: *const u64,
        settings_known: usize,
        given: *const Entry,
        given_length: usize,
        printed: *mut u8,
        printed_room: usize,
        schedule: *mut Entry,
        schedule_room: usize,
        counts: *mut u64,
        counts_room: usize,
    ) -> u32;
    fn tallowmarch_replay(
        program: *const u8,
        length: usize,
        settings: *const u64,
        settings_known: usize,
        given: *const Entry,
        given_length: usize,
        printed: *mut u8,
        printed_room: usize,
        schedule: *mut Entry,
        schedule_room: usize,
        counts: *mut u64,
        counts_room: usize,
    ) -> u32;
}

extern "C" {
    fn tallowmarch_error_place(
        program: *const u8,
        length: usize,
        settings: *const u64,
        settings_known: usize,
        given: *const Entry,
        given_length: usize,
        context: u32,
        place: *mut RaisedAt,
    ) -> u32;
}

extern "C" {
    fn tallowmarch_define_integer(name: *const u8, length: usize, number: i32, room: *mut u8, count: usize, size: *mut u64) -> u32;
    fn tallowmarch_define_boolean(name: *const u8, length: usize, truth: u32, room: *mut u8, count: usize, size: *mut u64) -> u32;
    fn tallowmarch_define_string(
        name: *const u8,
        length: usize,
        bytes: *const u8,
        bytes_length: usize,
        room: *mut u8,
        count: usize,
        size: *mut u64,
    ) -> u32;
}

extern "C" {
    fn tallowmarch_start(program: *const u8, length: usize, settings: *const u64, settings_known: usize, run: *mut Handle) -> u32;
    fn tallowmarch_advance(run: *mut Handle, steps: u32) -> u32;
    fn tallowmarch_printed(run: *mut Handle, from: usize, room: *mut u8, count: usize) -> usize;
    fn tallowmarch_entries(run: *mut Handle, from: usize, room: *mut Entry, count: usize) -> usize;
    fn tallowmarch_counts_of(run: *mut Handle, counts: *mut u64, counts_room: usize) -> u32;
    fn tallowmarch_operand(run: *mut Handle, context: u32, depth: usize, value: *mut Value, room: *mut u8, count: usize) -> u32;
    fn tallowmarch_definition(run: *mut Handle, context: u32, name: *const u8, length: usize, value: *mut Value, room: *mut u8, count: usize) -> u32;
    fn tallowmarch_error_name(run: *mut Handle, context: u32, value: *mut Value, room: *mut u8, count: usize) -> u32;
    fn tallowmarch_error_command(run: *mut Handle, context: u32, value: *mut Value, room: *mut u8, count: usize) -> u32;
    fn tallowmarch_close(run: *mut Handle);
}

/// The handle of a run that stands, as the library has it. One stands from `start` on until it is dropped.
#[repr(C)]
#[derive(Debug)]
pub(crate) struct Handle {
    at: *mut c_void,
    full: u32,
}

// SAFETY: a handle may be handed from thread to thread; it is given to one call at a time, since each takes it by `&mut`.
unsafe impl Send for Handle {}

impl Drop for Handle {
    fn drop(&mut self) {
        // SAFETY: the library wrote the handle, or it has zeros, and nothing copied it.
        unsafe { tallowmarch_close(self) }
    }
}

impl Handle {
    /// Starts a run.
    pub(crate) fn start(program: &[u8], settings: &Settings) -> Result<Handle, Error> {
        // SAFETY: it takes nothing, and is of every version.
        if !fits(unsafe { tallowmarch_version() }) {
            return Err(Error::Version);
        }
        let mut handle = Handle { at: null_mut(), full: 0 };
        // SAFETY: each pointer is of a reference or a slice, so it isn't null and leads to as many items as are told.
        let code = unsafe { tallowmarch_start(program.as_ptr(), program.len(), settings.numbers(), Settings::KNOWN, &mut handle) };
        outcome_of(code).map(|_| handle)
    }

    /// Makes a slice.
    pub(crate) fn advance(&mut self, steps: u32) -> Result<Outcome, Error> {
        // SAFETY: the handle is the library's, and is lent to this call alone.
        outcome_of(unsafe { tallowmarch_advance(self, steps) })
    }

    /// What was printed from a place on.
    pub(crate) fn printed(&mut self, from: usize) -> Vec<u8> {
        // SAFETY: as in `advance`; a room of a slice, or of nothing.
        all_from(from, |room: &mut [u8]| unsafe { tallowmarch_printed(self, from, room.as_mut_ptr(), room.len()) })
    }

    /// The entries from a place on.
    pub(crate) fn entries(&mut self, from: usize) -> Vec<Entry> {
        // SAFETY: as in `printed`.
        all_from(from, |room: &mut [Entry]| unsafe { tallowmarch_entries(self, from, room.as_mut_ptr(), room.len()) })
    }

    /// How much it came to.
    pub(crate) fn counts(&mut self) -> Counts {
        let mut counts = Counts::default();
        // SAFETY: as in `advance`; the numbers are of a reference. A run stands, so the code is 0.
        unsafe { tallowmarch_counts_of(self, counts.numbers(), Counts::KNOWN) };
        counts
    }
}

impl Handle {
    /// What a context has at a place, with the bytes that it has, if any; nothing where it has no value there.
    pub(crate) fn value(&mut self, context: u32, place: Place<'_>) -> Result<Option<(Value, Vec<u8>)>, Error> {
        let (mut value, mut room) = (Value::default(), vec![0; 128]);
        loop {
            let (at, count) = (room.as_mut_ptr(), room.len());
            // SAFETY: as in `advance`; the value and the room are borrowed alone, and a name is a slice.
            let code = unsafe {
                match place {
                    Place::Operand(depth) => tallowmarch_operand(self, context, depth, &mut value, at, count),
                    Place::Definition(name) => tallowmarch_definition(self, context, name.as_ptr(), name.len(), &mut value, at, count),
                    Place::ErrorName => tallowmarch_error_name(self, context, &mut value, at, count),
                    Place::ErrorCommand => tallowmarch_error_command(self, context, &mut value, at, count),
                }
            };
            match code {
                // A value's bytes were in the process's memory.
                0 => {
                    room.truncate(value.length as usize);
                    return Ok(Some((value, room)));
                }
                22 => return Err(Error::NoContext),
                23 => return Ok(None),
                24 => room.resize(value.length as usize, 0),
                _ => return Err(Error::Version),
            }
        }
    }
}

/// All items from a place on: the call tells how many there are, from the first on, and writes what there is room for.
fn all_from<T: Clone + Default>(from: usize, mut call: impl FnMut(&mut [T]) -> usize) -> Vec<T> {
    let mut room = vec![T::default(); call(&mut []).saturating_sub(from)];
    if !room.is_empty() {
        call(&mut room);
    }
    room
}

/// The text of a definition.
pub(crate) fn definition(name: &[u8], value: Defined<'_>) -> Result<Vec<u8>, Error> {
    // SAFETY: it takes nothing, and is of every version.
    if !fits(unsafe { tallowmarch_version() }) {
        return Err(Error::Version);
    }
    let (mut room, mut size) = (vec![0; 160], 0);
    loop {
        let (at, count) = (room.as_mut_ptr(), room.len());
        // SAFETY: each pointer is of a reference or a slice, so it isn't null and leads to as many items as are told; the room is borrowed alone.
        let code = unsafe {
            match value {
                Defined::Integer(number) => tallowmarch_define_integer(name.as_ptr(), name.len(), number, at, count, &mut size),
                Defined::Boolean(truth) => tallowmarch_define_boolean(name.as_ptr(), name.len(), truth.into(), at, count, &mut size),
                Defined::String(bytes) => tallowmarch_define_string(name.as_ptr(), name.len(), bytes.as_ptr(), bytes.len(), at, count, &mut size),
            }
        };
        match code {
            0 => {}
            17 => return Err(Error::NoRoom),
            25 => return Err(Error::BadName),
            26 => return Err(Error::LongString),
            _ => return Err(Error::Version),
        }
        // The text was in the process's memory.
        let is_whole = size as usize <= count;
        room.resize(size as usize, 0);
        if is_whole {
            return Ok(room);
        }
    }
}

/// A call that is given a schedule.
type From = unsafe extern "C" fn(
    *const u8,
    usize,
    *const u64,
    usize,
    *const Entry,
    usize,
    *mut u8,
    usize,
    *mut Entry,
    usize,
    *mut u64,
    usize,
) -> u32;

/// Makes a run.
pub(crate) fn run(program: &[u8], settings: &Settings, first: Rooms) -> Result<Report, Error> {
    with_rooms(first, |printed, schedule, counts| {
        // SAFETY: each pointer is of a reference or a slice, so it isn't null and leads to as many items as are told; the rooms are borrowed
        // alone, so that nothing overlaps.
        unsafe {
            tallowmarch_run(
                program.as_ptr(),
                program.len(),
                settings.numbers(),
                Settings::KNOWN,
                printed.as_mut_ptr(),
                printed.len(),
                schedule.as_mut_ptr(),
                schedule.len(),
                counts.numbers(),
                Counts::KNOWN,
            )
        }
    })
}

/// Goes on from a schedule.
pub(crate) fn go_on(program: &[u8], settings: &Settings, given: &[Entry], first: Rooms) -> Result<Report, Error> {
    from(tallowmarch_go_on, program, settings, given, first)
}

/// Follows a schedule.
pub(crate) fn replay(program: &[u8], settings: &Settings, given: &[Entry], first: Rooms) -> Result<Report, Error> {
    from(tallowmarch_replay, program, settings, given, first)
}

/// Calls with a schedule.
fn from(call: From, program: &[u8], settings: &Settings, given: &[Entry], first: Rooms) -> Result<Report, Error> {
    with_rooms(first, |printed, schedule, counts| {
        // SAFETY: as in `run`.
        unsafe {
            call(
                program.as_ptr(),
                program.len(),
                settings.numbers(),
                Settings::KNOWN,
                given.as_ptr(),
                given.len(),
                printed.as_mut_ptr(),
                printed.len(),
                schedule.as_mut_ptr(),
                schedule.len(),
                counts.numbers(),
                Counts::KNOWN,
            )
        }
    })
}

/// Calls with rooms of which each is large enough: where one wasn't, the call is made again, which comes to the same run.
fn with_rooms(first: Rooms, call: impl Fn(&mut [u8], &mut [Entry], &mut Counts) -> u32) -> Result<Report, Error> {
    // SAFETY: it takes nothing, and is of every version.
    if !fits(unsafe { tallowmarch_version() }) {
        return Err(Error::Version);
    }
    let (mut printed, mut schedule) = (vec![0; first.bytes], vec![Entry::default(); first.entries]);
    loop {
        let mut counts = Counts::default();
        let outcome = outcome_of(call(&mut printed, &mut schedule, &mut counts))?;
        // What is printed, and an entry for each change of contexts, was in the process's memory.
        let (bytes, entries) = (counts.bytes as usize, counts.entries as usize);
        if bytes <= printed.len() && entries <= schedule.len() {
            printed.truncate(bytes);
            schedule.truncate(entries);
            let Counts { steps, flips, taken, .. } = counts;
            return Ok(Report { printed, schedule: Schedule(schedule), outcome, steps, flips, taken });
        }
        printed.resize(bytes.max(printed.len()), 0);
        schedule.resize(entries.max(schedule.len()), Entry::default());
    }
}

/// How a run ended, or why there is none, by its code.
fn outcome_of(code: u32) -> Result<Outcome, Error> {
    match code {
        0 => Ok(Outcome::Finished),
        1 => Ok(Outcome::Faulted),
        3 => Ok(Outcome::AllWaiting),
        4 => Ok(Outcome::StepsOut),
        5 => Ok(Outcome::Memory),
        16 => Err(Error::OutOfRange),
        17 => Err(Error::NoRoom),
        18 => Err(Error::OtherSchedule),
        19 => Err(Error::BadEntry),
        27 => Err(Error::TooLarge),
        _ => Err(Error::Version),
    }
}

/// Where a context raised its last error under the steps of a schedule; nothing where it raised none.
pub(crate) fn error_place(program: &[u8], settings: &Settings, given: &[Entry], context: u32) -> Result<Option<ErrorPlace>, Error> {
    // SAFETY: it takes nothing, and is of every version.
    if !fits(unsafe { tallowmarch_version() }) {
        return Err(Error::Version);
    }
    let mut place = RaisedAt::default();
    // SAFETY: each pointer is of a reference or a slice, so it isn't null and leads to as many items as are told.
    let code = unsafe {
        tallowmarch_error_place(
            program.as_ptr(),
            program.len(),
            settings.numbers(),
            Settings::KNOWN,
            given.as_ptr(),
            given.len(),
            context,
            &mut place,
        )
    };
    if code == 23 {
        return Ok(None);
    }
    outcome_of(code)?;
    let RaisedAt { step, line, column, offset } = place;
    let position = (line != 0).then_some(Position { line, column, offset });
    Ok(Some(ErrorPlace { step, position }))
}
