//! The values that a run has, and those that are defined before it.

use crate::{raw, Error, Standing};

/// A value that a run has.
#[derive(Clone, Debug, PartialEq, Eq)]
pub struct Value {
    /// What it is.
    pub what: What,
    /// Whether it is executable: an executable array is a procedure.
    pub executable: bool,
}

/// What a value is, but for its attribute.
#[derive(Clone, Debug, PartialEq, Eq)]
pub enum What {
    /// An integer.
    Integer(i64),
    /// A boolean.
    Boolean(bool),
    /// Null.
    Null,
    /// A mark.
    Mark,
    /// A name, by its characters.
    Name(Vec<u8>),
    /// An operator, by its name.
    Operator(Vec<u8>),
    /// An array or a procedure, or a part of one, of so many elements.
    Array(u64),
    /// A string, or a part of one, by its bytes.
    String(Vec<u8>),
    /// A dictionary of so many pairs.
    Dictionary(u64),
    /// A lock.
    Lock,
    /// A condition.
    Condition,
}

/// What a name is defined as.
#[derive(Clone, Copy, Debug, PartialEq, Eq)]
pub enum Defined<'a> {
    /// An integer.
    Integer(i32),
    /// A boolean.
    Boolean(bool),
    /// A string of these bytes, at most 65,535.
    String(&'a [u8]),
}

/// The text that defines a name as this value, to be put before a program: `/NAME VALUE def` and a line feed, a string being hexadecimal digits. So what
/// a host hands in is a part of the program, and a record of the run is followed from that text.
///
/// # Errors
///
/// [`Error::BadName`] where the name has white space, one of `( ) < > [ ] { } / %`, or more than 127 bytes; [`Error::LongString`] where the string has
/// more than 65,535; and [`Error::NoRoom`] where memory was refused.
///
/// ```
/// use tallowmarch::{definition, Defined, Error, Run};
///
/// let mut program = definition(b"width", Defined::Integer(12))?;
/// program.extend(definition(b"title", Defined::String(b"(:"))?);
/// assert_eq!(program, b"/width 12 def\n/title <283a> def\n");
/// program.extend(b"title print width =");
/// assert_eq!(Run::new(&program).run()?.printed, b"(:12\n");
/// assert_eq!(definition(b"two words", Defined::Boolean(true)), Err(Error::BadName));
/// # Ok::<(), Error>(())
/// ```
pub fn definition(name: &[u8], value: Defined<'_>) -> Result<Vec<u8>, Error> {
    raw::definition(name, value)
}

fn value_of(value: raw::Value, bytes: Vec<u8>) -> Result<Value, Error> {
    let what = match value.kind {
        1 => What::Integer(value.number),
        2 => What::Boolean(value.number != 0),
        3 => What::Null,
        4 => What::Mark,
        5 => What::Name(bytes),
        6 => What::Operator(bytes),
        7 => What::Array(value.length),
        8 => What::String(bytes),
        9 => What::Dictionary(value.length),
        10 => What::Lock,
        11 => What::Condition,
        _ => return Err(Error::Version),
    };
    Ok(Value { what, executable: value.executable != 0 })
}

impl Standing {
    fn value(&mut self, context: u32, place: raw::Place<'_>) -> Result<Option<Value>, Error> {
        match self.handle.value(context, place)? {
            Some((value, bytes)) => value_of(value, bytes).map(Some),
            None => Ok(None),
        }
    }

    /// The operand of a context below so many others; nothing where it has so few. Contexts count from 1, which is the one that the program begins
    /// in.
    ///
    /// # Errors
    ///
    /// [`Error::NoContext`] where no context has the identifier, or it is ended.
    ///
    /// ```
    /// use tallowmarch::{Error, Run, What};
    ///
    /// let mut script = Run::new(b"(text) 7").start()?;
    /// script.advance(1000)?;
    /// assert_eq!(script.operand(1, 0)?.unwrap().what, What::Integer(7));
    /// assert_eq!(script.operand(1, 1)?.unwrap().what, What::String(b"text".to_vec()));
    /// assert_eq!(script.operand(1, 2)?, None);
    /// assert_eq!(script.operand(2, 0), Err(Error::NoContext));
    /// # Ok::<(), Error>(())
    /// ```
    pub fn operand(&mut self, context: u32, depth: usize) -> Result<Option<Value>, Error> {
        self.value(context, raw::Place::Operand(depth))
    }

    /// What `userdict` has under a name, where a program's definitions go unless it begins another dictionary; nothing where it has none. All
    /// contexts share it, so any may be named that is left.
    ///
    /// # Errors
    ///
    /// As for [`operand`](Standing::operand).
    ///
    /// ```
    /// use tallowmarch::{Run, What};
    ///
    /// let mut script = Run::new(b"/x 5 def /square {dup mul} def").start()?;
    /// assert_eq!(script.definition(1, b"x")?, None);
    /// script.advance(1000)?;
    /// assert_eq!(script.definition(1, b"x")?.unwrap().what, What::Integer(5));
    /// let square = script.definition(1, b"square")?.unwrap();
    /// assert_eq!((square.what, square.executable), (What::Array(2), true));
    /// # Ok::<(), tallowmarch::Error>(())
    /// ```
    pub fn definition(&mut self, context: u32, name: &[u8]) -> Result<Option<Value>, Error> {
        self.value(context, raw::Place::Definition(name))
    }

    /// The name of the last error of a context, also of one that was caught, as its `$error` has it: null before the first one.
    ///
    /// # Errors
    ///
    /// As for [`operand`](Standing::operand).
    ///
    /// ```
    /// use tallowmarch::{Outcome, Run, What};
    ///
    /// let mut script = Run::new(b"1 0 idiv").start()?;
    /// assert_eq!(script.error_name(1)?.unwrap().what, What::Null);
    /// assert_eq!(script.advance(1000)?, Outcome::Faulted);
    /// assert_eq!(script.error_name(1)?.unwrap().what, What::Name(b"undefinedresult".to_vec()));
    /// assert_eq!(script.error_command(1)?.unwrap().what, What::Operator(b"idiv".to_vec()));
    /// # Ok::<(), tallowmarch::Error>(())
    /// ```
    pub fn error_name(&mut self, context: u32) -> Result<Option<Value>, Error> {
        self.value(context, raw::Place::ErrorName)
    }

    /// What raised the last error of a context: null before the first one. See [`error_name`](Standing::error_name).
    ///
    /// # Errors
    ///
    /// As for [`operand`](Standing::operand).
    pub fn error_command(&mut self, context: u32) -> Result<Option<Value>, Error> {
        self.value(context, raw::Place::ErrorCommand)
    }
}
