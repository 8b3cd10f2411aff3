"""Runs PostScript Level 2 programs in the process of its host, by the library behind tallowmarch.h.

    >>> import tallowmarch
    >>> report = tallowmarch.run(b'1 2 add =')
    >>> report.printed, report.outcome
    (b'3\\n', <Outcome.FINISHED: 0>)

A run also stands between calls, which make slices of it:

    >>> with tallowmarch.Standing(b'(on it) = {} loop') as script:
    ...     script.advance(1000), script.take()
    (<Outcome.STEPS_OUT: 4>, b'on it\\n')

Nothing is shared between calls: any number of threads may run programs at once, and Python's lock is not held meanwhile. A call blocks its
thread until the program ended or its budget of steps is used up, so that Ctrl-C is heeded between two slices alone.

The shared object is that of the variable TALLOWMARCH_LIBRARY, or libtallowmarch.so beside this file, or the system's. It wants Python 3.7 and
nothing else.
"""
import ctypes
import ctypes.util
import dataclasses
import enum
import os
import secrets
import typing
import weakref

VERSION = 400
_FIRST_ROOMS = 16384, 1024
_Pair = typing.Optional[typing.Tuple[int, int]]


class Outcome(enum.Enum):
    """How a run ended."""
    FINISHED = 0  #: each context finished, and no error was reported
    FAULTED = 1  #: each context finished, and at least one line of an error was printed
    ALL_WAITING = 3  #: a context is left, and all that are left wait
    STEPS_OUT = 4  #: a context is ready, and the steps are used up
    MEMORY = 5  #: memory was refused, or more was to be printed or scheduled than may be; the report has what was made so far


class Error(Exception):
    """There is no run."""


class OutOfRange(Error, ValueError):
    """A number of the settings is out of its range."""


class NoRoom(Error, MemoryError):
    """There is no memory to start with."""


class OtherSchedule(Error, ValueError):
    """The schedule to go on from isn't that of a run of this program by these settings."""


class Closed(Error, ValueError):
    """No run stands: it was closed."""


class BadEntry(Error, ValueError):
    """An entry of the given schedule is none: its context or its steps are 0, or it shows a pair below 1."""


class NoContext(Error, LookupError):
    """No context has this identifier, or it is ended."""


class BadName(Error, ValueError):
    """The name is none that a program can have."""


class LongString(Error, ValueError):
    """The string has more than 65,535 bytes."""


class TooLarge(Error, MemoryError):
    """The run takes more words in all than memory that grows has, so it can't be made again."""


class Kind(enum.Enum):
    """What a value is."""
    INTEGER = 1
    BOOLEAN = 2
    NULL = 3
    MARK = 4
    NAME = 5
    OPERATOR = 6
    ARRAY = 7  #: an executable one is a procedure
    STRING = 8
    DICTIONARY = 9
    LOCK = 10
    CONDITION = 11


class Value(typing.NamedTuple):
    """A value that a run has."""
    kind: Kind  #: what it is
    executable: bool = False  #: its attribute
    number: int = 0  #: an integer; of a boolean 1 or 0; else 0
    length: int = 0  #: the bytes of a string, name or operator's name; the elements of an array; the pairs of a dictionary; else 0
    bytes: bytes = b''  #: of a string, name or operator's name; else none


class Entry(typing.NamedTuple):
    """Neighbouring steps of one context in a schedule."""
    context: int  #: the context's identifier, from 1
    steps: int  #: how many steps, at least 1
    refused: bool = False  #: whether the last step finds no memory for an object
    shown: typing.Optional[typing.Tuple[int, int]] = None  #: what a vmstatus in the last step shows: words used, words there are, from 1


class ErrorPlace(typing.NamedTuple):
    """Where an error was raised."""
    step: int  #: the number of the step in the run's schedule, from 1
    line: typing.Optional[int]  #: the line and the column in the program, from 1; a column is a byte. None where what raised it doesn't stand there
    column: typing.Optional[int]
    offset: typing.Optional[int]  #: the byte of the program, from 0; None too where it doesn't stand there


class Counts(typing.NamedTuple):
    """How much a run came to so far."""
    bytes: int  #: the bytes that it printed
    entries: int  #: the entries of its schedule
    steps: int  #: its steps
    flips: int  #: the collector's cycles
    taken: int  #: the stores that the collector had to follow


@dataclasses.dataclass(frozen=True)
class Report:
    """What a run came to."""
    printed: bytes  #: what the program printed
    schedule: typing.Tuple[Entry, ...]  #: which context made each step
    outcome: Outcome  #: how it ended
    steps: int  #: how many steps were made
    flips: int  #: the collector's cycles
    taken: int  #: the stores that the collector had to follow


class _Keys(ctypes.Structure):
    _fields_ = [('first', ctypes.c_uint64), ('second', ctypes.c_uint64)]


class _Settings(ctypes.Structure):
    _fields_ = [*((it, ctypes.c_uint64) for it in ('space', 'quantum', 'steps', 'plain', 'output', 'entries')), ('keys', _Keys)]


class _Entry(ctypes.Structure):
    _fields_ = [*((it, ctypes.c_uint32) for it in ('context', 'steps', 'refused', 'shown')), ('used', ctypes.c_int32), ('size', ctypes.c_int32)]


class _Counts(ctypes.Structure):
    _fields_ = [(it, ctypes.c_uint64) for it in Counts._fields]


class _Standing(ctypes.Structure):
    _fields_ = [('at', ctypes.c_void_p), ('full', ctypes.c_uint32)]


class _Place(ctypes.Structure):
    _fields_ = [(it, ctypes.c_uint64) for it in ErrorPlace._fields]


class _Value(ctypes.Structure):
    _fields_ = [('kind', ctypes.c_uint32), ('executable', ctypes.c_uint32), ('number', ctypes.c_int64), ('length', ctypes.c_uint64)]


def _fits(version):
    """Whether a library of a version is one for this module: of the same first number, and behind a first one of 0 of the same second one."""
    return version // 10000 == VERSION // 10000 and (version >= 10000 or version // 100 == VERSION // 100)


def _numbers(of):
    """Where the numbers of settings or counts stand, and how many they are."""
    return ctypes.byref(of), ctypes.sizeof(of) // 8


def _load():
    """The shared object, with the types of its functions."""
    beside = os.path.join(os.path.dirname(os.path.abspath(__file__)), 'libtallowmarch.so')
    name = os.environ.get('TALLOWMARCH_LIBRARY') or (beside if os.path.exists(beside) else ctypes.util.find_library('tallowmarch'))
    if not name:
        raise ImportError('there is no libtallowmarch.so: tools/library links one, and TALLOWMARCH_LIBRARY names it')
    library = ctypes.CDLL(name)
    size, bytes_of, pointer = ctypes.c_size_t, ctypes.c_char_p, ctypes.POINTER
    rooms = [pointer(ctypes.c_char), size, pointer(_Entry), size, ctypes.c_void_p, size]
    asked, given = [bytes_of, size, ctypes.c_void_p, size], [pointer(_Entry), size]
    library.tallowmarch_version.restype, library.tallowmarch_version.argtypes = ctypes.c_uint32, []
    if not _fits(library.tallowmarch_version()):
        raise ImportError(f'{name} is of version {library.tallowmarch_version()}, and this module of {VERSION}')
    library.tallowmarch_run.restype = library.tallowmarch_go_on.restype = library.tallowmarch_replay.restype = ctypes.c_uint32
    library.tallowmarch_run.argtypes = [*asked, *rooms]
    library.tallowmarch_go_on.argtypes = library.tallowmarch_replay.argtypes = [*asked, *given, *rooms]
    handle, u32 = pointer(_Standing), ctypes.c_uint32
    library.tallowmarch_error_place.restype = u32
    library.tallowmarch_error_place.argtypes = [*asked, *given, u32, pointer(_Place)]
    told, text = [pointer(_Value), pointer(ctypes.c_char), size], [pointer(ctypes.c_char), size, pointer(ctypes.c_uint64)]
    for name, gives, takes in (('start', u32, [*asked, handle]), ('advance', u32, [handle, u32]),
                               ('printed', size, [handle, size, pointer(ctypes.c_char), size]), ('entries', size, [handle, size, pointer(_Entry), size]),
                               ('counts_of', u32, [handle, ctypes.c_void_p, size]), ('close', None, [handle]),
                               ('operand', u32, [handle, u32, size, *told]), ('definition', u32, [handle, u32, bytes_of, size, *told]),
                               ('error_name', u32, [handle, u32, *told]), ('error_command', u32, [handle, u32, *told]),
                               ('define_integer', u32, [bytes_of, size, ctypes.c_int32, *text]), ('define_boolean', u32, [bytes_of, size, u32, *text]),
                               ('define_string', u32, [bytes_of, size, bytes_of, size, *text])):
        function = getattr(library, f'tallowmarch_{name}')
        function.restype, function.argtypes = gives, takes
    return library


_LIBRARY = _load()
_ERRORS = {16: OutOfRange('a number of the settings is out of its range'), 17: NoRoom('out of memory'),
           18: OtherSchedule('the schedule is not that of a run by these settings'), 19: BadEntry('an entry of the schedule is none'),
           20: Closed('no run stands'), 22: NoContext('no context has this identifier'),
           25: BadName('the name is none that a program can have'), 26: LongString('the string is too long'),
           27: TooLarge('the run is too large to be made again')}


def _unless_error(code):
    """A code that is none of an error."""
    if code in _ERRORS:
        raise type(_ERRORS[code])(*_ERRORS[code].args)
    return code


def _entry_of(raw):
    return Entry(raw.context, raw.steps, raw.refused != 0, (raw.used, raw.size) if raw.shown else None)


def _with_rooms(rooms, call):
    """Calls with rooms of which each is large enough: where one wasn't, the call is made again, which comes to the same run."""
    most_bytes, most_entries = rooms
    while True:
        printed, schedule, counts = ctypes.create_string_buffer(max(1, most_bytes)), (_Entry * max(1, most_entries))(), _Counts()
        code = _unless_error(call(printed, most_bytes, schedule, most_entries, *_numbers(counts)))
        if counts.bytes <= most_bytes and counts.entries <= most_entries:
            made = tuple(_entry_of(it) for it in schedule[:counts.entries])
            return Report(printed.raw[:counts.bytes], made, Outcome(code), counts.steps, counts.flips, counts.taken)
        most_bytes, most_entries = max(most_bytes, counts.bytes), max(most_entries, counts.entries)


def _value(call):
    """What a call tells of a value, with a room that is large enough for its bytes; None where there is none."""
    value, count = _Value(), 128
    while True:
        room = ctypes.create_string_buffer(count)
        code = _unless_error(call(value, room, count))
        if code == 23:
            return None
        if code == 0:
            kind = Kind(value.kind)
            has_bytes = kind in (Kind.STRING, Kind.NAME, Kind.OPERATOR)
            return Value(kind, value.executable != 0, value.number, value.length, room.raw[:value.length] if has_bytes else b'')
        count = value.length


def _keys(given):
    return _Keys(*(given or (secrets.randbits(64), secrets.randbits(64))))


def _within(**numbers):
    """The numbers, if each fits what it crosses in."""
    for name, number in numbers.items():
        if not 0 <= number < 2 ** (64 if name in ('output', 'entries') else 32):
            raise OutOfRange(f'{name} is out of its range')
    return numbers


def _settings(keys, plain, **numbers):
    return _Settings(keys=_keys(keys), plain=bool(plain), **_within(**numbers))


def _entries(schedule):
    """A schedule as it crosses."""
    given = (_Entry * max(1, len(schedule)))()
    for at, (context, steps, refused, shown) in enumerate(schedule):
        _within(context=context, steps=steps)
        given[at] = _Entry(context, steps, bool(refused), shown is not None, *(shown or (0, 0)))
    return given


def run(program: bytes, *, space: int = 65536, quantum: int = 100, steps: int = 2 ** 32 - 1, plain: bool = False, output: int = 0, entries: int = 0,
        keys: _Pair = None, rooms: typing.Tuple[int, int] = _FIRST_ROOMS) -> Report:
    """Runs a program, given as bytes.

    space: the words, of 8 bytes, that its objects may take, 4,096 to 1,048,576; quantum: the most steps of a context's turn, 1 to 65,535;
    steps: the most steps of the run, at least 1; plain: memory that grows and is never collected, in place of a collected space; output: the
    most bytes that it may print, 0 for no bound; entries: the most entries that its schedule may have, 0 for no bound; keys: two numbers of
    64 bits for the table of names, else such as nobody knows; rooms: the bytes and entries that there is room for at first. A run that comes
    to more is made again, with room for all.
    Raises OutOfRange or NoRoom where there is no run; whatever the program does is no exception.

    >>> run(b'{} loop', steps=1000).outcome
    <Outcome.STEPS_OUT: 4>
    >>> run(b'{(flood) =} loop', output=13).printed
    b'flood\\nflood\\n'
    >>> run(b'1000 {(0123456789) print} repeat', rooms=(0, 0)).printed == run(b'1000 {(0123456789) print} repeat', rooms=(10000, 1)).printed
    True
    >>> len(run(b'mark {{(a) print} loop} fork {(b) print} loop', quantum=1, entries=13).schedule)
    13
    >>> run(b'', space=1)
    Traceback (most recent call last):
    tallowmarch.OutOfRange: a number of the settings is out of its range
    """
    program, settings = bytes(program), _settings(keys, plain, space=space, quantum=quantum, steps=steps, output=output, entries=entries)
    return _with_rooms(rooms, lambda *made: _LIBRARY.tallowmarch_run(program, len(program), *_numbers(settings), *made))


def go_on(program: bytes, schedule: typing.Sequence[Entry], *, space: int = 65536, quantum: int = 100, steps: int = 2 ** 32 - 1, plain: bool = False,
          output: int = 0, entries: int = 0, keys: _Pair = None, rooms: typing.Tuple[int, int] = _FIRST_ROOMS) -> Report:
    """Goes on from a schedule that a run of the same program by the same settings was handed, for at most so many steps more.

    The report is of the whole run, from its start: it begins with the given steps, and with what they printed; but with MEMORY it may end before.
    The given steps are made again, so a host that looks at a clock doubles its budgets. Raises OtherSchedule where the run doesn't begin with the
    schedule, BadEntry where one of its entries is none, and OutOfRange or NoRoom as a run does.

    >>> first = run(b'1 1 1000 {=} for', steps=100)
    >>> second = go_on(b'1 1 1000 {=} for', first.schedule, steps=100)
    >>> second.outcome, second.steps, second.printed.startswith(first.printed)
    (<Outcome.STEPS_OUT: 4>, 200, True)
    >>> go_on(b'1 1 1000 {=} for', second.schedule).printed[-6:]
    b'\\n1000\\n'
    >>> go_on(b'1 =', first.schedule)
    Traceback (most recent call last):
    tallowmarch.OtherSchedule: the schedule is not that of a run by these settings
    """
    program, settings = bytes(program), _settings(keys, plain, space=space, quantum=quantum, steps=steps, output=output, entries=entries)
    given = _entries(schedule)
    return _with_rooms(rooms, lambda *made: _LIBRARY.tallowmarch_go_on(program, len(program), *_numbers(settings), given, len(schedule), *made))


def replay(program: bytes, schedule: typing.Sequence[Entry], *, output: int = 0, keys: _Pair = None,
           rooms: typing.Tuple[int, int] = _FIRST_ROOMS) -> Report:
    """Follows a schedule of a run of the same program, over memory that grows and is never collected. It prints what that run printed.

    output, keys and rooms are as for a run. Where memory was wanted the outcome is MEMORY, and the report has the schedule as far as it was followed.
    Raises BadEntry where an entry is none, and NoRoom where there is no memory to start with.

    >>> replay(b'1 =', [Entry(context=1, steps=0)])
    Traceback (most recent call last):
    tallowmarch.BadEntry: an entry of the schedule is none
    >>> program = b'mark {(a) print} fork mark {(b) print} fork join cleartomark join cleartomark'
    >>> report = run(program, quantum=1)
    >>> replay(program, report.schedule).printed == report.printed
    True
    """
    program, settings, given = bytes(program), _settings(keys, False, output=output), _entries(schedule)
    return _with_rooms(rooms, lambda *made: _LIBRARY.tallowmarch_replay(program, len(program), *_numbers(settings), given, len(schedule), *made))


def error_place(program: bytes, schedule: typing.Sequence[Entry], *, context: int = 1) -> typing.Optional[ErrorPlace]:
    """Where a context raised its last error under the steps of a schedule of a run of this program, by whatever numbers; also an error that was caught.

    None where it raised none, or isn't left behind the steps. The steps are made again, which takes some ten times as long as the run. Raises TooLarge
    where the run takes more words in all than memory that grows has, and BadEntry or NoRoom as a replay does.

    >>> report = run(b'1 0\\n  idiv')
    >>> error_place(b'1 0\\n  idiv', report.schedule)
    ErrorPlace(step=3, line=2, column=3, offset=6)
    >>> error_place(b'1 =', run(b'1 =').schedule) is None
    True
    """
    program, settings, given, place = bytes(program), _settings(None, False), _entries(schedule), _Place()
    _within(context=context)
    code = _unless_error(_LIBRARY.tallowmarch_error_place(program, len(program), *_numbers(settings), given, len(schedule), context, place))
    if code == 23:
        return None
    if place.line == 0:
        return ErrorPlace(place.step, None, None, None)
    return ErrorPlace(place.step, place.line, place.column, place.offset)


def definition(name: bytes, value: typing.Union[int, bytes]) -> bytes:
    """The text that defines a name as an integer, a boolean or a string of these bytes, to be put before a program: so what a host hands in is a part of
    the program, and a record of the run is followed from that text. A string stands as hexadecimal digits.

    Raises BadName where the name has white space, one of ( ) < > [ ] { } / %, or more than 127 bytes, LongString where the string has more than
    65,535, and OutOfRange where an integer has more than 32 bits.

    >>> program = definition(b'width', 12) + definition(b'on', True) + definition(b'title', b'(:') + b'title print width ='
    >>> program
    b'/width 12 def\\n/on true def\\n/title <283a> def\\ntitle print width ='
    >>> run(program).printed
    b'(:12\\n'
    >>> definition(b'two words', 1)
    Traceback (most recent call last):
    tallowmarch.BadName: the name is none that a program can have
    """
    name = bytes(name)
    if isinstance(value, bool):
        call, given = _LIBRARY.tallowmarch_define_boolean, (value,)
    elif isinstance(value, int):
        if not -2 ** 31 <= value < 2 ** 31:
            raise OutOfRange('the integer is out of its range')
        call, given = _LIBRARY.tallowmarch_define_integer, (value,)
    else:
        value = bytes(value)
        call, given = _LIBRARY.tallowmarch_define_string, (value, len(value))
    count, size = 160, ctypes.c_uint64()
    while True:
        room = ctypes.create_string_buffer(count)
        _unless_error(call(name, len(name), *given, room, count, size))
        if size.value <= count:
            return room.raw[:size.value]
        count = size.value


class Standing:
    """A run that stands between calls: advance makes a slice of it, and take gives what was printed since.

    The numbers are those of a run, but for its steps, since each slice has its own, and plain: its space is collected. It has a copy of the
    program. It belongs to one call at a time, from whatever thread. Its memory is given back by close, at the end of a with, or where the object goes.
    Raises OutOfRange or NoRoom as a run does.

    >>> script = Standing(b'1 1 100 {=} for', space=4096)
    >>> script.advance(30)
    <Outcome.STEPS_OUT: 4>
    >>> script.take() + b''.join(script.slices(30)) == run(b'1 1 100 {=} for').printed, script.outcome
    (True, <Outcome.FINISHED: 0>)
    >>> script.counts().bytes, script.entries() == run(b'1 1 100 {=} for').schedule
    (292, True)
    >>> script.close()
    >>> script.advance(30)
    Traceback (most recent call last):
    tallowmarch.Closed: no run stands
    """

    def __init__(self, program: bytes, *, space: int = 65536, quantum: int = 100, output: int = 0, entries: int = 0,
                 keys: _Pair = None) -> None:
        self._run, self._taken = _Standing(), 0
        #: how the run would have ended behind the last slice; None before the first one
        self.outcome: typing.Optional[Outcome] = None
        program, settings = bytes(program), _settings(keys, False, space=space, quantum=quantum, steps=1, output=output, entries=entries)
        _unless_error(_LIBRARY.tallowmarch_start(program, len(program), *_numbers(settings), self._run))
        self._close = weakref.finalize(self, _LIBRARY.tallowmarch_close, self._run)

    def advance(self, steps: int) -> Outcome:
        """Makes at most so many steps more, up to 4,294,967,295 in all, and tells how the run would have ended here: with STEPS_OUT it may go on,
        and with MEMORY it tries again. Where slices lie can't be seen in what is printed or in the schedule. Raises OutOfRange where no step
        is asked for, and Closed."""
        self.outcome = Outcome(_unless_error(_LIBRARY.tallowmarch_advance(self._run, _within(steps=steps)['steps'])))
        return self.outcome

    def take(self) -> bytes:
        """What was printed since it was taken last; nothing where no run stands."""
        found = _LIBRARY.tallowmarch_printed(self._run, self._taken, ctypes.create_string_buffer(1), 0) - self._taken
        if found <= 0:
            return b''
        room = ctypes.create_string_buffer(found)
        _LIBRARY.tallowmarch_printed(self._run, self._taken, room, found)
        self._taken += found
        return room.raw

    def slices(self, steps: int = 100000) -> typing.Iterator[bytes]:
        """Makes slices of so many steps until one comes to another end than STEPS_OUT, and gives what each printed. Ctrl-C is heeded behind each."""
        while self.advance(steps) is Outcome.STEPS_OUT:
            yield self.take()
        yield self.take()

    def entries(self, first: int = 0) -> typing.Tuple[Entry, ...]:
        """The entries of the schedule so far, from one of them on: the next slice may add steps to the last. None where no run stands."""
        found = max(0, _LIBRARY.tallowmarch_entries(self._run, 0, (_Entry * 1)(), 0) - first)
        room = (_Entry * max(1, found))()
        _LIBRARY.tallowmarch_entries(self._run, first, room, found)
        return tuple(_entry_of(it) for it in room[:found])

    def counts(self) -> Counts:
        """How much it came to so far. Raises Closed."""
        counts = _Counts()
        _unless_error(_LIBRARY.tallowmarch_counts_of(self._run, *_numbers(counts)))
        return Counts(*(getattr(counts, it) for it in Counts._fields))

    def operand(self, depth: int = 0, context: int = 1) -> typing.Optional[Value]:
        """The operand of a context below so many others; None where it has so few. Contexts count from 1, which is the one that the program begins in.
        Raises NoContext where none has the identifier, and Closed, as the others do that tell values.

        >>> with Standing(b'(text) {dup mul} 7') as script:
        ...     script.advance(1000) and [script.operand(it) for it in range(4)]
        ... # doctest: +NORMALIZE_WHITESPACE
        [Value(kind=<Kind.INTEGER: 1>, executable=False, number=7, length=0, bytes=b''),
         Value(kind=<Kind.ARRAY: 7>, executable=True, number=0, length=2, bytes=b''),
         Value(kind=<Kind.STRING: 8>, executable=False, number=0, length=4, bytes=b'text'), None]
        """
        _within(context=context)
        if not 0 <= depth < 2 ** 63:
            raise OutOfRange('depth is out of its range')
        return _value(lambda *told: _LIBRARY.tallowmarch_operand(self._run, context, depth, *told))

    def definition(self, name: bytes, context: int = 1) -> typing.Optional[Value]:
        """What userdict has under a name, where a program's definitions go unless it begins another dictionary; None where it has none. All
        contexts share it, so any may be named that is left.

        >>> with Standing(b'/x 5 def /long 300 string def') as script:
        ...     script.definition(b'x'), script.advance(1000), script.definition(b'x').number, script.definition(b'long').length
        (None, <Outcome.FINISHED: 0>, 5, 300)
        """
        name = bytes(name)
        _within(context=context)
        return _value(lambda *told: _LIBRARY.tallowmarch_definition(self._run, context, name, len(name), *told))

    def error_name(self, context: int = 1) -> typing.Optional[Value]:
        """The name of the last error of a context, also of one that was caught, as its $error has it: null before the first one.

        >>> with Standing(b'1 0 idiv') as script:
        ...     script.error_name().kind, script.advance(1000), script.error_name().bytes, script.error_command().bytes
        (<Kind.NULL: 3>, <Outcome.FAULTED: 1>, b'undefinedresult', b'idiv')
        >>> with Standing(b'') as script:
        ...     script.error_name(context=2)
        Traceback (most recent call last):
        tallowmarch.NoContext: no context has this identifier
        """
        _within(context=context)
        return _value(lambda *told: _LIBRARY.tallowmarch_error_name(self._run, context, *told))

    def error_command(self, context: int = 1) -> typing.Optional[Value]:
        """What raised the last error of a context: null before the first one."""
        _within(context=context)
        return _value(lambda *told: _LIBRARY.tallowmarch_error_command(self._run, context, *told))

    def close(self) -> None:
        """Gives the run's memory back; a second call does nothing."""
        self._close()

    def __enter__(self) -> 'Standing':
        return self

    def __exit__(self, *_: object) -> None:
        self.close()
