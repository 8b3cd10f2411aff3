"""A second reading of the language, written from its definitions and not from its programs: one step at a time, as a schedule has them.

`World(program)` is the world at the start, and `World.step` makes one step of a context. It has all 99 operators. Objects stand in a list at
their birth numbers and are never collected; `World.live` adds up those that can be reached, and `Step.asked` says how many words a step
asked for. Two things are left out: the names that are met are not counted, since no program here meets 65,535, and nothing ends for want of
memory outside the space. The definitions are crates/ps_language/specs; the names of their files stand over the parts that follow them.
"""
import functools
import itertools
import re
import typing

OPERAND_LIMIT, FRAME_LIMIT, DICTIONARY_STACK_LIMIT, CONTEXT_LIMIT = 500, 250, 20, 32
SEQUENCE_LIMIT, CAPACITY_LIMIT, NAME_LIMIT, NESTING_LIMIT, SHOWN_LIMIT = 65535, 21845, 127, 32, 65535
LEAST_INTEGER, MOST_INTEGER = -2**31, 2**31 - 1
# How much of an access was taken away.
UNLIMITED, READ_ONLY, EXECUTE_ONLY, NO_ACCESS = range(4)
SYSTEM_DICTIONARY, USER_DICTIONARY = 0, 1
NO_TEXT = b'--nostringval--'


class Failure(Exception):
    """An error of the language."""

    def __init__(self, error):
        super().__init__(error)
        self.error = error


class Waits(Exception):
    """A monitor or a join has to wait."""


def require(holds, error):
    if not holds:
        raise Failure(error)


# ---- Value, Objects, Access, Readers

SEQUENCES = frozenset(('array', 'string'))
REFERENCES = SEQUENCES | {'dict', 'lock', 'condition'}


class Part(typing.NamedTuple):
    """A part of an array or of a string."""
    birth: int
    offset: int
    count: int
    access: int = UNLIMITED

    def at(self, place, count):
        return self._replace(offset=self.offset + place, count=count)


class Value(typing.NamedTuple):
    """What is held is a number, a truth, bytes, a part or a birth number, by the kind."""
    kind: str
    held: object = None
    executable: bool = False


class Dictionary:
    """Pairs in order of insertion: under what makes a key the same, the key itself and its value."""

    def __init__(self, capacity, pairs=(), access=UNLIMITED):
        self.capacity, self.access = capacity, access
        self.pairs = {same(key): (key, value) for key, value in pairs}

    def put(self, key, value):
        """A key that is there keeps its place and its object."""
        self.pairs[same(key)] = (self.pairs.get(same(key), (key,))[0], value)

    def grown(self, count):
        """The capacity that holds so many pairs."""
        return self.capacity if count <= self.capacity else min(CAPACITY_LIMIT, max(count, 2 * self.capacity + 4))


class Lock:
    owner = None


class Condition:
    pass


NULL, MARK = Value('null'), Value('mark')


def integer(number):
    return Value('integer', number)


def boolean(truth):
    return Value('boolean', truth)


def name(text, executable=False):
    return Value('name', text, executable)


def same(value):
    """What two values that are the same key have in common. A string isn't a key."""
    return value.kind, value.held[:3] if value.kind == 'array' else value.held


def body_words(capacity):
    return 2 + 3 * capacity


def size_of(thing):
    """The words of an object."""
    if isinstance(thing, list):
        return 2 + len(thing)
    if isinstance(thing, bytearray):
        return 2 + (len(thing) + 7) // 8
    return 6 + body_words(thing.capacity) if isinstance(thing, Dictionary) else 3


def references(values):
    """The birth numbers that values name."""
    return [value.held.birth if value.kind in SEQUENCES else value.held for value in values if value.kind in REFERENCES]


def is_readable(access):
    return access <= READ_ONLY


def is_writable(access):
    return access == UNLIMITED


def is_executable(access):
    return access <= EXECUTE_ONLY


def as_integer(value):
    require(value.kind == 'integer', 'typecheck')
    return value.held


def as_count(number):
    require(number >= 0, 'rangecheck')
    return number


def as_index(number, count):
    require(0 <= number < count, 'rangecheck')
    return number


def as_result(number):
    require(LEAST_INTEGER <= number <= MOST_INTEGER, 'undefinedresult')
    return number


def held_by(value, *kinds):
    """What is held by a value of one of these kinds."""
    require(value.kind in kinds, 'typecheck')
    return value.held


def as_procedure(value):
    require(value.executable and value.kind == 'array', 'typecheck')
    return value.held


# ---- Scan

BLANK = re.compile(rb'(?:[\0\t\n\f\r ]|%[^\n\f\r]*)*')
REGULAR = re.compile(rb'[^\0\t\n\f\r ()<>\[\]{}/%]*')
INTEGER = re.compile(rb'[+-]?[0-9]+')
RADIX = re.compile(rb'([0-9]+)#([0-9A-Za-z]+)')
REAL = re.compile(rb'[+-]?(?:(?:[0-9]+\.[0-9]*|\.[0-9]+)(?:[eE][+-]?[0-9]+)?|[0-9]+[eE][+-]?[0-9]+)')
HEXADECIMAL = re.compile(rb'[0-9A-Fa-f\0\t\n\f\r ]*')
PLAIN = re.compile(rb'[^()\\\r]+')
OCTAL = re.compile(rb'[0-7]{1,3}')
RETURN = re.compile(rb'\r\n?')
LETTERS = {b'n': b'\n', b'r': b'\r', b't': b'\t', b'b': b'\b', b'f': b'\f'}


class Token(typing.NamedTuple):
    """A number, a name (literal, executable or immediate), a string or a procedure with its tokens."""
    kind: str
    held: object


def named(kind, text):
    require(len(text) <= NAME_LIMIT, 'limitcheck')
    return Token(kind, text)


def word(run):
    """What a run of regular bytes is."""
    if INTEGER.fullmatch(run):
        require(LEAST_INTEGER <= int(run) <= MOST_INTEGER, 'limitcheck')
        return Token('number', int(run))
    radix = RADIX.fullmatch(run)
    base = int(radix[1]) if radix else 0
    if 2 <= base <= 36 and all(int(chr(digit), 36) < base for digit in radix[2]):
        number = int(radix[2], base)
        require(number < 2**32, 'limitcheck')
        return Token('number', number - 2**32 if number > MOST_INTEGER else number)
    require(not REAL.fullmatch(run), 'limitcheck')
    return named('executable', run)


def escape(text, at):
    """The bytes that stand for what follows a backslash, and the place behind them."""
    octal, newline, byte = OCTAL.match(text, at), RETURN.match(text, at), text[at:at + 1]
    require(byte, 'syntaxerror')
    if octal:
        return bytes([int(octal[0], 8) % 256]), octal.end()
    if newline:
        return b'', newline.end()
    return b'' if byte == b'\n' else LETTERS.get(byte, byte), at + 1


def string_token(text, at):
    """A string from behind its first parenthesis on, and the place behind its last."""
    made, depth = bytearray(), 0
    while at < len(text):
        plain, newline, byte = PLAIN.match(text, at), RETURN.match(text, at), text[at:at + 1]
        if plain:
            made, at = made + plain[0], plain.end()
        elif newline:
            made, at = made + b'\n', newline.end()
        elif byte == b'\\':
            more, at = escape(text, at + 1)
            made += more
        elif byte == b')' and not depth:
            require(len(made) <= SEQUENCE_LIMIT, 'limitcheck')
            return Token('string', bytes(made)), at + 1
        else:
            depth += 1 if byte == b'(' else -1
            made, at = made + byte, at + 1
    raise Failure('syntaxerror')


def hexadecimal_token(text, at):
    found = HEXADECIMAL.match(text, at)
    require(text[found.end():found.end() + 1] == b'>', 'syntaxerror')
    digits = bytes(byte for byte in found[0] if byte not in b'\0\t\n\f\r ')
    made = bytes.fromhex((digits + b'0' * (len(digits) % 2)).decode())
    require(len(made) <= SEQUENCE_LIMIT, 'limitcheck')
    return Token('string', made), found.end() + 1


def procedure_token(text, at, room):
    """A procedure from behind its brace on; so many braces more may be opened."""
    tokens = []
    while True:
        at = BLANK.match(text, at).end()
        require(at < len(text), 'syntaxerror')
        if text[at] == ord('}'):
            require(len(tokens) <= SEQUENCE_LIMIT, 'limitcheck')
            return Token('procedure', tokens), at + 1
        token, at = token_at(text, at, room)
        tokens.append(token)


def token_at(text, at, room):
    """The token that begins at a place, and the place behind it."""
    byte, two = text[at:at + 1], text[at:at + 2]
    if byte == b'{':
        require(room, 'limitcheck')
        return procedure_token(text, at + 1, room - 1)
    if byte == b'(':
        return string_token(text, at + 1)
    if two in (b'<<', b'>>'):
        return Token('executable', two), at + 2
    if byte == b'<':
        return hexadecimal_token(text, at + 1)
    if byte in (b'[', b']'):
        return Token('executable', byte), at + 1
    if byte == b'/':
        run = REGULAR.match(text, at + (2 if two == b'//' else 1))
        return named('immediate' if two == b'//' else 'literal', run[0]), run.end()
    run = REGULAR.match(text, at)
    require(run[0], 'syntaxerror')
    return word(run[0]), run.end()


@functools.lru_cache(maxsize=20000)
def scan(text, at):
    """The next token and its end; or None at the end of the text, or the error of a fault."""
    at = BLANK.match(text, at).end()
    if at == len(text):
        return None
    try:
        return token_at(text, at, NESTING_LIMIT)
    except Failure as fault:
        return fault.error


# ---- Texts

def plain_text(store, value):
    """The text of `=`."""
    if value.kind == 'integer':
        return b'%d' % value.held
    if value.kind == 'boolean':
        return b'true' if value.held else b'false'
    if value.kind in ('name', 'operator'):
        return value.held
    if value.kind == 'string' and is_readable(value.held.access):
        return part_of(store, value.held)
    return NO_TEXT


ESCAPES = {ord(byte): b'\\' + letter for byte, letter in zip('()\\\n\r\t\b\f', (b'(', b')', b'\\', b'n', b'r', b't', b'b', b'f'))}


def escaped(byte):
    return ESCAPES.get(byte) or (bytes([byte]) if 32 <= byte <= 126 else b'\\%03o' % byte)


def text_pieces(store, value, depth):
    """The text of `==` piece by piece, since arrays that name each other have a long one."""
    if value.kind in ('integer', 'boolean'):
        yield plain_text(store, value)
    elif value.kind == 'null':
        yield b'null'
    elif value.kind == 'name':
        yield value.held if value.executable else b'/' + value.held
    elif value.kind == 'operator':
        yield b'--' + value.held + b'--'
    elif value.kind == 'string' and is_readable(value.held.access):
        yield b'(' + b''.join(map(escaped, part_of(store, value.held))) + b')'
    elif value.kind == 'array' and depth and is_readable(value.held.access):
        yield b'{' if value.executable else b'['
        for place, element in enumerate(part_of(store, value.held)):
            yield b' ' if place else b''
            yield from text_pieces(store, element, depth - 1)
        yield b'}' if value.executable else b']'
    else:
        yield b'-%s-' % value.kind.encode()


def full_text(store, value):
    """The text of `==`."""
    made = bytearray()
    for piece in text_pieces(store, value, NESTING_LIMIT):
        made += piece
        if len(made) > SHOWN_LIMIT:
            break
    return bytes(made[:SHOWN_LIMIT])


def part_of(store, part):
    """The elements or bytes of a part, as they stand."""
    found = store[part.birth][part.offset:part.offset + part.count]
    return found if isinstance(found, list) else bytes(found)


# ---- World

class Text(typing.NamedTuple):
    """The program's text where there is no part, else that of a string."""
    part: typing.Optional[Part]
    at: int


class Procedure(typing.NamedTuple):
    rest: Part


class Pending(typing.NamedTuple):
    value: Value


class Repeat(typing.NamedTuple):
    count: int
    body: Part


class Loop(typing.NamedTuple):
    body: Part


class For(typing.NamedTuple):
    control: int
    increment: int
    limit: int
    body: Part


class Forall(typing.NamedTuple):
    over: Value
    at: int
    body: Part


class Stopped(typing.NamedTuple):
    pass


class Monitor(typing.NamedTuple):
    lock: int


class Bind(typing.NamedTuple):
    over: Part
    at: int
    depth: int


LOOPS = (Repeat, Loop, For, Forall)


def frame_references(frame):
    """The birth numbers that a frame names."""
    found = [thing.birth for thing in frame if isinstance(thing, Part)] + references(thing for thing in frame if isinstance(thing, Value))
    return found + [frame.lock] if isinstance(frame, Monitor) else found


RUNNING, AGAIN, FINISHED, FOR_STOP, FOR_EXIT, FOR_QUIT, WAITING, RETAKING = (
    'running', 'again', 'finished', 'stop', 'exit', 'quit', 'waiting', 'retaking')
UNWINDING = (FOR_STOP, FOR_EXIT, FOR_QUIT)


class Context:
    """Stacks whose topmost is last; what is waited for is a lock, or a lock and a condition."""

    def __init__(self, operands, dictionaries, frames, error_dictionary):
        self.operands, self.dictionaries, self.frames, self.error_dictionary = operands, dictionaries, frames, error_dictionary
        self.is_detached, self.status, self.awaited = False, RUNNING if frames else FINISHED, ()

    def references(self):
        found = [self.error_dictionary, *self.awaited, *references(self.operands), *references(self.dictionaries)]
        return found + [birth for frame in self.frames for birth in frame_references(frame)]


def new_error_dictionary():
    return Dictionary(8, [(name(b'newerror'), boolean(False)), (name(b'errorname'), NULL), (name(b'command'), NULL)])


# ---- Worlds, Live, Locks

class World:
    """All contexts and what they share. The context of identifier n is at place n - 1, and None where it is ended. `granted` is told the words
    that a step asks for and has, before it changes any object."""

    def __init__(self, program, granted=lambda words: None):
        self.program, self.granted = program, granted
        pairs = [(name(operator), Value('operator', operator, True)) for operator in ROWS]
        pairs += [(name(b'true'), boolean(True)), (name(b'false'), boolean(False)), (name(b'null'), NULL),
                  (name(b'systemdict'), Value('dict', SYSTEM_DICTIONARY)), (name(b'userdict'), Value('dict', USER_DICTIONARY))]
        self.store = [Dictionary(128, pairs, READ_ONLY), Dictionary(32), new_error_dictionary()]
        lowest = [Value('dict', SYSTEM_DICTIONARY), Value('dict', USER_DICTIONARY)]
        self.contexts = [Context([], lowest, [Text(None, 0)], 2)]
        self.printed, self.error_lines = bytearray(), 0

    def context_at(self, identifier):
        return self.contexts[identifier - 1] if 1 <= identifier <= len(self.contexts) else None

    def is_ready(self, identifier):
        context = self.context_at(identifier)
        if not context or context.status in (FINISHED, WAITING):
            return False
        if context.status == RETAKING:
            return self.store[context.awaited[0]].owner is None
        return context.status != AGAIN or not Step(self, identifier).would_wait()

    def step(self, identifier, refused=False, shown=None):
        """Makes one step of a context that is ready, and says how it went."""
        step = Step(self, identifier, refused, shown)
        step.make()
        return step

    def live(self):
        """The words of all that can be reached."""
        waiting = [SYSTEM_DICTIONARY, USER_DICTIONARY]
        for context in filter(None, self.contexts):
            waiting += context.references()
        reached = set()
        while waiting:
            birth = waiting.pop()
            if birth not in reached:
                reached.add(birth)
                waiting += self.references_at(birth)
        return sum(size_of(self.store[birth]) for birth in reached)

    def references_at(self, birth):
        thing = self.store[birth]
        if isinstance(thing, Dictionary):
            return references(itertools.chain.from_iterable(thing.pairs.values()))
        return references(thing) if isinstance(thing, list) else []

    def status(self):
        """The exit status of a run that ends here."""
        if all(not context or context.status == FINISHED for context in self.contexts):
            return 1 if self.error_lines else 0
        return 4 if any(map(self.is_ready, range(1, len(self.contexts) + 1))) else 3


# ---- Step, Machines

class Step:
    """One step of a context. Rows test all that can fail, then ask for words, and only then change anything."""

    def __init__(self, world, identifier, refused=False, shown=None):
        self.world, self.store, self.identifier, self.context = world, world.store, identifier, world.context_at(identifier)
        self.refused, self.shown = refused, shown
        # The words asked for, whether a vmstatus acted, and the command of an error that is met from here on.
        self.asked, self.has_shown, self.command = 0, False, NULL

    def make(self):
        context = self.context
        try:
            if context.status == AGAIN:
                context.status = RUNNING
                self.operate(self.retried())
            elif context.status == RETAKING:
                self.store[context.awaited[0]].owner = self.identifier
                context.status, context.awaited = RUNNING, ()
            elif context.status in UNWINDING:
                self.unwind(context.frames.pop())
            else:
                TURNS[type(context.frames[-1])](self, context.frames[-1])
        except Failure as failure:
            self.fail(failure.error)
        except Waits:
            context.status = AGAIN
        self.settle()

    def fail(self, error):
        """Notes an error in $error, which never grows."""
        noted = self.store[self.context.error_dictionary]
        for key, value in ((b'newerror', boolean(True)), (b'errorname', name(error.encode())), (b'command', self.command)):
            if ('name', key) in noted.pairs or len(noted.pairs) < noted.capacity:
                noted.put(name(key), value)
        self.context.status = FOR_STOP

    def settle(self):
        """A context without frames is finished, and tells an error that nothing caught."""
        context = self.context
        if not context.frames and context.status in (RUNNING, *UNWINDING):
            if context.status == FOR_STOP:
                self.tell()
            context.status = FINISHED
        if context.is_detached and context.status == FINISHED:
            self.world.contexts[self.identifier - 1] = None

    def tell(self):
        noted = self.store[self.context.error_dictionary]
        is_new, *texts = (noted.pairs.get(('name', key), (None, NULL))[1] for key in (b'newerror', b'errorname', b'command'))
        if is_new.kind == 'boolean' and is_new.held:
            line = b'%%%%[ Error: %s; OffendingCommand: %s ]%%%%\n' % tuple(plain_text(self.store, value) for value in texts)
            self.world.printed += line
            self.world.error_lines += 1
            noted.put(name(b'newerror'), boolean(False))

    # ---- what is asked for

    def ask(self, words):
        """Behind all other errors, a refused step that asks for room is a VMerror."""
        self.asked = words
        require(not (self.refused and words), 'VMerror')
        self.world.granted(words)

    def new(self, thing):
        """An object stands under the next birth number."""
        self.store.append(thing)
        return len(self.store) - 1

    def bear(self, pops, kind, thing):
        """An object is made, and its reference takes the place of so many operands."""
        self.ask(size_of(thing))
        birth = self.new(thing)
        self.replace(pops, Value(kind, Part(birth, 0, len(thing)) if kind in SEQUENCES else birth))

    # ---- operands and frames

    def top(self, count):
        """So many operands, the topmost last."""
        require(len(self.context.operands) >= count, 'stackunderflow')
        return self.context.operands[len(self.context.operands) - count:]

    def replace(self, pops, *values):
        operands = self.context.operands
        operands[len(operands) - pops:] = values

    def leave(self, pops, *values):
        """The same where the operands may be too many then."""
        require(len(self.context.operands) - pops + len(values) <= OPERAND_LIMIT, 'stackoverflow')
        self.replace(pops, *values)

    def above_mark(self):
        """The operands above the topmost mark."""
        operands = self.context.operands
        for place in range(len(operands) - 1, -1, -1):
            if operands[place].kind == 'mark':
                return operands[place + 1:]
        raise Failure('unmatchedmark')

    def require_frames(self, count):
        require(len(self.context.frames) + count <= FRAME_LIMIT, 'execstackoverflow')

    def push_frame(self, frame, pops=0):
        self.require_frames(1)
        self.replace(pops)
        self.context.frames.append(frame)

    def enter(self, body, pops=0):
        """A procedure is entered; an empty one is not pushed."""
        if body.count:
            self.push_frame(Procedure(body), pops)
        else:
            self.replace(pops)

    # ---- objects

    def access_of(self, value):
        if value.kind in SEQUENCES:
            return value.held.access
        return self.store[value.held].access if value.kind == 'dict' else None

    def may_read(self, value):
        access = self.access_of(value)
        return access is None or is_readable(access)

    def part(self, part):
        return part_of(self.store, part)

    def write(self, part, place, items):
        start = part.offset + place
        self.store[part.birth][start:start + len(items)] = items

    def key_of(self, value):
        """A string stands for the name of its characters."""
        return name(self.part(value.held)) if value.kind == 'string' else value

    def put_into(self, birth, key, value, pops):
        """A pair is put into a dictionary, which may grow."""
        dictionary = self.store[birth]
        require(fits_key(key), 'limitcheck')
        self.grow(dictionary, len(dictionary.pairs) + (same(self.key_of(key)) not in dictionary.pairs))
        dictionary.put(self.key_of(key), value)
        self.replace(pops)

    def grow(self, dictionary, count):
        """Asks for a new body where so many pairs don't fit; the old one stands beside it."""
        require(count <= CAPACITY_LIMIT, 'limitcheck')
        capacity = dictionary.grown(count)
        self.ask(0 if capacity == dictionary.capacity else body_words(capacity))
        dictionary.capacity = capacity

    def look_up(self, key):
        """The dictionary where a key is found with its value, each on the way being read; or None."""
        for value in reversed(self.context.dictionaries):
            require(self.may_read(value), 'invalidaccess')
            found = self.store[value.held].pairs.get(same(key))
            if found:
                return value, found[1]
        return None

    # ---- StepValues

    def operate(self, operator):
        self.command = Value('operator', operator, True)
        ROWS[operator](self)

    def do(self, command, value):
        """Does an element: a procedure is pushed, everything else is executed."""
        self.command = command
        if value.executable and value.kind == 'array':
            self.leave(0, value)
        else:
            self.execute(value)

    def execute(self, value):
        if value.executable and value.kind == 'name':
            found = self.look_up(value)
            require(found, 'undefined')
            value = found[1]
            if value.executable and value.kind == 'name':
                self.push_frame(Pending(value))
                return
        if not value.executable:
            self.leave(0, value)
        elif value.kind == 'operator':
            self.operate(value.held)
        elif value.kind in SEQUENCES:
            require(is_executable(value.held.access), 'invalidaccess')
            if value.kind == 'array':
                self.enter(value.held)
            else:
                self.push_frame(Text(value.held, 0))
        elif value.kind != 'null':
            self.leave(0, value)

    # ---- StepTokens

    def do_token(self, token):
        if token.kind == 'number':
            self.do(integer(token.held), integer(token.held))
        elif token.kind == 'immediate':
            self.command = name(token.held, True)
            self.do(self.command, self.found(token.held))
        elif token.kind in ('literal', 'executable'):
            value = name(token.held, token.kind == 'executable')
            self.do(value, value)
        else:
            require(len(self.context.operands) < OPERAND_LIMIT, 'stackoverflow')
            self.find_missing([token])
            self.command = NULL
            self.ask(token_words(token))
            self.leave(0, self.token_value(token))

    def found(self, text):
        """The value of a name."""
        found = self.look_up(name(text))
        require(found, 'undefined')
        return found[1]

    def find_missing(self, tokens):
        """The first name behind // that has no value is an error."""
        for token in tokens:
            if token.kind == 'immediate':
                self.command = name(token.held, True)
                self.found(token.held)
            elif token.kind == 'procedure':
                self.find_missing(token.held)

    def token_value(self, token):
        """The value of a token in a procedure; inner objects are made before outer ones."""
        if token.kind == 'number':
            return integer(token.held)
        if token.kind == 'immediate':
            return self.found(token.held)
        if token.kind == 'string':
            return Value('string', Part(self.new(bytearray(token.held)), 0, len(token.held)))
        if token.kind == 'procedure':
            elements = [self.token_value(inner) for inner in token.held]
            return Value('array', Part(self.new(elements), 0, len(elements)), True)
        return name(token.held, token.kind == 'executable')

    # ---- StepFrames

    def unwind(self, frame):
        """One frame of an unwinding is taken off."""
        context = self.context
        if isinstance(frame, Monitor):
            self.store[frame.lock].owner = None
        elif isinstance(frame, LOOPS) and context.status == FOR_EXIT:
            context.status = RUNNING
        elif isinstance(frame, Stopped) and context.status == FOR_STOP:
            context.status = RUNNING
            self.stopped(True)

    def stopped(self, truth):
        self.command = Value('operator', b'stopped', True)
        self.leave(0, boolean(truth))

    def text_turn(self, frame):
        text = self.part(frame.part) if frame.part else self.world.program
        found = scan(text, frame.at)
        if found is None:
            self.context.frames.pop()
        elif isinstance(found, str):
            raise Failure(found)
        else:
            self.context.frames[-1] = frame._replace(at=found[1])
            self.do_token(found[0])

    def procedure_turn(self, frame):
        """The last element takes the frame with it."""
        frames, rest = self.context.frames, frame.rest
        element = self.store[rest.birth][rest.offset]
        if rest.count > 1:
            frames[-1] = Procedure(rest.at(1, rest.count - 1))
        else:
            frames.pop()
        self.do(element, element)

    def pending_turn(self, frame):
        self.context.frames.pop()
        self.command = frame.value
        self.execute(frame.value)

    def loop_turn(self, operator, frame, *values):
        """A turn of a loop whose frame is this one then; an error changes nothing."""
        self.command = Value('operator', operator, True)
        require(not values or len(self.context.operands) + len(values) <= OPERAND_LIMIT, 'stackoverflow')
        if frame.body.count:
            self.require_frames(1)
        self.context.frames[-1] = frame
        self.replace(0, *values)
        self.enter(frame.body)

    def repeat_turn(self, frame):
        if frame.count:
            self.loop_turn(b'repeat', frame._replace(count=frame.count - 1))
        else:
            self.context.frames.pop()

    def for_turn(self, frame):
        is_past = frame.limit < frame.control if frame.increment >= 0 else frame.control < frame.limit
        if is_past:
            self.context.frames.pop()
        else:
            self.loop_turn(b'for', frame._replace(control=frame.control + frame.increment), integer(frame.control))

    def forall_turn(self, frame):
        over, at = frame.over, frame.at
        if over.kind == 'dict':
            values = next(itertools.islice(self.store[over.held].pairs.values(), at, None), ())
        else:
            values = self.part(over.held)[at:at + 1]
            values = tuple(map(integer, values)) if over.kind == 'string' else values
        if values:
            self.loop_turn(b'forall', frame._replace(at=at + 1), *values)
        else:
            self.context.frames.pop()

    def stopped_turn(self, _):
        self.context.frames.pop()
        self.stopped(False)

    def monitor_turn(self, frame):
        self.context.frames.pop()
        self.store[frame.lock].owner = None

    # ---- StepBind

    def bind_turn(self, frame):
        self.command = Value('operator', b'bind', True)
        values, inner = self.bound(self.part(frame.over)[frame.at:])
        frames = [Bind(inner, 0, frame.depth + 1)] if inner else []
        if inner:
            require(frame.depth + 1 <= NESTING_LIMIT, 'limitcheck')
            self.require_frames(1)
            frames.insert(0, frame._replace(at=frame.at + len(values)))
        self.write(frame.over, frame.at, values)
        self.context.frames[-1:] = frames

    def bound(self, elements):
        """The elements up to the next procedure to go into, and that one."""
        values = []
        for value in elements:
            if value.executable and value.kind == 'name':
                found = self.look_up(value)
                value = found[1] if found and found[1].kind == 'operator' else value
            elif value.executable and value.kind == 'array' and is_writable(value.held.access):
                return [*values, value._replace(held=value.held._replace(access=READ_ONLY))], value.held
            values.append(value)
        return values, None

    # ---- Locks, Contexts

    def retried(self):
        """What is tried again, by the topmost operand."""
        operands = self.context.operands
        return b'join' if not operands or operands[-1].kind == 'integer' else b'monitor'

    def would_wait(self):
        try:
            if self.retried() == b'join':
                return self.joined()[1].status != FINISHED
            return self.monitored()[1].owner is not None
        except Failure:
            return False

    def named_context(self, value):
        """An identifier with its context, which isn't ended and isn't detached."""
        identifier = as_integer(value)
        context = self.world.context_at(identifier)
        require(context and not context.is_detached, 'invalidcontext')
        return identifier, context

    def joined(self):
        found = self.named_context(*self.top(1))
        require(found[0] != self.identifier, 'invalidcontext')
        return found

    def monitored(self):
        """The lock's birth number, the lock and the procedure of a monitor."""
        lock, procedure = self.top(2)
        body, birth = as_procedure(procedure), held_by(lock, 'lock')
        require(is_executable(body.access), 'invalidaccess')
        require(self.store[birth].owner != self.identifier, 'invalidcontext')
        return birth, self.store[birth], body


TURNS = {Text: Step.text_turn, Procedure: Step.procedure_turn, Pending: Step.pending_turn, Repeat: Step.repeat_turn,
         Loop: lambda step, frame: step.loop_turn(b'loop', frame), For: Step.for_turn, Forall: Step.forall_turn, Stopped: Step.stopped_turn,
         Monitor: Step.monitor_turn, Bind: Step.bind_turn}


def token_words(token):
    """The words of the objects that a token makes."""
    if token.kind == 'string':
        return 2 + (len(token.held) + 7) // 8
    return 2 + len(token.held) + sum(map(token_words, token.held)) if token.kind == 'procedure' else 0


def fits_key(key):
    return key.kind != 'string' or key.held.count <= NAME_LIMIT


def is_readable_text(value):
    """Keys and comparisons read strings, and nothing else."""
    return value.kind != 'string' or is_readable(value.held.access)


# ---- Rows: the operators by name, in the order of systemdict once all are there

FOUND = {}


def row(*texts, **more):
    """The function below is the row of these operators; what is more says how they differ, one of each for each name."""
    def kept(function):
        for place, text in enumerate(texts):
            FOUND[text.encode()] = functools.partial(function, **{key: values[place] for key, values in more.items()}) if more else function
        return function
    return kept


# ---- RowsStack

@row('pop')
def pop_row(step):
    step.top(1)
    step.replace(1)


@row('exch')
def exch_row(step):
    below, above = step.top(2)
    step.replace(2, above, below)


@row('dup')
def dup_row(step):
    step.leave(0, *step.top(1))


@row('index')
def index_row(step):
    place = as_count(as_integer(*step.top(1)))
    step.replace(1, step.top(place + 2)[0])


@row('roll')
def roll_row(step):
    count, places = step.top(2)
    places, count = as_integer(places), as_count(as_integer(count))
    moved = step.top(count + 2)[:count]
    first = count - places % count if count else 0
    step.replace(count + 2, *moved[first:], *moved[:first])


@row('clear')
def clear_row(step):
    step.context.operands.clear()


@row('count')
def count_row(step):
    step.leave(0, integer(len(step.context.operands)))


@row('mark', '[', '<<')
def mark_row(step):
    step.leave(0, MARK)


@row('cleartomark')
def cleartomark_row(step):
    step.replace(len(step.above_mark()) + 1)


@row('counttomark')
def counttomark_row(step):
    step.leave(0, integer(len(step.above_mark())))


# ---- RowsArithmetic, Integers

def divided(dividend, divisor):
    """The quotient toward zero, and the remainder with the sign of the dividend."""
    require(divisor, 'undefinedresult')
    quotient = abs(dividend) // abs(divisor) * (1 if (dividend < 0) == (divisor < 0) else -1)
    return quotient, dividend - quotient * divisor


def as_signed(number):
    return (number + 2**31) % 2**32 - 2**31


def shifted(number, places):
    if abs(places) >= 32:
        return 0
    return as_signed(number << places if places >= 0 else number % 2**32 >> -places)


@row('add', 'sub', 'mul', 'idiv', 'mod', 'bitshift', of=(
    lambda x, y: x + y, lambda x, y: x - y, lambda x, y: x * y, lambda x, y: divided(x, y)[0], lambda x, y: divided(x, y)[1], shifted))
def two_integers_row(step, of):
    x, y = map(as_integer, step.top(2))
    step.replace(2, integer(as_result(of(x, y))))


@row('neg', 'abs', of=(lambda x: -x, abs))
def one_integer_row(step, of):
    step.replace(1, integer(as_result(of(as_integer(*step.top(1))))))


@row('and', 'or', 'xor', of=(lambda x, y: x & y, lambda x, y: x | y, lambda x, y: x ^ y))
def logical_row(step, of):
    x, y = step.top(2)
    require(x.kind == y.kind and x.kind in ('integer', 'boolean'), 'typecheck')
    step.replace(2, Value(x.kind, of(x.held, y.held)))


@row('not')
def not_row(step):
    x, = step.top(1)
    require(x.kind in ('integer', 'boolean'), 'typecheck')
    step.replace(1, integer(~x.held) if x.kind == 'integer' else boolean(not x.held))


# ---- RowsRelations, Equality

@row('eq', 'ne', wanted=(True, False))
def equality_row(step, wanted):
    x, y = step.top(2)
    require(is_readable_text(x) and is_readable_text(y), 'invalidaccess')
    step.replace(2, boolean((same(step.key_of(x)) == same(step.key_of(y))) == wanted))


@row('gt', 'ge', 'lt', 'le', of=(lambda x, y: x > y, lambda x, y: x >= y, lambda x, y: x < y, lambda x, y: x <= y))
def order_row(step, of):
    x, y = step.top(2)
    require(x.kind == y.kind and x.kind in ('integer', 'string'), 'typecheck')
    require(is_readable_text(x) and is_readable_text(y), 'invalidaccess')
    x, y = (x.held, y.held) if x.kind == 'integer' else (step.part(x.held), step.part(y.held))
    step.replace(2, boolean(of(x, y)))


# ---- RowsSequences

@row('array', 'string', 'dict', limit=(SEQUENCE_LIMIT, SEQUENCE_LIMIT, CAPACITY_LIMIT), kind=('array', 'string', 'dict'),
     of=(lambda count: [NULL] * count, bytearray, Dictionary))
def sized_row(step, limit, kind, of):
    count = as_count(as_integer(*step.top(1)))
    require(count <= limit, 'limitcheck')
    step.bear(1, kind, of(count))


@row(']')
def end_array_row(step):
    elements = step.above_mark()
    step.bear(len(elements) + 1, 'array', elements)


@row('length')
def length_row(step):
    x, = step.top(1)
    held = held_by(x, 'array', 'string', 'dict', 'name')
    require(step.may_read(x), 'invalidaccess')
    step.replace(1, integer(held.count if isinstance(held, Part) else len(held if x.kind == 'name' else step.store[held].pairs)))


@row('get')
def get_row(step):
    x, key = step.top(2)
    part = held_by(x, 'array', 'string', 'dict')
    if x.kind != 'dict':
        place = as_integer(key)
        require(is_readable(part.access), 'invalidaccess')
        found = step.store[part.birth][part.offset + as_index(place, part.count)]
        step.replace(2, found if x.kind == 'array' else integer(found))
        return
    require(key.kind != 'null', 'typecheck')
    require(is_readable_text(key) and step.may_read(x), 'invalidaccess')
    found = step.store[x.held].pairs.get(same(step.key_of(key)))
    require(found, 'undefined')
    step.replace(2, found[1])


@row('put')
def put_row(step):
    x, key, value = step.top(3)
    part = held_by(x, 'array', 'string', 'dict')
    if x.kind == 'dict':
        require(key.kind != 'null', 'typecheck')
        require(is_readable_text(key) and is_writable(step.access_of(x)), 'invalidaccess')
        step.put_into(part, key, value, 3)
        return
    item = as_integer(value) if x.kind == 'string' else value
    place = as_integer(key)
    require(is_writable(part.access), 'invalidaccess')
    as_index(place, part.count)
    if x.kind == 'string':
        as_index(item, 256)
    step.write(part, place, [item])
    step.replace(3)


@row('getinterval')
def getinterval_row(step):
    x, place, count = step.top(3)
    count, place, part = as_integer(count), as_integer(place), held_by(x, 'array', 'string')
    require(is_readable(part.access), 'invalidaccess')
    require(count >= 0 and 0 <= place and place + count <= part.count, 'rangecheck')
    step.replace(3, x._replace(held=part.at(place, count)))


def pair_of(source, target):
    """The parts of two arrays or of two strings, of which the first is read and the second written."""
    require(source.kind == target.kind and source.kind in SEQUENCES, 'typecheck')
    require(is_readable(source.held.access) and is_writable(target.held.access), 'invalidaccess')
    return source.held, target.held


@row('putinterval')
def putinterval_row(step):
    x, place, y = step.top(3)
    place = as_integer(place)
    source, target = pair_of(y, x)
    require(0 <= place and place + source.count <= target.count, 'rangecheck')
    step.write(target, place, step.part(source))
    step.replace(3)


@row('aload')
def aload_row(step):
    x, = step.top(1)
    part = held_by(x, 'array')
    require(is_readable(part.access), 'invalidaccess')
    step.leave(1, *step.part(part), x)


@row('astore')
def astore_row(step):
    x, = step.top(1)
    part = held_by(x, 'array')
    require(is_writable(part.access), 'invalidaccess')
    step.write(part, 0, step.top(part.count + 1)[:-1])
    step.replace(part.count + 1, x)


@row('copy')
def copy_row(step):
    y, = step.top(1)
    if y.kind == 'integer':
        count = as_count(y.held)
        step.leave(1, *step.top(count + 1)[:-1])
        return
    held_by(y, 'array', 'string', 'dict')
    x, y = step.top(2)
    if y.kind == 'dict':
        source, target = step.store[held_by(x, 'dict')], step.store[y.held]
        require(is_readable(source.access) and is_writable(target.access), 'invalidaccess')
        step.grow(target, len({**target.pairs, **source.pairs}))
        for key, value in list(source.pairs.values()):
            target.put(key, value)
        step.replace(2, y)
        return
    source, target = pair_of(x, y)
    require(source.count <= target.count, 'rangecheck')
    step.write(target, 0, step.part(source))
    step.replace(2, y._replace(held=target.at(0, source.count)))


@row('search', 'anchorsearch', is_anchored=(False, True))
def search_row(step, is_anchored):
    x, y = step.top(2)
    wanted, part = held_by(y, 'string'), held_by(x, 'string')
    require(is_readable(wanted.access) and is_readable(part.access), 'invalidaccess')
    text, count = step.part(part), wanted.count
    place = (0 if text.startswith(step.part(wanted)) else -1) if is_anchored else text.find(step.part(wanted))
    if place < 0:
        step.replace(2, x, boolean(False))
        return
    behind, match, before = (x._replace(held=part.at(*at)) for at in ((place + count, part.count - place - count), (place, count), (0, place)))
    step.leave(2, behind, match, *([] if is_anchored else [before]), boolean(True))


# ---- RowsDictionaries

@row('>>')
def end_dict_row(step):
    values = step.above_mark()
    keys = values[::2]
    require(all(key.kind != 'null' for key in keys), 'typecheck')
    require(all(map(is_readable_text, keys)), 'invalidaccess')
    require(len(values) % 2 == 0, 'rangecheck')
    require(all(map(fits_key, keys)), 'limitcheck')
    made = Dictionary(len(keys))
    for key, value in zip(keys, values[1::2]):
        made.put(step.key_of(key), value)
    step.bear(len(values) + 1, 'dict', made)


@row('maxlength')
def maxlength_row(step):
    x, = step.top(1)
    dictionary = step.store[held_by(x, 'dict')]
    require(is_readable(dictionary.access), 'invalidaccess')
    step.replace(1, integer(dictionary.capacity))


def key_row(step, dictionary, key, permits):
    """What `known` and `undef` test."""
    require(key.kind != 'null' and dictionary.kind == 'dict', 'typecheck')
    require(is_readable_text(key) and permits(step.access_of(dictionary)), 'invalidaccess')
    require(fits_key(key), 'limitcheck')
    return step.store[dictionary.held].pairs, same(step.key_of(key))


@row('undef')
def undef_row(step):
    pairs, key = key_row(step, *step.top(2), is_writable)
    pairs.pop(key, None)
    step.replace(2)


@row('known')
def known_row(step):
    pairs, key = key_row(step, *step.top(2), is_readable)
    step.replace(2, boolean(key in pairs))


def looked_up(step, key):
    """What `load`, `store` and `where` find."""
    require(key.kind != 'null', 'typecheck')
    require(is_readable_text(key), 'invalidaccess')
    return step.look_up(step.key_of(key))


@row('def')
def def_row(step):
    key, value = step.top(2)
    require(key.kind != 'null', 'typecheck')
    current = step.context.dictionaries[-1]
    require(is_readable_text(key) and is_writable(step.access_of(current)), 'invalidaccess')
    step.put_into(current.held, key, value, 2)


@row('load')
def load_row(step):
    found = looked_up(step, *step.top(1))
    require(found, 'undefined')
    step.replace(1, found[1])


@row('store')
def store_row(step):
    key, value = step.top(2)
    found = looked_up(step, key)
    place = found[0] if found else step.context.dictionaries[-1]
    require(is_writable(step.access_of(place)), 'invalidaccess')
    step.put_into(place.held, key, value, 2)


@row('where')
def where_row(step):
    key, = step.top(1)
    found = looked_up(step, key)
    require(fits_key(key), 'limitcheck')
    if found:
        step.leave(1, found[0], boolean(True))
    else:
        step.replace(1, boolean(False))


@row('begin')
def begin_row(step):
    x, = step.top(1)
    held_by(x, 'dict')
    require(step.may_read(x), 'invalidaccess')
    require(len(step.context.dictionaries) < DICTIONARY_STACK_LIMIT, 'dictstackoverflow')
    step.replace(1)
    step.context.dictionaries.append(x)


@row('end')
def end_row(step):
    require(len(step.context.dictionaries) > 2, 'dictstackunderflow')
    step.context.dictionaries.pop()


@row('cleardictstack')
def cleardictstack_row(step):
    del step.context.dictionaries[2:]


@row('currentdict')
def currentdict_row(step):
    step.leave(0, step.context.dictionaries[-1])


@row('countdictstack')
def countdictstack_row(step):
    step.leave(0, integer(len(step.context.dictionaries)))


@row('$error')
def error_row(step):
    step.leave(0, Value('dict', step.context.error_dictionary))


# ---- Control

@row('exec')
def exec_row(step):
    step.push_frame(Pending(*step.top(1)), 1)


@row('if')
def if_row(step):
    truth, procedure = step.top(2)
    body, truth = as_procedure(procedure), held_by(truth, 'boolean')
    require(is_executable(body.access), 'invalidaccess')
    step.enter(body if truth else body.at(0, 0), 2)


@row('ifelse')
def ifelse_row(step):
    truth, first, second = step.top(3)
    other, body, truth = as_procedure(second), as_procedure(first), held_by(truth, 'boolean')
    require(is_executable(other.access) and is_executable(body.access), 'invalidaccess')
    step.enter(body if truth else other, 3)


@row('for')
def for_row(step):
    *numbers, procedure = step.top(4)
    body = as_procedure(procedure)
    first, increment, limit = map(as_integer, numbers)
    require(is_executable(body.access), 'invalidaccess')
    step.push_frame(For(first, increment, limit, body), 4)


@row('repeat')
def repeat_row(step):
    count, procedure = step.top(2)
    body, count = as_procedure(procedure), as_integer(count)
    require(is_executable(body.access), 'invalidaccess')
    step.push_frame(Repeat(as_count(count), body), 2)


@row('loop')
def loop_row(step):
    body = as_procedure(*step.top(1))
    require(is_executable(body.access), 'invalidaccess')
    step.push_frame(Loop(body), 1)


@row('forall')
def forall_row(step):
    over, procedure = step.top(2)
    body, access = as_procedure(procedure), step.access_of(over)
    require(access is not None, 'typecheck')
    require(is_executable(body.access) and is_readable(access), 'invalidaccess')
    step.push_frame(Forall(over, 0, body), 2)


@row('stopped')
def stopped_row(step):
    value, = step.top(1)
    step.require_frames(2)
    step.replace(1)
    step.context.frames += [Stopped(), Pending(value)]


@row('bind')
def bind_row(step):
    body = as_procedure(*step.top(1))
    if is_writable(body.access):
        step.push_frame(Bind(body, 0, 1))


@row('exit')
def exit_row(step):
    for frame in reversed(step.context.frames):
        if isinstance(frame, (Stopped, *LOOPS)):
            require(not isinstance(frame, Stopped), 'invalidexit')
            step.context.status = FOR_EXIT
            return
    raise Failure('invalidexit')


@row('stop', 'quit', cause=(FOR_STOP, FOR_QUIT))
def unwinding_row(step, cause):
    step.context.status = cause


# ---- RowsTypes

@row('type')
def type_row(step):
    x, = step.top(1)
    step.replace(1, name(x.kind.encode() + b'type', True))


@row('cvlit', 'cvx', executable=(False, True))
def attribute_row(step, executable):
    x, = step.top(1)
    step.replace(1, x._replace(executable=executable))


@row('xcheck')
def xcheck_row(step):
    x, = step.top(1)
    step.replace(1, boolean(x.executable))


@row('executeonly', 'noaccess', 'readonly', access=(EXECUTE_ONLY, NO_ACCESS, READ_ONLY))
def reduce_row(step, access):
    x, = step.top(1)
    held = held_by(x, 'array', 'string', *([] if access == EXECUTE_ONLY else ['dict']))
    require(step.access_of(x) <= access, 'invalidaccess')
    if x.kind == 'dict':
        step.store[held].access = access
    else:
        step.replace(1, x._replace(held=held._replace(access=access)))


@row('rcheck', 'wcheck', test=(is_readable, is_writable))
def check_row(step, test):
    access = step.access_of(*step.top(1))
    require(access is not None, 'typecheck')
    step.replace(1, boolean(test(access)))


@row('cvi')
def cvi_row(step):
    x, = step.top(1)
    part = held_by(x, 'integer', 'string')
    if x.kind == 'integer':
        return
    require(is_readable(part.access), 'invalidaccess')
    found = scan(step.part(part), 0)
    if isinstance(found, str):
        raise Failure(found)
    require(found and found[0].kind == 'number', 'typecheck')
    step.replace(1, integer(found[0].held))


@row('cvn')
def cvn_row(step):
    x, = step.top(1)
    part = held_by(x, 'string')
    require(is_readable(part.access), 'invalidaccess')
    require(fits_key(x), 'limitcheck')
    step.replace(1, name(step.part(part), x.executable))


@row('cvs')
def cvs_row(step):
    x, y = step.top(2)
    part = held_by(y, 'string')
    require(is_writable(part.access), 'invalidaccess')
    text = plain_text(step.store, x)
    require(len(text) <= part.count, 'rangecheck')
    step.write(part, 0, text)
    step.replace(2, y._replace(held=part.at(0, len(text))))


# ---- RowsOutput

@row('=', '==', text=(plain_text, full_text))
def print_line_row(step, text):
    x, = step.top(1)
    step.world.printed += text(step.store, x) + b'\n'
    step.replace(1)


@row('stack', 'pstack', text=(plain_text, full_text))
def print_stack_row(step, text):
    for value in reversed(step.context.operands):
        step.world.printed += text(step.store, value) + b'\n'


@row('print')
def print_row(step):
    part = held_by(*step.top(1), 'string')
    require(is_readable(part.access), 'invalidaccess')
    step.world.printed += step.part(part)
    step.replace(1)


# ---- Contexts, Locks

@row('vmstatus')
def vmstatus_row(step):
    step.leave(0, integer(0), *map(integer, step.shown or (0, 0)))
    step.has_shown = True


@row('vmreclaim')
def vmreclaim_row(step):
    require(-2 <= as_integer(*step.top(1)) <= 2, 'rangecheck')
    step.replace(1)


@row('currentcontext')
def currentcontext_row(step):
    step.leave(0, integer(step.identifier))


@row('yield')
def yield_row(_):
    pass


@row('lock', 'condition', of=(Lock, Condition), kind=('lock', 'condition'))
def new_row(step, of, kind):
    require(len(step.context.operands) < OPERAND_LIMIT, 'stackoverflow')
    step.bear(0, kind, of())


@row('fork')
def fork_row(step):
    operands, contexts = step.context.operands, step.world.contexts
    procedure, = step.top(1)
    body = as_procedure(procedure)
    above = step.above_mark()[:-1]
    require(is_executable(body.access), 'invalidaccess')
    require(sum(context is not None for context in contexts) < CONTEXT_LIMIT, 'limitcheck')
    noted = new_error_dictionary()
    step.ask(size_of(noted))
    contexts.append(Context(above, list(step.context.dictionaries), [Procedure(body)] if body.count else [], step.new(noted)))
    operands[len(operands) - len(above) - 2:] = [integer(len(contexts))]


@row('join')
def join_row(step):
    identifier, other = step.joined()
    if other.status != FINISHED:
        raise Waits
    step.leave(1, MARK, *other.operands)
    step.world.contexts[identifier - 1] = None


@row('detach')
def detach_row(step):
    identifier, other = step.named_context(*step.top(1))
    step.replace(1)
    other.is_detached = True
    if other.status == FINISHED:
        step.world.contexts[identifier - 1] = None


@row('monitor')
def monitor_row(step):
    birth, lock, body = step.monitored()
    if lock.owner is not None:
        raise Waits
    step.require_frames(2 if body.count else 1)
    lock.owner = step.identifier
    step.context.frames.append(Monitor(birth))
    step.enter(body, 2)


@row('wait')
def wait_row(step):
    lock, condition = step.top(2)
    condition, birth = held_by(condition, 'condition'), held_by(lock, 'lock')
    require(step.store[birth].owner == step.identifier, 'invalidcontext')
    step.replace(2)
    step.store[birth].owner = None
    step.context.status, step.context.awaited = WAITING, (birth, condition)


@row('notify')
def notify_row(step):
    condition = held_by(*step.top(1), 'condition')
    step.replace(1)
    for context in filter(None, step.world.contexts):
        if context.status == WAITING and context.awaited[1] == condition:
            context.status, context.awaited = RETAKING, context.awaited[:1]


# ---- Operators

OPERATORS = """pop exch dup copy index roll clear count mark cleartomark counttomark add sub mul idiv mod neg abs eq ne gt ge lt le and or xor not
bitshift array [ ] string length get put getinterval putinterval aload astore forall search anchorsearch dict << >> maxlength begin end def load
store undef known where currentdict countdictstack cleardictstack $error exec if ifelse for repeat loop exit stop stopped quit bind type cvlit cvx
xcheck executeonly noaccess readonly rcheck wcheck cvi cvn cvs = == stack pstack print currentcontext fork join detach lock monitor condition wait
notify yield vmstatus vmreclaim""".split()
ROWS = {operator.encode(): FOUND[operator.encode()] for operator in OPERATORS}
