"""A model of a player link: its lines, records, ports, tickets and programs.

This is a second implementation, written from the rules of the protocol alone,
against which another one can be tried.  It is meant to be easy to read and
plainly right, not fast.

Text is bytes throughout.  Places in a line count from 0.
"""

import re
import sys
from dataclasses import dataclass
from typing import NamedTuple, Optional

LINE_LIMIT = 1024     # most bytes in a line, its end not counted
INPUT_LIMIT = 65536   # most bytes of its input that a program looks at
QUEUE_SIZE = 2048     # bytes in each of a serial port's two queues
BUFFER_LIMIT = 4096   # largest buffer that a replay script may ask for


# ---------------------------------------------------------------- escapes

# A backslash and one of these letters is an escape for the byte beside it.
SHORT_ESCAPES = {b':': 58, b'/': 47, b'\\': 92, b'n': 10, b'r': 13, b't': 9}
ESCAPE_LETTERS = {byte: letter for letter, byte in SHORT_ESCAPES.items()}


class Token(NamedTuple):
    """One plain byte or one whole escape, and the byte that it means.

    A backslash that begins no escape means None.
    """
    place: int
    raw: bytes
    meaning: Optional[int]


def backslash_token(text, place):
    """The token of the backslash at a place."""
    letter = text[place + 1:place + 2]
    if letter in SHORT_ESCAPES:
        return Token(place, text[place:place + 2], SHORT_ESCAPES[letter])
    digits = text[place + 2:place + 5]
    if letter == b'd' and re.fullmatch(rb'[0-9]{3}', digits) and int(digits) <= 255:
        return Token(place, text[place:place + 5], int(digits))
    return Token(place, text[place:place + 1], None)


def tokens(text):
    """The tokens of a text, from left to right."""
    place = 0
    while place < len(text):
        if text[place] == ord('\\'):
            token = backslash_token(text, place)
        else:
            token = Token(place, text[place:place + 1], text[place])
        yield token
        place += len(token.raw)


def cut(text, separator):
    """The parts of a text between the separators outside escapes."""
    parts, start = [], 0
    for token in tokens(text):
        if token.raw == separator:
            parts.append(text[start:token.place])
            start = token.place + 1
    return parts + [text[start:]]


def resolve(text):
    """The bytes that a text means, or None if it has a broken escape."""
    meanings = [token.meaning for token in tokens(text)]
    return None if None in meanings else bytes(meanings)


def escape_byte(byte):
    """A short escape if there is one, else plain if printable, else \\dNNN."""
    if byte in ESCAPE_LETTERS:
        return b'\\' + ESCAPE_LETTERS[byte]
    if 32 <= byte <= 126:
        return bytes([byte])
    return b'\\d%03d' % byte


def escape(data):
    """The one canonical way to write bytes in a field."""
    return b''.join(escape_byte(byte) for byte in data)


# ---------------------------------------------------------------- one line

class Fault(NamedTuple):
    """Why something is turned away.  Place and layer may be missing."""
    number: int
    place: Optional[int] = None
    layer: Optional[str] = None


class Message(NamedTuple):
    """What a line says.  The first field is the status or the command name.

    Side is 'command' or 'answer'.  Fields have their escapes resolved.
    """
    side: str
    address: bytes
    mark: bytes
    fields: tuple


# An address is a number from 01 to 99 or '#' and twelve hexadecimal digits;
# a point and a zone from 01 to 99 may follow.
ADDRESS = re.compile(rb'((?!00)[0-9]{2}|#[0-9A-F]{12})(\.(?!00)[0-9]{2})?')
CHECK = re.compile(rb'[0-9]{2}')

# A command may lack the check; an answer has all four parts.
PARTS = {'command': (3, 4), 'answer': (4,)}
# Only an answer may be an event (!) or carry an unknown number (?).
MARK = {'command': re.compile(rb'[0-9]'), 'answer': re.compile(rb'[0-9!?]')}
FIRST_FIELD = {
    'command': re.compile(rb'[A-Z][A-Z0-9_]{0,63}'),
    'answer': re.compile(rb'[0-9]{3}'),
}


def is_address(text, side):
    """An answer may also come from '??', which has no zone."""
    if text == b'??':
        return side == 'answer'
    return ADDRESS.fullmatch(text) is not None


def check_of(front):
    """The check of a line, given its bytes up to and with the last slash."""
    return b'%02d' % (sum(front) % 100)


def find_byte_fault(line):
    """The faults told before the line is cut: length, bytes, escapes."""
    if len(line) > LINE_LIMIT:
        return Fault(1, LINE_LIMIT, 'line')
    for place, byte in enumerate(line):
        if not 32 <= byte <= 126:
            return Fault(2, place, 'line')
    for token in tokens(line):
        if token.meaning is None:
            return Fault(3, token.place, 'line')
    return None


def find_part_fault(line, parts, side):
    """The faults of address, mark and check, in this order."""
    address, mark, body = parts[:3]
    if not is_address(address, side):
        return Fault(5, 0, 'parts')
    if not MARK[side].fullmatch(mark):
        return Fault(6, len(address) + 1, 'parts')
    if len(parts) == 4:
        place = len(address) + len(mark) + len(body) + 3
        if not CHECK.fullmatch(parts[3]):
            return Fault(7, place, 'parts')
        if parts[3] != check_of(line[:place]):
            return Fault(8, place, 'parts')
    return None


def read_body(body, place, side):
    """The fields of a body that stands at a place, or a fault.

    Every field, the last one too, is ended by a colon outside an escape.
    Status and name are judged as they stand, with no escape resolved.
    """
    *fields, rest = cut(body, b':')
    if rest or not fields:
        return Fault(9, place, 'body')
    if not FIRST_FIELD[side].fullmatch(fields[0]):
        return Fault(10, place, 'body')
    return tuple(resolve(field) for field in fields)


def read_line(line, side):
    """Read a line, given without its end: a Message or the first Fault."""
    fault = find_byte_fault(line)
    if fault:
        return fault
    parts = cut(line, b'/')
    if len(parts) not in PARTS[side]:
        return Fault(4, len(line), 'parts')
    fault = find_part_fault(line, parts, side)
    if fault:
        return fault
    address, mark, body = parts[:3]
    fields = read_body(body, len(address) + len(mark) + 2, side)
    if isinstance(fields, Fault):
        return fields
    return Message(side, address, mark, fields)


def write_fields(fields):
    """Fields in canonical escapes, each with its colon."""
    return b''.join(escape(field) + b':' for field in fields)


def canonical_line(message):
    """The one way to write a message; it always has a check."""
    front = b'%b/%b/%b/' % (message.address, message.mark, write_fields(message.fields))
    return front + check_of(front)


# ---------------------------------------------------------------- records

def read_count(text):
    """A count has 1 to 5 digits and is at most 65,535; else None."""
    if re.fullmatch(rb'[0-9]{1,5}', text) and int(text) <= 65535:
        return int(text)
    return None


# Each of these takes a field and gives what is written for it again,
# or None if the field is wrong.

def any_text(text):
    return text


def pattern(form):
    return lambda text: text if re.fullmatch(form, text) else None


def count_field(text):
    """Counts are written without leading zeros."""
    count = read_count(text)
    return None if count is None else b'%d' % count


RECORDS = {
    # mode, speed, title number, title length, title location,
    # chapter number, chapter length, chapter location
    b'PLAY_STATUS': [
        pattern(rb'[01246]'), pattern(rb'[0-3]'),
        pattern(rb'[0-9]{2}'), pattern(rb'[0-9]{5}'), pattern(rb'[0-9]{5}'),
        pattern(rb'[0-9]{3}'), pattern(rb'[0-9]{5}'), pattern(rb'[0-9]{5}'),
    ],
    # title
    b'TITLE_NAME': [any_text],
    # handle, title, lines in the window, total
    b'BROWSE_RESULTS_OVERVIEW': [any_text, any_text, count_field, count_field],
}


def has_record(message):
    """An answer of any status whose second field is a record's name."""
    return (message.side == 'answer' and len(message.fields) > 1
            and message.fields[1] in RECORDS)


def rewrite_record(message):
    """Read the record of a message and write it again, or give the fault.

    Its place is the first wrong field, counted from 1 behind the name,
    or 0 if there are too few or too many.
    """
    _, name, *values = message.fields
    forms = RECORDS[name]
    if len(values) != len(forms):
        return Fault(16, 0, 'record')
    written = [form(value) for form, value in zip(forms, values)]
    if None in written:
        return Fault(16, written.index(None) + 1, 'record')
    return write_fields([name, *written])


# ---------------------------------------------------------------- what comes next in an answer

class Progress(NamedTuple):
    """How many result lines came and how many the overview promised."""
    told: int
    promised: int


WHOLE_ANSWER = Progress(0, 0)


def advance(command, progress, fields):
    """The progress after one more line, or None if it does not come next.

    Before its first line an answer has progress None.  It is complete when
    all promised lines were told.

    A BROWSE command is answered by one line with a status other than 000, or
    by a listing: an overview and the result lines that it promises.  Every
    other command is answered by one line, whatever it says.
    """
    if command != b'BROWSE':
        return WHOLE_ANSWER
    if progress is None:
        return read_overview(fields)
    return read_result(fields, progress)


def in_listing(fields, name):
    """A listing's lines have status 000 and three fields behind the name."""
    return len(fields) >= 5 and fields[:2] == (b'000', name)


def read_overview(fields):
    """The third field behind the name promises the number of result lines."""
    if fields[0] != b'000':
        return WHOLE_ANSWER
    if not in_listing(fields, b'BROWSE_RESULTS_OVERVIEW'):
        return None
    promised = read_count(fields[4])
    return None if promised is None else Progress(0, promised)


def read_result(fields, progress):
    """Result lines are counted 1, 2, 3; the second number is any count."""
    told = progress.told + 1
    if not in_listing(fields, b'BROWSE_RESULT'):
        return None
    if read_count(fields[2]) != told or read_count(fields[3]) is None:
        return None
    return Progress(told, progress.promised)


# ---------------------------------------------------------------- ports

class SerialPort:
    """Two queues of bytes; it does not heed whether the line is clear."""

    def __init__(self):
        self.coming = bytearray()
        self.going = bytearray()
        self.is_clear = True

    def arrive(self, data):
        """Bytes come in from the wire, as many as there is room for."""
        taken = data[:QUEUE_SIZE - len(self.coming)]
        self.coming += taken
        return len(taken)

    def depart(self, size):
        """Bytes go out to the wire, at most `size`."""
        return take_front(self.going, size)

    def read(self, size):
        """Bytes for the link, at most `size`, and how many still wait."""
        return take_front(self.coming, size), len(self.coming)

    def write(self, data):
        """Bytes from the link, as many as there is room for."""
        room, _ = self.room()
        self.going += data[:room]
        return min(len(data), room)

    def room(self):
        """The room for writing, and whether the line is clear."""
        return QUEUE_SIZE - len(self.going), self.is_clear

    def clear(self, is_clear):
        self.is_clear = is_clear

    def hangup(self):
        self.coming.clear()
        self.going.clear()


class Tape(SerialPort):
    """A recording to be read; nothing more arrives."""

    def __init__(self, recording):
        super().__init__()
        self.coming += recording

    def arrive(self, data):
        return 0


class LineControl:
    """A layer over any port that holds bytes back while it is not clear."""

    def __init__(self, below):
        self.below = below

    def __getattr__(self, name):
        return getattr(self.below, name)

    def depart(self, size):
        _, is_clear = self.below.room()
        return self.below.depart(size) if is_clear else b''


def take_front(queue, size):
    """Move at most `size` bytes out of the front of a queue."""
    front = bytes(queue[:size])
    del queue[:size]
    return front


# ---------------------------------------------------------------- the link

class Ticket(NamedTuple):
    """The promise of an answer: whose it is and under which number."""
    link_number: int
    number: int


@dataclass
class Number:
    """One of the ten numbers and the command that it was last given to.

    State is free, open, answered, lost or given up.
    """
    state: str = 'free'
    address: bytes = b''
    command: bytes = b''
    progress: Optional[Progress] = None


class Link:
    """Numbers commands, and tells for each line which command it answers."""

    def __init__(self, port, link_number):
        self.port = port
        self.link_number = link_number
        self.unfinished = bytearray()
        self.numbers = [Number() for _ in range(10)]
        self.last_given = 9

    def arrive(self, data):
        return self.port.arrive(data)

    def depart(self, size):
        return self.port.depart(size)

    def clear(self, is_clear):
        self.port.clear(is_clear)

    def submit(self, address, body):
        """Send a command: a Ticket, or a Fault and nothing has changed.

        Address and body are judged as in a line with a digit and the right
        check.  After that a number must be free, and the canonical line and
        its end must fit the port.
        """
        front = address + b'/0/' + body + b'/'
        message = read_line(front + check_of(front), 'command')
        if isinstance(message, Fault):
            return message
        number = self.first_free()
        if number is None:
            return Fault(12)
        line = canonical_line(message._replace(mark=b'%d' % number)) + b'\r'
        room, _ = self.port.room()
        if room < len(line):
            return Fault(13)
        self.port.write(line)
        self.numbers[number] = Number('open', message.address, message.fields[0])
        self.last_given = number
        return Ticket(self.link_number, number)

    def first_free(self):
        """The first free number after the one last given, 0 coming after 9."""
        for step in range(1, 11):
            number = (self.last_given + step) % 10
            if self.numbers[number].state == 'free':
                return number
        return None

    def settle(self, ticket):
        """Hand a ticket back and learn what became of its command.

        The number of an unanswered command is not free: its answer may still
        come.  It is given up.
        """
        number = self.numbers[ticket.number]
        is_out = number.state in ('open', 'answered', 'lost')
        if ticket.link_number != self.link_number or not is_out:
            return 'foreign'
        if number.state == 'open':
            number.state = 'given up'
            return 'given up'
        result, number.state = number.state, 'free'
        return result

    def reset(self):
        """Hang up and forget; gives how many commands were lost by it."""
        self.port.hangup()
        self.unfinished.clear()
        lost = 0
        for number in self.numbers:
            if number.state == 'open':
                number.state = 'lost'
                lost += 1
            elif number.state == 'given up':
                number.state = 'free'
        return lost

    def pump(self, size):
        """Take the next line into a buffer of a size: the words of its row."""
        if size < LINE_LIMIT:
            return ('REFUSED', 11)
        line = self.take_line()
        if line is None:
            return ('DRY',)
        length = min(len(line), LINE_LIMIT)
        message = read_line(line, 'answer')
        if isinstance(message, Fault):
            return ('FAULT', message.number, message.place, length)
        if message.mark == b'!':
            return ('EVENT', length)
        if message.mark == b'?':
            return ('NOTICE', length)
        return self.match(message, length)

    def take_line(self):
        """Take bytes until a line that is not empty ends or none wait."""
        while True:
            byte, _ = self.port.read(1)
            if not byte:
                return None
            if byte not in (b'\r', b'\n'):
                self.unfinished += byte
            elif self.unfinished:
                return take_front(self.unfinished, len(self.unfinished))

    def match(self, message, length):
        """Find the command that a line with a number answers."""
        digit = int(message.mark)
        number = self.numbers[digit]
        if number.state not in ('open', 'given up') or number.address != message.address:
            return ('STRAY', length)
        progress = advance(number.command, number.progress, message.fields)
        if progress is None:
            return ('MISPLACED', length)
        number.progress = progress
        is_last = progress.told == progress.promised
        if number.state == 'open':
            number.state = 'answered' if is_last else 'open'
            return ('LAST' if is_last else 'MORE', length, digit)
        number.state = 'free' if is_last else 'given up'
        return ('LATE LAST' if is_last else 'LATE', length, digit)


# ---------------------------------------------------------------- the programs

def row(*words):
    """A row of output: words with a space between them, and a line end."""
    texts = [word if isinstance(word, bytes) else str(word).encode() for word in words]
    return b' '.join(texts) + b'\n'


def listen(data):
    """Take the input as a recording and tell each answer of pump."""
    link = Link(Tape(data[:INPUT_LIMIT]), 0)
    rows = [row(*link.pump(LINE_LIMIT))]
    while rows[-1] != b'DRY\n':
        rows.append(row(*link.pump(LINE_LIMIT)))
    return b''.join(rows)


INSPECT_SIDES = {b'>': 'command', b'<': 'answer'}
INSPECT_MARKS = {b'!': 'EVENT', b'?': 'NOTICE'}


def inspect(data, with_records=False):
    """Tell what each line means; its first byte says which side sent it.

    Bytes after the last line end are not yet a line.
    """
    lines = re.split(rb'[\r\n]', data[:INPUT_LIMIT])[:-1]
    return b''.join(inspect_line(line, with_records) for line in lines if line)


def records(data):
    """The same with a further row for each record, which no program tells yet."""
    return inspect(data, with_records=True)


def inspect_line(line, with_records):
    """The row of a line and, if asked for, a further one for a record."""
    side = INSPECT_SIDES.get(line[:1])
    if side is None:
        return row('?')
    message = read_line(line[1:], side)
    if isinstance(message, Fault):
        return row('FAULT', *message)
    rows = message_row(message)
    if with_records and has_record(message):
        rows += record_row(message)
    return rows


def message_row(message):
    """The kind of a message and its canonical line, if that can be sent."""
    line = canonical_line(message)
    if len(line) > LINE_LIMIT:
        return row('UNSENDABLE')
    kind = INSPECT_MARKS.get(message.mark, message.side.upper())
    return row(kind, line)


def record_row(message):
    """The record written again, or why it is none."""
    record = rewrite_record(message)
    if isinstance(record, Fault):
        return row('FAULT', *record)
    return row('RECORD', record)


def replay(data):
    """Drive a link by a script, one call to a line.

    Only the very first line can put line control over the port.
    """
    first, *rest = script_lines(data[:INPUT_LIMIT])
    if first == b'port controlled':
        session = Session(LineControl(SerialPort()))
        return row('PORT controlled') + session.run(rest)
    return Session(SerialPort()).run([first, *rest])


def script_lines(data):
    """Lines end with 10, or 13 and 10; the last need not be ended.

    A 13 anywhere else is part of its line.
    """
    *ended, last = data.split(b'\n')
    return [line.removesuffix(b'\r') for line in ended] + [last]


def read_size(text):
    """A buffer's size: digits, at most 4,096; leading zeros do no harm."""
    if not re.fullmatch(rb'[0-9]+', text):
        return None
    digits = text.lstrip(b'0') or b'0'
    if len(digits) > 4 or int(digits) > BUFFER_LIMIT:
        return None
    return int(digits)


class Session:
    """A link under a script, and the tickets that the script holds."""

    def __init__(self, port):
        self.link = Link(port, 1)
        self.tickets = {}
        self.bare_calls = {b'pump': self.pump, b'reset': self.reset}
        self.calls = {
            b'submit': self.submit, b'pump': self.pump, b'settle': self.settle,
            b'arrive': self.arrive, b'depart': self.depart, b'clear': self.clear,
        }

    def run(self, lines):
        """Empty lines and comments give no row."""
        return b''.join(self.call(line) for line in lines
                        if line and not line.startswith(b';'))

    def call(self, line):
        """One call and its row; '?' for anything that is no call.

        The word is followed by one space and the rest, or stands alone.
        """
        word, space, rest = line.partition(b' ')
        if space:
            result = self.calls[word](rest) if word in self.calls else None
        else:
            result = self.bare_calls[word]() if word in self.bare_calls else None
        return row('?') if result is None else row(*result)

    def submit(self, text):
        address, space, body = text.partition(b' ')
        if not space:
            return None
        result = self.link.submit(address, body)
        if isinstance(result, Fault):
            return ('REFUSED', *[part for part in result if part is not None])
        self.tickets[result.number] = result
        return ('TICKET', result.number)

    def pump(self, text=b'1024'):
        size = read_size(text)
        return None if size is None else self.link.pump(size)

    def settle(self, text):
        """A ticket from elsewhere, or the held one of a one-digit number."""
        if text == b'other':
            return (self.link.settle(ticket_of_another_link()).upper(),)
        if not re.fullmatch(rb'[0-9]', text):
            return None
        ticket = self.tickets.pop(int(text), None)
        if ticket is None:
            return ('NO TICKET',)
        return (self.link.settle(ticket).upper(),)

    def reset(self):
        return ('RESET', self.link.reset())

    def arrive(self, text):
        data = resolve(text)
        return None if data is None else ('ARRIVED', self.link.arrive(data))

    def depart(self, text):
        size = read_size(text)
        if size is None:
            return None
        data = self.link.depart(size)
        return ('DEPARTED', escape(data)) if data else ('DEPARTED',)

    def clear(self, text):
        if text not in (b'yes', b'no'):
            return None
        self.link.clear(text == b'yes')
        return ('CLEAR', text)


def ticket_of_another_link():
    """The first ticket of a new link with link number 2."""
    return Link(SerialPort(), 2).submit(b'01', b'PLAY:')


PROGRAMS = {'listen': listen, 'inspect': inspect, 'records': records, 'replay': replay}


if __name__ == '__main__':
    sys.stdout.buffer.write(PROGRAMS[sys.argv[1]](sys.stdin.buffer.read()))
