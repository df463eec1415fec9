"""Random inputs for the three programs, each from a random.Random.

Most lines are valid or nearly so: built from good parts, then perhaps spoiled
in a part or two or changed in a few bytes, with the check put right again or
not.  Replay scripts are made by a Story, which follows its own script with
the model so that its player can answer what was really sent.
"""

import model

LIMIT = 65536

EDGE_BYTES = [0, 9, 10, 13, 31, 32, 33, 46, 47, 48, 57, 58, 63, 64, 65, 70, 71,
              90, 91, 92, 95, 96, 97, 100, 122, 126, 127, 128, 178, 255]
DIGITS = b'0123456789'
LETTERS = b'ABCDEFGHIJKLMNOPQRSTUVWXYZ'
NAME_BYTES = LETTERS + DIGITS + b'_'
HEX = b'0123456789ABCDEF'
SHORT = {58: b':', 47: b'/', 92: b'\\', 10: b'n', 13: b'r', 9: b't'}
BROKEN_ESCAPES = [b'\\', b'\\d256', b'\\d25', b'\\d2', b'\\d', b'\\d999', b'\\d300',
                  b'\\d260', b'\\D065', b'\\d06a', b'\\d0:5', b'\\d-01', b'\\d 65',
                  b'\\x41', b'\\a', b'\\N', b'\\0', b'\\ ', b'\\e', b'\\d+65']


def some(rng, alphabet, low, high):
    return bytes(rng.choice(alphabet) for _ in range(rng.randint(low, high)))


def chance(rng, share):
    return rng.random() < share


# ---------------------------------------------------------------- text with escapes

def d_escape(byte):
    return b'\\d%03d' % byte


def disguise(rng, plain, share=0.3):
    """Plain bytes, some of them written as an escape."""
    return b''.join(d_escape(byte) if chance(rng, share) else bytes([byte])
                    for byte in plain)


def write_byte(rng, byte):
    """One of the ways to write a byte in a field."""
    if byte in SHORT:
        return b'\\' + SHORT[byte] if chance(rng, 0.8) else d_escape(byte)
    if 32 <= byte <= 126 and chance(rng, 0.95):
        return bytes([byte])
    return d_escape(byte)


def write_text(rng, plain):
    return b''.join(write_byte(rng, byte) for byte in plain)


def field(rng):
    """A field, with its escapes."""
    kind = rng.random()
    if kind < 0.15:
        return b''
    if kind < 0.4:
        return some(rng, DIGITS, 1, 6)
    if kind < 0.65:
        return some(rng, NAME_BYTES + b' .!?#~', 1, 10)
    if kind < 0.85:
        return write_text(rng, some(rng, EDGE_BYTES + [34, 66], 1, 6))
    if kind < 0.99:
        return write_text(rng, some(rng, range(256), 1, 8))
    return write_text(rng, bytes(range(256)))


def later_fields(rng):
    return [field(rng) for _ in range(rng.choice([0, 0, 1, 1, 2, 3, 4, 6]))]


# ---------------------------------------------------------------- good and bad parts

def two_digits(rng):
    return rng.choice([b'01', b'01', b'02', b'10', b'99', b'09', b'%02d' % rng.randint(1, 99)])


def good_address(rng, side):
    if side == 'answer' and chance(rng, 0.1):
        return b'??'
    unit = two_digits(rng) if chance(rng, 0.7) else b'#' + some(rng, HEX, 12, 12)
    return unit + (b'.' + two_digits(rng) if chance(rng, 0.3) else b'')


def bad_address(rng):
    serial = b'#' + some(rng, HEX, 11, 11)
    return rng.choice([
        b'', b'00', b'0', b'1', b'001', b'100', b'0a', b'A1', b' 1', b'1 ', b'0:', b':1',
        b'??.01', b'?', b'???', b'??', b'0?', b'?1', b'!!', b'.01', b'01.', b'01.0', b'01.00',
        b'01.001', b'01.1', b'01.0a', b'01.01.01', b'01.:1', b'01,01', b'0101', b'00.01',
        b'01.??', b'#', b'0\\d049', b'\\d048\\d049', b'01\\n', b'01.\\d048\\d049',
        serial, serial + b'00', serial + b'G', serial + b'a', serial + b'@', serial + b':',
        serial + b'.01', serial + b'0.00', serial + b'0.1', serial + b'0.', serial[1:] + b'0',
        serial + b'\\d048', b'##' + serial[1:], serial + b'0.99', serial + b'0000'])


def good_mark(rng, side):
    if side == 'answer' and chance(rng, 0.35):
        return rng.choice([b'!', b'?'])
    return bytes([rng.choice(DIGITS)])


def bad_mark(rng):
    return rng.choice([b'', b'00', b'12', b' ', b':', b'a', b'.', b'\\d048', b'\\:', b'\\/',
                       b'!', b'?', b'!!', b'1!', b' 1', b'"', b'@', b'>', b'A', b'\\\\'])


def good_first(rng, side):
    if side == 'answer':
        return rng.choice([b'000', b'000', b'000', b'001', b'100', b'010', b'999', some(rng, DIGITS, 3, 3)])
    length = rng.choice([1, 1, 2, 3, 8, 20, 62, 63, 64])
    return rng.choice([b'PLAY', b'PAUSE', b'BROWSE', b'GET_PLAY_STATUS', b'Z9_', b'A', b'Z',
                       some(rng, LETTERS, 1, 1) + some(rng, NAME_BYTES, length - 1, length - 1)])


def bad_first(rng, side):
    if side == 'answer':
        return rng.choice([b'', b'00', b'0000', b'0', b'0a0', b'00a', b'A00', b' 00', b'00 ', b'0:0',
                           b'-00', b'\\d048\\d048\\d048', b'00\\d048', b'0\\:0', b'PLAY', b'00\\/'])
    long = some(rng, LETTERS, 1, 1) + some(rng, NAME_BYTES, 64, 64)
    return rng.choice([b'', b'9', b'_', b'_PLAY', b'0PLAY', b'play', b'PLAy', b'PL AY', b' PLAY', b'PLAY ',
                       b'PLAY-X', b'P@', b'@P', b'P[', b'[P', b'P`', b'P.', b'\\d080LAY', b'PLA\\d089',
                       b'P\\:', b'\\/P', long, long, long + b'A', b'000', b'P;', b'Pz', b'P^', b'P~'])


def bad_body(rng):
    return rng.choice([b'', b'PLAY', b'000', b'000:x', b'PLAY:x', b'000\\:', b'PLAY\\:', b'000:A\\:',
                       b'PLAY:A\\:', b'PLAY::x', b'\\:', b'PLAY:\\d058', b'000:\\d058', b'000: ', b':x'])


def bad_check(rng, front):
    right = sum(front) % 100
    return rng.choice([
        b'%02d' % ((right + rng.choice([1, 10, 50, 53, 90, 99])) % 100),
        b'%02d' % (sum(front[:-1]) % 100), b'%d' % (right % 10), b'%03d' % right, b'', b'x', b'%dx' % (right % 10),
        b'x%d' % (right % 10), b' %d' % (right % 10), b'%d ' % (right % 10), b'%02d ' % right, b'0:', b':0', b'\\n',
        b'\\d048%d' % (right % 10), b'\\:', b'%02d:' % right, b'+1', b'-1', b'%02X' % (sum(front) % 256)])


# ---------------------------------------------------------------- records and listings

def count_text(rng):
    return rng.choice([b'0', b'1', b'2', b'9', b'00000', b'00007', b'010', b'65535', b'65534', b'60000',
                       b'09999', b'%d' % rng.randint(0, 65535), b'%05d' % rng.randint(0, 65535)])


def bad_count(rng):
    return rng.choice([b'', b'65536', b'65537', b'65540', b'66000', b'70000', b'99999', b'000000', b'000001',
                       b'100000', b'123456', b'065535', b'a', b'1a', b' 1', b'1 ', b'+1', b'-1', b'1_0',
                       b'1.0', b'0x1', b'\\:', b'\\/', b'1\\n', b'\\d178', b'4294967297', b'65536000'])


def number_text(rng, width):
    return rng.choice([b'0' * width, b'9' * width, some(rng, DIGITS, width, width)])


def bad_number(rng, width):
    short = some(rng, DIGITS, width - 1, width - 1)
    return rng.choice([
        b'', short, some(rng, DIGITS, width + 1, width + 1), b'0' * (width + 1),
        short + rng.choice([b'a', b' ', b'\\:', b'\\/', b'\\d178']),
        rng.choice([b'+', b'-', b' ', b'A']) + short])


WIDTHS = [2, 5, 5, 3, 5, 5]


def good_values(rng, name):
    if name == b'PLAY_STATUS':
        numbers = [number_text(rng, width) for width in WIDTHS]
        return [bytes([rng.choice(b'01246')]), bytes([rng.choice(b'0123')])] + numbers
    if name == b'TITLE_NAME':
        return [field(rng)]
    return [field(rng), field(rng), count_text(rng), count_text(rng)]


def spoil_value(rng, name, values):
    """Make one value wrong, if the record has values that can be wrong."""
    place = rng.randrange(len(values))
    if name == b'PLAY_STATUS' and place == 0:
        values[0] = rng.choice([b'3', b'3', b'3', b'5', b'5', b'5', b'7', b'8', b'9', b'', b'00', b'02', b'12',
                                b'24', b'a', b' ', b'\\:', b'\\/'])
    elif name == b'PLAY_STATUS' and place == 1:
        values[1] = rng.choice([b'4', b'4', b'4', b'5', b'9', b'', b'00', b'01', b'12', b'a', b'-', b'\\/', b'\\:'])
    elif name == b'PLAY_STATUS':
        values[place] = bad_number(rng, WIDTHS[place - 2])
    elif len(values) == 4:
        values[rng.choice([2, 3])] = bad_count(rng)


def odd_name(rng, name):
    return rng.choice([name[:-1], name + b'X', name.lower(), b'', b'\\d032' + name, name + b'\\:', name + b' ',
                       b'X' + name, name.replace(b'_', b'-')])


def record_fields(rng):
    """Name and values of a record, good or with something wrong."""
    name = rng.choice([b'PLAY_STATUS', b'PLAY_STATUS', b'TITLE_NAME', b'BROWSE_RESULTS_OVERVIEW'])
    values = good_values(rng, name)
    if chance(rng, 0.4):
        spoil_value(rng, name, values)
        if chance(rng, 0.2):
            spoil_value(rng, name, values)
    if chance(rng, 0.12):
        values = rng.choice([values[:-1], values + [field(rng)], [], values + [b''], values[1:]])
    if chance(rng, 0.25):
        values = [disguise(rng, value) if value.isalnum() else value for value in values]
    if chance(rng, 0.08):
        name = odd_name(rng, name)
    elif chance(rng, 0.2):
        name = disguise(rng, name)
    return [name] + values


# ---------------------------------------------------------------- whole lines

def join_body(fields):
    return b''.join(text + b':' for text in fields)


def with_check(front):
    return front + b'%02d' % (sum(front) % 100)


def put_check_right(line):
    """Make the last two bytes the sum of all that stands before them."""
    front = line[:line.rfind(b'/') + 1]
    return with_check(front) if front.count(b'/') >= 3 else line


def good_fields(rng, side):
    if side == 'answer' and chance(rng, 0.35):
        return [good_first(rng, side)] + record_fields(rng)
    if side == 'command' and chance(rng, 0.04):
        return [good_first(rng, side)] + record_fields(rng)
    return [good_first(rng, side)] + later_fields(rng)


def spoiled_line(rng, side):
    """A line with one to three parts in a wrong form."""
    wrong = rng.choices(['address', 'mark', 'first', 'body', 'check', 'count', 'escape', 'byte'],
                        k=rng.choice([1, 1, 1, 2, 2, 3]))
    address = bad_address(rng) if 'address' in wrong else good_address(rng, side)
    mark = bad_mark(rng) if 'mark' in wrong else good_mark(rng, side)
    fields = good_fields(rng, side)
    if 'first' in wrong:
        fields[0] = bad_first(rng, side)
    body = bad_body(rng) if 'body' in wrong else join_body(fields)
    if 'count' in wrong:
        return wrong_count_line(rng, address, mark, body)
    front = b'/'.join([address, mark, body, b''])
    line = front + bad_check(rng, front) if 'check' in wrong else with_check(front)
    if 'escape' in wrong or 'byte' in wrong:
        line = spoil_bytes(rng, line, wrong)
    return line


def wrong_count_line(rng, address, mark, body):
    """Too few or too many slashes, or one of them in an escape."""
    return rng.choice([
        address, address + b'/' + mark, b'/'.join([address, mark, body]), b'',
        with_check(b'/'.join([address, mark, body, b'x', b''])), address + mark + body,
        with_check(address + b'/' + mark + b'/' + body + b'\\/'), with_check(address + b'\\/' + mark + b'/' + body + b'/'),
        with_check(b'/'.join([address, mark, body, b''])) + b'/',
        b'/' + with_check(b'/'.join([address, mark, body, b''])),
        b'//', b'///', b'////', b'/', address + b'/' + body])


def spoil_bytes(rng, line, wrong):
    """Put a broken escape or a byte that is not allowed somewhere."""
    if 'escape' in wrong:
        place = rng.randint(0, len(line))
        line = line[:place] + rng.choice(BROKEN_ESCAPES) + line[place:]
    if 'byte' in wrong:
        place = rng.randint(0, len(line))
        byte = rng.choice([0, 1, 8, 9, 11, 12, 14, 27, 31, 127, 128, 129, 178, 254, 255])
        line = line[:place] + bytes([byte]) + line[place:]
    return put_check_right(line) if chance(rng, 0.6) else line


def mutate(rng, line):
    """Change a few bytes."""
    for _ in range(rng.choice([1, 1, 1, 2, 3])):
        place = rng.randint(0, len(line))
        byte = bytes([rng.choice([rng.choice(EDGE_BYTES), rng.randrange(256)])])
        line = rng.choice([
            line[:place] + byte + line[place + 1:],
            line[:place] + byte + line[place:],
            line[:place] + line[place + 1:],
            line[:place] + line[place:place + 1] + line[place:],
        ])
    return put_check_right(line) if chance(rng, 0.6) else line


def filler(rng, size):
    """Text of exactly a size, without slashes outside escapes."""
    if chance(rng, 0.3):
        unit = rng.choice([b'\\:', b'\\d065', b'\\d255', b'\\\\', b'\\/', b':', b'y:'])
        pieces = [unit] * rng.randint(0, size // len(unit))
        rng.shuffle(pieces)
        text = b''.join(pieces)
        return text + b'x' * (size - len(text))
    return bytes([rng.choice(b'xY7 ~')]) * size


def long_line(rng, side, size, check_share=0.5):
    """A line with a size, padded by long or many fields."""
    has_check = side == 'answer' or chance(rng, check_share)
    front = b'/'.join([good_address(rng, side), good_mark(rng, side), good_first(rng, side) + b':'])
    room = size - len(front) - 1 - (3 if has_check else 0)
    if chance(rng, 0.15):
        front = front[:-1] + b'\\:'
    front += filler(rng, max(room, 0)) + b':'
    line = with_check(front + b'/') if has_check else front
    if chance(rng, 0.2):
        place = rng.randint(0, len(line) - 1)
        line = line[:place] + rng.choice([b'\x00', b'\xff', b'/', b'\\', b':', b'x']) + line[place + 1:]
    return line


def any_line(rng, side):
    """A line as it may come from one side."""
    fate = rng.random()
    if fate < 0.05:
        return long_line(rng, side, rng.choice([1019, 1020, 1021, 1022, 1023, 1023, 1024, 1024, 1025, 1025, 1026,
                                                1027, 1500, 2100]))
    if fate < 0.35:
        return spoiled_line(rng, side)
    front = b'/'.join([good_address(rng, side), good_mark(rng, side), join_body(good_fields(rng, side))])
    line = front if side == 'command' and chance(rng, 0.3) else with_check(front + b'/')
    return line if fate < 0.75 else mutate(rng, line)


# ---------------------------------------------------------------- streams of lines

def line_end(rng):
    return rng.choice([b'\r', b'\n', b'\r\n', b'\n\r', b'\r\n', b'\r', b'\n\n', b'\r\r\n\n'])


def stream(rng, make_line):
    """Some lines with their ends; the last may be unfinished."""
    fate = rng.random()
    if fate < 0.01:
        return b''
    if fate < 0.03:
        return some(rng, EDGE_BYTES, 0, 300)
    lines = [make_line(rng) + line_end(rng) for _ in range(rng.choice([1, 2, 5, 10, 20]))]
    if chance(rng, 0.05):
        lines.insert(0, line_end(rng))
    data = b''.join(lines)
    if chance(rng, 0.2):
        data = data[:-1]
    if fate < 0.05:
        data = put_at_limit(rng, data)
    elif fate < 0.055:
        data = data * (LIMIT // (len(data) + 1) + 2)
    return data


def put_at_limit(rng, data):
    """Empty lines in front, so that the input ends about at its limit."""
    size = LIMIT + rng.choice([-1, 0, 0, 1, 1, 2, 3, len(data) // 2])
    return rng.choice([b'\n', b'\r']) * (size - len(data)) + data


def listen_input(rng):
    return stream(rng, lambda r: any_line(r, 'answer' if chance(r, 0.9) else 'command'))


def inspect_line(rng):
    """A line behind its first byte, which is sometimes another one."""
    side = rng.choice(['command', 'answer', 'answer'])
    fate = rng.random()
    if fate < 0.9:
        first = b'>' if side == 'command' else b'<'
    elif fate < 0.96:
        first = rng.choice([b'<', b'>'])
    else:
        first = rng.choice([b'', b'?', b' ', b'=', b';', b'\x00', b'>>', b'<<', b'\xff', b'x' * 1100])
    return first + inspected_text(rng, side)


def inspected_text(rng, side):
    """Any line; now and then a command that may be too long with a check."""
    fate = rng.random()
    if fate < 0.01:
        return b''
    if side == 'command' and fate < 0.06:
        return long_line(rng, side, rng.choice([1020, 1021, 1021, 1022, 1022, 1023, 1024]), 0)
    if side == 'answer' and fate < 0.35:
        fields = [good_first(rng, side)] + record_fields(rng)
        return with_check(b'/'.join([good_address(rng, side), good_mark(rng, side), join_body(fields), b'']))
    return any_line(rng, side)


def inspect_input(rng):
    return stream(rng, inspect_line)


# ---------------------------------------------------------------- scripts for replay

NONSENSE = [
    b'submit', b'submit ', b'submit 01', b'submit 01 ', b'submit  PLAY:', b'submit 01  PLAY:', b'submit 01 PLAY: ',
    b' submit 01 PLAY:', b'Submit 01 PLAY:', b'submitted 01 PLAY:', b'submit\t01 PLAY:', b'submit 01 PLAY:\rX:',
    b'pump ', b'pump  1024', b'pump 1024 ', b'pump 1024 1024', b'pump x', b'pump -1', b'pump +1024', b'pump 1024x',
    b'pump 0x400', b'pump 1_024', b'PUMP', b' pump', b'pumps', b'pum', b'pump\r', b'pump\t1024', b'pump 1024\r',
    b'pump 99999999999999999999', b'pump 4294968320', b'pump 18446744073709552640', b'pump 65536',
    b'settle', b'settle ', b'settle 10', b'settle x', b'settle 00', b'settle 0 ', b'settle  0', b'settle -1',
    b'settle other ', b'settle others', b'settle Other', b'settle :', b'settle /', b'settle 3 3', b'settle 05',
    b'settle othe', b'settle other other', b'settle\r', b'settle 1\r',
    b'reset ', b'reset 1', b' reset', b'RESET', b'resets', b'reset\r', b'rese',
    b'arrive', b'arrive ', b'arrive \\', b'arrive \\d256', b'arrive \\x', b'arrive abc\\', b'arrive \\d25', b'arrives x',
    b'arrive\r', b'Arrive x', b'arrive a\\d2', b'arrive \\r\\d300',
    b'depart', b'depart ', b'depart x', b'depart 4097', b'depart -1', b'depart 5 ', b'depart  5', b'depart 5 5',
    b'depart 99999999999999999999', b'depart 10000', b'departs 5', b'depart\r',
    b'clear', b'clear ', b'clear maybe', b'clear YES', b'clear yes ', b'clear  no', b'clear no no', b'clear y', b'clears no',
    b'clear nope', b'clear\r',
    b'port controlled', b'port controlled ', b'port', b'port serial', b'port  controlled', b'port controlled\r',
    b'?', b' ', b'  ', b'\r', b'x', b' ;', b'\r;', b'\x00', b'\xff\xfe', b'hello world', b'listen', b'\tpump', b'tickets',
]
SILENT = [b'', b';', b'; a comment', b';pump', b'; \xff \\', b'; submit 01 PLAY:', b';;', b';\rpump']
SIZES = [b'1023', b'1024', b'1025', b'4096', b'4097', b'0', b'007', b'01024', b'1', b'2048', b'0004096', b'0004097',
         b'00000000000000000000001024', b'4095', b'9999', b'10240']

# How often each step is taken, for each temper of a story.
STEPS = ['submit', 'bad_submit', 'fill_submit', 'depart', 'emit', 'cheat', 'arrive', 'serve', 'flood', 'pump', 'drain',
         'settle', 'settle_odd', 'reset', 'clear', 'nonsense', 'silent']
TEMPERS = {
    'honest':    [8, 0, 0, 4, 8, 0, 8, 16, 0, 4, 4, 5, 0, 1, 0, 0, 1],
    'impatient': [10, 1, 0, 4, 6, 1, 6, 16, 0, 2, 4, 9, 1, 1, 1, 1, 0],
    'cheating':  [8, 1, 0, 4, 4, 16, 8, 16, 1, 4, 4, 4, 1, 1, 1, 1, 1],
    'hoarding':  [16, 1, 1, 8, 6, 1, 6, 4, 0, 2, 4, 3, 1, 1, 1, 1, 0],
    'flooding':  [6, 1, 10, 2, 6, 2, 8, 2, 6, 4, 4, 4, 1, 1, 4, 1, 0],
    'clumsy':    [6, 8, 1, 6, 8, 3, 8, 8, 1, 6, 3, 5, 4, 2, 4, 16, 4],
    'restless':  [10, 1, 1, 6, 8, 3, 8, 10, 1, 6, 6, 6, 1, 5, 2, 1, 1],
}


class Waiting:
    """A command that the player has received, and the lines of its answer."""

    def __init__(self, address, mark, lines):
        self.address = address
        self.mark = mark
        self.lines = lines
        self.told = 0

    def next_fields(self):
        return self.lines[self.told]

    def line(self, fields, address=None, mark=None):
        return with_check(b'/'.join([address or self.address, mark or self.mark, join_body(fields), b'']))


class Story:
    """A script in the making, and the player at the far end of it."""

    def __init__(self, rng):
        self.rng = rng
        self.script = []
        self.size = 0
        self.controlled = chance(rng, 0.35)
        port = model.SerialPort()
        if self.controlled:
            port = model.LineControl(port)
            self.script.append(b'port controlled')
        self.session = model.Session(port)
        self.addresses = [good_address(rng, 'command') for _ in range(rng.choice([1, 2, 3]))]
        self.wire = b''        # emitted by the player and not yet arrived
        self.half = b''        # departed, not yet a whole command
        self.waiting = []
        self.emitted = []
        self.browse_share = rng.choice([0.2, 0.6, 0.9])

    def tell(self):
        """Take a number of steps and give the script's lines."""
        weights = TEMPERS[self.rng.choice(list(TEMPERS))]
        if chance(self.rng, 0.01):
            self.long_listing()
        for _ in range(self.rng.choice([3, 20, 60, 100, 200])):
            getattr(self, self.rng.choices(STEPS, weights)[0])()
            if self.size > LIMIT * 3 // 4:
                break
        return self.script

    def say(self, line):
        """Write a line, and learn from the model what it gives."""
        self.script.append(line)
        self.size += len(line) + 1
        if not line or line.startswith(b';'):
            return b''
        return self.session.call(line)[:-1]

    # -- the caller's steps

    def submit(self):
        rng = self.rng
        address = rng.choice(self.addresses)
        if chance(rng, self.browse_share):
            name = rng.choice([b'BROWSE', b'BROWSE', b'BROWSE', b'BROWSE', b'BROWSE', b'BROWSE_', b'BROWS',
                               b'BROWSEX', b'XBROWSE'])
        else:
            name = good_first(rng, 'command')
        fields = [name] + later_fields(rng)
        self.say(b'submit ' + address + b' ' + join_body(fields))

    def bad_submit(self):
        """Something that is refused, mostly."""
        rng = self.rng
        kind = rng.randrange(8)
        address, body = rng.choice(self.addresses), join_body([good_first(rng, 'command')] + later_fields(rng))
        if kind == 0:
            address = bad_address(rng).replace(b' ', b'')
        elif kind == 1:
            body = bad_body(rng)
        elif kind == 2:
            body = join_body([bad_first(rng, 'command')] + later_fields(rng))
        elif kind == 3:
            body = mutate(rng, body).replace(b'\n', b'')
        elif kind == 4:
            body = rng.choice([b'PLAY:/', b'PLAY:/12', b'PLAY:\\', b'PLAY:/\\', b'PLAY:\\/:', b'/PLAY:',
                               b'PLAY:/0/PLAY:', b'PLAY:x\\/'])
        elif kind == 5:
            address += rng.choice([b'/', b'/1', b'\\', b'/1\\', b'/1/PLAY:\\', b'\\/', b':'])
            body = rng.choice([body, body[:-1] + b'\\', b'PLAY:\\'])
        elif kind == 6:
            size = rng.choice([1023, 1024, 1025, 1026, 1100, 3000]) - len(address) - 3 - 3
            body = b'BIG:' + filler(rng, size - 5) + b':'
        else:
            body = spoil_bytes(rng, body, [rng.choice(['escape', 'byte'])]).replace(b'\n', b'')
        self.say(b'submit ' + address + b' ' + body)

    def fill_submit(self):
        """A command that fits the room for writing just so, or just not."""
        rng = self.rng
        room, _ = self.session.link.port.room()
        size = room - 1 + rng.choice([-1, 0, 0, 1, 1, 2, -200])
        if size > 1024 or size < 20:
            size = rng.choice([1023, 1024, 900])
        address = rng.choice(self.addresses)
        pad = size - len(address) - 3 - len(b'FILL::/00')
        self.say(b'submit ' + address + b' FILL:' + filler(rng, max(pad, 0)) + b':')

    def depart(self):
        rng = self.rng
        self.take_departed(rng.choice([b'4096', b'%d' % rng.randint(0, 60), b'%d' % rng.randint(0, 4096),
                                       rng.choice(SIZES)]))

    def take_departed(self, size):
        """The player gets what departs, and keeps half a command for later."""
        row = self.say(b'depart ' + size)
        if row.startswith(b'DEPARTED '):
            self.half += model.resolve(row[9:])
        *whole, self.half = self.half.split(b'\r')
        for line in whole:
            self.receive(line)

    def arrive(self):
        """A piece of what the player emitted reaches the port."""
        rng = self.rng
        if not self.wire:
            self.emit()
        size = rng.choice([len(self.wire), len(self.wire), rng.randint(1, len(self.wire))])
        piece = self.wire[:size]
        row = self.say(b'arrive ' + script_text(rng, piece))
        if row.startswith(b'ARRIVED '):
            self.wire = self.wire[int(row[8:]):]

    def serve(self):
        """A good stretch: commands out, some lines back, all of them pumped."""
        rng = self.rng
        self.take_departed(b'4096')
        for _ in range(rng.randint(1, 5)):
            self.emit()
        for _ in range(rng.choice([1, 1, 2, 3])):
            self.arrive()
        self.drain()

    def flood(self):
        """Many bytes at once, more than fit."""
        rng = self.rng
        unit = rng.choice([b'x', b'01/0/000:/88\r', b'\r', b'\n', b'01/!/000:/73\n', b'\\', b'\x00', b'ab\r\n'])
        size = rng.choice([1020, 1024, 1025, 2047, 2048, 2049, 2060, 3000, 5000])
        data = (unit * size)[:size]
        if chance(rng, 0.5):
            data = data[:-1] + b'\r'
        self.say(b'arrive ' + script_text(rng, data))

    def pump(self):
        rng = self.rng
        self.say(rng.choice([b'pump', b'pump', b'pump 1024', b'pump ' + rng.choice(SIZES),
                             b'pump %d' % rng.randint(0, 4200)]))

    def drain(self):
        """Pump until dry, at most some times."""
        for _ in range(self.rng.choice([1, 3, 6, 9])):
            if self.say(b'pump') == b'DRY':
                break

    def settle(self):
        rng = self.rng
        held = list(self.session.tickets)
        if held and chance(rng, 0.9):
            self.say(b'settle %d' % rng.choice(held))
        else:
            self.say(b'settle %d' % rng.randrange(10))

    def settle_odd(self):
        self.say(self.rng.choice([b'settle other', b'settle %d' % self.rng.randrange(10)]))

    def reset(self):
        """Both sides begin anew; a cheat may leave old bytes on the wire."""
        if chance(self.rng, 0.1):
            return self.reset_in_long_line()
        self.say(b'reset')
        if chance(self.rng, 0.8):
            self.wire, self.half, self.waiting = b'', b'', []

    def reset_in_long_line(self):
        """A line that is already too long when both sides begin anew."""
        self.say(b'arrive ' + b'y' * self.rng.choice([1023, 1024, 1025, 1100, 2000]))
        self.say(b'pump')
        self.reset()
        self.emit()
        self.arrive()
        self.drain()

    def long_listing(self):
        """A listing of hundreds of lines, from its command to the last."""
        rng = self.rng
        row = self.say(b'submit ' + self.addresses[0] + b' BROWSE:')
        if not row.startswith(b'TICKET'):
            return
        self.say(b'depart 4096')
        command = Waiting(self.addresses[0], row[7:], [])
        count = rng.choice([254, 255, 256, 257, 258, 300, 1000])
        results = [[b'000', b'BROWSE_RESULT', b'%d' % number, b'0', b''] for number in range(1, count + 1)]
        fields = [[b'000', b'BROWSE_RESULTS_OVERVIEW', b'', b'', b'%d' % count]] + results
        lines = [command.line(line) + b'\r' for line in fields]
        for start in range(0, len(lines), 20):
            self.say(b'arrive ' + script_text(rng, b''.join(lines[start:start + 20])))
            for _ in range(20):
                self.say(b'pump')

    def clear(self):
        self.say(self.rng.choice([b'clear yes', b'clear yes', b'clear no']))

    def nonsense(self):
        self.say(self.rng.choice(NONSENSE))

    def silent(self):
        self.say(self.rng.choice(SILENT))

    # -- the player's steps

    def receive(self, line):
        """A whole command joins the waiting ones with the answer planned."""
        command = model.read_line(line, 'command')
        if isinstance(command, model.Fault):
            return
        if command.fields[0] == b'BROWSE':
            lines = self.plan_listing()
        else:
            lines = [[good_first(self.rng, 'answer')] + self.odd_single()]
        self.waiting.append(Waiting(command.address, command.mark, lines))

    def odd_single(self):
        """What stands behind the status of a one-line answer: anything."""
        if chance(self.rng, 0.2):
            return self.overview(self.rng.choice([0, 1, 3]))[1:]
        return later_fields(self.rng)

    def plan_listing(self):
        rng = self.rng
        if chance(rng, 0.15):
            status = rng.choice([b'001', b'100', b'010', b'999', b'013'])
            return [[status] + rng.choice([[], later_fields(rng), self.overview(2)[1:]])]
        promised = rng.choice([0, 0, 1, 1, 2, 2, 3, 4, 6, 11])
        results = [self.result(count) for count in range(1, promised + 1)]
        return [self.overview(promised)] + results

    def overview(self, promised):
        rng = self.rng
        name = disguise(rng, b'BROWSE_RESULTS_OVERVIEW', 0.1) if chance(rng, 0.2) else b'BROWSE_RESULTS_OVERVIEW'
        rest = rng.choice([[], [count_text(rng)], [count_text(rng), field(rng)], [b'%d' % promised]])
        return [b'000', name, field(rng), field(rng), self.number(promised)] + rest

    def result(self, count):
        rng = self.rng
        name = disguise(rng, b'BROWSE_RESULT', 0.1) if chance(rng, 0.2) else b'BROWSE_RESULT'
        return [b'000', name, self.number(count), count_text(rng), field(rng)] + rng.choice([[], [], [field(rng)]])

    def number(self, value):
        """One of the ways to write a count."""
        text = b'%d' % value
        if chance(self.rng, 0.2):
            text = text.zfill(self.rng.randint(1, 5))
        return disguise(self.rng, text, 0.5) if chance(self.rng, 0.1) else text

    def put_on_wire(self, line):
        self.emitted.append(line)
        self.wire += line + self.rng.choice([b'\r', b'\r', b'\n', b'\r\n'])

    def emit(self):
        """An event, a notice, an empty line or the next line of an answer."""
        rng = self.rng
        if self.waiting and chance(rng, 0.85):
            command = rng.choice(self.waiting)
            self.put_on_wire(command.line(command.next_fields()))
            command.told += 1
            if command.told == len(command.lines):
                self.waiting.remove(command)
        elif chance(rng, 0.5):
            mark = rng.choice([b'!', b'!', b'?'])
            front = b'/'.join([good_address(rng, 'answer'), mark, join_body([b'000'] + later_fields(rng)), b''])
            self.put_on_wire(with_check(front))
        else:
            self.put_on_wire(b'')

    def cheat(self):
        """Some lines that an honest player would not emit."""
        rng = self.rng
        if not self.waiting and chance(rng, 0.7):
            self.submit()
            self.take_departed(b'4096')
        for _ in range(rng.choice([1, 1, 2, 4])):
            self.put_on_wire(self.false_line())
        if chance(rng, 0.6):
            self.arrive()
            self.drain()

    def false_line(self):
        rng = self.rng
        kind = rng.choice(['again', 'changed', 'any', 'any', 'long', 'address', 'number'] + ['odd'] * 6)
        if kind == 'any':
            return any_line(rng, 'answer')
        if kind == 'long':
            return long_line(rng, 'answer', rng.choice([1023, 1024, 1025, 1026]))
        if kind in ('again', 'changed') and self.emitted:
            line = rng.choice(self.emitted[-4:])
            return line if kind == 'again' else mutate(rng, line)
        if not self.waiting:
            return self.stray_line()
        return self.false_answer(kind, rng.choice(self.waiting))

    def false_answer(self, kind, command):
        """A line with a waiting command's address or number that is not its next."""
        if kind == 'address':
            return command.line(command.next_fields(), address=self.other_address(command))
        if kind == 'number':
            return command.line(command.next_fields(), mark=b'%d' % self.rng.randrange(10))
        return command.line(self.odd_result(command.told) if command.told else self.odd_overview())

    def stray_line(self):
        rng = self.rng
        fields = rng.choice([[b'000'], self.overview(2), self.result(1), [b'001']])
        front = b'/'.join([rng.choice(self.addresses), b'%d' % rng.randrange(10), join_body(fields), b''])
        return with_check(front)

    def other_address(self, command):
        unit = command.address.partition(b'.')[0]
        other = good_address(self.rng, 'answer')
        return self.rng.choice(self.addresses + [b'??', unit, unit + b'.01', unit + b'.02', other])

    def odd_result(self, count):
        """The fields of a result line with something wrong, or out of turn."""
        rng = self.rng
        fields = self.result(count)
        kind = rng.choice(['first', 'second', 'name', 'few', 'status', 'turn', 'overview'])
        if kind == 'first':
            fields[2] = rng.choice([bad_count(rng), count_text(rng), b'%d' % (count + 65536), b'%06d' % count])
        elif kind == 'second':
            fields[3] = bad_count(rng)
        elif kind == 'name':
            fields[1] = rng.choice([b'BROWSE_RESULTS', b'BROWSE_RESUL', b'BROWSE_RESULTS_OVERVIEW',
                                    b'browse_result', b'', b'TITLE_NAME'])
        elif kind == 'few':
            fields = fields[:rng.choice([1, 2, 3, 4])]
        elif kind == 'status':
            fields[0] = rng.choice([b'001', b'010', b'100', b'999'])
        elif kind == 'turn':
            fields[2] = b'%d' % (count + rng.choice([-1, 1, 2]))
        else:
            fields = self.overview(rng.choice([0, 1, 3]))
        return fields

    def odd_overview(self):
        """Fields that begin no listing, or begin an endless one."""
        rng = self.rng
        fields = self.overview(rng.choice([1, 2, 2, 65535]))
        kind = rng.choice(['count', 'name', 'few', 'result', 'status', 'endless'])
        if kind == 'count':
            fields[4] = bad_count(rng)
        elif kind == 'name':
            fields[1] = rng.choice([b'BROWSE_RESULT', b'BROWSE_RESULTS', b'BROWSE_RESULTS_OVERVIEWS',
                                    b'TITLE_NAME', b''])
        elif kind == 'few':
            fields = fields[:rng.choice([1, 2, 3, 4])]
        elif kind == 'result':
            fields = self.result(1)
        elif kind == 'status':
            fields[0] = rng.choice([b'001', b'100'])
        return fields


def script_text(rng, data):
    """Bytes as the text of an arrive line, which has no byte 10 in it."""
    text = []
    for byte in data:
        if byte in (10, 13, 92):
            text.append(b'\\' + SHORT[byte] if chance(rng, 0.97) else d_escape(byte))
        elif chance(rng, 0.01):
            text.append(d_escape(byte))
        elif byte in SHORT and chance(rng, 0.05):
            text.append(b'\\' + SHORT[byte])
        else:
            text.append(bytes([byte]))
    return b''.join(text)


def replay_input(rng):
    fate = rng.random()
    if fate < 0.01:
        return b''
    if fate < 0.03:
        return some(rng, EDGE_BYTES, 0, 100)
    if fate < 0.08:
        lines = [rng.choice(NONSENSE + SILENT) for _ in range(rng.randint(1, 12))]
    else:
        lines = Story(rng).tell()
    if chance(rng, 0.05):
        lines.insert(0, rng.choice([b'', b'; first', b'port controlled', b'port controlled ',
                                    b'port controlled\r', b'pump']))
    data = join_script(rng, lines)
    if fate < 0.11:
        data = push_to_limit(rng, data)
    return data


def join_script(rng, lines):
    """Lines with their ends; the last one may have none or half of one."""
    ends = rng.choice([[b'\n'], [b'\r\n'], [b'\n', b'\r\n']])
    data = b''.join(line + rng.choice(ends) for line in lines)
    fate = rng.random()
    if fate < 0.2:
        data = data[:-1]
    elif fate < 0.25:
        data += rng.choice([b'pump', b'reset', b'pump\r', b'settle 0', b'port controlled', b'; end',
                            b'depart 4096', b'\r'])
    return data


def push_to_limit(rng, data):
    """Padding behind the first line, so that the limit falls near the end."""
    first, end, rest = data.partition(b'\n')
    room = LIMIT - len(data) + rng.choice([-1, 0, 1, 2, 3, len(rest) // 2])
    padding = rng.choice([b'\n' * room, b';' + b'x' * max(room - 2, 0) + b'\n'])
    return first + end + padding + rest


INPUTS = {'listen': listen_input, 'inspect': inspect_input, 'records': inspect_input, 'replay': replay_input}
