"""Try the generators: does a comparison see small mistakes in the model?

    mutants.py [--count N] [--seed S]

Each edit below is made alone in the model's text, in memory.  The changed
model then runs on the same inputs as the right one, up to N for each of its
programs, until an output differs.  An edit that is never seen means
that the random inputs are too weak, and the run fails.
"""

import argparse
import itertools
import pathlib
import signal
import sys
import types

import compare
import model

SOURCE = pathlib.Path(model.__file__).read_text()
PATIENCE = 10  # seconds after which one run of a changed model counts as hung

# Text that stands exactly once in the model, and what is put in its place.
EDITS = [
    # limits
    ("LINE_LIMIT = 1024 ", "LINE_LIMIT = 1023 "),
    ("LINE_LIMIT = 1024 ", "LINE_LIMIT = 1025 "),
    ("INPUT_LIMIT = 65536", "INPUT_LIMIT = 65535"),
    ("INPUT_LIMIT = 65536", "INPUT_LIMIT = 65537"),
    ("QUEUE_SIZE = 2048", "QUEUE_SIZE = 2047"),
    ("QUEUE_SIZE = 2048", "QUEUE_SIZE = 2049"),
    ("BUFFER_LIMIT = 4096", "BUFFER_LIMIT = 4095"),
    ("BUFFER_LIMIT = 4096", "BUFFER_LIMIT = 4097"),
    # escapes
    ("b':': 58, ", ""),
    ("b'/': 47, ", ""),
    ("b'\\\\': 92, ", ""),
    ("b'n': 10, ", ""),
    ("b'r': 13, ", ""),
    (", b't': 9}", "}"),
    ("b'n': 10, b'r': 13", "b'n': 13, b'r': 10"),
    ("b't': 9}", "b't': 8}"),
    ("int(digits) <= 255", "int(digits) <= 256"),
    ("int(digits) <= 255", "int(digits) <= 254"),
    ("int(digits) <= 255", "int(digits) <= 299"),
    ("rb'[0-9]{3}', digits)", "rb'[0-9]{2,3}', digits)"),
    ("text[place:place + 5], int(digits))", "text[place:place + 4], int(digits))"),
    ("letter == b'd' and", "letter in (b'd', b'D') and"),
    ("if token.raw == separator:", "if token.raw[-1:] == separator:"),
    ("None if None in meanings else bytes(meanings)", "bytes(m for m in meanings if m is not None)"),
    ("if byte in ESCAPE_LETTERS:", "if byte in ESCAPE_LETTERS and byte != 58:"),
    ("if byte in ESCAPE_LETTERS:", "if byte in ESCAPE_LETTERS and byte != 47:"),
    ("if byte in ESCAPE_LETTERS:", "if byte in ESCAPE_LETTERS and byte != 92:"),
    ("if byte in ESCAPE_LETTERS:", "if byte in ESCAPE_LETTERS and byte != 10:"),
    ("if byte in ESCAPE_LETTERS:", "if byte in ESCAPE_LETTERS and byte != 13:"),
    ("if byte in ESCAPE_LETTERS:", "if byte in ESCAPE_LETTERS and byte != 9:"),
    ("if 32 <= byte <= 126:", "if 31 <= byte <= 126:"),
    ("if 32 <= byte <= 126:", "if 33 <= byte <= 126:"),
    ("if 32 <= byte <= 126:", "if 32 <= byte <= 125:"),
    ("if 32 <= byte <= 126:", "if 32 <= byte <= 127:"),
    ("if 32 <= byte <= 126:", "if 32 <= byte <= 126 or byte == 128:"),
    ("b'\\\\d%03d' % byte", "b'\\\\d%d' % byte"),
    # addresses, marks, checks, first fields
    ("rb'((?!00)[0-9]{2}|", "rb'([0-9]{2}|"),
    ("(\\.(?!00)[0-9]{2})?", "(\\.[0-9]{2})?"),
    ("(\\.(?!00)[0-9]{2})?", "(\\.(?!00)[0-9]{1,2})?"),
    ("(\\.(?!00)[0-9]{2})?", "(\\.(?!00)[0-9]{2})*"),
    ("(\\.(?!00)[0-9]{2})?", ""),
    ("#[0-9A-F]{12})", "#[0-9A-F]{11})"),
    ("#[0-9A-F]{12})", "#[0-9A-F]{11,12})"),
    ("#[0-9A-F]{12})", "#[0-9A-F]{12,13})"),
    ("#[0-9A-F]{12})", "#[0-9A-Fa]{12})"),
    ("#[0-9A-F]{12})", "#[0-9A-G]{12})"),
    ("#[0-9A-F]{12})", "#[0-:A-F]{12})"),
    ("CHECK = re.compile(rb'[0-9]{2}')", "CHECK = re.compile(rb'[0-9]{1,2}')"),
    ("CHECK = re.compile(rb'[0-9]{2}')", "CHECK = re.compile(rb'[0-9]{2,3}')"),
    ("CHECK = re.compile(rb'[0-9]{2}')", "CHECK = re.compile(rb'[0-:]{2}')"),
    ("'command': (3, 4)", "'command': (4,)"),
    ("'command': (3, 4)", "'command': (3,)"),
    ("'command': (3, 4)", "'command': (3, 4, 5)"),
    ("'answer': (4,)", "'answer': (3, 4)"),
    ("'answer': (4,)", "'answer': (4, 5)"),
    ("re.compile(rb'[0-9]'), 'answer'", "re.compile(rb'[0-9!]'), 'answer'"),
    ("re.compile(rb'[0-9]'), 'answer'", "re.compile(rb'[0-9?]'), 'answer'"),
    ("re.compile(rb'[0-9]'), 'answer'", "re.compile(rb'[0-8]'), 'answer'"),
    ("re.compile(rb'[0-9!?]')", "re.compile(rb'[0-9!]')"),
    ("re.compile(rb'[0-9!?]')", "re.compile(rb'[0-9!?]{1,2}')"),
    ("[A-Z][A-Z0-9_]{0,63}", "[A-Z][A-Z0-9_]{0,62}"),
    ("[A-Z][A-Z0-9_]{0,63}", "[A-Z][A-Z0-9_]{0,64}"),
    ("[A-Z][A-Z0-9_]{0,63}", "[A-Z][A-Z0-9_]{1,63}"),
    ("[A-Z][A-Z0-9_]{0,63}", "[A-Z0-9][A-Z0-9_]{0,63}"),
    ("[A-Z][A-Z0-9_]{0,63}", "[A-Z_][A-Z0-9_]{0,63}"),
    ("[A-Z][A-Z0-9_]{0,63}", "[A-Z][A-Z0-9]{0,63}"),
    ("[A-Z][A-Z0-9_]{0,63}", "[A-Z][A-Z1-9_]{0,63}"),
    ("[A-Z][A-Z0-9_]{0,63}", "[A-Y][A-Z0-9_]{0,63}"),
    ("[A-Z][A-Z0-9_]{0,63}", "[A-Z][A-[0-9_]{0,63}"),
    ("'answer': re.compile(rb'[0-9]{3}')", "'answer': re.compile(rb'[0-9]{2,3}')"),
    ("'answer': re.compile(rb'[0-9]{3}')", "'answer': re.compile(rb'[0-9]{3,4}')"),
    ("return side == 'answer'", "return True"),
    ("return side == 'answer'", "return False"),
    ("b'%02d' % (sum(front) % 100)", "b'%02d' % (sum(front[:-1]) % 100)"),
    ("b'%02d' % (sum(front) % 100)", "b'%d' % (sum(front) % 100)"),
    ("b'%02d' % (sum(front) % 100)", "b'%02d' % (sum(front) % 256 % 100)"),
    # faults of a line
    ("Fault(1, LINE_LIMIT, 'line')", "Fault(1, len(line), 'line')"),
    ("if not 32 <= byte <= 126:", "if not 31 <= byte <= 126:"),
    ("if not 32 <= byte <= 126:", "if not 33 <= byte <= 126:"),
    ("if not 32 <= byte <= 126:", "if not 32 <= byte <= 125:"),
    ("if not 32 <= byte <= 126:", "if not 32 <= byte <= 127:"),
    ("if not 32 <= byte <= 126:", "if not 32 <= byte <= 126 and byte != 255:"),
    ("if not 32 <= byte <= 126:", "if not 32 <= byte <= 126 and byte != 9:"),
    ("for place, byte in enumerate(line):", "for place, byte in reversed(list(enumerate(line))):"),
    ("for token in tokens(line):", "for token in reversed(list(tokens(line))):"),
    ("Fault(2, place, 'line')", "Fault(2, place + 1, 'line')"),
    ("Fault(3, token.place, 'line')", "Fault(3, token.place, 'parts')"),
    ("Fault(4, len(line), 'parts')", "Fault(4, 0, 'parts')"),
    ("Fault(5, 0, 'parts')", "Fault(5, len(address), 'parts')"),
    ("Fault(6, len(address) + 1, 'parts')", "Fault(6, len(address), 'parts')"),
    ("len(mark) + len(body) + 3", "len(mark) + len(body) + 2"),
    ("check_of(line[:place])", "check_of(line[:place - 1])"),
    ("Fault(7, place, 'parts')", "Fault(8, place, 'parts')"),
    ("Fault(8, place, 'parts')", "Fault(8, 0, 'parts')"),
    ("if rest or not fields:", "if rest and not fields:"),
    ("Fault(9, place, 'body')", "Fault(9, place + len(body), 'body')"),
    ("Fault(10, place, 'body')", "Fault(10, place, 'parts')"),
    ("FIRST_FIELD[side].fullmatch(fields[0])", "FIRST_FIELD[side].fullmatch(resolve(fields[0]))"),
    ("len(address) + len(mark) + 2", "len(address) + len(mark) + 1"),
    ("tuple(resolve(field) for field in fields)", "tuple(fields)"),
    # the order of the faults
    ("    if not is_address(address, side):\n        return Fault(5, 0, 'parts')\n"
     "    if not MARK[side].fullmatch(mark):\n        return Fault(6, len(address) + 1, 'parts')\n",
     "    if not MARK[side].fullmatch(mark):\n        return Fault(6, len(address) + 1, 'parts')\n"
     "    if not is_address(address, side):\n        return Fault(5, 0, 'parts')\n"),
    ("    for place, byte in enumerate(line):\n        if not 32 <= byte <= 126:\n            return Fault(2, place, 'line')\n"
     "    for token in tokens(line):\n        if token.meaning is None:\n            return Fault(3, token.place, 'line')\n",
     "    for token in tokens(line):\n        if token.meaning is None:\n            return Fault(3, token.place, 'line')\n"
     "    for place, byte in enumerate(line):\n        if not 32 <= byte <= 126:\n            return Fault(2, place, 'line')\n"),
    ("    fault = find_part_fault(line, parts, side)\n    if fault:\n        return fault\n",
     "    fault = find_part_fault(line, parts, side)\n    if fault and fault.number < 7:\n        return fault\n"),
    # counts and records
    ("rb'[0-9]{1,5}', text) and int(text) <= 65535", "rb'[0-9]{1,6}', text) and int(text) <= 65535"),
    ("rb'[0-9]{1,5}', text) and int(text) <= 65535", "rb'[0-9]{1,4}', text) and int(text) <= 65535"),
    ("int(text) <= 65535", "int(text) <= 65536"),
    ("int(text) <= 65535", "int(text) <= 65534"),
    ("else b'%d' % count", "else text"),
    ("[01246]", "[012346]"),
    ("[01246]", "[012456]"),
    ("[01246]", "[0124]"),
    ("[0-3]", "[0-4]"),
    ("[0-3]", "[0-2]"),
    ("pattern(rb'[0-9]{2}')", "pattern(rb'[0-9]{1,2}')"),
    ("pattern(rb'[0-9]{2}')", "pattern(rb'[0-9]{2,3}')"),
    ("pattern(rb'[0-9]{5}'), pattern(rb'[0-9]{5}'),\n        pattern(rb'[0-9]{3}')",
     "pattern(rb'[0-9]{4,5}'), pattern(rb'[0-9]{5}'),\n        pattern(rb'[0-9]{3}')"),
    ("pattern(rb'[0-9]{5}'), pattern(rb'[0-9]{5}'),\n        pattern(rb'[0-9]{3}')",
     "pattern(rb'[0-9]{5}'), pattern(rb'[0-9]{5,6}'),\n        pattern(rb'[0-9]{3}')"),
    ("pattern(rb'[0-9]{3}')", "pattern(rb'[0-9]{3,4}')"),
    ("pattern(rb'[0-9]{5}'), pattern(rb'[0-9]{5}'),\n    ]", "pattern(rb'[0-9]{5,6}'), pattern(rb'[0-9]{5}'),\n    ]"),
    ("pattern(rb'[0-9]{5}'), pattern(rb'[0-9]{5}'),\n    ]", "pattern(rb'[0-9]{5}'), pattern(rb'[0-9]{4,5}'),\n    ]"),
    ("b'TITLE_NAME': [any_text]", "b'TITLE_NAME': [any_text, any_text]"),
    ("count_field, count_field]", "count_field, any_text]"),
    ("count_field, count_field]", "any_text, count_field]"),
    ("message.side == 'answer' and len(message.fields) > 1", "len(message.fields) > 1"),
    ("len(values) != len(forms)", "len(values) < len(forms)"),
    ("Fault(16, 0, 'record')", "Fault(16, len(values), 'record')"),
    ("written.index(None) + 1", "written.index(None)"),
    ("write_fields([name, *written])", "write_fields([name, *values])"),
    # what comes next in an answer
    ("if command != b'BROWSE':", "if not command.startswith(b'BROWSE'):"),
    ("if command != b'BROWSE':", "if True:"),
    ("len(fields) >= 5 and", "len(fields) >= 6 and"),
    ("len(fields) >= 5 and", "len(fields) == 5 and"),
    ("len(fields) >= 5 and", "len(fields) >= 4 and"),
    ("fields[:2] == (b'000', name)", "fields[1] == name"),
    ("    if fields[0] != b'000':\n        return WHOLE_ANSWER\n", "    if False:\n        return WHOLE_ANSWER\n"),
    ("    if fields[0] != b'000':\n        return WHOLE_ANSWER\n",
     "    if fields[1:2] != (b'BROWSE_RESULTS_OVERVIEW',):\n        return WHOLE_ANSWER\n"),
    ("promised = read_count(fields[4])", "promised = read_count(fields[-1])"),
    ("promised = read_count(fields[4])", "promised = max(read_count(fields[4]) or 0, 1)"),
    ("None if promised is None else Progress(0, promised)", "Progress(0, promised or 0)"),
    ("if read_count(fields[2]) != told or", "if read_count(fields[2]) is None or"),
    ("if read_count(fields[2]) != told or", "if fields[2] != b'%d' % told or"),
    ("!= told or read_count(fields[3]) is None", "!= told"),
    ("told = progress.told + 1", "told = progress.told"),
    ("told = progress.told + 1", "told = (progress.told + 1) % 256"),
    ("return Progress(told, progress.promised)", "return Progress(told, max(told, progress.promised - 1))"),
    ("in_listing(fields, b'BROWSE_RESULT')", "len(fields) >= 5 and fields[1] == b'BROWSE_RESULT'"),
    # ports
    ("self.is_clear = True", "self.is_clear = False"),
    ("self.coming += taken", "self.coming[:0] = taken"),
    ("return len(taken)", "return len(data)"),
    ("return self.below.depart(size) if is_clear else b''", "return self.below.depart(size)"),
    ("        self.is_clear = is_clear\n", "        self.is_clear = True\n"),
    ("    def depart(self, size):\n        _, is_clear",
     "    def read(self, size):\n        return self.below.read(size) if self.below.is_clear else (b'', 0)\n\n"
     "    def depart(self, size):\n        _, is_clear"),
    ("    def depart(self, size):\n        _, is_clear",
     "    def arrive(self, data):\n        return self.below.arrive(data) if self.below.is_clear else 0\n\n"
     "    def depart(self, size):\n        _, is_clear"),
    ("        self.coming.clear()\n", ""),
    ("        self.going.clear()\n", ""),
    ("        self.going.clear()\n", "        self.going.clear()\n        self.is_clear = True\n"),
    ("    del queue[:size]\n", "    del queue[:max(size, 1)]\n"),
    # the link
    ("self.last_given = 9", "self.last_given = 0"),
    ("range(1, 11)", "range(1, 10)"),
    ("range(1, 11)", "range(0, 10)"),
    ("(self.last_given + step) % 10", "step - 1"),
    ("number].state == 'free'", "number].state in ('free', 'answered')"),
    ("number].state == 'free'", "number].state in ('free', 'given up')"),
    ("number].state == 'free'", "number].state in ('free', 'lost')"),
    ("message._replace(mark=b'%d' % number)", "message"),
    ("+ b'\\r'\n        room", "+ b'\\n'\n        room"),
    ("if room < len(line):", "if room <= len(line):"),
    ("if room < len(line):", "if room < len(line) - 1:"),
    ("if room < len(line):", "if room < len(front) + 3:"),
    ("room, _ = self.port.room()\n        if room < len(line):",
     "room, clear = self.port.room()\n        if not clear or room < len(line):"),
    ("        number = self.first_free()\n        if number is None:\n            return Fault(12)\n",
     "        number = self.first_free()\n        if self.port.room()[0] < len(canonical_line(message)) + 1:\n"
     "            return Fault(13)\n        if number is None:\n            return Fault(12)\n"),
    ("        self.port.write(line)\n", ""),
    ("message.fields[0])\n        self.last", "message.fields[0], self.numbers[number].progress)\n        self.last"),
    ("        self.last_given = number\n", ""),
    ("        if number is None:\n            return Fault(12)\n",
     "        if number is None:\n            return Fault(12)\n        self.last_given = number\n"),
    ("        if room < len(line):\n", "        self.port.write(line[:room])\n        if room < len(line):\n"),
    ("            return 'foreign'\n", "            number.state = 'free'\n            return 'foreign'\n"),
    ("if ticket.link_number != self.link_number or not is_out:", "if not is_out:"),
    ("number.state in ('open', 'answered', 'lost')", "number.state in ('open', 'answered')"),
    ("number.state in ('open', 'answered', 'lost')", "number.state in ('open', 'lost')"),
    ("            number.state = 'given up'\n", "            number.state = 'free'\n"),
    ("result, number.state = number.state, 'free'", "result = number.state"),
    ("result, number.state = number.state, 'free'", "result, number.state = 'answered', 'free'"),
    ("        self.unfinished.clear()\n", ""),
    ("        self.unfinished.clear()\n",
     "        if len(self.unfinished) <= LINE_LIMIT:\n            self.unfinished.clear()\n"),
    ("                number.state = 'lost'\n", "                number.state = 'free'\n"),
    ("                lost += 1\n", "                lost = 1\n"),
    ("            elif number.state == 'given up':\n", "            elif number.state in ('given up', 'answered'):\n"),
    ("            elif number.state == 'given up':\n", "            elif number.state in ('given up', 'lost'):\n"),
    ("            elif number.state == 'given up':\n", "            elif False:\n"),
    ("        lost = 0\n", "        lost = 0\n        self.last_given = 9\n"),
    ("if size < LINE_LIMIT:", "if size <= LINE_LIMIT:"),
    ("if size < LINE_LIMIT:", "if size < 1000:"),
    ("        if size < LINE_LIMIT:\n            return ('REFUSED', 11)\n        line = self.take_line()\n",
     "        line = self.take_line()\n        if size < LINE_LIMIT:\n            return ('REFUSED', 11)\n"),
    ("length = min(len(line), LINE_LIMIT)", "length = len(line)"),
    ("message.mark == b'!'", "message.mark in b'!?'"),
    ("byte not in (b'\\r', b'\\n')", "byte not in (b'\\r',)"),
    ("byte not in (b'\\r', b'\\n')", "byte not in (b'\\n',)"),
    ("            elif self.unfinished:\n", "            else:\n"),
    ("read_line(line, 'answer')", "read_line(line, 'command')"),
    ("number.state not in ('open', 'given up') or", "number.state not in ('open', 'given up', 'answered') or"),
    ("number.state not in ('open', 'given up') or", "number.state not in ('open', 'given up', 'lost') or"),
    ("number.state not in ('open', 'given up') or", "number.state not in ('open',) or"),
    (" or number.address != message.address", ""),
    (" or number.address != message.address", " or message.address not in (number.address, b'??')"),
    (" or number.address != message.address", " or number.address[:2] != message.address[:2]"),
    ("        number.progress = progress\n", ""),
    ("        if progress is None:\n            return ('MISPLACED', length)\n        number.progress = progress\n",
     "        number.progress = progress\n        if progress is None:\n            return ('MISPLACED', length)\n"),
    ("is_last = progress.told == progress.promised", "is_last = True"),
    ("number.state = 'answered' if is_last", "number.state = 'free' if is_last"),
    ("number.state = 'free' if is_last", "number.state = 'given up' if is_last"),
    ("number.state = 'free' if is_last else 'given up'", "number.state = 'free' if is_last else 'open'"),
    ("number.state = 'free' if is_last", "number.state = 'answered' if is_last"),
    # the programs
    ("data[:INPUT_LIMIT])[:-1]", "data[:INPUT_LIMIT])"),
    ("re.split(rb'[\\r\\n]'", "re.split(rb'\\n'"),
    ("Tape(data[:INPUT_LIMIT])", "Tape(data)"),
    ("re.split(rb'[\\r\\n]', data[:INPUT_LIMIT])", "re.split(rb'[\\r\\n]', data)"),
    ("script_lines(data[:INPUT_LIMIT])", "script_lines(data)"),
    ("{b'!': 'EVENT', b'?': 'NOTICE'}", "{b'!': 'EVENT'}"),
    ("read_line(line[1:], side)", "read_line(line[1:LINE_LIMIT], side)"),
    ("if len(line) > LINE_LIMIT:\n        return row", "if len(line) >= LINE_LIMIT:\n        return row"),
    ("if len(line) > LINE_LIMIT:\n        return row", "if len(line) > LINE_LIMIT + 1:\n        return row"),
    ("if len(line) > LINE_LIMIT:\n        return Fault", "if len(line) >= LINE_LIMIT:\n        return Fault"),
    ("if first == b'port controlled':", "if first.startswith(b'port controlled'):"),
    ("line.removesuffix(b'\\r') for", "line.rstrip(b'\\r') for"),
    ("line.removesuffix(b'\\r') for", "line for"),
    ("ended] + [last]", "ended] + [last.removesuffix(b'\\r')]"),
    ("ended] + [last]", "ended] + [b'']"),
    ("data.split(b'\\n')", "data.replace(b'\\r', b'\\n').split(b'\\n')"),
    ("rb'[0-9]+', text", "rb'[0-9]{1,4}', text"),
    ("if line and not line.startswith(b';'))", "if line)"),
    ("if line and not line.startswith(b';'))", "if not line.startswith(b';'))"),
    ("address, space, body = text.partition(b' ')", "address, space, body = text.rpartition(b' ')"),
    ("word, space, rest = line.partition(b' ')", "word, space, rest = line.strip().partition(b' ')"),
    ("self.calls[word](rest)", "self.calls[word](rest.strip(b' '))"),
    ("text=b'1024'", "text=b'1023'"),
    ("not re.fullmatch(rb'[0-9]', text)", "not re.fullmatch(rb'0*[0-9]', text)"),
    ("self.tickets.pop(int(text), None)", "self.tickets.get(int(text))"),
    ("('DEPARTED', escape(data)) if data else", "('DEPARTED', escape(data)) if True else"),
    ("('DEPARTED', escape(data))", "('DEPARTED', data)"),
    ("self.link.clear(text == b'yes')", "self.link.clear(True)"),
    ("if text not in (b'yes', b'no'):", "if text not in (b'yes', b'no', b'maybe'):"),
    ("Link(SerialPort(), 2).submit", "Link(SerialPort(), 1).submit"),
]


def changed_model(number, old, new):
    """The model with one edit, as a module of its own."""
    if SOURCE.count(old) != 1:
        raise SystemExit(f'edit {number}: {old!r} stands {SOURCE.count(old)} times')
    module = types.ModuleType(f'mutant_{number}')
    sys.modules[module.__name__] = module
    exec(compile(SOURCE.replace(old, new), module.__name__, 'exec'), module.__dict__)
    return module


def make_cases(count, seed):
    """Program, seed, input and right output, the programs in turn."""
    for number, program in itertools.product(range(seed, seed + count), model.PROGRAMS):
        data = compare.make_input(program, number)
        yield program, number, data, model.PROGRAMS[program](data)


def give_up(signum, frame):
    raise TimeoutError


def output_of(module, program, data):
    """What a changed model prints, or the error that it ends in."""
    signal.alarm(PATIENCE)
    try:
        return module.PROGRAMS[program](data)
    except Exception as error:
        return type(error).__name__
    finally:
        signal.alarm(0)


def first_difference(module, cases):
    """Where the changed model gives itself away, or None."""
    for tried, (program, number, data, right) in enumerate(cases, 1):
        output = output_of(module, program, data)
        if output != right:
            how = f' by {output}' if isinstance(output, str) else ''
            return f'{program} at seed {number}, case {tried}{how}'
    return None


class Cases:
    """The cases, made as far as they are needed and then kept."""

    def __init__(self, count, seed):
        self.source = make_cases(count, seed)
        self.made = []

    def __iter__(self):
        yield from self.made
        for case in self.source:
            self.made.append(case)
            yield case


def main():
    parser = argparse.ArgumentParser(description=__doc__.split('\n')[0])
    parser.add_argument('--count', type=int, default=2000)
    parser.add_argument('--seed', type=int, default=1)
    args = parser.parse_args()
    signal.signal(signal.SIGALRM, give_up)
    cases = Cases(args.count, args.seed)
    unseen = 0
    for number, (old, new) in enumerate(EDITS):
        seen = first_difference(changed_model(number, old, new), cases)
        unseen += seen is None
        print(f'{number:3} {seen or "NOT SEEN"}: {old!r} -> {new!r}', flush=True)
    print(f'{len(EDITS)} edits, {len(EDITS) - unseen} seen, {unseen} not seen')
    sys.exit(1 if unseen else 0)


if __name__ == '__main__':
    main()
