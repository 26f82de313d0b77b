"""A second implementation of marks, records, layers, FT1.2, FT2, the writers and the receiver.

Written from the rules that docs/ tells. It shares no code and no table with the library, and takes other ways where it can: readers are
coroutines over marks, and check octets come from long division of whole numbers.
"""

BAD = 'x'
MARKS = ('0', '1', BAD)


class Refused(Exception):
    """A refused call, by its number."""

    def __init__(self, number):
        super().__init__(number)
        self.number = number


# Lines

def character(octet, parity_reversed=False, stop='1'):
    bits = [str(octet >> k & 1) for k in range(8)]
    parity = bits.count('1') % 2
    if parity_reversed:
        parity = 1 - parity
    return ['0'] + bits + [str(parity), stop]


def entry(status, octet):
    if status == 0:
        return character(octet)
    if status == 1:
        return character(octet, parity_reversed=True)
    if status == 2:
        return character(octet, stop='0')
    return (['1'] if status == 3 else [BAD]) * 11


class Record:
    """A line that holds its marks, the next one last."""

    def __init__(self, name, marks):
        self.name = name
        self.marks = marks[::-1]

    def take(self):
        return self.marks.pop() if self.marks else None

    def describe(self):
        return self.name


def mark_record(octets):
    return Record('marks', [{0: '0', 1: '1'}.get(o, BAD) for o in octets])


def character_record(octets):
    if len(octets) % 2:
        raise Refused(2)
    marks = []
    for at in range(0, len(octets), 2):
        marks += entry(octets[at], octets[at + 1])
    return Record('characters', marks)


class Reversal:
    def __init__(self, below):
        self.below = below

    def take(self):
        mark = self.below.take()
        return {'0': '1', '1': '0'}.get(mark, mark)

    def describe(self):
        return 'reversal over ' + self.below.describe()


class Sampling:
    def __init__(self, below):
        self.below = below
        self.kept = []

    def take(self):
        while len(self.kept) < 3:
            mark = self.below.take()
            if mark is None:
                return None
            self.kept.append(mark)
        three, self.kept = self.kept, []
        return three[0] if three in (['0'] * 3, ['1'] * 3) else BAD

    def describe(self):
        return 'sampling over ' + self.below.describe()


# Formats. A reader is a coroutine: it is sent a mark and yields a verdict, which is None for open, ('octet', o), or
# ('frame', kind). A fault is raised.

class Fault(Exception):
    def __init__(self, number, layer):
        super().__init__(number)
        self.number, self.layer = number, layer


def good(mark):
    if mark == BAD:
        raise Fault(21, 'line')
    return mark


class Ft12:
    distance = 4
    gap = 33

    def __init__(self, fixed):
        if not 1 <= fixed <= 255:
            raise Refused(1)
        self.fixed = fixed

    def describe(self):
        return f'FT1.2, fixed length {self.fixed}'

    def frame_octets(self, kind, octets):
        tail = octets + [sum(octets) % 256, 0x16]
        return {1: [0x10] + tail, 2: [0x68, len(octets), len(octets), 0x68] + tail, 3: [0xE5], 4: [0xA2]}[kind]

    def frame(self, kind, octets):
        if kind not in (1, 2, 3, 4):
            raise Refused(6)
        allowed = {1: [self.fixed], 2: range(256), 3: [0], 4: [0]}[kind]
        if len(octets) not in allowed:
            raise Refused(7)
        return [m for o in self.frame_octets(kind, octets) for m in character(o)]

    @staticmethod
    def one(verdict):
        """Reads a character; `verdict` answers the mark before it."""
        if good((yield verdict)) != '0':
            raise Fault(22, 'character')
        octet = 0
        for k in range(8):
            octet |= int(good((yield None))) << k
        if int(good((yield None))) != bin(octet).count('1') % 2:
            raise Fault(23, 'character')
        if good((yield None)) != '1':
            raise Fault(24, 'character')
        return octet

    def reader(self):
        first = yield from self.one(None)
        if first in (0xE5, 0xA2):
            yield ('frame', 3 if first == 0xE5 else 4)
            return
        if first == 0x10:
            kind, count = 1, self.fixed
        elif first == 0x68:
            kind = 2
            count = yield from self.one(None)
            again = yield from self.one(None)
            if again != count:
                raise Fault(26, 'frame')
            if (yield from self.one(None)) != 0x68:
                raise Fault(27, 'frame')
        else:
            raise Fault(25, 'frame')
        total, verdict = 0, None
        for _ in range(count):
            octet = yield from self.one(verdict)
            total += octet
            verdict = ('octet', octet)
        if (yield from self.one(verdict)) != total % 256:
            raise Fault(28, 'frame')
        if (yield from self.one(None)) != 0x16:
            raise Fault(29, 'frame')
        yield ('frame', kind)


def check_octet(block):
    """By long division of the block, a whole number, times x^7."""
    divisor = 0b11100101
    number = int.from_bytes(bytes(block), 'big')
    rest = number << 7
    while rest.bit_length() >= 8:
        rest ^= divisor << (rest.bit_length() - 8)
    parity = (bin(number).count('1') + bin(rest).count('1')) % 2
    return 255 - (rest * 2 + parity)


class Ft2:
    distance = 4

    def __init__(self, fixed, header):
        if not (1 <= fixed <= 30 and 1 <= header <= 15):
            raise Refused(1)
        self.fixed, self.header = fixed, header
        self.gap = 8 * (max(fixed, header + 15) + 3)

    def describe(self):
        return f'FT2, fixed length {self.fixed}, header length {self.header}'

    @staticmethod
    def checked(octets):
        out = []
        for at in range(0, len(octets), 15):
            block = octets[at:at + 15]
            out += block + [check_octet(block)]
        return out

    def frame(self, kind, octets):
        h = self.header
        if kind not in (1, 2):
            raise Refused(6)
        if kind == 1:
            if len(octets) != self.fixed:
                raise Refused(7)
            sent = [0x27] + self.checked(octets)
        else:
            if not h <= len(octets) <= h + 15:
                raise Refused(7)
            if octets[0] != len(octets) - h:
                raise Refused(8)
            sent = [0x14] + self.checked(octets[:h]) + self.checked(octets[h:])
        return [m for o in sent for m in format(o, '08b')]

    @staticmethod
    def one(verdict):
        octet = int(good((yield verdict)))
        for _ in range(7):
            octet = octet * 2 + int(good((yield None)))
        return octet

    def blocks(self, count, verdict):
        """Reads so many octets in blocks with their checks, and returns them."""
        every = []
        while count:
            block = []
            for _ in range(min(count, 15)):
                octet = yield from self.one(verdict)
                block.append(octet)
                verdict = ('octet', octet)
            if (yield from self.one(verdict)) != check_octet(block):
                raise Fault(30, 'frame')
            verdict = None
            every += block
            count -= len(block)
        return every

    def reader(self):
        start = yield from self.one(None)
        if start == 0x27:
            yield from self.blocks(self.fixed, None)
            yield ('frame', 1)
            return
        if start != 0x14:
            raise Fault(25, 'frame')
        header = yield from self.blocks(self.header, None)
        if header[0] > 15:
            raise Fault(31, 'frame')
        if header[0]:
            yield from self.blocks(header[0], None)
        yield ('frame', 2)


# The receiver

class Receiver:
    def __init__(self, form):
        self.form = form
        self.state = 'waiting'
        self.run = 0
        self.reader = None
        self.place = 0
        self.octets = 0

    def mark(self, mark, buffer):
        """One mark taken: None, ('frame', kind, count) or ('fault', number, layer, place)."""
        self.run = min(self.run + 1, self.form.gap) if mark == '1' else 0
        if self.state == 'waiting':
            if self.run == self.form.gap:
                self.state = 'ready'
            return None
        if self.state == 'ready':
            if mark == '1':
                return None
            self.state, self.place, self.octets = 'open', 0, 0
            self.reader = self.form.reader()
            next(self.reader)
        try:
            verdict = self.reader.send(mark)
        except Fault as fault:
            self.state = 'ready' if self.run == self.form.gap else 'waiting'
            return ('fault', fault.number, fault.layer, self.place)
        self.place += 1
        if verdict is None:
            return None
        if verdict[0] == 'octet':
            buffer[self.octets] = verdict[1]
            self.octets += 1
            return None
        self.state = 'holding'
        return ('frame', verdict[1], self.octets)

    def listen(self, line, buffer, budget):
        if len(buffer) < 255:
            raise Refused(3)
        if self.state == 'holding':
            raise Refused(4)
        taken = 0
        while taken < budget:
            mark = line.take()
            if mark is None:
                return taken, ('line empty',)
            taken += 1
            brought = self.mark(mark, buffer)
            if brought:
                return taken, brought
        return taken, ('spent',)

    def look(self, buffer):
        if len(buffer) < 255:
            raise Refused(3)
        if self.state != 'holding':
            raise Refused(5)
        return buffer[:self.octets]

    def release(self):
        if self.state != 'holding':
            raise Refused(5)
        self.state = 'ready'
