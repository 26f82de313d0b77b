"""Random scripts of console commands. The same seed makes the same script."""

import random

import model

OUTSIDE = [0, 1, 2, 16, 30, 31, 255, 256, 257, 65535]


class Maker:
    def __init__(self, seed):
        self.r = random.Random(seed)
        self.form = None

    def pick(self, *weighted):
        whats = [what for what, _ in weighted]
        return self.r.choices(whats, [weight for _, weight in weighted])[0]

    def octets(self, count):
        return [self.r.choice([0, 1, 0xFF, self.r.randrange(256), self.r.randrange(256)]) for _ in range(count)]

    @staticmethod
    def hexed(octets):
        return ' '.join(f'{o:02x}' for o in octets)

    def settings(self):
        if self.r.random() < 0.5:
            fixed = self.r.choice([1, 2, 3, 255, self.r.randrange(1, 256), self.r.choice(OUTSIDE)])
            text, make = f'ft12 {fixed}', lambda: model.Ft12(fixed)
        else:
            fixed = self.r.choice([1, 15, 16, 30, self.r.randrange(1, 31), self.r.choice(OUTSIDE)])
            header = self.r.choice([1, 2, 15, self.r.randrange(1, 16), self.r.choice(OUTSIDE)])
            text, make = f'ft2 {fixed} {header}', lambda: model.Ft2(fixed, header)
        try:
            self.form = make()
        except model.Refused:
            pass
        return [text]

    def lawful(self):
        """A kind with octets that the format writes."""
        if isinstance(self.form, model.Ft12):
            kind = self.r.choice([1, 2, 2, 3, 4])
            count = {1: self.form.fixed, 2: self.r.choice([0, 1, 2, 5, 20, 255]), 3: 0, 4: 0}[kind]
            return kind, self.octets(count)
        kind = self.r.choice([1, 2])
        if kind == 1:
            return 1, self.octets(self.form.fixed)
        body = self.r.choice([0, 1, 15, self.r.randrange(16)])
        return 2, [body] + self.octets(self.form.header - 1 + body)

    def kind_and_octets(self):
        """The same, at times spoilt."""
        kind, octets = self.lawful()
        spoil = self.r.random()
        if spoil < 0.1:
            kind = self.r.choice([0, 3, 5, 255])
        elif spoil < 0.25:
            octets = octets + [7] if self.r.random() < 0.5 else octets[1:]
        elif spoil < 0.35 and octets:
            octets[0] ^= 1 << self.r.randrange(8)
        return kind, octets

    def write(self):
        out = []
        if self.form is None or self.r.random() < 0.3:
            out.append(f'markbuffer {self.r.choice([0, 10, 11, 32, 33, 100, 159, 160, 2871, 4096])}')
        if self.form is None:
            return out + ['write 1 00', 'gap']
        kind, octets = self.kind_and_octets()
        try:
            marks = len(self.form.frame(kind, octets))
        except model.Refused:
            marks = 11
        if self.r.random() < 0.4:
            out.append(f'markbuffer {max(0, marks + self.r.choice([-1, 0, 1, 5]))}')
        out.append(f'write {kind} {self.hexed(octets)}')
        if marks < 150 and self.r.random() < 0.5:
            out.append('showmarks')
        if self.r.random() < 0.2:
            out += [f'markbuffer {self.form.gap + self.r.choice([-1, 0, 3])}', 'gap', 'showmarks']
        return out

    def altered(self, marks, count):
        marks = list(marks)
        for at in self.r.sample(range(len(marks)), min(count, len(marks))):
            marks[at] = self.r.choice([m for m in model.MARKS if m != marks[at]])
        return marks

    def noise(self, count):
        style = self.r.random()
        if style < 0.3:
            return self.r.choices('01', k=count)
        if style < 0.6:
            return self.r.choices('01x', [5, 20, 1], k=count)
        return self.r.choices('01x', [1, 60, 1], k=count)

    def traffic(self):
        """Marks on a line: noise, gaps, at times one short, and frames with 0 to 5 marks altered."""
        marks = []
        for _ in range(self.r.randrange(1, 5)):
            if self.r.random() < 0.5:
                marks += self.noise(self.r.randrange(0, 120))
            marks += ['1'] * (self.form.gap + self.r.choice([-1, 0, 0, 0, 0, 1, 9]))
            kind, octets = self.lawful()
            frame = self.form.frame(kind, octets)
            marks += self.altered(frame, self.pick((0, 8), (1, 2), (2, 2), (3, 2), (4, 1), (5, 1)))
        return marks

    def characters(self):
        """A character record with frames of FT1.2 among entries of any status."""
        entries = []
        for _ in range(self.r.randrange(1, 4)):
            for _ in range(self.r.randrange(0, 5)):
                entries += [self.r.choice([0, 1, 2, 3, 3, 3, 4, 255]), self.r.randrange(256)]
            entries += [3, self.r.randrange(256)] * self.r.choice([2, 3, 3, 3, 4])
            if isinstance(self.form, model.Ft12):
                kind, octets = self.lawful()
                for octet in self.form.frame_octets(kind, octets):
                    entries += [0 if self.r.random() < 0.99 else self.r.choice([1, 2, 3, 4]), octet]
        return entries

    def sampled(self, marks):
        out = []
        for mark in marks:
            three = [mark] * 3 if mark != model.BAD else self.r.choice([['0', '1', '1'], ['x'] * 3, ['0', '0', '1']])
            out += three if self.r.random() < 0.998 else self.altered(three, 1)
        return out + ['1'] * self.r.choice([0, 1, 2])

    def record(self):
        """Chooses a line with layers, and listens to it."""
        if self.form is None:
            return ['marks 00 01 02', 'listen 3', 'state']
        if self.r.random() < 0.25:
            entries = self.characters()
            if self.r.random() < 0.1:
                entries = entries[:-1]
            return [f'characters {self.hexed(entries)}'] + self.listening(6 * len(entries))
        marks, layers = self.traffic(), []
        for _ in range(self.r.choice([0, 0, 1, 2])):
            layer = self.r.choice(['reversal', 'sampling']) if len(marks) < 3000 else 'reversal'
            layers.insert(0, layer)
            marks = self.sampled(marks) if layer == 'sampling' else [{'0': '1', '1': '0'}.get(m, m) for m in marks]
        octets = [int(m) if m != model.BAD else self.r.choice([2, 3, 0x7F, 0xFF]) for m in marks]
        return [f'marks {self.hexed(octets)}'] + layers + self.listening(len(marks))

    def listening(self, length):
        out, left = [], length + 50
        for _ in range(self.r.randrange(3, 14)):
            what = self.pick(('listen', 10), ('look', 3), ('release', 5), ('state', 3), ('odd', 2), ('show', 1))
            if what == 'listen':
                budget = self.r.choice([0, 1, 2, 10, 44, self.r.randrange(200), left, left, 65535])
                out += [f'listen {budget}'] + self.r.choice([[], [], ['release'], ['look', 'release']])
            elif what == 'odd':
                out += self.r.choice([
                    ['framebuffer 254', 'listen 5', 'look', 'release', 'state', 'framebuffer 255'],
                    ['framebuffer 256', 'listen 7'], ['receiver', 'state'], ['take 3'], ['line'],
                    ['framebuffer 0', 'look', 'framebuffer 255']])
            elif what == 'show':
                out.append('showframe')
            else:
                out.append(what)
        return out

    def nonsense(self):
        return self.r.choice([
            ['', '# a comment'], ['take'], ['take 65536'], ['take -1'], ['take 1 2'], ['marks 0'], ['marks 00 0g'],
            ['listen'], ['listen 65536'], ['write'], ['write 256'], ['write 1 0'], ['ft12'], ['ft2 3'], ['ft2 3 4 5'],
            ['look now'], ['xyzzy'], ['gap 1'], ['markbuffer'], ['framebuffer x'], ['bare'], ['reversal', 'sampling', 'bare'],
            ['help'], ['help me'], ['receiver 1'], ['state 1'], ['release 1'], ['showmarks 1'], ['showframe 1'], ['characters 00']])

    def part(self):
        what = self.pick(('settings', 2), ('write', 2), ('record', 8), ('nonsense', 1))
        return getattr(self, what)()

    def script(self, lines):
        out = []
        while len(out) < lines:
            out += self.part()
        return out[:lines]


def octets_of(marks):
    return Maker.hexed([int(m) if m != model.BAD else 2 for m in marks])


def cut_at_every_mark(settings, form, kind, octets):
    """A frame behind a gap, with the first listen's budget ending at each of its marks."""
    frame = form.frame(kind, octets)
    line = 'marks ' + octets_of(['1'] * form.gap + frame)
    out = [f'# {settings}: a frame cut at every mark', settings]
    for cut in range(len(frame) + 1):
        out += ['receiver', line, f'listen {form.gap + cut}', 'state', 'listen 65535', 'look', 'release']
    return out


def every_state_before_the_gap(settings, form, kind, octets):
    """Waiting, ready, open, holding and after a fault, each with noise; then a gap and a frame."""
    gap, frame = ['1'] * form.gap, form.frame(kind, octets)
    broken = frame[:-2] + [model.BAD]
    befores = {
        'waiting': ['0', '1', model.BAD], 'ready': gap + ['1'], 'open': gap + frame[:len(frame) // 2],
        'holding': gap + frame, 'after a fault': gap + broken + ['0', '1', '0'], 'a gap one mark short': gap + broken + gap[1:] + ['0'],
    }
    out = [settings]
    for name, before in befores.items():
        out += [f'# {name}', 'receiver', f'marks {octets_of(before)}', 'listen 65535', 'state']
        out += [f'marks {octets_of(gap + frame)}', 'listen 65535', 'release', 'listen 65535', 'state', 'look', 'release']
    return out


def cases():
    """Directed cases, the same each time."""
    ft12, ft2 = model.Ft12(2), model.Ft2(1, 2)
    out = []
    for settings, form, kind, octets in (('ft12 2', ft12, 1, [0x49, 0x01]), ('ft2 1 2', ft2, 2, [0x01, 0x05, 0x01])):
        out += cut_at_every_mark(settings, form, kind, octets)
        out += every_state_before_the_gap(settings, form, kind, octets)
    return out
