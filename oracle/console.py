"""What the console should answer to each line, by docs/CONSOLE.md."""

import re

import model

HELP = ('commands: marks HH.., characters HH.., reversal, sampling, bare, take N, line, ft12 F, ft2 F H, receiver, '
        'markbuffer N, framebuffer N, write K HH.., gap, showmarks, showframe, listen B, look, release, state, help')

REFUSALS = {
    1: 'a setting is outside its limits',
    2: 'odd number of octets',
    3: 'frame buffer has fewer than 255 octets',
    4: 'a frame is held',
    5: 'no frame is held',
    6: 'no such kind',
    7: 'octet count does not suit the kind',
    8: 'first octet does not suit the octet count',
    9: 'mark buffer too short',
}


class Misread(Exception):
    pass


def octets_of(words):
    for word in words:
        if not re.fullmatch('[0-9a-fA-F]{2}', word):
            raise Misread(f'bad octet {word}, an octet is two hex digits')
    return [int(word, 16) for word in words]


def number_of(words, top=65535):
    if not words:
        raise Misread(f'missing number, 0 to {top}')
    if not re.fullmatch('[+]?[0-9]+', words[0]):
        raise Misread(f'bad number {words[0]}, 0 to {top}')
    if int(words[0]) > top:
        raise Misread(f'number {words[0]} out of range, 0 to {top}')
    return int(words[0])


def no_more(words):
    if words:
        raise Misread(f'extra word {words[0]}')


def hexed(octets):
    return ': ' + ' '.join(f'{o:02X}' for o in octets) if octets else ''


class Console:
    def __init__(self):
        self.line = model.mark_record([])
        self.form = None
        self.receiver = None
        self.mark_buffer = [0xFF] * 4096
        self.frame_buffer = [0xFF] * 255

    def answer(self, text):
        words = text.split()
        if not words or words[0].startswith('#'):
            return ''
        act = getattr(self, 'do_' + words[0], None) if re.fullmatch('[a-z0-9]+', words[0]) else None
        try:
            if act is None:
                raise Misread(f'unknown command {words[0]}, see help')
            return act(words[1:])
        except Misread as misread:
            return f'error: {misread}'
        except model.Refused as refused:
            return f'refused {refused.number}: {REFUSALS[refused.number]}'

    def choose(self, name, make, words):
        octets = octets_of(words)
        self.line = make(octets)
        return f'ok {name}, {len(octets)} octets'

    def do_marks(self, words):
        return self.choose('marks', model.mark_record, words)

    def do_characters(self, words):
        return self.choose('characters', model.character_record, words)

    def layers(self):
        line, count = self.line, 0
        while not isinstance(line, model.Record):
            line, count = line.below, count + 1
        return count

    def put(self, layer, words):
        no_more(words)
        if self.layers() == 2:
            raise Misread(f'two layers at most, the line is {self.line.describe()}')
        self.line = layer(self.line)
        return f'ok {self.line.describe()}'

    def do_reversal(self, words):
        return self.put(model.Reversal, words)

    def do_sampling(self, words):
        return self.put(model.Sampling, words)

    def do_bare(self, words):
        no_more(words)
        if self.layers() == 0:
            raise Misread(f'no layer to take off, the line is {self.line.describe()}')
        kept = getattr(self.line, 'kept', [])
        self.line = self.line.below
        given_up = f', kept {"".join(kept)} given up' if kept else ''
        return f'ok {self.line.describe()}{given_up}'

    def do_take(self, words):
        count = number_of(words)
        no_more(words[1:])
        marks = []
        while len(marks) < count:
            mark = self.line.take()
            if mark is None:
                break
            marks.append(mark)
        shown = f': {"".join(marks)}' if marks else ''
        return f'took {len(marks)}{shown}' + (', none left' if len(marks) < count else '')

    def do_line(self, words):
        no_more(words)
        return f'ok {self.line.describe()}'

    def do_help(self, words):
        no_more(words)
        return HELP

    def set_up(self, form):
        self.form = form
        self.receiver = model.Receiver(form)
        return f'ok {form.describe()}, gap {form.gap}, distance {form.distance}'

    def do_ft12(self, words):
        fixed = number_of(words)
        no_more(words[1:])
        return self.set_up(model.Ft12(fixed))

    def do_ft2(self, words):
        fixed = number_of(words)
        header = number_of(words[1:])
        no_more(words[2:])
        return self.set_up(model.Ft2(fixed, header))

    def formed(self):
        if self.form is None:
            raise Misread('no format, choose ft12 or ft2')

    def do_receiver(self, words):
        no_more(words)
        self.formed()
        self.receiver = model.Receiver(self.form)
        return 'ok receiver'

    def do_markbuffer(self, words):
        count = number_of(words)
        no_more(words[1:])
        self.mark_buffer = [0xFF] * count
        return f'ok mark buffer, {count} octets'

    def do_framebuffer(self, words):
        count = number_of(words)
        no_more(words[1:])
        self.frame_buffer = [0xFF] * count
        return f'ok frame buffer, {count} octets'

    def fill(self, marks):
        if len(self.mark_buffer) < len(marks):
            raise model.Refused(9)
        self.mark_buffer[:len(marks)] = [int(m) for m in marks]
        return f'wrote {len(marks)}: {"".join(marks)}'

    def do_write(self, words):
        kind = number_of(words, 255)
        octets = octets_of(words[1:])
        self.formed()
        return self.fill(self.form.frame(kind, octets))

    def do_gap(self, words):
        no_more(words)
        self.formed()
        return self.fill(['1'] * self.form.gap)

    def do_showmarks(self, words):
        no_more(words)
        return f'mark buffer, {len(self.mark_buffer)} octets{hexed(self.mark_buffer)}'

    def do_showframe(self, words):
        no_more(words)
        return f'frame buffer, {len(self.frame_buffer)} octets{hexed(self.frame_buffer)}'

    def do_listen(self, words):
        budget = number_of(words)
        no_more(words[1:])
        self.formed()
        taken, end = self.receiver.listen(self.line, self.frame_buffer, budget)
        if end[0] == 'frame':
            return f'heard {taken}: frame, kind {end[1]}, {end[2]} octets'
        if end[0] == 'fault':
            return f'heard {taken}: fault {end[1]}, {end[2]}, place {end[3]}'
        return f'heard {taken}: {end[0]}'

    def do_look(self, words):
        no_more(words)
        self.formed()
        octets = self.receiver.look(self.frame_buffer)
        return f'{len(octets)} octets{hexed(octets)}'

    def do_release(self, words):
        no_more(words)
        self.formed()
        self.receiver.release()
        return 'ok released'

    def do_state(self, words):
        no_more(words)
        self.formed()
        return f'{self.receiver.state}, run {self.receiver.run}'
