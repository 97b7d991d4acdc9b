"""What a page tells beside the states: statements and their lines of the source, names of lines, counts, reasons and printed words."""
import misses
from alewife import LINE_BYTES, SHARED
from machine import DIGITS

COUNTED = ('misses', 'INV', 'BUSY', 'handlers')


def counted(event):
    """What an event adds to the counts, as pairs of a count's place and a line."""
    if event.letter == 'H':
        yield COUNTED.index('handlers'), event.said['line']
    if event.letter == 'I' and event.said['misses'] is not None:
        yield COUNTED.index('misses'), event.said['misses']
    for kind, line, _ in event.sends:
        if kind in COUNTED:
            yield COUNTED.index(kind), str(line)


class Told:
    """What the events so far tell: the statement at each PC, the lines that are spoken of, the counts of each line, those up to a stamp too, the printed
    words as [stamp, context, word], and by stamp and node the reason of each miss, and for whose access each INV is."""

    def __init__(self, head, first):
        self.head, self.first, self.story = head, first, misses.Story(head)
        self.statements, self.lines, self.whole, self.before, self.prints, self.reasons = {}, set(), {}, {}, [], {}

    def take(self, event):
        """Takes an event."""
        said, stamp = event.said, event.stamp
        if event.letter == 'I':
            self.statements[said['pc']] = said['statement']
            if said['prints'] is not None:
                self.prints.append([stamp, event.number('node') * self.head.contexts + event.number('slot'), said['prints']])
        why = self.story.take(event)
        if why:
            self.reasons[stamp, said['node']] = why
        self.lines.update(str(line) for _, line, _ in event.sends)
        self.lines.update(filter(None, map(said.get, ('line', 'misses', 'replaced'))))
        for place, line in counted(event):
            for counts in [self.whole] + [self.before] * (stamp <= self.first):
                counts.setdefault(line, [0] * len(COUNTED))[place] += 1

    def data(self, code, ends):
        """All of it but the reasons, as a page has it."""
        statements = self.statements | {f'0x{context.pc:08x}': context.statement for context in ends}
        shown = code.shown(sorted(int(pc, 16) for pc in statements))
        names = {line: code.line_name(SHARED + LINE_BYTES * int(line)) for line in sorted(self.lines, key=int)}
        return {'statements': {DIGITS.sub(r'x\1', pc): list(shown.get(int(pc, 16), (text, ''))) for pc, text in sorted(statements.items())},
                'names': {line: name for line, name in names.items() if name}, 'counted': COUNTED, 'before': self.before, 'whole': self.whole,
                'prints': sorted(self.prints)}


def told_of(log, first):
    """What the events of a log tell, with the counts up to a stamp."""
    told = Told(log.head, first)
    for event in log.events():
        told.take(event)
    return told
