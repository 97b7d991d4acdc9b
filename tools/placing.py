"""Where the variables of a program in C lie by `build --spread`.

Each context has a part of the home of its node, and all parts are equally long. First in a part are the elements of its context of arrays that are
declared by EACH of alewife.h, behind them variables, and at its end is the stack. The other members of a variable with such an array are in
the first part. All other variables lie at one home after another, each beginning a line.
"""
import re
from collections import namedtuple
from dataclasses import dataclass, field

from alewife import LINE_BYTES, SHARED

# EACH aligns what it declares to more than a line, and so the section of the variable that has it.
OF_LINE = LINE_BYTES.bit_length() - 1
SECTION = re.compile(r' *\d+ (\.(?:rodata|data|bss)\S*) +([0-9a-f]+) .* 2\*\*(\d+)')
# What the linker script says of variables and stacks.
VARIABLES = re.compile(r'    \.data : .*?(?=\n    /\* Any section)', re.S)
Section = namedtuple('Section', 'file name size alignment')


def sections_of(file, text):
    """The sections with variables that objdump tells of an object file, each with its size in bytes and the logarithm of its alignment."""
    found = (Section(file, row[1], int(row[2], 16), int(row[3])) for row in map(SECTION.match, text.splitlines()) if row)
    return [section for section in found if section.size]


def whole_lines(count):
    """The bytes of the lines that so many bytes take."""
    return -(-count // LINE_BYTES) * LINE_BYTES


@dataclass
class Plan:
    """Where sections lie: the sizes of the machine, the sections by their addresses, the bytes that elements take of each part, and those that are
    taken of it in all."""
    sizes: tuple
    placed: dict = field(default_factory=dict)
    shared: int = 0
    taken: list = field(default_factory=list)

    @property
    def part(self):
        """The bytes of a part. A home's lines have to be as many for each of its contexts."""
        return LINE_BYTES * self.sizes.lines // self.sizes.contexts

    @property
    def stack(self):
        """The bytes of a stack: what the fullest part has left."""
        return max(self.part - max(self.taken), 0)

    def lines(self, stack):
        """How many lines a node it takes to have stacks of so many bytes."""
        return (max(self.taken) + whole_lines(stack)) // LINE_BYTES * self.sizes.contexts

    def put(self, section, context):
        """Puts a section behind what lies in the part of a context."""
        self.placed[SHARED + context * self.part + self.taken[context]] = section
        self.taken[context] += whole_lines(section.size)


def plan_of(sizes, sections):
    """Where sections lie on a machine."""
    nodes, first = sizes.width * sizes.height, 0
    plan = Plan(sizes)
    for section in (each for each in sections if each.alignment > OF_LINE):
        first = -(-first >> section.alignment) << section.alignment
        plan.placed[SHARED + first] = section
        first += whole_lines(section.size)
    plan.shared, plan.taken = first, [first] * (nodes * sizes.contexts)
    for number, section in enumerate(each for each in sections if each.alignment <= OF_LINE):
        plan.put(section, (number + 1) % nodes * sizes.contexts)
    return plan


def script_of(plan, text):
    """The linker script, from that of variables that lie one behind another. What comes first makes the section one that has bytes."""
    lines = [f'. = {address - SHARED:#x}; "{section.file}"({section.name})' for address, section in sorted(plan.placed.items())]
    placed = '\n        '.join(['*start.o(.data)', *lines, '*(.data .bss)'])
    said = f'each_end = {SHARED + plan.shared};\n    data_end = shared_end;\n    stack_size = {plan.stack};\n'
    return VARIABLES.sub(lambda _: f'    .data : {{\n        {placed}\n    }}\n    {said}', text)
