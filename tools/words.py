#!/usr/bin/env python3
"""Writes all that says the command words, from the table of options that the program has.

    tools/words.py           writes what isn't current
    tools/words.py --check   names what isn't current, and ends with 1 where something isn't

The options of each command, their ranges and defaults are read from rows.rt and options.rt of crates/alw_config/src, and the names of instructions and
directives from crates/sparc_asm/src/mnemonics.rt. What is written: the table of README.md with the forms of a run, the launcher's help, the commands and options
of docs/alewife.1, docs/completions, and tools/words.json, by which tools/explain.py explains refusals. What the sources don't tell stands below: what a command reads, writes and
does, how a text begins, and what an option is for. The scripts of tools, .ci and bench ask here.
"""
import json
import math
import re
import sys
import textwrap
from dataclasses import asdict, dataclass, field, replace

sys.dont_write_bytecode = True
from alewife import MOST_WORDS, ROOT

ROWS = ROOT / 'crates' / 'alw_config' / 'src' / 'rows.rt'
CHOOSING = ROOT / 'crates' / 'alw_config' / 'src' / 'options.rt'
LOOKUPS = ROOT / 'crates' / 'alw_config' / 'src' / 'lookups.rt'
DECLARING = ('alw_num', 'alw_image', 'alw_config')
MNEMONICS = ROOT / 'crates' / 'sparc_asm' / 'src' / 'mnemonics.rt'
README = ROOT / 'README.md'
LAUNCHER = ROOT / 'alewife'
MANUAL = ROOT / 'docs' / 'alewife.1'
BASH = ROOT / 'docs' / 'completions' / 'alewife.bash'
ZSH = ROOT / 'docs' / 'completions' / '_alewife'
TABLE = ROOT / 'tools' / 'words.json'

MOST_LISTED = 16
# The greatest cost in cycles.
MOST_COST = 2**16 - 1
GREATEST = {'u64::MAX': 2**64 - 1, 'u32::MAX': 2**32 - 1}
FORMS = {'AsmForm': 'ASM_FORMS', 'AuditForm': 'AUDIT_FORMS', 'TimeForm': 'TIME_FORMS', 'Form': 'FORMS', 'RunForm': 'FORMS', 'TimedForm': 'TIMED_FORMS'}
# The paragraph of README.md that begins with the forms of a run.
OF_FORMS = re.compile(r'^`--write` takes [^.]* of a run\. (.*?)(?=\n\n)', re.M | re.S)
# Of each command that an option makes another one of: the option, the table of options that stand open before it, and the part of the program's tables behind it.
TURNING = {'run': ('--cycles', 'UNDECIDED_OPTIONS', 'Timed')}

# Of each text that is read or written how it begins, where that tells it from others, what it is called, and how one comes by it where it is read.
KINDS = {
    'source': ('', 'source', 'a text of instructions'),
    'image': ('ALEW', 'image', 'asm, gen and examples/c/build make one'),
    'listing': ('', 'listing', ''),
    'report': ('ALEWIFE REPORT', 'report', ''),
    'json': ('{"contexts"', 'report in JSON', ''),
    'trace': ('ALEWIFE TRACE', 'trace', 'run --write trace writes one'),
    'claim': ('ALEWIFE CLAIM', 'claim', 'run --write claim writes one'),
    'summary': ('', 'summary', ''),
    'log': ('ALEWIFE LOG', 'log', ''),
    'profile': ('{"code"', 'profile', ''),
    'verdict': ('', 'verdict', ''),
    'claim_log': ('', 'log of a claim', ''),
    'checkpoint': ('ALEWIFE SAVE', 'checkpoint', 'save writes one'),
    'route': ('ALEWIFE ROUTE', 'load of wires', ''),
    'outcomes': ('ALEWIFE OUTCOMES', 'list of outcomes', ''),
    'cycles': ('ALEWIFE CYCLES', 'account of cycles', ''),
    'moments': ('ALEWIFE MOMENTS', 'list of moments', ''),
}
# Of each command what it reads, what it writes where no form is chosen, and what it does, with what comes of it behind a colon.
COMMANDS = {
    'asm': ('source', 'image', 'assembles a source: its image, or a listing'),
    'run': ('image', 'report', 'runs an image: its run'),
    'replay': ('trace', 'report', 'takes the events of a trace again: the run of its events'),
    'audit': ('claim', 'verdict', 'checks a claim on one flat memory: sound, or what differs, or what each turn does too'),
    'gen': ('', 'image', 'draws operations for each node: the image of a workload'),
    'route': ('trace', 'route', 'carries the messages of a trace hop by hop: the load of each wire'),
    'save': ('trace', 'checkpoint', 'cuts a trace: a checkpoint at a stamp'),
    'resume': ('checkpoint', 'report', 'goes on from a checkpoint: the whole run'),
    'outcomes': ('image', 'outcomes', 'takes turns in every order on one memory: all that an image can come to'),
    'schedule': ('claim', 'trace', 'has contexts take the turns of a claim in their order: the trace of that run'),
    'time': ('trace', 'cycles', 'takes the events of a trace again, with what each thing costs: how long its run takes'),
    'dis': ('image', 'source', 'writes an image back: its source'),
}
# The forms of a command that are other texts than those of their names.
OTHER = {('audit', 'log'): 'claim_log'}
# Of each form of a run what it writes, for the manual.
FORMS_TOLD = {
    'report': 'the report of the run',
    'json': 'the same as one JSON object',
    'trace': 'the image, the parameters and the events in order',
    'claim': 'the image, the turns, the printed words and the memory',
    'summary': 'the first seven lines of the report',
    'log': 'a line for each event with what it did, and where each context stands at the end',
    'profile': 'as one JSON object what is counted by node, by line and by code word',
}
ORDER, FORM, EVICT = 'the number that the order of events is drawn from', 'what is written', 'how often of 256 an eviction is tried'
POINTERS = 'hardware pointers of a directory entry, of which all is one for each node'
COSTS = {'--hit': 'cycles of an instruction', '--switch': 'more, where another slot runs than the last', '--hop': 'cycles of a message for each wire of its route',
         '--send': 'cycles that a message holds its port', '--data': 'more, with a line', '--home': 'cycles of a delivery to memory',
         '--fill': 'cycles of a delivery to a cache, or of an eviction', '--trap': 'cycles of the handler before it acts',
         '--inv': 'more, for each message that it sends behind the first', '--retry': 'the bound below which a wait after a BUSY is drawn'}
PHRASES = {
    'asm': {'--write': FORM},
    'run': {'--seed': ORDER, '--workers': 'workers on threads, in place of the schedule of a seed', '--pointers': POINTERS,
            '--sets': "sets of a node's cache", '--limit': 'the greatest stamp of an event before all contexts have halted', '--evict': EVICT, '--write': FORM,
            '--cycles': 'the timed schedule, and the number that the waits after a BUSY are drawn from', **COSTS},
    'replay': {'--write': FORM},
    'audit': {'--write': FORM},
    'gen': {'--seed': 'the number that the operations are drawn from', '--width': 'columns of the mesh', '--height': 'rows of the mesh',
            '--size': 'operations of each node'},
    'route': {'--seed': 'the number that the order of hops is drawn from'},
    'save': {'--at': 'the greatest stamp that is kept'},
    'resume': {'--seed': ORDER, '--evict': EVICT, '--write': FORM},
    'outcomes': {'--most': 'the places that are kept at most'},
    'schedule': {'--pointers': POINTERS, '--sets': "sets of a node's cache",
                 '--limit': 'the greatest stamp of an event before all contexts have halted'},
    'time': {'--seed': 'the number that the waits after a BUSY are drawn from', **COSTS, '--write': FORM},
    'dis': {},
}
OWN = {
    '--unproved': ('[WORDS..]', 'the same, and --which and --install too, by a program that nothing is proved of; without words builds it'),
    '--build': ('', 'proves and builds the program anew, and says so'),
    '--which': ('', 'says which program runs: the proved one, else one that nothing is proved of'),
    '--install': ('PREFIX', 'puts the proved program, which it builds where none stands, manual and completions below a folder'),
    '--help': ('', 'says the words in short; so do -h, help and no words, and COMMAND --help those of one command'),
    '--version': ('', 'says the version, and the commit of the checkout'),
}
# Those of the launcher's own words that stand behind --unproved too.
BEHIND_UNPROVED = ('--which', '--install')


# ---- the table


@dataclass(frozen=True)
class Option:
    """An option: its name, the choice that it makes, what it is for, the values that it takes, the default, None where it is never chosen unasked, a word that it takes
    beside a number, the option behind which alone it stands so, and those beside which it doesn't stand."""
    name: str
    choice: int
    phrase: str
    first: int = 0
    last: int = 0
    names: tuple = ()
    default: str = None
    word: str = ''
    behind: str = ''
    apart: tuple = ()

    def value(self):
        """What stands for its value."""
        return 'FORM' if self.names and not self.names[0].isdecimal() else 'N'

    def few(self):
        """Its values, where they are few enough to list."""
        numbers = range(self.first, self.last + 1 if self.last - self.first < MOST_LISTED else self.first)
        return self.names or (*map(str, numbers), *([self.word] if self.word else []))

    def values(self):
        """Which values it takes, in words."""
        if not self.names:
            return f'{self.first} to {self.last}' + (f', or {self.word}' if self.word else '')
        if self.value() == 'N':
            return f'a power of two from {self.names[0]} to {self.names[-1]}'
        return ' or '.join([', '.join(self.names[:-1]), self.names[-1]])

    def told(self):
        """What it is for, with its values, and the default in brackets."""
        return f'{self.phrase}: {self.values()}' + (f' ({self.default})' if self.default is not None else '')


@dataclass(frozen=True)
class Command:
    """A command: what it reads, what it writes, what it does, its options, and its rule over three numbers."""
    reads: str
    writes: str
    does: str
    options: tuple = ()
    behind: tuple = ()
    rule: dict = field(default_factory=dict)

    def written(self):
        """Each text that it can write, with the options that choose it."""
        forms = next((option.names for option in self.options if option.name == '--write'), ())
        written = {form: ['--write', form] for form in forms} or {self.writes: []}
        for option in self.behind:
            if option.name == '--write':
                written |= {form: [option.behind, '0', '--write', form] for form in option.names if form not in written}
        return written

    def completed(self):
        """Its options, each once, with all that it takes: those that stand open, and those behind one of them."""
        return tuple(({option.name: option for option in self.options} | {option.name: option for option in self.behind}).values())

    def rule_told(self):
        """The rule, in words."""
        named = {option.choice: option.name for option in self.options}
        one, other, third = (named[self.rule[each]] for each in ('one', 'other', 'third'))
        return f'{third} is at most {self.rule["most"]} where {one} or {other} is above {self.rule["above"]}.'


def declared(name):
    """What stands behind the equals sign of a constant."""
    texts = (file.read_text() for crate in DECLARING for file in sorted((ROOT / 'crates' / crate / 'src').glob('*.rt')))
    return next(found[1] for found in (re.search(rf'const {name}: [^=]+= (.*?);', text, re.S) for text in texts) if found)


def constant(text):
    """A number as the sources write it: in digits, as the greatest of a type, as a constant, or as a product of these."""
    bare = re.sub(r'u64::from\((.*)\)|(.*?) as u\d+', r'\1\2', text).strip()
    if '*' in bare:
        return math.prod(map(constant, bare.split('*')))
    if bare in GREATEST:
        return GREATEST[bare]
    digits = bare.replace('_', '')
    return int(digits) if digits.isdecimal() else constant(declared(bare))


def names_in(text, table):
    """The names of a table of rows."""
    body = re.search(rf'const {table}: \[[^=]*\] =\s+\[(.*?)\];', text, re.S)[1]
    return tuple(re.findall(r'b"([^"]+)"', body))


def kind_of(text, rows):
    """What a kind of values comes to, as fields of an option."""
    between = re.match(r'Between\((.*), (.*)\)', text)
    if between:
        return {'first': constant(between[1]), 'last': constant(between[2])}
    if text == 'SetCount':
        return {'names': tuple(str(constant(count)) for count in declared('SET_COUNTS').strip('[]').split(','))}
    if text in FORMS:
        return {'names': names_in(rows, FORMS[text])}
    if text == 'Pointers':
        return {'first': 1, 'last': constant('FEW_POINTERS'), 'word': 'all'}
    bounds = re.search(rf'Kind::{text} => [^;]*?number_between\(word, (.*?), (.*?)\)\?', LOOKUPS.read_text(), re.S)
    if not bounds:
        sys.exit(f'words: {LOOKUPS.relative_to(ROOT)} has no bounds for the kind {text}')
    return {'first': constant(bounds[1]), 'last': constant(bounds[2])}


def said_of(phrases, name):
    """What this script says of a command or an option."""
    if name not in phrases:
        sys.exit(f'words: {ROWS.relative_to(ROOT)} has {name}, of which tools/words.py says nothing')
    return phrases[name]


def default_of(text):
    """A default, as a word: Value::Number(4), Value::How(How::Seed(0)) or Value::Form(Form::Report)."""
    inner = re.search(r'\((?:\w+::\w+\()?(?:\w+::(?!MAX))?([\w:]+(?: as u64)?)\)', text)[1]
    return inner.lower() if inner.isalpha() else str(constant(inner))


def table_of(rows, command, kind):
    """The rows of a command's table of options or of defaults. Commands without any share one."""
    open_first = TURNING[command][1] if command in TURNING and kind == 'OPTIONS' else None
    name = open_first or re.search(rf'Name::{command.capitalize()} => &(\w+_{kind}),', CHOOSING.read_text())[1]
    body = re.search(rf'const {name}: [^=]*= \[(.*?)\];', rows, re.S)[1]
    alone = {row: text for row, text in re.findall(r'^(?:pub\(crate\) )?const (\w+): Row<Meaning> = (\(.*?^\));', rows, re.S | re.M)}
    return re.sub(r'\b[A-Z][A-Z_]+\b(?=,|\s*$)', lambda found: alone.get(found[0], found[0]), body)


def options_of(rows, command, said=None):
    """The options of a command. A default is that of the first option that makes its choice."""
    body = table_of(rows, command, 'OPTIONS')
    defaults = re.findall(r'Value::\w+\((?:[^()]|\([^()]*\))*\)', table_of(rows, command, 'DEFAULTS'))
    made, seen = [], set()
    for option, choice, kind in re.findall(r'b"(--\w+)",\s*Meaning \{\s*choice: (\d+),\s*kind: Kind::(\w+(?:\([^)]*\))?),', body):
        default = None if choice in seen or int(choice) >= len(defaults) else default_of(defaults[int(choice)])
        seen.add(choice)
        made.append(Option(option, int(choice), said_of(PHRASES.get(said or command, {}), option), default=default, **kind_of(kind, rows)))
    return tuple(made)


def turned_of(rows, name, options):
    """The options of a command, each with those beside which it doesn't stand, and those that stand only, or otherwise, behind the option that turns it."""
    if name not in TURNING:
        return options, ()
    turning, _, part = TURNING[name]
    behind = options_of(rows, part, name)
    lost = tuple(option.name for option in options if option.name not in {other.name for other in behind})
    apart = {turning: lost, **{other: (turning,) for other in lost}}
    options = tuple(replace(option, apart=apart.get(option.name, ())) for option in sorted(options, key=lambda option: option.name == turning))
    return options, tuple(replace(option, behind=turning) for option in behind if option not in options and option.name != turning)


def rule_of(rows, command):
    """The rule of a command over its numbers, where it has one."""
    body = re.search(rf'const {command.upper()}_RULE: Rule = Rule \{{(.*?)\}};', rows, re.S)
    return {name: int(number) for name, number in re.findall(r'(\w+): (\d+)', body[1])} if body else {}


def command_of(rows, name):
    """A command, of which each text has a row, which writes its default form, and of which a colon parts what it does and what comes of it."""
    command = Command(*said_of(COMMANDS, name), *turned_of(rows, name, options_of(rows, name)), rule_of(rows, name))
    for kind in filter(None, (command.reads, *command.written())):
        said_of(KINDS, kind)
    if command.writes != next((option.default for option in command.options if option.name == '--write'), command.writes):
        sys.exit(f'words: {name} writes another form than {command.writes}, which tools/words.py says')
    if ': ' not in command.does:
        sys.exit(f'words: tools/words.py says what {name} does, and not behind a colon what comes of it')
    return command


def read_table():
    """The commands, in their order."""
    rows = ROWS.read_text()
    return {name: command_of(rows, name) for name in names_in(rows, 'COMMANDS')}


def read_names():
    """The names of instructions and of directives."""
    text = MNEMONICS.read_text()
    return names_in(text, 'MNEMONICS'), names_in(text, 'DIRECTIVES')


# ---- what is written


def table_page(commands):
    """tools/words.json: the table for what reads it as data."""
    mnemonics, directives = read_names()
    kinds = {name: dict(zip(('title', 'called', 'made'), row)) for name, row in KINDS.items()}
    data = {'mnemonics': mnemonics, 'directives': directives, 'most_words': MOST_WORDS, 'kinds': kinds, 'commands': {}}
    for name, command in commands.items():
        options = [{**asdict(option), 'values': option.values()} for option in command.options + command.behind]
        data['commands'][name] = {'reads': command.reads, 'options': options, 'rule': command.rule_told() if command.rule else '', 'bounds': command.rule}
    return '{\n' + ',\n'.join(f'"{name}": ' + json.dumps(value) for name, value in data.items()) + '\n}\n'


WIDTH = 50


def help_page(commands):
    """The lines of the help: of each command what it reads and does, a line for each of its options, and its rule; then the launcher's own words."""
    lines = []
    for name, command in commands.items():
        call = f'  alewife {name}' + (' [OPTION VALUE]..' if command.options else '') + (f' < {command.reads.upper()}' if command.reads else '')
        lines.append(f'{call:<{WIDTH}} {command.does}')
        lines += [f'      {option.name + " " + option.value():<15} {option.told()}' for option in command.options]
        lines += [f'    {command.rule_told().removesuffix(".")}'] if command.rule else []
        lines += [f'    behind {command.behind[0].behind}:'] if command.behind else []
        lines += [f'      {option.name + " " + option.value():<15} {option.told()}' for option in command.behind]
    lines += [f'{f"  alewife {name} {value}":<{WIDTH}} {phrase}' for name, (value, phrase) in OWN.items()]
    return '\n'.join(lines) + '\n'


def bold(text):
    """A text in bold letters, for the manual."""
    return f'\\fB{text}\\fR'.replace('-', '\\-')


def synopsis(commands):
    """How the commands are called, for the manual: options in brackets, with | between those that make one choice."""
    calls = []
    for name, command in commands.items():
        alike = {}
        for option in command.options:
            alike.setdefault(option.choice, []).append(f'{bold(option.name)} \\fI{option.value().lower()}\\fR')
        words = [bold(f'alewife {name}'), *(f'[{" | ".join(options)}]' for options in alike.values())]
        words += [f'[{bold(option.name)} \\fI{option.value().lower()}\\fR]' for option in command.completed() if option.behind and option.choice not in alike]
        calls.append(' '.join(words + ([f'< \\fI{command.reads}\\fR'] if command.reads else [])))
    calls += [' '.join([bold(f'alewife {name}'), *([f'\\fI{value.lower()}\\fR'] if value else [])]) for name, (value, _) in OWN.items()]
    return '\n.br\n'.join(calls) + '\n'


def option_lines(options):
    """The lines of options, for the manual."""
    lines = []
    for option in options:
        phrase = option.phrase[0].upper() + option.phrase[1:]
        default = f' Default {option.default}.' if option.default is not None else ''
        not_with = f' Not with {" or ".join(map(bold, option.apart))}.' if option.apart else ''
        lines += ['.TP', f'.BI \\-\\-{option.name[2:]} " {option.value().lower()}"', f'{phrase}: {option.values()}.{default}{not_with}']
    return lines


def manual_page(commands):
    """The options of the manual."""
    lines = []
    for name, command in commands.items():
        if not command.options:
            continue
        lines += [f'.SH OPTIONS OF {name.upper()}']
        lines += option_lines(command.options)
        if command.behind:
            lines += ['.PP', f'Behind {bold(command.behind[0].behind)}, and only there:', *option_lines(command.behind)]
        if command.rule:
            lines += ['.PP', command.rule_told().replace('-', '\\-')]
    return '\n'.join(lines) + '\n'


BASH_HEAD = '''# Completions of alewife for bash: source this file. tools/words.py writes it.

_alewife() {
    local word=${COMP_WORDS[COMP_CWORD]} before=${COMP_WORDS[COMP_CWORD-1]} at=1 words=
    [ "${COMP_WORDS[1]}" = --unproved ] && at=2
    case $COMP_CWORD:$before in
    *:[\\<\\>]*) ;;
    "$at":*)
        words='%(commands)s'
        if [ "$at" = 1 ]; then words="$words help %(own)s"; else words="$words %(behind)s"; fi
        ;;
    *)
        case ${COMP_WORDS[at]}:$before in
'''
BASH_TAIL = '''        esac
        ;;
    esac
    mapfile -t COMPREPLY < <(compgen -W "$words" -- "$word")
}

complete -o default -F _alewife alewife ./alewife
'''


def bash_page(commands):
    """The completions for bash. Where they have nothing, as behind < and >, files are completed, but for numbers."""
    lines = []
    for name, command in commands.items():
        options = command.completed()
        names = [option.name for option in options]
        numbers = [f'{name}:{option.name}' for option in options if not option.few()]
        lines.append(f"        {name}:{name}) words='{' '.join([*names, '--help'])}' ;;")
        lines += [f"        {name}:{option.name}) words='{' '.join(option.few())}' ;;" for option in options if option.few()]
        lines += [f'        {" | ".join(numbers)}) compopt +o default ;;'] if numbers else []
        lines += [f"        {name}:*) words='{' '.join(names)}' ;;"] if names else []
    head = BASH_HEAD % {'commands': ' '.join(commands), 'own': ' '.join(OWN), 'behind': ' '.join(BEHIND_UNPROVED)}
    return head + '\n'.join(lines) + '\n' + BASH_TAIL


ZSH_PAGE = '''#compdef alewife
# Completions of alewife for zsh: put this folder on fpath, before compinit. tools/words.py writes it.

_alewife_command() {
    case $words[1] in
%(cases)s    *)
        _files
        ;;
    esac
}

_alewife() {
    local -a commands=(
%(commands)s    )
    local -a own=(
%(own)s    )
    if (( CURRENT == 2 )); then
        _describe 'what to do' commands -- own
    elif [[ $words[2] == --unproved ]] && (( CURRENT == 3 )); then
        own=(${(M)own:#(%(behind)s):*})
        _describe 'what to do' commands -- own
    else
        [[ $words[2] == --unproved ]] && shift words && (( CURRENT-- ))
        shift words && (( CURRENT-- ))
        _alewife_command
    fi
}

_alewife "$@"
'''


def zsh_option(option, others):
    """An option for _arguments: the others that make the same choice, its phrase, and its values."""
    apart, phrase = f'({" ".join(others)})' if others else '', option.phrase.replace("'", "'\\''")
    values = f'{option.name[2:]}:({" ".join(option.few())})' if option.few() else f'{option.values()}: '
    return f"'{apart}{option.name}[{phrase}]:{values}'"


def zsh_page(commands):
    """The completions for zsh."""
    cases = ''
    for name, command in commands.items():
        options = command.completed()
        words = [zsh_option(option, [other.name for other in options if other != option and other.choice == option.choice] + [*option.apart]) for option in options]
        cases += f'    {name})\n        _arguments ' + ' \\\n            '.join([*words, "'--help[say the words of this command]'"]) + '\n        ;;\n'
    described = ''.join(f"        '{name}:{command.does.replace(':', chr(92) + ':')}'\n" for name, command in commands.items())
    own = ''.join(f"        '{name}:{phrase}'\n" for name, (_, phrase) in OWN.items())
    return ZSH_PAGE % {'cases': cases, 'commands': described, 'own': own, 'behind': '|'.join(BEHIND_UNPROVED)}


def paragraphs(commands, before):
    """The manual's paragraph of each command: as it was before, and where there was none what the command does."""
    kept = dict(re.findall(r'^\.TP\n\.B (\w+)\n(.*?)(?=^\.TP$|\Z)', before, re.M | re.S))
    return ''.join(f'.TP\n.B {name}\n' + kept.get(name, f'{command.does[0].upper()}{command.does[1:]}.\n') for name, command in commands.items())


def option_cell(options):
    """The options that make one choice, for a table, the last with its values where two are all that it has."""
    names = [f'`{option.name}`' for option in options]
    names = ' or '.join([', '.join(names[:-1]), names[-1]] if names[1:] else names)
    return f'{names[:-1]} {"` or `".join(options[-1].names)}`' if len(options[-1].names) == 2 else names


def option_cells(options):
    """The options of a command, for a table, by the choices that they make. One that stands beside no other of a choice goes with it, those behind it are left
    out, and forms that the text below lists; of costs the first and the last stand for all."""
    options = [option for option in options if option.name != '--write' or len(option.names) == 2 or len(options) == 1]
    options = [replace(option, choice=options[0].choice) if options[0].name in option.apart and not option.behind else option for option in options]
    costs = [option for option in options if option.last == MOST_COST]
    behind = [option for option in costs if option.behind]
    for choice in dict.fromkeys(option.choice for option in options if option not in (behind or costs[1:])):
        alike = [option for option in options if option.choice == choice]
        yield f'costs `{costs[0].name}` to `{costs[-1].name}`' if alike == costs[:1] else option_cell(alike)


def overview(commands):
    """The rows of README.md's table: what each command reads and writes, and its options."""
    rows = ''
    for name, command in commands.items():
        reads = f'{"an" if command.reads[0] in "aeiou" else "a"} {command.reads}' if command.reads else 'nothing'
        cells = f'`{name}`', reads, command.does.partition(': ')[2], ', '.join(option_cells(command.completed()))
        rows += f'| {" | ".join(cells).rstrip()} |\n'
    return rows


def forms_of_runs(commands):
    """The forms of a run."""
    return next(option.names for option in commands['replay'].options if option.name == '--write')


def with_forms(text, commands):
    """README.md with the forms of a run in the paragraph that begins with them."""
    *names, last = forms_of_runs(commands)
    said = f'`--write` takes {", ".join(f"`{name}`" for name in names)} or `{last}` of a run.'
    return OF_FORMS.sub(lambda found: textwrap.fill(f'{said} {found[1]}', 119, break_on_hyphens=False), text)


def form_lines(commands):
    """What each form of a run writes, for the manual: the default first, each with its word in bold letters."""
    told = [(name, said_of(FORMS_TOLD, name)) for name in forms_of_runs(commands)]
    (first, phrase), *others = told
    lines = [f'.B \\-\\-write {first}', f'(the default) writes {phrase},', *(f'.B {name}\n{phrase},' for name, phrase in others)]
    lines[-2:] = [f'{lines[-2]} and', f'{lines[-1][:-1]}.']
    return '\n'.join(lines) + '\n'


def between(text, first, last, middle):
    """A text with another middle between two marks, of which the first stays before it and the last behind it."""
    before, mark, rest = text.partition(first)
    _, end, behind = rest.partition(last)
    return before + mark + middle + end + behind


def manual(commands):
    """The manual, with how the commands are called, what they do, and their options."""
    called = between(MANUAL.read_text(), '.SH SYNOPSIS\n', '.SH DESCRIPTION', synopsis(commands))
    first, last = '.SH COMMANDS\n', '.PP\nOptions come'
    described = between(called, first, last, paragraphs(commands, called.partition(first)[2].partition(last)[0]))
    told = between(described, 'at most as many workers as nodes.\n', 'With\n.B \\-\\-cycles', form_lines(commands))
    return between(told, '.\\" tools/words.py writes the synopsis, the first words of a command, the forms of a run, and the options.\n', '.SH WORDS OF THE LAUNCHER', manual_page(commands))


def pages():
    """All that is written: each file with its text."""
    commands = read_table()
    return {
        README: with_forms(between(README.read_text(), '| command | reads | writes | options |\n|---|---|---|---|\n', '\n`--write` takes', overview(commands)), commands),
        LAUNCHER: between(LAUNCHER.read_text(), 'multiprocessor, proved\n\n', '\nThe first run', help_page(commands)),
        MANUAL: manual(commands),
        BASH: bash_page(commands),
        ZSH: zsh_page(commands),
        TABLE: table_page(commands),
    }


def main(arguments):
    """Writes the files that aren't current, or names them."""
    stale = {file: text for file, text in pages().items() if not file.exists() or file.read_text() != text}
    for file, text in stale.items():
        if arguments == ['--check']:
            print(f"{file.relative_to(ROOT)}: isn't what tools/words.py writes")
        else:
            file.write_text(text)
    return 1 if stale and arguments == ['--check'] else 0


if __name__ == '__main__':
    sys.exit(main(sys.argv[1:]))
