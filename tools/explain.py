"""What the launcher says below a refusal of the program: explain.py STATUS LINE PLACE WORDS..
Before there is a program, whether it would refuse the words, which ends with 2: explain.py words '' '' WORDS..

STATUS is 2 for refused words, 3 for a refused input and 8 for want of memory, LINE is what the program wrote to standard error, PLACE is where
standard input stood before it read, as far as that is known, and WORDS are the program's words. Writes the lines that say more, or none. Standard
input is read again where it is a regular file.
The words that the program has are in words.json, beside this file.
"""
import json
import os
import re
import stat
import sys
from pathlib import Path

TABLE = json.loads((Path(__file__).resolve().parent / 'words.json').read_text())
KINDS, COMMANDS, MOST_WORDS = TABLE['kinds'], TABLE['commands'], TABLE['most_words']
STATEMENTS = {*TABLE['mnemonics'], *(f'.{name}' for name in TABLE['directives'])}
MOST_READ = 16 << 20
MOST_SHOWN = 100
MOST_LINE = 1000


def shown(word):
    """A word as it can be shown in a line."""
    word = word if word.isprintable() and word else ascii(word)
    return word if len(word) <= MOST_SHOWN else word[:MOST_SHOWN] + '..'


def listed(names, last='and'):
    """Names in a row."""
    return f' {last} '.join(part for part in (', '.join(names[:-1]), names[-1]) if part) if names else ''


def a(noun):
    """A noun with its article."""
    return f'{"an" if noun[0].lower() in "aeiou" else "a"} {noun}'


def takers(kind):
    """The commands that take a kind of input."""
    return [name for name, command in COMMANDS.items() if command['reads'] == kind]


# ---- refused words


def options_behind(command, before):
    """The options of a command that stand open behind some words, by name: one that stands so behind another alone goes before it."""
    named = {}
    for option in COMMANDS[command]['options']:
        if not option['behind'] or option['behind'] in before[1::2]:
            named[option['name']] = option
    return named


def of_unknown_option(word, command, options):
    """Why a word is none of the options of a command that stand open."""
    name, equals, value = word.partition('=')
    names, reads = list(options), COMMANDS[command]['reads']
    behind = next((option['behind'] for option in COMMANDS[command]['options'] if option['name'] == word and option['behind']), None)
    if behind:
        return f'{shown(word)}: behind {behind} alone'
    if equals and name in names:
        return f'{shown(word)}: a value stands behind its option, as {name} {shown(value)}'
    if word.startswith('--') or not reads:
        return f'{shown(word)}: {command} has ' + (f'the option{"" if len(names) == 1 else "s"} {listed(names)}' if names else 'no options')
    return f'{shown(word)}: input comes by <, as {command} < {shown(word)}'


def of_word(at, words):
    """Why the word at a place is refused."""
    if at >= len(words) and at % 2 or not words:
        return None
    if at == 0:
        return f'{shown(words[0])} is no command; the commands are {listed(list(COMMANDS))}, and --help says more'
    command = words[0]
    options = options_behind(command, words[:at] if at % 2 else words[:at - 1])
    if at % 2:
        option = options.get(words[at])
        if option is None:
            return of_unknown_option(words[at], command, options)
        other = next(name for name in words[1:at:2] if options[name]['choice'] == option['choice'] or name in option['apart'])
        return f'{words[at]} stands twice' if other == words[at] else f'{words[at]}: not with {other}'
    option = options[words[at - 1]]
    if at == len(words):
        return f'{option["name"]} wants a value: {option["values"]}'
    return of_value(words[at], option, COMMANDS[command]['rule'])


def of_value(word, option, rule):
    """Why a word is no value of an option. A number in its range is against the command's rule."""
    if option['names'] or option['word']:
        return f'{shown(word)}: {option["name"]} is {option["values"]}'
    if not (word.isascii() and word.isdecimal()):
        return f'{shown(word)}: {option["name"]} is a number, {option["values"]}'
    if word != str(int(word)):
        return f'{shown(word)}: {option["name"]} is {option["values"]}, without leading zeros'
    if option['first'] <= int(word) <= option['last']:
        return f'{shown(word)}: {rule}'.rstrip('.')
    return f'{shown(word)}: {option["name"]} is {option["values"]}'


def is_value(word, option):
    """Whether a word is a value of an option."""
    if option['names'] or word == option['word'] != '':
        return word in option['names'] or word == option['word'] != ''
    return word.isascii() and word.isdecimal() and word == str(int(word)) and option['first'] <= int(word) <= option['last']


def place_against(rule, chosen, words):
    """The place of the number that is against a command's rule, or None. Chosen is where the value of each choice stands."""
    value = {choice: int(words[at]) for choice, at in chosen.items() if words[at].isdecimal()}
    is_above = rule and any(value.get(rule[name], 0) > rule['above'] for name in ('one', 'other'))
    return chosen[rule['third']] if is_above and value.get(rule['third'], 0) > rule['most'] else None


def refused_place(words):
    """The place of the first word that the program would refuse, or None."""
    if not words or words[0] not in COMMANDS:
        return 0
    command, chosen = COMMANDS[words[0]], {}
    for at in range(1, len(words), 2):
        option = options_behind(words[0], words[:at]).get(words[at])
        if option is None or option['choice'] in chosen or any(name in option['apart'] for name in words[1:at:2]):
            return at
        if at + 1 == len(words) or not is_value(words[at + 1], option):
            return at + 1
        chosen[option['choice']] = at + 1
    return place_against(command['bounds'], chosen, words) if command['bounds'] else None


# ---- refused inputs


TITLES = {kind['title'].encode(): name for name, kind in KINDS.items() if kind['title']} | {b'\x7fELF': 'ELF file'}
AT_THE_START = ('image byte 0: magic', 'image byte 0: short', 'text line 1: syntax')
LISTING = re.compile(rb'[0-9a-f]{8} [0-9a-f]{8} [0-9]+$', re.M)
LABEL = re.compile(r'\s*(?:[A-Za-z_]\w*\s*:)?\s*')
STATEMENT = re.compile(r'\.?[A-Za-z_]\w*')
C_SOURCE = re.compile(rb'^\s*#\s*include\b|^(?:static |const |inline )*(?:void|int|unsigned|uint32_t)\s+\w+\s*\(', re.M)


def first_statement(text):
    """The first word of a source that is no label, or None."""
    for line in text.splitlines():
        match = STATEMENT.match(line.partition('!')[0], LABEL.match(line.partition('!')[0]).end())
        if match:
            return match[0]
    return None


def kind_of(data, command):
    """What an input looks like, or None. What asm refuses may be a source of which no line is known."""
    if not data:
        return 'empty'
    for title in sorted(TITLES, key=len, reverse=True):
        if data.startswith(title):
            return TITLES[title]
    if LISTING.match(data):
        return 'listing'
    is_text = command == 'asm' and b'\0' not in data
    if is_text or first_statement(data[:1 << 16].decode(errors='replace')) in STATEMENTS:
        return 'source'
    return 'C source' if C_SOURCE.search(data) else None


def taken(command):
    """What a command takes, and how one comes by it."""
    wanted = KINDS[COMMANDS[command]['reads']]
    return f'{command} takes {a(wanted["called"])}: {wanted["made"]}'


def wanted(kind):
    """That a kind of input is wanted, and how one comes by it."""
    return f'{a(KINDS[kind]["called"])} is wanted: {KINDS[kind]["made"]}'


def of_kind(kind, takes):
    """That an input isn't what is taken, which a text says."""
    if kind == 'empty':
        return f'the input is empty; {takes}'
    called, others = KINDS[kind]['called'] if kind in KINDS else kind, takers(kind)
    if others:
        return f'this is {a(called)}, for {listed(others)}; {takes}'
    return f'this is {a(called)}; {takes}' if kind else f'this is none of the inputs that alewife has; {takes}'


def of_limit(number, most, words, data):
    """The greatest limit: the refused number is nodes times the limit."""
    params = re.search(rb'^params .* limit (\d+)$', data or b'', re.M)
    limit = next((option['default'] for option in COMMANDS[words[0]]['options'] if option['name'] == '--limit'), params and params[1].decode())
    if '--limit' in words:
        limit = words[words.index('--limit') + 1]
    if limit is None:
        return f'the limit times the nodes is at most {most}'
    nodes = number // int(limit)
    return f'the limit is {limit}, and at most {most // nodes} with {nodes} nodes'


def of_entry(number, data):
    """The refused entry of a trace."""
    lines = data.decode(errors='replace').split('\n')
    start = next((at for at, line in enumerate(lines, 1) if line.startswith('entries ')), None)
    return f'entry {number} stands on line {start + 1 + number}: {shown(lines[start + number])}' if start and start + number < len(lines) else None


# Why a text ends too soon, by what it is.
UNFINISHED = {'trace': 'the run goes on behind the last entry: run writes whole traces',
              'claim': 'a context goes on behind the last turn: the claim of a run that ended halted or trapped has all its turns'}
# Why a turn of a claim isn't taken.
OF_TURNS = {'not ready': 'a context that has halted takes no turn, and behind a trap none does',
            'not current': 'a lower slot of its node goes on: here a node changes to its next context where that one has halted'}


def of_turn(number, data):
    """A turn of a claim: whose it is, and on which line."""
    lines, turns = data.decode(errors='replace').split('\n'), 0
    start = next((at for at, line in enumerate(lines, 1) if line.startswith('runs ')), len(lines))
    for at, line in enumerate(lines[start:], start + 1):
        stretch = re.fullmatch(r'(\d+) (\d+)', line)
        turns += int(stretch[2]) if stretch else 0
        if not stretch or number < turns:
            return f'turn {number} is one of context {stretch[1]}, on line {at}: {line}' if stretch else None
    return None


def of_turn_limit(words):
    """That the limit is too small for a turn, and which ones there are."""
    option = next(option for option in COMMANDS[words[0]]['options'] if option['name'] == '--limit')
    limit = words[words.index('--limit') + 1] if '--limit' in words else option['default']
    return f'the limit is {limit}, of {option["values"]}: these turns may want a greater one than the run that the claim is of'


def of_line(number, data):
    """A line of a text, with its number."""
    lines = data.decode(errors='replace').replace('\r\n', '\n').split('\n')
    return f'{number} | {shown(lines[number - 1].expandtabs())}' if 0 < number <= len(lines) else None


# ---- faults of a source


TOKEN = re.compile(r'[A-Za-z_]\w*|\.[A-Za-z]*|0x[0-9A-Fa-f]{1,8}|[0-9]+|%[A-Za-z0-9]+|[,:+\-\[\]()]|[ \t\r]+', re.A)
REGISTER = re.compile(r'%(?:[goli][0-7]|r(?:[0-9]|[12][0-9]|3[01])|sp|fp|y|hi|lo)')
NAME = re.compile(r'(?<![\w%.])[A-Za-z_]\w*', re.A)
NUMBER = re.compile(r'(?<![\w%])-?(?:0x[0-9A-Fa-f]+|[0-9]+)', re.A)


def unknown_part(code):
    """What of a line of a source is no part of the language, where a look at the names tells."""
    word, at = STATEMENT.match(code, LABEL.match(code).end()), 0
    if word and word[0] not in STATEMENTS:
        small = '; names are in small letters' if word[0].lower() in STATEMENTS else ''
        return f'{word[0]} is no {"directive" if word[0][0] == "." else "instruction"}{small}'
    while at < len(code):
        token = TOKEN.match(code, at)
        if not token:
            return f'{shown(code[at])} begins nothing' + ('; a comment begins with !' if code[at] in '#/;*' else '')
        if token[0][0] == '%' and not REGISTER.fullmatch(token[0]):
            return f'{token[0]} is no register'
        at = token.end()
    return None


def defined_in(code):
    """The names that a line defines."""
    return re.findall(r'([A-Za-z_]\w*)\s*:', code, re.A) + re.findall(r'\.equ\s+([A-Za-z_]\w*)', code, re.A)


def names_behind(code):
    """The names behind the word of a line, without the `a` of a branch."""
    word = STATEMENT.match(code, LABEL.match(code).end())
    return [name for name in NAME.findall(code[word.end():]) if name != 'a'] if word else []


def of_syntax(line, code):
    """What of a line of a source is no part of the language."""
    strange = next((byte for byte in line if byte > 126 or byte < 32 and byte not in b'\t\r'), None)
    if len(line) > MOST_LINE:
        return f'a line has at most {MOST_LINE} characters'
    return f'the byte 0x{strange:02x} is no character of a source' if strange is not None else unknown_part(code)


def of_unknown_name(code, lines):
    """The names of a line that the source doesn't define."""
    defined = {name for other in lines for name in defined_in(other)}
    names = [name for name in names_behind(code) if name not in defined]
    return f'{listed(names)} {"is" if len(names) == 1 else "are"} not defined' if names else None


def of_redefined(code, lines):
    """The name of a line that a line before it defines too."""
    names = defined_in(code)
    before = ((name, number) for number, other in enumerate(lines, 1) if other is not code for name in defined_in(other) if name in names)
    name, number = next(before, (None, 0))
    return f'{name} is defined on line {number}' if name else None


def words_in(lines):
    """How many words the code of some lines has: `set` is two."""
    found = (STATEMENT.match(code, LABEL.match(code).end()) for code in lines)
    return sum(2 if word[0] == 'set' else 1 for word in found if word and word[0][0] != '.')


def of_range(code, before):
    """The one number of a line without names, or that code stands before the line for which there is no more room."""
    word = STATEMENT.match(code, LABEL.match(code).end())
    if word and word[0][0] != '.' and words_in(before) >= MOST_WORDS:
        return f'a source has at most {MOST_WORDS:,} words of code'
    numbers = NUMBER.findall(code[word.end():]) if word else []
    return f'{numbers[0]} is out of range here' if len(numbers) == 1 and not names_behind(code) else None


def of_source(number, fault, data):
    """The line of a source, and what of it isn't known."""
    lines = [line.partition('!')[0] for line in data.decode('latin-1').split('\n')]
    if number == 0 and first_statement('\n'.join(lines)) is None:
        yield 'the source has no instruction'
    if not of_line(number, data):
        return
    code = lines[number - 1]
    yield of_line(number, data)
    yield {'syntax': lambda: of_syntax(data.split(b'\n')[number - 1], code), 'unknown name': lambda: of_unknown_name(code, lines),
           'redefined': lambda: of_redefined(code, lines), 'range': lambda: of_range(code, lines[:number - 1])}.get(fault, lambda: None)()


def of_input(reason, words, data):
    """What can be said of a refused input, `data` being None where it can't be read again."""
    number = int(next(iter(re.findall(r'\d+', reason)), 0))
    if excess := re.fullmatch(r'(limit|workers) (\d+) above (\d+)', reason):
        of, most = int(excess[2]), int(excess[3])
        yield of_limit(of, most, words, data) if excess[1] == 'limit' else f'--workers is at most the number of nodes, {most}'
    elif reason == 'not finished':
        yield UNFINISHED[COMMANDS[words[0]]['reads']]
    elif turn := re.fullmatch(r'turn (\d+) (.*)', reason):
        yield of_turn(number, data) if data else None
        yield OF_TURNS.get(turn[2]) or of_turn_limit(words)
    elif data is None:
        if reason in AT_THE_START:
            yield taken(words[0])
    elif kind_of(data, words[0]) != COMMANDS[words[0]]['reads']:
        yield of_kind(kind_of(data, words[0]), taken(words[0]))
    elif source := re.fullmatch(r'source line \d+: (.*)', reason):
        yield from of_source(number, source[1], data)
    elif reason.startswith('text line '):
        yield of_line(number, data)
    elif reason.endswith(' not legal'):
        yield of_entry(number, data)


# ---- want of memory


def of_memory(words):
    """What takes less memory: a search keeps its places."""
    if words[:1] != ['outcomes']:
        return None
    most = words[words.index('--most') + 1] if '--most' in words else COMMANDS['outcomes']['options'][0]['default']
    return f'a search keeps each place that it finds, at most those of --most {most}: with a smaller number it stops before'


# ---- the call


def read_again(place):
    """What standard input had from a place on, where it is a regular file and the place is known."""
    if not place.isdecimal() or not stat.S_ISREG(os.fstat(0).st_mode):
        return None
    with open(0, 'rb', closefd=False) as source:
        source.seek(int(place))
        data = source.read(MOST_READ)
        return data if len(data) < MOST_READ else data[:data.rfind(b'\n') + 1]


def explanations(status, line, place, words):
    """The lines that say more."""
    word = re.fullmatch(r'alewife: word (\d+) refused', line)
    if status == '2' and word:
        yield of_word(int(word[1]), words)
    if status == '8':
        yield of_memory(words)
    reason = re.fullmatch(r'alewife: input refused: (.*)', line)
    if status == '3' and reason and words:
        yield from of_input(reason[1], words, read_again(place))


def main(status, line, place, *words):
    """Writes the lines. Of words that the program would refuse it writes the program's line too, and ends with its status."""
    if status == 'words':
        at = refused_place(words)
        if at is None:
            return
        print(f'alewife: word {at} refused')
        main('2', f'alewife: word {at} refused', place, *words)
        sys.exit(2)
    for text in filter(None, explanations(status, line, place, list(words))):
        print(f'alewife: {text}')


if __name__ == '__main__':
    try:
        main(*sys.argv[1:])
    except (OSError, LookupError, StopIteration, ValueError):
        sys.exit(1)
