"""Rules in EBNF, as docs/FORMATS.md has them, and the texts that are of one."""
import re

BLOCK = re.compile(r'^```ebnf\n(.*?)^```$', re.M | re.S)
RULE = re.compile(r'(\w+) = ((?:"[^"]*"|[^";])*) ;')
PART = re.compile(r'"[^"]*"|\w+|[{}()|\[\]]')
SIGNS = {'{': '(?:', '}': ')*', '[': '(?:', ']': ')?', '(': '(?:', ')': ')', '|': '|'}
GIVEN = {'LF': r'\n', 'digit': '[0-9]', 'hex': '[0-9a-f]', 'register': '%[goli][0-7]'}


def rules_of(page):
    """The rules in the blocks of a page: each name with its form."""
    return dict(RULE.findall('\n'.join(BLOCK.findall(page))))


def twice_named(page):
    """The names that two rules of a page have."""
    names = [name for name, _ in RULE.findall('\n'.join(BLOCK.findall(page)))]
    return {name for name in names if names.count(name) > 1}


def spelled_in(rules):
    """The texts that rules spell."""
    return [text for form in rules.values() for text in re.findall(r'"([^"]*)"', form)]


def expression(rules, name):
    """The regular expression of a rule, none of which may name itself."""
    if name in GIVEN:
        return GIVEN[name]
    parts = PART.findall(rules[name])
    return '(?:' + ''.join(SIGNS.get(part) or (re.escape(part[1:-1]) if part[0] == '"' else expression(rules, part)) for part in parts) + ')'


def unnamed(rules):
    """The names that rules use, and that none of them has."""
    return {part for form in rules.values() for part in PART.findall(form) if part[0].isalpha()} - set(rules) - set(GIVEN)


HEADING = re.compile(r'^(image|entries|runs|prints|memory|directory|events|contexts|state|links|waits|nodes) (\d+)\n', re.M)
BEHIND = re.compile(r'^(?:params .*|ended .*|end)\n', re.M)


def count_of(name, lines):
    """What a heading of this name counts in the lines behind it: bytes, 32 to a line, or lines. None where a line of bytes is of another length."""
    if name != 'image':
        return len(lines)
    return sum(map(len, lines)) // 2 if all(len(line) == 64 for line in lines[:-1]) and all(len(line) <= 64 for line in lines) else None


def is_counted(text):
    """Each heading of a text has the number of what stands behind it, and no number has more than 64 bits."""
    _, *parts = HEADING.split(text)
    counts = all(count_of(name, BEHIND.split(body)[0].splitlines()) == int(count) for name, count, body in zip(parts[::3], parts[1::3], parts[2::3]))
    numbers = (int(part) for line in text.splitlines() if ' ' in line for part in line.split(' ') if part.isdecimal())
    return counts and all(number < 2 ** 64 for number in numbers)
