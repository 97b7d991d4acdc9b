"""Pages in Markdown, as the repository's documents are written: their tables, sections and names in `code`."""
import re
from dataclasses import dataclass

SPAN = re.compile(r'`([^`\n]+)`')
FENCE = re.compile(r'^( *)```.*?^\1```', re.M | re.S)
WORD = re.compile(r'[A-Za-z_◌][\w-]*')


@dataclass
class Row:
    line: int
    cells: list


def without_fences(text):
    """The text with fenced and indented code blanked, its lines kept."""
    text = FENCE.sub(lambda m: '\n' * m[0].count('\n'), text)
    return re.sub(r'^    .*$', '', text, flags=re.M)


def tables_of(text):
    """The tables of a document: of each its head and its rows."""
    tables, rows = [], []
    for number, line in enumerate(without_fences(text).splitlines() + [''], 1):
        if line.startswith('|'):
            rows.append(Row(number, [cell.strip() for cell in re.split(r'(?<!\\)\|', line.strip()[1:-1])]))
        elif rows:
            tables.append((rows[0].cells, [row for row in rows[1:] if set(row.cells[0]) - set('-: ')]))
            rows = []
    return tables


def section_of(text, heading):
    """What stands below a heading, up to the next."""
    match = re.search(rf'^## {re.escape(heading)}\n(.*?)(?=^## |\Z)', text, re.M | re.S)
    return match[1].strip() if match else None


def is_name(span):
    """Whether a span is a name, or several joined by '.' or '::', that could be one of the repository's own."""
    return bool(re.fullmatch(r'[A-Za-z_][\w-]*((::|\.)\{?[\w-]+(, [\w-]+)*\}?)*', span))
