"""What a trap says beside its number: the address of a load or a store, and why the machine has refused it."""
UNALIGNED, OUTSIDE = 0x07, 0x09
OF_DATA = (UNALIGNED, OUTSIDE)
WIDTHS = {'b': 1, 'h': 2}


def deed_of(name):
    """What an instruction of memory does, by its name."""
    if name in ('swap', 'ldstub'):
        return f'{name} at'
    return 'load at' if name.startswith('ld') else 'store at'


def told_access(tt, statement, address):
    """A load or a store that trapped, as a text behind a colon; nothing of another trap. The address is None where it isn't known."""
    name, _, operands = statement.partition(' ')
    if tt not in OF_DATA or '[' not in operands or address is None:
        return ''
    width = 1 if name == 'ldstub' else WIDTHS.get(name[-1], 4)
    why = 'outside shared data' if tt == OUTSIDE else f'which is no multiple of {width}'
    return f': {deed_of(name)} 0x{address:08x}, {why}'
