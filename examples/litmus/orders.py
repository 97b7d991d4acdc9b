"""The final states of a litmus test that herd.py has read, by a little interpreter of C that takes the threads' accesses in every order."""

WORD = 1 << 32
OPERATIONS = {'+': lambda a, b: a + b, '-': lambda a, b: a - b, '&': lambda a, b: a & b, '|': lambda a, b: a | b, '^': lambda a, b: a ^ b,
              '==': lambda a, b: int(a == b), '!=': lambda a, b: int(a != b)}


def value_of(made, registers):
    """Asks for the accesses of an expression, one after the other, and answers its value."""
    kind, *parts = made
    if kind == 'number':
        return parts[0]
    if kind == 'name':
        return registers[parts[0]]
    if kind == 'load':
        return (yield 'load', parts[0], 0)
    if kind == 'exchange':
        return (yield 'exchange', parts[0], (yield from value_of(parts[1], registers)))
    left = yield from value_of(parts[0], registers)
    right = yield from value_of(parts[1], registers)
    return OPERATIONS[kind](left, right) % WORD


def accesses(statements, registers):
    """Asks for the accesses of statements, one after the other."""
    for kind, *parts in statements:
        if kind == 'let':
            registers[parts[0]] = yield from value_of(parts[1], registers)
        elif kind == 'store':
            yield 'store', parts[0], (yield from value_of(parts[1], registers))
        elif kind == 'do':
            yield from value_of(parts[0], registers)
        else:
            yield from accesses(parts[1] if (yield from value_of(parts[0], registers)) else parts[2], registers)


def next_of(test, number, history):
    """The access that a thread asks for behind the answers that it has had, or none, and its registers."""
    registers = {name: value for (thread, name), value in test.registers.items() if thread == number}
    asked = accesses(test.threads[number], registers)
    try:
        access = next(asked)
        for answer in history:
            access = asked.send(answer)
    except StopIteration:
        return None, registers
    return access, registers


def ends_of(test):
    """All final states, as values of what is told of the test."""
    ends, seen, to_do = set(), set(), [(((),) * len(test.threads), tuple(test.words.items()))]
    while to_do:
        histories, words = place = to_do.pop()
        if place in seen:
            continue
        seen.add(place)
        asked = [next_of(test, number, history) for number, history in enumerate(histories)]
        if all(access is None for access, _ in asked):
            ends.add(tuple(dict(words)[name] if thread is None else asked[thread][1].get(name, 0) for thread, name in test.told))
        to_do += [after(histories, words, number, access) for number, (access, _) in enumerate(asked) if access]
    return ends


def after(histories, words, number, access):
    """The place behind an access of a thread."""
    kind, name, value = access
    memory = dict(words)
    history = (*histories[number], memory[name])
    if kind != 'load':
        memory[name] = value
    return (*histories[:number], history, *histories[number + 1:]), tuple(memory.items())
