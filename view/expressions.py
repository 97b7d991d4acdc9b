"""Expressions of Python over a program's variables: numbers, names, elements, members, arithmetic, comparisons, and, or, not; && and || are and, or."""
import ast
import operator

from frames import ViewError

MOST_SHIFT = 64
NAMES = (ast.Name, ast.Attribute, ast.Subscript)
SPELLED = {'&&': ' and ', '||': ' or '}
ARITHMETIC = {ast.Add: operator.add, ast.Sub: operator.sub, ast.Mult: operator.mul, ast.FloorDiv: operator.floordiv, ast.Mod: operator.mod,
              ast.BitAnd: operator.and_, ast.BitOr: operator.or_, ast.BitXor: operator.xor}
SHIFTS = {ast.LShift: operator.lshift, ast.RShift: operator.rshift}
SIGNS = {ast.Not: operator.not_, ast.USub: operator.neg, ast.UAdd: operator.pos, ast.Invert: operator.invert}
COMPARED = {ast.Eq: operator.eq, ast.NotEq: operator.ne, ast.Lt: operator.lt, ast.LtE: operator.le, ast.Gt: operator.gt, ast.GtE: operator.ge}


def parsed(text):
    """The tree of an expression."""
    spelled = text
    for sign, word in SPELLED.items():
        spelled = spelled.replace(sign, word)
    try:
        return ast.parse(spelled.strip(), mode='eval').body
    except (SyntaxError, ValueError, RecursionError, MemoryError) as fault:
        raise ViewError(f"'{text}' is no expression: {getattr(fault, 'msg', fault)}") from fault


def combined(node, variables, memory):
    """The value of two operands with an operator."""
    kind, left, right = type(node.op), value_of(node.left, variables, memory), value_of(node.right, variables, memory)
    if kind in SHIFTS and 0 <= right < MOST_SHIFT:
        return SHIFTS[kind](left, right)
    if kind in (ast.FloorDiv, ast.Mod) and right == 0:
        raise ViewError(f"'{ast.unparse(node)}' divides by 0")
    if kind in ARITHMETIC:
        return ARITHMETIC[kind](left, right)
    raise ViewError(f"'{ast.unparse(node)}' has no value here")


def compared(node, variables, memory):
    """Whether a chain of comparisons holds."""
    values = [value_of(each, variables, memory) for each in (node.left, *node.comparators)]
    return all(COMPARED[type(way)](left, right) for way, left, right in zip(node.ops, values, values[1:]))


def value_of(node, variables, memory):
    """The value of an expression in a memory; a number, or whether it holds."""
    if isinstance(node, ast.Constant) and type(node.value) is int:
        return node.value
    if isinstance(node, NAMES):
        return variables.value(node, memory)
    if isinstance(node, ast.BinOp):
        return combined(node, variables, memory)
    if isinstance(node, ast.UnaryOp):
        return SIGNS[type(node.op)](value_of(node.operand, variables, memory))
    if isinstance(node, ast.Compare) and all(type(way) in COMPARED for way in node.ops):
        return compared(node, variables, memory)
    if isinstance(node, ast.BoolOp):
        holds = (bool(value_of(each, variables, memory)) for each in node.values)
        return all(holds) if isinstance(node.op, ast.And) else any(holds)
    raise ViewError(f"'{ast.unparse(node)}' is no part of an expression: there are numbers, names, arithmetic, comparisons, and, or, not")
