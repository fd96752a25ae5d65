"""Formulas as text, and as records in postfix order.

`!` binds before `&`, `&` before `|`, both to the left; `0` and `1` are
constants. Nothing here recurses, so a text may nest as deep as it likes.
"""

import re

from supplier.fault import Fault

TOKEN = re.compile(r"\s*(?:([A-Za-z_][A-Za-z0-9_]*|[01!&|()])|(\S))")
BINDING = {"!": 3, "&": 2, "|": 1, "(": 0}
OPERATOR = {"!": ("NOT",), "&": ("AND",), "|": ("OR",)}


def tokens(text, place):
    end = len(text.rstrip())
    at = 0
    while at < end:
        match = TOKEN.match(text, at)
        if match.group(2):
            raise Fault(f"{place}: {match.group(2)!r} has no meaning in a formula")
        yield match.group(1)
        at = match.end()


def postfix(text, contacts, place):
    """The records of a formula; `contacts` gives the record of each name."""
    out, waiting, wanted = [], [], True
    for token in tokens(text, place):
        if wanted and token in "!(":
            waiting.append(token)
        elif wanted and token not in "&|)":
            out.append(_operand(token, contacts, place))
            wanted = False
        elif not wanted and token == ")":
            _close(out, waiting, place)
        elif not wanted and token in "&|":
            _release(out, waiting, BINDING[token])
            waiting.append(token)
            wanted = True
        else:
            raise Fault(f"{place}: {token!r} stands where "
                        + ("a contact" if wanted else "an operator") + " should")
    if wanted:
        raise Fault(f"{place}: the formula ends where a contact should stand")
    _release(out, waiting, 1)
    if waiting:
        raise Fault(f"{place}: a bracket is not closed")
    return out


def _operand(token, contacts, place):
    if token in "01":
        return ("CONSTANT", int(token))
    if token not in contacts:
        raise Fault(f"{place}: nothing here is named {token!r}")
    return contacts[token]


def _release(out, waiting, binding):
    """Writes the waiting operators that bind at least as tight."""
    while waiting and BINDING[waiting[-1]] >= binding:
        out.append(OPERATOR[waiting.pop()])


def _close(out, waiting, place):
    _release(out, waiting, 1)
    if not waiting:
        raise Fault(f"{place}: a bracket closes that was not opened")
    waiting.pop()


def infix(records, names):
    """A formula's text again, for reading; None where it is not one formula."""
    stack = []
    for name, *numbers in records:
        if name == "NOT" and stack:
            text, binding = stack.pop()
            stack.append(("!" + _within(text, binding, 3), 3))
        elif name in ("AND", "OR") and len(stack) > 1:
            sign, own = ("&", 2) if name == "AND" else ("|", 1)
            right, left = stack.pop(), stack.pop()
            stack.append((f"{_within(*left, own)} {sign} "
                          f"{_within(*right, own + 1)}", own))
        elif name in ("INPUT", "COIL", "CONSTANT"):
            stack.append((names.contact(name, numbers[0]), 4))
        else:
            return None
    return stack[0][0] if len(stack) == 1 else None


def _within(text, binding, needed):
    return text if binding >= needed else f"({text})"
