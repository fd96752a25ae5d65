"""Prints a sheet or certificate file record by record, damaged ones too."""

from supplier import records
from supplier.formula import infix
from supplier.names import Names


def lines(data, names=None):
    """A line for each record, then how reading ended."""
    found, stop = records.read(data)
    names = names or Names([], [])
    teller = _Teller(names)
    for item in found:
        yield (f"{item.offset:6}  {item.kind:02X}  {item.name:<10} "
               f"{teller.tell(item)}").rstrip()
    if stop:
        yield f"stops: {stop}; {_end(found)} of {len(data)} bytes were read"
    else:
        yield f"{len(data)} bytes, {len(found)} records, read to END"


def _end(found):
    if not found:
        return 0
    last = found[-1]
    return last.offset + 1 + sum(records.KINDS[last.kind][1])


class _Teller:
    """Says what each record holds; closing records repeat their formula."""

    def __init__(self, names):
        self.names = names
        self.formula = []
        self.step = 0
        self.set = 1
        self.scan = 0

    def tell(self, item):
        if item.name in records.FORMULA:
            self.formula.append((item.name, *item.numbers))
        tell = getattr(self, "_" + item.name.lower().replace("-", "_"), None)
        return tell(*item.numbers) if tell else ""

    def _head(self, inputs, coils, rungs):
        return f"inputs {inputs}, coils {coils}, rungs {rungs}"

    def _start(self, coil, value):
        return f"{self.names.coil(coil)} {_on(value)}"

    def _input(self, number):
        return self.names.input(number)

    def _coil(self, number):
        return self.names.coil(number)

    def _constant(self, value):
        return str(value)

    def _close(self):
        text = infix(self.formula, self.names)
        self.formula = []
        return text if text is not None else "(not one formula)"

    def _rung(self, coil):
        return f"{self.names.coil(coil)} := {self._close()}"

    def _condition(self):
        return self._close()

    def _invariant(self):
        return self._close()

    def _step(self, first, second, pivot):
        self.step += 1
        return (f"set {self.set}, step {self.step}: clauses {first} and "
                f"{second} on variable {pivot}")

    def _qed(self):
        text = f"set {self.set}, {self.step} steps"
        self.set, self.step = self.set + 1, 0
        return text

    def _input_on(self, number):
        return self.names.input(number)

    def _scan(self):
        self.scan += 1
        return f"scan {self.scan}"


def _on(value):
    return {0: "off", 1: "on"}.get(value, f"value {value}")
