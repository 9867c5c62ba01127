"""Values: 64-bit integers."""


class Fault(Exception):
    def __init__(self, kind):
        super().__init__(kind)
        self.kind = kind


def checked(value):
    if not -1 << 63 <= value < 1 << 63:
        raise Fault("overflow")
    return value


def divided(x, d):
    if d == 0:
        raise Fault("divide-by-zero")
    return checked(x // d)


def left_over(x, d):
    if d == 0:
        raise Fault("divide-by-zero")
    return x % d


OPERATORS = {
    "+": lambda x, y: checked(x + y),
    "-": lambda x, y: checked(x - y),
    "*": lambda x, y: checked(x * y),
    "div": divided,
    "mod": left_over,
    "=": lambda x, y: int(x == y),
    "<>": lambda x, y: int(x != y),
    "<": lambda x, y: int(x < y),
    "<=": lambda x, y: int(x <= y),
    ">": lambda x, y: int(x > y),
    ">=": lambda x, y: int(x >= y),
    "and": lambda x, y: int(x != 0 and y != 0),
    "or": lambda x, y: int(x != 0 or y != 0),
}
