"""Texts at the limits of the language, and texts with more."""


def in_process(statement):
    return f"process p begin integer x; {statement} end".encode()


def printed(expression):
    return in_process(f"print {expression}")


def parbegins(depth, arms):
    """Returns this number of parbegins, each the first arm of the one before."""
    return "skip" if depth == 0 else f"parbegin {parbegins(depth - 1, arms)}{'; skip' * (arms - 1)} parend"


def many(kind, count):
    """Returns a text with this number of a kind."""
    return {
        "brackets": lambda: printed("(" * count + "1" + ")" * count),
        "sums in brackets": lambda: printed("1 + (" * count + "1" + ")" * count),
        "terms in brackets": lambda: printed("1 * (" * count + "1" + ")" * count),
        "brackets after an operator of each kind": lambda: printed(
            "1 or 1 and not 1 = 1 + 1 * (" * count + "1" + ")" * count),
        "minus signs": lambda: printed("- " * count + "1"),
        "nots": lambda: printed("not " * count + "1"),
        "begins": lambda: in_process("begin " * count + "skip" + " end" * count),
        "whiles": lambda: in_process("while 0 do " * count + "skip" + " od" * count),
        "ifs": lambda: in_process("if 0 then " * count + "skip" + " fi" * count),
        "holds": lambda: b"resource r = 1000; " + in_process("hold 1 of r do " * count + "skip" + " od" * count),
        "parbegins": lambda: in_process(parbegins(count, 2)),
        "arms of a parbegin": lambda: in_process(f"parbegin skip{'; skip' * (count - 1)} parend"),
        "processes": lambda: "".join(f"process p{it} begin skip end\n" for it in range(count)).encode(),
        "resources": lambda: "".join(f"resource r{it} = 1; " for it in range(count)).encode() + in_process("skip"),
        "integers": lambda: f"process p begin integer {', '.join(f'x{it}' for it in range(count))}; skip end".encode(),
        "letters of a name": lambda: f"process {'n' * count} begin skip end".encode(),
    }[kind]()


# The most of each kind that is accepted.
LIMITS = {
    "brackets": 255, "sums in brackets": 198, "terms in brackets": 198, "brackets after an operator of each kind": 33,
    "minus signs": 198, "nots": 198, "begins": 255, "whiles": 199, "ifs": 199, "holds": 200, "parbegins": 31,
    "arms of a parbegin": 16, "processes": 64, "resources": 16, "integers": 64, "letters of a name": 32,
}
