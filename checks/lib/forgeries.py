"""Forged objects: what is near an object, and objects at the limits of the format."""
from calls import TOP, first_object_of, object_of

CHANGED_TO = b"\n09 \xff"
# The examples whose objects are forged; the last one's is in the first format.
FORGED = ["lost", "devices", "rounds", "edges", "hello"]


def objects():
    """Returns the objects that are forged."""
    texts = [(TOP / f"examples/{name}.pb").read_bytes() for name in FORGED]
    return [*map(object_of, texts[:-1]), first_object_of(texts[-1])]


def forgeries(given):
    """Yields each forgery of an object."""
    yield from (given[:end] for end in range(len(given)))
    for at, byte in enumerate(given):
        yield from (given[:at] + bytes([other]) + given[at + 1 :] for other in CHANGED_TO if other != byte)
    lines = given.splitlines(keepends=True)
    for at, line in enumerate(lines):
        yield b"".join(lines[:at] + lines[at + 1 :])
        yield b"".join(lines[:at] + [line] + lines[at:])
        for after in range(at + 1, len(lines)):
            exchanged = lines.copy()
            exchanged[at], exchanged[after] = lines[after], line
            yield b"".join(exchanged)


def wide(resources=0, capital=1, processes=1, name="p", integers=0, arms=1, claim=1, code=None):
    """Returns an object with these numbers of everything."""
    lines = ["PBO 2", f"resources {resources}"]
    lines += [f"resource r{number} {capital}" for number in range(resources)]
    lines.append(f"processes {processes}")
    for process in range(processes):
        named = name if process == 0 else f"{name[:29]}{process}"
        lines += [f"process {named}", " ".join([f"vars {integers}", *(f"v{it}" for it in range(integers))])]
        lines += [f"arms {arms}", " ".join(["claims", *[str(claim)] * resources])]
        body = code or body_with(arms)
        lines += [f"arm {place}" for place in entries(arms, body)]
        lines += [f"code {len(body)}", *(f"0 {instruction}" for instruction in body)]
    return ("\n".join(lines) + "\n").encode()


def body_with(arms):
    """Returns code whose body forks its other arms, sixteen at a time."""
    body, first = [], 1
    while first < arms:
        count = min(16, arms - first)
        body += [f"fork {first} {count}", f"join {first} {count}"]
        first += count
    return body + ["end"] * arms


def entries(arms, body):
    """Returns the place at which each arm begins."""
    return [0, *range(len(body) - arms + 1, len(body))]


def nested_holds(count):
    """Returns code whose only arm takes one of a resource this number of times before it gives any back."""
    return ["take 0 1"] * count + ["give 0 1"] * count + ["end"]


def many_operands(count):
    """Returns code that puts this number of operands on the stack and takes them away."""
    return ["push 1"] * count + [f"jzero {count + it}" for it in range(1, count + 1)] + ["end"]


LIMITS = {
    "processes": [(wide(processes=count), count <= 64) for count in (64, 65)],
    "resources": [(wide(resources=count), count <= 16) for count in (16, 17)],
    "capital": [(wide(resources=1, capital=count), count <= 1_000_000) for count in (1_000_000, 1_000_001)],
    "claims": [(wide(resources=1, capital=5, claim=count), count <= 5) for count in (5, 6)],
    "name": [(wide(name="n" * count), count <= 32) for count in (32, 33)],
    "integers": [(wide(integers=count), count <= 64) for count in (64, 65)],
    "arms": [(wide(arms=count), count <= 64) for count in (64, 65)],
    "operands": [(wide(code=many_operands(count)), count <= 256) for count in (256, 257)],
    "holdings": [(wide(resources=1, capital=999, claim=999, code=nested_holds(count)), count <= 256)
                 for count in (256, 257)],
    "code": [(wide(code=[*(f"jump {it}" for it in range(1, count)), "end"]), count <= 40_000)
             for count in (40_000, 40_001)],
    "number": [(wide(code=[f"push {number}", "jzero 2", "end"]), number < 2**63) for number in (2**63 - 1, 2**63)],
}
