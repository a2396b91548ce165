"""The pages at which checks/slow/page.py looks, and their texts."""
from __future__ import annotations

import sys
from pathlib import Path

from calls import TOP, program

sys.path.insert(0, str(TOP / "extras/page"))
import make_page  # noqa: E402

EXAMPLES = ("devices", "lost", "customers", "philosophers")
HOSTILE = b"""// </script><script>window.bad = 1</script> <!-- &lt; &amp; \\ " ' \\u003c %%
process p
begin
  integer x;
  x := 9223372036854775807; x := x - 1; print x div 0
end
"""

# Two that can come to a deadlock, and one that has nothing to do with them.
BYSTANDER = b"""resource tape = 1;
resource disk = 1;
process a begin hold 1 of tape do hold 1 of disk do skip od od end
process b begin hold 1 of disk do hold 1 of tape do skip od od end
process c begin print 1 end
"""

# Two arms of which each adds to what the other may have added to: which numbers it works out depends on the way.
PATHS = b"""process p
begin
  integer counter;
  parbegin
    counter := counter + 1;
    counter := counter + 1
  parend;
  print counter
end
"""

# The longest names, in a process and in a resource.
LONG = b"resource %s = 2;\nprocess %s begin hold 1 of %s do print 1 od end\nprocess q begin hold 2 of %s do print 2 od end\n" % (
    b"a_resource_with_the_longest_name", b"the_process_with_the_longest_one",
    b"a_resource_with_the_longest_name", b"a_resource_with_the_longest_name")


def in_a_ring(count: int) -> bytes:
    """Returns a text in which each process holds a thing, and inside it asks for that of the next one."""
    lines = [f"resource fork{i} = 1;" for i in range(count)]
    for i in range(count):
        lines += [f"process cook{i}", "begin", f"  hold 1 of fork{i} do", f"    hold 1 of fork{(i + 1) % count} do",
                  f"      print {i}", "    od", "  od", "end"]
    return "\n".join([*lines, ""]).encode()


def all_of_all(count: int, things: int) -> bytes:
    """Returns a text in which each process holds one of each thing, and inside it asks for one more: all arrows cross."""
    lines = [f"resource thing{r} = {2 * count};" for r in range(things)]
    bundle = ", ".join(f"1 of thing{r}" for r in range(things))
    lines += [f"process cook{i} begin hold {bundle} do hold {bundle} do print {i} od od end" for i in range(count)]
    return "\n".join([*lines, ""]).encode()


def write_page(folder: Path, name: str, given: bytes, lend: str | None = None, states: str = make_page.Options.states) -> tuple[Path, str]:
    """Writes the page of a text, and returns its path, and the text."""
    page = make_page.make_page([program()], name, given, make_page.Options(seed="3", lend=lend, states=states))
    path = folder / f"{name}.html"
    path.write_text(page, encoding="utf-8")
    return path, given.decode().partition("\n%%\n")[0].rstrip("\n")
