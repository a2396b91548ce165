"""Whether what is written fits docs/schema/, if Python has the module jsonschema."""
from __future__ import annotations

import json
from typing import Any

from calls import TOP, Tally

try:
    import jsonschema
except ImportError:
    jsonschema = None

SCHEMAS = TOP / "docs/schema"


def fits(tally: Tally, name: str, value: Any) -> None:
    """Compares a value with a schema."""
    if not jsonschema:
        return
    schema = json.loads((SCHEMAS / f"{name}.schema.json").read_text())
    found = [it.message for it in jsonschema.Draft202012Validator(schema).iter_errors(value)]
    tally.expect(not found, f"{name}.schema.json:", found)


def tell_if_missing() -> None:
    """Says if nothing was compared."""
    if not jsonschema:
        print("not compared with docs/schema/, since Python has no module jsonschema")
