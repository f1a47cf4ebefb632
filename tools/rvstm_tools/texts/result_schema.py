"""The JSON schema of a result as lines of JSON (`rvstm-tools result --json`)."""

from rvstm_tools.texts.objects import Object
from rvstm_tools.texts.results import End

MOST_CALL = 1023
MOST_GAS = 10_000_000
REGISTERS = 32


def reference(name: str) -> Object:
    return {"$ref": f"#/$defs/{name}"}


def whole_number(most: int | None = None) -> Object:
    """A number from 0 on, up to `most` if that is given."""
    return {"type": "integer", "minimum": 0} | ({} if most is None else {"maximum": most})


def text(pattern: str) -> Object:
    return {"type": "string", "pattern": pattern}


def object_of(properties: Object, optional: tuple[str, ...] = ()) -> Object:
    """An object with these properties and no others; those in `optional` may be missing."""
    required = [name for name in properties if name not in optional]
    return {"type": "object", "additionalProperties": False, "required": required, "properties": properties}


CHANGES: Object = {"value": reference("bytes"), "gone": {"const": True}, "add": reference("amount")}
WRITE = object_of({"key": reference("key"), **CHANGES}, tuple(CHANGES)) | {"oneOf": [{"required": [name]} for name in CHANGES]}
CALL = object_of(
    {
        "kind": {"const": "call"},
        "call": whole_number(MOST_CALL),
        "end": {"enum": [end.value for end in End]},
        "gas": whole_number(MOST_GAS),
        "pc": reference("word"),
        "output": reference("bytes"),
        "registers": {"type": "array", "items": reference("word"), "minItems": REGISTERS, "maxItems": REGISTERS},
        "writes": {"type": "array", "items": WRITE},
    },
    optional=("registers",),
)
STORED = object_of({"kind": {"const": "store"}, "key": reference("key"), "value": reference("bytes")})
LAST = object_of({"kind": {"const": "end"}, "calls": whole_number(), "keys": whole_number()})

SCHEMA: Object = {
    "$schema": "https://json-schema.org/draft/2020-12/schema",
    "description": (
        "Bytes are hex, none the empty string. An amount is a decimal in a string, since it may be above 2^53. `registers`, x0 to x31,"
        " come with --registers. `calls` and `keys` say how many objects of each kind come before."
    ),
    "oneOf": [CALL, STORED, LAST],
    "$defs": {
        "word": text("^[0-9a-f]{8}$"),
        "key": text("^[0-9a-f]{64}$"),
        "bytes": text("^([0-9a-f]{2})*$"),
        "amount": text("^(0|[1-9][0-9]{0,19})$"),
    },
}
"""Of each line that `--json` prints."""
