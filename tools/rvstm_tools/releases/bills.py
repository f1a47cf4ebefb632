"""The bill of materials of a release (SBOM), as CycloneDX 1.5 has it in JSON."""

import json
from collections.abc import Sequence
from dataclasses import dataclass
from datetime import datetime, timezone
from typing import Any

from rvstm_tools.releases.kit_crates import KitCrate

SPDX = {"LICENSE-MIT": "MIT", "LICENSE-APACHE": "Apache-2.0"}
"""The names of licences by SPDX, by the files of their notices."""


@dataclass(frozen=True)
class Released:
    """What a bill is of."""

    version: str
    commit: str
    seconds: int
    """The time of the commit."""
    kit: str
    """The line that names the kit which proved and compiled it."""
    checksums: dict[str, str]
    """The SHA-256 of the program and of the library, by their names."""
    glibc: str
    """The least version of the C library."""


def licence_of(file: str, notice: str) -> dict[str, Any]:
    name = {"id": SPDX[file]} if file in SPDX else {"name": file}
    return {"license": name | {"text": {"contentType": "text/plain", "content": notice}}}


def component_of(crate: KitCrate) -> dict[str, Any]:
    """A crate of the kit. What it is a port of is its ancestor, whose licences are its own."""
    made: dict[str, Any] = {"type": "library", "bom-ref": crate.name, "group": "rattle", "name": crate.name}
    if crate.notices:
        made["licenses"] = [licence_of(file, notice) for file, notice in crate.notices.items()]
    else:
        made["properties"] = [{"name": "rvstm:licence", "value": "the kit has no notice"}]
    if crate.upstream:
        made["pedigree"] = {"ancestors": [{"type": "library", "name": crate.upstream.name, "version": crate.upstream.version}]}
    return made


def bill_of(released: Released, crates: Sequence[KitCrate]) -> bytes:
    """The bill, with the notices of all licences that the kit has. Equal releases have equal bytes."""
    time = datetime.fromtimestamp(released.seconds, timezone.utc).strftime("%Y-%m-%dT%H:%M:%SZ")
    made_by = {"type": "application", "name": released.kit}
    files = [
        {"type": "file", "name": name, "hashes": [{"alg": "SHA-256", "content": checksum}]} for name, checksum in released.checksums.items()
    ]
    libc = {"type": "library", "bom-ref": "glibc", "name": "glibc", "description": f"version {released.glibc} or later, of the system"}
    whole = {
        "type": "application", "bom-ref": "rvstm", "name": "rvstm", "version": released.version, "components": files,
        "properties": [{"name": "rvstm:commit", "value": released.commit}],
    }
    bill = {
        "bomFormat": "CycloneDX", "specVersion": "1.5", "version": 1,
        "metadata": {"timestamp": time, "tools": {"components": [made_by]}, "component": whole},
        "components": [*map(component_of, crates), libc],
        "dependencies": [{"ref": "rvstm", "dependsOn": [*(crate.name for crate in crates), "glibc"]}],
    }
    return f"{json.dumps(bill, indent=1)}\n".encode()
