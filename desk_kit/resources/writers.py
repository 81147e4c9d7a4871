"""What becomes of each resource: which types have commands, in which order a whole file is written, and a table of all."""

from __future__ import annotations

from collections.abc import Callable
from typing import NamedTuple

from desk_kit.answers import Fault
from desk_kit.resources.controls import write_cntl
from desk_kit.resources.fonts import write_fond, write_font
from desk_kit.resources.fork import Resource, Resources
from desk_kit.resources.images import write_image
from desk_kit.resources.items import write_ditl
from desk_kit.resources.menus import write_mbar, write_menu
from desk_kit.resources.pict import write_pict
from desk_kit.resources.script import Script
from desk_kit.resources.texts import write_strings, write_text, write_vers
from desk_kit.resources.windows import write_alrt, write_dlog, write_wind

# The types in the order in which a whole file is written, so that what a later one needs is there.
WRITERS: dict[str, Callable[[Script, Resource], object]] = {
    "vers": write_vers,
    "MBAR": write_mbar,
    "MENU": write_menu,
    "WIND": write_wind,
    "CNTL": write_cntl,
    "DLOG": write_dlog,
    "ALRT": write_alrt,
    "DITL": write_ditl,
    "ICON": write_image,
    "ICN#": write_image,
    "CURS": write_image,
    "PAT ": write_image,
    "PAT#": write_image,
    "PICT": write_pict,
    "TEXT": write_text,
    "STR ": write_strings,
    "STR#": write_strings,
    "FOND": write_fond,
    "FONT": write_font,
    "NFNT": write_font,
}
ORDER = {kind: place for place, kind in enumerate(WRITERS)}
NO_COUNTERPART = "no command and no comment stands for this type"


class Becomes(NamedTuple):
    """What becomes of a resource by itself."""

    resource: Resource
    # How many commands, of which version of the script.
    commands: int
    version: int
    # What has no counterpart, a sentence each without its end.
    lacks: list[str]
    # What is wrong with its bytes, or nothing.
    fault: str

    def said(self) -> str:
        """The same in words."""
        if self.fault:
            return f"nothing: {self.fault}"
        if not self.commands:
            return f"nothing: {self.lacks[0]}" if self.lacks else "comments"
        parts = [f"{self.commands} command{'s' if self.commands > 1 else ''}", f"version {self.version}"]
        return ", ".join([*parts, *([f"{len(self.lacks)} told"] if self.lacks else [])])


def write(script: Script, resource: Resource) -> None:
    """Writes what stands for a resource. What is wrong with its bytes is a Fault."""
    if resource.unread:
        script.tell(resource, resource.unread)
    elif resource.kind in WRITERS:
        WRITERS[resource.kind](script, resource)
    else:
        script.tell(resource, NO_COUNTERPART)


def in_order(resources: Resources) -> list[Resource]:
    """All resources, by their types in the order of the writers, and then by their numbers."""
    return sorted(resources, key=lambda it: (ORDER.get(it.kind, len(ORDER)), it.kind, it.number))


def script_of(resources: Resources, named: list[tuple[str, int]] | None = None) -> Script:
    """The script of these resources, named by type and number, in their order; or of all."""
    chosen = [resources.get(*it) for it in named] if named else in_order(resources)
    script = Script(resources)
    for it in chosen:
        write(script, it)
    return script


def becomes(resources: Resources, resource: Resource) -> Becomes:
    """What becomes of a resource, where it is written alone."""
    script, fault = Script(resources), ""
    try:
        write(script, resource)
    except Fault as found:
        fault = str(found)
    lacks = [it.why if it.resource is resource else it.sentence() for it in script.told]
    return Becomes(resource, script.commands, script.version, lacks, fault)
