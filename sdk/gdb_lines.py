"""For gdb, as `gdb-multiarch -x sdk/gdb_lines.py`: `break`, `tbreak` and `dprintf` stop at each place of a line of the source.

gdb drops a line of its table if the line begins with a call that the compiler inlined. `rvstm-tools gdb` knows all places of a
line, and prints them for `monitor places FILE:LINE`. Conditions and what is printed are evaluated in the function of the line.
"""

import re

import gdb

LINE = re.compile(r"(?:([^\s,*:]+):)?([0-9]+)")
CONDITION = re.compile(r"(?:^|\s)if\b")
PLACE = re.compile("^[0-9a-f]{8}$", re.M)


class Stop(gdb.Breakpoint):
    """A breakpoint at a place, of a line FILE:LINE if that is given. If `printed` says what, it prints in place of a stop. If that
    or the condition can't be evaluated, gdb says why, and stops."""

    def __init__(self, place: str, line: str, condition: str, printed: str, *, temporary: bool) -> None:
        super().__init__(place, temporary=temporary)
        self.line, self.printed = line, printed
        self.holds = condition if line else ""
        if condition and not line:
            self.condition = condition

    def select_frame(self) -> None:
        """Selects the function of the line: those that are inlined at this place are inside it."""
        frame: gdb.Frame | None = gdb.newest_frame()
        while frame:
            found = frame.find_sal()
            if found.symtab and f"/{found.symtab.filename}:{found.line}".endswith(f"/{self.line}"):
                frame.select()
                return
            frame = frame.older()

    def stop(self) -> bool:
        """Whether gdb stops here, which it asks."""
        self.select_frame()
        try:
            if self.holds and not gdb.parse_and_eval(self.holds):
                return False
            if self.printed:
                gdb.execute(f"printf {self.printed}")
            return not self.printed
        finally:
            gdb.newest_frame().select()


def stopped(event: object) -> None:
    """After a stop at a line its function is selected, and the other places of a `tbreak` go."""
    for met in getattr(event, "breakpoints", ()):
        if isinstance(met, Stop):
            met.select_frame()
            for other in gdb.breakpoints() if met.temporary else ():
                if isinstance(other, Stop) and other.temporary and other.line == met.line and other is not met:
                    other.delete()


def places_of(line: str) -> list[str]:
    """The places of FILE:LINE; none if no code is of the line."""
    try:
        return [f"*0x{place}" for place in PLACE.findall(gdb.execute(f"monitor places {line}", to_string=True) or "")]
    except gdb.error:
        gdb.write(f"{line}: at the places that gdb knows; after `target remote` at all\n")
        return []


class AtLine(gdb.Command):
    def __init__(self, name: str) -> None:
        super().__init__(name, gdb.COMMAND_BREAKPOINTS, gdb.COMPLETE_LOCATION)
        self.name = name

    def invoke(self, argument: str, from_tty: bool) -> None:
        """Sets the breakpoints, which gdb asks for."""
        if self.name == "dprintf":
            (place, _, printed), condition = argument.partition(","), ""
        else:
            (place, *more), printed = CONDITION.split(argument, 1), ""
            condition = more[0].strip() if more else ""
        found = LINE.fullmatch(place.strip())
        line = f"{found[1] or self.file()}:{found[2]}" if found else ""
        places = places_of(line) if line else []
        for at in places or [place.strip() or "*$pc"]:
            Stop(at, line if places else "", condition, printed, temporary=self.name == "tbreak")

    def file(self) -> str:
        """The file of a line that is given by its number alone."""
        _, found = gdb.decode_line()
        return found[0].symtab.filename.rpartition("/")[2] if found else ""


for command in ("break", "tbreak", "dprintf"):
    AtLine(command)
gdb.events.stop.connect(stopped)
