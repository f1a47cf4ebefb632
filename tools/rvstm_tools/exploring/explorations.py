"""An exploration from its description to its finding: searched, shortened, printed and written in this order."""

import dataclasses
import random
from dataclasses import dataclass
from pathlib import Path

from rvstm_tools.errors import Status, UserError
from rvstm_tools.exploring import foundlists
from rvstm_tools.exploring import saved as saving
from rvstm_tools.exploring.descriptions import Description
from rvstm_tools.exploring.folders import Folder
from rvstm_tools.exploring.progress import ProgressLine
from rvstm_tools.exploring.runs import Finding, SequenceRun
from rvstm_tools.exploring.searches import Found, Limits, Search
from rvstm_tools.exploring.shortening import Shorter

SECONDS_TO_SHORTEN = 60.0  # if no other number is asked for


@dataclass(frozen=True)
class Plan:
    rvstm: Path
    description: Description
    limits: Limits
    jobs: int  # how many processes search
    out: Path | None  # the file for the list of the finding
    folder: Folder | None
    is_strict: bool  # whether a line `call` that never returned is a failure


class Exploration:
    def __init__(self, plan: Plan) -> None:
        self.plan = plan
        self.description = plan.description
        self.limits = plan.limits
        self.folder = plan.folder
        self.out = plan.out or (plan.folder.found_list if plan.folder else None)
        self.progress = ProgressLine(plan.rvstm, plan.description)
        self.next = 0

    def explore(self) -> Status:
        """Returns how it ended: done if nothing is broken."""
        earlier = self.folder.earlier(self.limits) if self.folder else None
        if self.folder:
            self.next = self.folder.first(earlier)
            self.limits = dataclasses.replace(self.limits, first=self.next)
        with SequenceRun(self.plan.rvstm, self.description) as run:
            if earlier and earlier.found is not None:
                finding = run.finding_of(saving.restored(self.description, earlier.found))
                if finding:
                    print(f"still broken by the calls of {self.out}: {finding.broken.text}", flush=True)
                    return self._shorten(run, finding)
                print("the calls that were found before break nothing now")
        return self._search()

    def _search(self) -> Status:
        """Searches, and prints what came of it. If it is interrupted, that is what came so far."""
        search = Search(self.limits, self.progress.watch())
        is_interrupted = False
        try:
            search.search(self.plan.rvstm, self.description, self.plan.jobs)
        except KeyboardInterrupt:
            is_interrupted = True
        finally:
            self.progress.end()
        self.next = search.next
        self._keep(search.found)
        for line in foundlists.count_lines(self.description, search):
            print(line)
        if search.found:
            self.progress.end_replays()
            return self._report(search.found)
        never = foundlists.never_returned(self.description, search)
        is_nothing_tried = len(never) == len(self.description.kinds)
        lines = [*self.progress.reached_lines(search.seconds), *(f"line {line} never returned" for line in never)]
        for line in lines:
            print(line)
        print("nothing is broken" + " so far" * is_interrupted + ", but no call returned" * is_nothing_tried)
        if is_interrupted:
            raise KeyboardInterrupt
        return Status.FAILED if is_nothing_tried or never and self.plan.is_strict else Status.DONE

    def _report(self, found: Found) -> Status:
        made, at = self.limits.place_of(found.sequence, found.broken.at), found.broken.at
        place = f"call {made} of all, call {at} of sequence {found.sequence}" if found.calls else "the storage before any call"
        print(f"broken by {place}: {found.broken.text}", flush=True)
        with SequenceRun(self.plan.rvstm, self.description) as run:
            finding = run.finding_of(saving.restored(self.description, found.calls))
            if finding is None:
                raise UserError("the same calls break nothing the second time: an expression depends on something other than them")
            return self._shorten(run, finding)

    def _shorten(self, run: SequenceRun, finding: Finding) -> Status:
        """Writes a finding, shortens it, and writes or prints what is left."""
        self._write(run, finding)
        seconds = self.limits.seconds or SECONDS_TO_SHORTEN
        shorter = Shorter(run, finding, seconds, self.progress.of_shorter)
        ended = shorter.shorten(random.Random(f"{self.limits.seed}:shorter"))
        self.progress.end()
        left, spent = len(shorter.calls), shorter.spent()
        print(f"of {len(finding.calls)} calls {left} are left, after {shorter.runs} runs in {spent:.1f} s{ended}")
        self._keep(Found(0, saving.saved(shorter.calls), shorter.finding.broken))
        self._write(run, shorter.finding)
        if self.out is None:
            print(f"\n{self._text(run, shorter.finding)}", end="")
        else:
            print(f"written to {self.out}")
        return Status.FAILED

    def _keep(self, found: Found | None) -> None:
        if self.folder:
            self.folder.keep(self.limits, self.next, found.calls if found else None)

    def _write(self, run: SequenceRun, finding: Finding) -> None:
        if self.out is not None:
            self.out.write_text(self._text(run, finding), encoding="utf-8")

    def _text(self, run: SequenceRun, finding: Finding) -> str:
        view = foundlists.view_of(self.description, run.storage, finding)
        folder = Path(self.out or self.description.path).absolute().parent
        lines = foundlists.list_lines(self.description, view, finding, self.limits, folder)
        return "".join(f"{line}\n" for line in lines)
