"""Tests in the format of JUnit, which continuous integration reads: a suite, and a case for each run of a list."""

import re
import xml.etree.ElementTree as ElementTree
from collections.abc import Sequence
from pathlib import Path
from xml.etree.ElementTree import Element, SubElement

from rvstm_tools.testing import reports
from rvstm_tools.testing.gastables import GasDifference
from rvstm_tools.testing.testers import Tried

NO_LETTERS = re.compile("[^\t\n\r\x20-\ud7ff\ue000-\ufffd\U00010000-\U0010ffff]")  # what XML has no letter for
NAME = "rvstm-tools test"


def plain(text: str) -> str:
    """A text with a replacement for what XML has no letter for."""
    return NO_LETTERS.sub("\ufffd", text)


def write(path: Path, tried: Sequence[Tried], differences: Sequence[GasDifference], table: str) -> None:
    """Writes the file. Differences of gas are a case of their own, if a table was compared."""
    sums = reports.sums_of(tried)
    is_compared = table != ""
    tests, failures = sums.tests + is_compared, sums.failed + bool(differences)
    seconds = sum(run.seconds for run in tried)
    counts = {"name": NAME, "tests": f"{tests}", "failures": f"{failures}", "errors": "0", "time": f"{seconds:.3f}"}
    suites = Element("testsuites", counts)
    suite = SubElement(suites, "testsuite", counts)
    for run in tried:
        add_case(suite, run)
    if is_compared:
        case = SubElement(suite, "testcase", {"classname": NAME, "name": plain(f"gas of {table}"), "time": "0"})
        if differences:
            message = f"{reports.counted(len(differences), 'call')} differ"
            SubElement(case, "failure", {"message": message}).text = plain("\n".join(one.said() for one in differences))
    ElementTree.indent(suites)
    ElementTree.ElementTree(suites).write(path, encoding="utf-8", xml_declaration=True)


def add_case(suite: Element, run: Tried) -> None:
    names = {"classname": plain(f"{run.test.path.parent}"), "name": plain(run.planned.name()), "time": f"{run.seconds:.3f}"}
    case = SubElement(suite, "testcase", names)
    if run.missed:
        message = f"{run.missed} of {run.test.count()} not met"
        SubElement(case, "failure", {"message": message}).text = plain("\n".join(reports.lines_of_failure(run)))
