"""Faults of property files."""

from . import _calls
from ._numbers import Cause, File


class Fault(ValueError):
    """Raised for files of the Unicode Character Database: their first fault."""

    file: File
    """The file with the fault, or `File.NO_FILE`."""
    line: int
    """The number of its line, from 1; 0 if the fault is in no line."""
    cause: Cause
    place: str
    """The name of the file, if it was read by its name or from a folder; else ""."""
    claim: str
    """For NOT_PUBLISHED, what the file is: "this is Unicode 14.0.0, and lbk needs 15.0.0"."""

    def __init__(self, file: int, line: int, cause: int, place: str = "", claim: str = "") -> None:
        super().__init__(file, line, cause, place, claim)
        self.file, self.line, self.cause = File(file), line, Cause(cause)
        self.place, self.claim = place, claim

    def __str__(self) -> str:
        place = self.place or _calls.file_name(self.file)
        line = f":{self.line}" if self.line else ""
        return f"{place}{line}: {self.claim or _calls.cause_text(self.cause)}"
