"""The proved core of photofleet, as the judge of another sync engine's tests.

`Fleet` takes a script line by line and gives the right report on each, `plain` runs a whole one, and `photofleet.testing`
has what Hypothesis needs to test an engine of one's own against it. docs/EMBEDDING.md shows how each is used.
"""
from .commands import Change, Command, Conflicts, Edit, Knowledge, Knows, List, Narrow, New, Preview, Pull, Question, Refilter, Remove, read_command
from .faults import FleetClosed, FleetError, LibraryNotFound, NoMemory, ScriptFault
from .fleet import Fleet, plain
from .library import Library, find_library, load
from .reports import InConflict, Knowing, Known, Listed, Made, Narrowed, Previewed, Pulled, Refiltered, Refused, Report, read_report, read_reports
from .values import ALL, NONE, Alternative, Conflict, Counts, Filter, Fragment, Held, Record, Version, rated

__version__ = "0.1.0"
__all__ = [
    "ALL", "NONE", "Alternative", "Change", "Command", "Conflict", "Conflicts", "Counts", "Edit", "Filter", "Fleet", "FleetClosed", "FleetError",
    "Fragment", "Held", "InConflict", "Knowing", "Knowledge", "Known", "Knows", "Library", "LibraryNotFound", "List", "Listed", "Made", "Narrow",
    "Narrowed", "New", "NoMemory", "Preview", "Previewed", "Pull", "Pulled", "Question", "Record", "Refilter", "Refiltered", "Refused", "Remove",
    "Report", "ScriptFault", "Version", "find_library", "load", "plain", "rated", "read_command", "read_report", "read_reports",
]
