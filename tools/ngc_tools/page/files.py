"""What a page is given of files: the programs of a folder, and the record of runs. They are read in a thread of their
own, since a disk may be slow, or at the other end of a network."""
import json
import urllib.parse
from http import HTTPStatus

from ngc_tools.operator.runs import of_device, read_lines
from ngc_tools.page.http import RequestRefused
from ngc_tools.page.session import PageSession

OF_FILES = ("jobs", "jobtext", "jobpicture", "runs")
_MOST_LINES = 500


def of_files(session: PageSession, path: str) -> tuple[bytes, str]:
    """What is answered to one of these, and its kind. Raises RequestRefused, NoJob, OSError."""
    name, _, words = path.partition("?")
    if name == "runs":
        lines = read_lines(of_device(session.operator.console.device))[-_MOST_LINES:]
        return json.dumps({"lines": lines}).encode(), "application/json"
    if session.jobs is None:
        raise RequestRefused(HTTPStatus.NOT_FOUND, "no folder of programs is named: --jobs FOLDER")
    ident = urllib.parse.parse_qs(words).get("id", [""])[0]
    if name == "jobtext":
        return session.jobs.text(ident), "application/octet-stream"
    if name == "jobpicture":
        return session.jobs.picture(ident), "image/svg+xml"
    return json.dumps(session.jobs.plain()).encode(), "application/json"
