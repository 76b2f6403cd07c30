"""A refused line as people see it: carets below its words, and how a check goes on after it."""
from ngc_tools.job.refused import Finding, Span
from ngc_tools.shown import shown


def carets(text: bytes, marks: tuple[Span, ...]) -> str:
    """A line of carets below the marked pieces, as `shown` shows the line."""
    row = [" "] * (len(shown(text)) + 1)
    for mark in marks:
        begin = len(shown(text[:mark.begin]))
        end = max(len(shown(text[:mark.end])), begin + 1)
        row[begin:end] = "^" * (end - begin)
    return "".join(row).rstrip()


def goes_on(finding: Finding) -> str:
    """In words, what was left out or written to go on."""
    if finding.added:
        return f"as with{finding.added.decode()}"
    if finding.left_out is None:
        return "without this line"
    return "without " + " ".join(shown(finding.text[piece.begin:piece.end]) for piece in finding.left_out)
