"""What the operator's core refuses, warns of and asks, in the page's words: the core names what is typed at a console,
and a page has buttons."""
import re

_WORDS = tuple((re.compile(pattern), said) for pattern, said in (
    (r"^refused K\d \w+: ", ""),
    (r"run goes on; a line of G-code, as M5, is done and ends the hold(; then \w+)?",
     "Continue goes on; a line of G-code, as M5, is done and ends the hold"),
    (r"run goes on; to give the block up: quit, start again, abandon\. No other line is done before that",
     "Continue goes on, and Stop ends it. No other line is done before that"),
    (r"continue goes on; after quit", "Continue goes on; after Quit"),
    (r": hold first$", ": Hold first"),
    (r"under way: stop ends it", "under way: Stop ends it"),
    (r"rehearse says what resume would do; .*then resume or abandon(, and .* after that)?",
     "Recover takes it up, or gives it up"),
    (r"nothing waits: run starts the program", "nothing waits: Run starts the program"),
    (r"load FILE", "Load"),
    (r"(reference player, or )?reference X Y Z$", "home, or tell where it is"),
    (r"the player says that the motors are at (.*), and ngc takes them to be at (.*): (.*) mm apart\. Nothing is done\."
     r"\n  reference player .*", r"The player counts \1, and the last line ended at \2: \3 mm apart. Nothing is done."
     " Where is it? asks which is so; home tells it anew"),
    (r"(they may have gone on\. Nothing is done\.)\n  reference player .*",
     r"\1 Where is it? asks which is so; home tells it anew"),
    (r"release lets them carry those out, and run goes on", "Go on carries those out"),
    (r"release (lets|waits)", r"Go on \1"),
    (r"Once (it|the player) answers( again)?, (again|run goes on); if it is gone, quit, and start a player and this"
     r" again", r"Once \1 answers again, Run goes on; if it is gone, start it, then Start ngc again"),
    (r"Once the disk is well, quit, and start this again: it", "Once the disk is well, Start ngc again: that"),
    (r"stop begins another session", "Start ngc again begins another session"),
    (r"home comes first; until then where and quit alone are taken", "home comes first"),
    (r"quit, start (the player|player) and this again, and go on as after a loss of power",
     "start the player, then Start ngc again, and go on as after a loss of power"),
    (r"home [XYZ ]+ does it, where the machine's file says how; else measure it, and type reference X Y Z with what you"
     r" measured: the player counts", "home it, where the machine's file says how; else measure it, and tell where it"
     " is: the player counts"),
    (r"seek Z- RATE within MM, and then touch tool (\S+); touch tool \S+ anyway takes the machine's Z as it is",
     r"Seek the probe, and then touch Tool \1 stands on the setter"),
    (r"seek Z- RATE within MM( again)?", r"Seek the probe\1"),
    (r"G92\.1 first, then zero, does without it", "G92.1 under Offsets first, then Set, does without it"),
    (r" first, then zero, does without it", " first, then Set, does without it"),
    (r"run begins (it again|that line again)", r"Run begins \1"),
    (r"Kept, recover( or resume)? goes on", "Kept, Recover goes on"),
    (r"continue asks again; after quit", "Continue asks again; after Quit"),
    (r"and continue goes on with that", "and Continue goes on with that"),
    (r"recover goes on later", "Recover goes on later"),
    (r"is for recover in the next session", "is for Recover in the next session"),
    (r", or without the word probe from where the machine stands", ", or switch off Where the probe was touched"),
    (r"recover goes on along them, or back; drop cuts", "Recover goes on along them, or back; Drop cuts"),
    (r"the way of recover isn't at its end: recover goes on with it; drop cuts off OUT what no motor carried out, once"
     r" they\s+stand with nothing in hand", "the way of Recover isn't at its end: Recover goes on with it"),
    (r"puts them back for recover\b", "puts them back for Recover"),
    (r"restore puts it back", "Restore puts it back"),
    (r"; measure from Z within MM says it otherwise", "; Keep both heights says it otherwise"),
    (r"is the program's first: run begins with it", "is the program's first: Run begins with it"),
    (r"reference X Y Z, in mm: the player counts (.*); player stands for the number of an axis that is homed \(.*\)$",
     r"Write where each axis is that isn't homed, in mm: the player counts \1"),
    (r"run goes on", "Continue goes on"),
    (r"\bngc isn't told\b", "it isn't stored"),
))


def page_words(text: str) -> str:
    """The same in words of the page."""
    for pattern, said in _WORDS:
        text = pattern.sub(said, text)
    return text
