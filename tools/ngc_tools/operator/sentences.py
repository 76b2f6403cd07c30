"""What the operator says of refusals, and of a block that is taken up."""
from ngc_tools.ngc import faults

PLAYER_SILENT = "Once the player answers, again; if it is gone, quit, and start a player and this again"
# what is said of a block that is taken up
TAKEN_UP = """\
{half} is taken up. Its outputs are switched on as they were; then the tool goes
in one straight line at the traverse rate from {place} to where that segment begins.
Z isn't lifted first."""
LOOK_SWITCHED = """\
The outputs are switched, and nothing has moved. Look: are spindle, tool and way as they should be?
yes goes there, Enter holds; anything else switches them back: """
LOOK = """\
Nothing is switched, and nothing has moved. Look: are spindle, tool and way as they should be?
yes goes there, Enter holds; anything else ends: """
LOOK_AGAIN = """\
The motors are held on their way. Look: are spindle, tool and the rest of the way as they should be?
yes goes on, Enter holds; anything else stays: """
TAKEN_UP_THERE = """\
{half} is taken up from its beginning.
The motors are there: {place}. Its outputs are switched on as they were."""
SWITCHED_THERE = """\
The outputs are switched, and nothing has moved. Does the spindle turn, and is the right tool in?
yes goes on, anything else holds: """
SWITCHED = """\
The outputs are switched, and nothing has moved. Does the spindle turn, is the right tool in, is the straight way free?
yes goes on, anything else holds: """
GO_ON = """\
The motors are where the segment begins, and nothing was switched on the way.
yes goes on with the cut, anything else holds: """
NOT_MOVED = "nothing has moved. continue asks again; after quit the block is still half-done"


def explained(refusal: str, cause: str = "") -> str:
    """A refusal, as `refused K1 Busy`, the cause or else the sentence that says what it means, and of a line what to
    write instead."""
    code = refusal.split()[1] if len(refusal.split()) > 1 else ""
    fault = faults.fault(code)
    if fault:
        return f"{refusal}: {cause or fault.holds}\n  {fault.cure}"
    said = cause or faults.SESSION.get(code) or faults.SETTINGS.get(code)
    return refusal + (f": {said}" if said else "")
