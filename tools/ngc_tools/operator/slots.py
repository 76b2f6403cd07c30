"""The tool table has no gaps: the slots below one that gets a length get 0, as of a tool that isn't measured."""
from ngc_tools.formats.device import SLOTS, Device
from ngc_tools.operator.face import WARNING
from ngc_tools.operator.session import Session


def fill_below(session: Session, slot: int, length_nm: int | None) -> None:
    """Gives the slots between the table's end and this one a length of 0, and says so; not where that one wouldn't be
    taken anyway."""
    device = session.stored()
    is_taken = isinstance(device, Device) and slot <= SLOTS and length_nm is not None and 0 <= length_nm <= 10**9
    first = len(device.tools_nm) + 1 if is_taken else slot
    if first >= slot:
        return
    for number in range(first, slot):
        if session.console.ask(f"tool {number} 0")[0].startswith("refused"):
            return  # so is the one that was asked for, with its cause
    which = f"slot {first} has" if first + 1 == slot else f"slots {first} to {slot - 1} have"
    session.face.say(f"{which} length 0 now, since the table has no gaps: measure before G43 takes that", WARNING)
