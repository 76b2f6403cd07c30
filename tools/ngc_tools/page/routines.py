"""The probe's routines, as a page asks for their table."""
from ngc_tools.formats.position import millimetres
from ngc_tools.operator.routines import ROUTINES, Lengths


def routines() -> dict:
    """Of each its name, where the probe is put before, how many axes it takes, with a direction or not, and its lengths
    in mm as they are without a word, 0 for one that has to be told."""
    usual = Lengths()
    return {"routines": [{"name": each.name, "where": each.where, "ways": each.ways, "is_directed": each.is_directed,
                          "lengths": {name: millimetres(getattr(usual, name)) for name in each.lengths}}
                         for each in ROUTINES.values()]}
