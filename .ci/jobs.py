"""Makes random jobs for `ngc run` under the settings given here: the operator's lines and tools, and programs that stop
now and then.

All points lie on the steps of each axis, so that the pulses handed out say exactly where the machine stands. Nothing is
refused."""

STEP_NM = (1000, 1000, 500)
TRAVERSE_NM_PER_MIN = 300_000_000
PERIOD_US = 50
# The tool lengths that a job begins with, in nm, by slot.
TOOLS_NM = [2000, 5000]
SETTINGS = f"""step_nm = {list(STEP_NM)}
low_nm = [-1000000000, -1000000000, -1000000000]
high_nm = [1000000000, 1000000000, 1000000000]
traverse_nm_per_min = {TRAVERSE_NM_PER_MIN}
period_us = {PERIOD_US}
"""


def length(chance, most):
    """A length of at most this number of micrometres, either way, as a number of millimetres."""
    return f"{chance.randint(-most, most) / 1000:.3f}"


def axes(chance, most):
    """Words of one axis or more."""
    named = [axis for axis in "XYZ" if chance.random() < 0.5] or [chance.choice("XYZ")]
    return " ".join(axis + length(chance, most) for axis in named)


def feed(chance):
    return f"F{chance.choice((30, 60, 250, 1200, 60000))}"


def move(chance):
    return chance.choice((
        f"G90 G0 {axes(chance, 12)}",
        f"G91 G0 {axes(chance, 8)}",
        f"G94 G90 G1 {axes(chance, 12)} {feed(chance)}",
        f"G94 G91 G1 {axes(chance, 8)} {feed(chance)}",
        f"G93 G91 G1 {axes(chance, 8)} F{chance.randint(60, 60000)}",
        f"G53 G0 {axes(chance, 12)}",
        f"/n{chance.randint(1, 999)} g90 g0 {axes(chance, 9).lower()}",
    ))


def arc(chance):
    """A quarter, half or full turn, perhaps as a helix. The choice names the plane, its axes and the third one, and
    the letters of the centre."""
    plane, (a, b, third), (i, j) = chance.choice((("G17", "XYZ", "IJ"), ("G18", "ZXY", "KI"), ("G19", "YZX", "JK")))
    radius = chance.choice((-1, 1)) * chance.randint(1, 6)
    way = chance.choice((
        f"{a}{radius / 1000:.3f} {b}{chance.choice((-1, 1)) * radius / 1000:.3f} {i}{radius / 1000:.3f}",
        f"{a}{2 * radius / 1000:.3f} {i}{radius / 1000:.3f}",
        f"{b}{2 * radius / 1000:.3f} {j}{radius / 1000:.3f}",
        f"{a}0 {j}{radius / 1000:.3f}",
    ))
    helix = f" {third}{length(chance, 5)}" if chance.random() < 0.3 else ""
    return f"{plane} G94 G91 G{chance.choice((2, 3))} {way}{helix} {feed(chance)}"


def cycle(chance):
    word = chance.choice(("G81", "G82 P0.001", "G83 Q0.002", "G85", "M3 S500 G86 P0.002", "M4 G86", "G89 P0"))
    places = f"X{length(chance, 3)} Y{length(chance, 3)}"
    depth = f"R{chance.randint(0, 3) / 1000:.3f} Z-{chance.randint(0, 5) / 1000:.3f} L{chance.choice((1, 1, 2, 3))}"
    return f"G17 G94 G91 {word} {chance.choice(('G98', 'G99'))} {places} {depth} {feed(chance)}"


def switches(chance):
    words = [
        word
        for word in (
            f"S{chance.randint(0, 9000)}",
            f"T{chance.randint(0, 2)}",
            "M6",
            chance.choice(("M3", "M4", "M5")),
            chance.choice(("M7", "M8", "M9")),
            f"G4 P{chance.choice(('0', '0.25', '0.000001'))}",
        )
        if chance.random() < 0.4
    ]
    return " ".join([*words, chance.choice(("", f"G90 G0 {axes(chance, 9)}"))]).strip()


def setting(chance):
    """A parameter, an origin, an offset, a tool's length or a home, and perhaps a move that uses it."""
    return chance.choice((
        f"#1=[#1+0.002] #2={length(chance, 5)} G91 G0 X#1 Y#2",
        "#1=0.001 G91 G0 Z[#1+#2]",
        f"#5161={length(chance, 9)} #5163={length(chance, 9)} G91 G28 {axes(chance, 5)}",
        f"#5181={length(chance, 9)} G30",
        f"G92 {axes(chance, 9)}",
        f"G92 {axes(chance, 9)} S{chance.randint(1, 9)} M8",
        chance.choice(("G92.1", "G92.2", "G92.3")),
        f"G10 L2 P{chance.randint(1, 3)} {axes(chance, 6)}",
        f"{chance.choice(('G54', 'G55', 'G56'))} G90 G0 {axes(chance, 9)}",
        f"{chance.choice(('G43 H1', 'G43 H2', 'G43 H0', 'G49'))} G90 G0 Z{length(chance, 9)}",
        # 49 parameters, one more than fits into a part of a record
        "".join(f"#{parameter}={chance.randint(1, 9)}" for parameter in range(50, 99)),
    ))


def silent(chance):
    return chance.choice(("", "(a remark)", "(MSG, a message)", "G64 M49", "N7", "G91 G80"))


def line(chance):
    kind = chance.choices((move, arc, cycle, switches, setting, silent), (6, 3, 3, 3, 3, 1))[0]
    return kind(chance)


def program(chance):
    """A program's text, and how often it has to be started or continued until it has ended."""
    lines, goings = [], 1
    for _ in range(chance.randint(2, 9)):
        stop = chance.choice((" M0", " M1", " M60", "")) if chance.random() < 0.25 else ""
        text = line(chance)
        goings += stop in (" M0", " M60")
        lines.append(text + stop)
    newline = chance.choice(("\n", "\r\n"))
    if chance.random() < 0.2:
        lines = ["%", *lines, "%"]
    else:
        lines.append(chance.choice(("M2", "M30", "G90 G0 X0.004 M2", "M2 (the end)")))
    return newline.join(lines) + newline, goings


def tool(chance):
    """A slot that a job begins with, or the next one, and a length."""
    return f"{chance.randint(1, len(TOOLS_NM) + 1)} {chance.randint(0, 9) / 1000:.3f}"


def job(chance):
    """What the operator does, in order: ("mdi", line), ("tool", slot and length), ("load", text), or ("go", "") for
    `start` or `continue`."""
    does = [("mdi", line(chance)) for _ in range(chance.randint(0, 3))]
    for _ in range(chance.choice((1, 1, 2))):
        text, goings = program(chance)
        does.append(("load", text))
        for _ in range(goings):
            does.append(("go", ""))
            if chance.random() < 0.3:
                does.append(("mdi", line(chance)))
            if chance.random() < 0.3:
                does.append(("tool", tool(chance)))
    return does
