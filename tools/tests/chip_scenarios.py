"""What the step sink's firmware does on the emulated chip: each scenario by itself, in simulated time alone, the same
each time. Each looks at the pins and at the answers, and raises AssertionError where a promise of docs/SINK.md isn't
kept.

    python3 tests/chip_scenarios.py [NAME ..]        all of them, or these; prints the figures of each"""
import json
import random
import sys
import time
from collections.abc import Callable, Iterator
from pathlib import Path

sys.path.insert(0, str(Path(__file__).resolve().parent))

from chip_parts import BOARDS, Pin, Pulse, board_of, highs, setups
from chip_support import MS_NS, S_NS, SLOPE, TICK_NS, US, Chip, Driver, elf_of, spindle
from sink_frames import (ASKED, BROKEN, DEAD, INPUT, LEAST, NEW, NOTHING, OUTPUT, REST, RUNS, SILENT,
                         SPEED, STANDS, STOPPED, TOUCHED, WORD, slope_of)

Step = tuple[int, int, int]  # ticks, axes, which of them count down
Figures = dict[str, float]
LATE_US = 10
MOST_LATE_US = 30  # that words make up for


def begun(elf: str, ahead: int = 1500, **surroundings: int) -> Driver:
    """A chip whose sink has begun a session."""
    driver = Driver(Chip(elf, **surroundings), ahead)
    driver.begin()
    driver.chip.edges.clear()
    driver.chip.set("clear_figures", 1)
    return driver


def even(rate: float, count: int, how: Callable[[int], tuple[int, int]] = lambda number: (1, 0)) -> list[Step]:
    """Steps at an even rate."""
    due = [int(number * 8_000_000 / rate) for number in range(count + 1)]
    return [(after - at, *how(number)) for number, (at, after) in enumerate(zip(due, due[1:]))]


def words_of(steps: list[Step], slope: int = 0x7f) -> Iterator[tuple[int, int]]:
    """Their words; the last one rests."""
    for number, (ticks, axes, down) in enumerate(steps):
        yield ticks | slope << 24, axes | down << 3 | REST * (number + 1 == len(steps))


def lateness(steps: list[Step], made: list[Pulse]) -> list[int]:
    """How many ns each step that was made is later than the first, by its due time. All are made, in order."""
    wanted = [(axes, down & axes) for _, axes, down in steps]
    assert [(pulse.axes, pulse.down) for pulse in made] == wanted, "the pins made something else than was given"
    due, late = 0, []
    for (ticks, _, _), pulse in zip(steps, made):
        late.append(pulse.ns - made[0].ns - due)
        due += ticks * TICK_NS
    return late


def check_pins(chip: Chip) -> Figures:
    """Steps of at least 2 us, directions at least 5 us before them."""
    before, high = setups(chip.board, chip.edges), highs(chip.board, chip.edges)
    assert min(before, default=5 * US) >= 5 * US, f"a direction only {min(before) / US:.2f} us before its step"
    assert not high or min(high) >= 2 * US, f"a step only {min(high) / US:.2f} us long"
    return {"setup_us": min(before, default=0) / US, "high_us": max(high, default=0) / US}


def in_time(driver: Driver, steps: list[Step]) -> Figures:
    """Plays steps: all are made in their times."""
    driver.give(words_of(steps))
    driver.play()
    late = lateness(steps, driver.chip.pulses())
    assert max(late) - min(late) < LATE_US * US, (min(late) / US, max(late) / US)
    assert driver.last.dry == 0, driver.last
    return {"spread_us": (max(late) - min(late)) / US}


def left_on(chip: Chip) -> list[Pin]:
    """The outputs that are high at the end."""
    level = {(edge.port, edge.pin): edge.level for edge in chip.edges}
    return [pin for pin in chip.board.driven if level.get(pin)]


def off_at(chip: Chip) -> list[int]:
    """When the spindle went off."""
    return [edge.ns for edge in chip.edges if (edge.port, edge.pin) == chip.board.outputs[0] and not edge.level]


def check_ramp(made: list[Pulse]) -> None:
    """They come to rest by the slopes: over each 8 steps the square of the rate loses no more than they allow, but for
    two ticks in each, and the last one is slow."""
    slope = slope_of(SLOPE << 24)
    squares = [2 ** 42 / ((after.ns - at.ns) / TICK_NS) ** 2 for at, after in zip(made, made[1:])]
    for before, after in zip(squares, squares[8:]):
        noise = 8 * before / (2 ** 21 / before ** 0.5)
        assert before - after < 8 * 1.1 * slope + noise, f"from a square of {before:.0f} to {after:.0f}"
    assert squares[-1] <= 2 * slope, f"the last step comes at a square of {squares[-1]:.0f}"


def boot(elf: str) -> Figures:
    """Power on: the clocks, all outputs low, an answer each 5 ms."""
    driver = Driver(Chip(elf))
    chip = driver.chip
    chip.run(200 * MS_NS)
    driver.hear()
    is_driven = [edge for edge in chip.edges if (edge.port, edge.pin) in chip.board.driven or edge.port == "P"]
    assert not is_driven, is_driven[:5]
    figures = {name: chip.figure(name) for name in (*chip.board.clocks, "boots")}
    assert figures == {**chip.board.clocks, "boots": 1}, figures
    ends = [ns for ns, byte in chip.heard if byte == 0]
    assert len(ends) > 20, f"{len(ends)} answers"
    off = max(abs(after - at - 5 * MS_NS) for at, after in zip(ends, ends[1:]))
    assert off < 0.1 * MS_NS, "an answer isn't sent each 5 ms"
    first = next(ns for ns, _ in chip.heard)
    return {"first_byte_ms": first / MS_NS, "burst_us": len(chip.heard) // len(ends) * 5,
            "poll_us": chip.figure("hunger_us")}


def worked_frame(elf: str) -> Figures:
    """The bytes of docs/SINK.md: X up, Y down, within a millisecond."""
    driver = begun(elf)
    text = (Path(__file__).resolve().parents[2] / "docs" / "SINK.md").read_text()
    block = text.partition("as it goes over the line:\n\n")[2].partition("\n\n")[0]
    assert driver.session == 65537
    at = driver.chip.now
    driver.chip.send(bytes.fromhex(block))
    driver.pump(10 * MS_NS)
    made = driver.chip.pulses()
    assert [(pulse.axes, pulse.down) for pulse in made] == [(1, 0), (2, 2)], made
    gap = (made[1].ns - made[0].ns) / US
    assert 39.8 <= gap < 47, gap
    assert made[0].ns - at < MS_NS, f"the first step comes {(made[0].ns - at) / MS_NS:.1f} ms after it"
    return {"gap_us": gap} | check_pins(driver.chip)


def even_steps(elf: str) -> Figures:
    """Words of 8,000 ticks: steps 1,000.0 us apart, none missing, and no drift."""
    driver = begun(elf)
    figures = in_time(driver, [(8000, 1, 0)] * 1000)
    assert figures["spread_us"] < 0.5, figures
    return figures | check_pins(driver.chip)


def all_axes(elf: str) -> Figures:
    """All three axes up and down by chance at 10,000 steps a second."""
    driver = begun(elf)
    chance = random.Random(1)
    figures = in_time(driver, even(10_000, 6000, lambda number: (chance.randint(1, 7), chance.randint(0, 7))))
    return figures | check_pins(driver.chip)


def still_directions(elf: str) -> Figures:
    """X down and Y up in turns: a direction pin changes only where its axis goes the other way."""
    driver = begun(elf)
    figures = in_time(driver, even(10_000, 2000, lambda number: ((1, 1), (2, 0))[number % 2]))
    changes = sum((edge.port, edge.pin) in driver.chip.board.directions for edge in driver.chip.edges)
    assert changes <= 2, f"{changes} changes of direction pins for axes that keep their directions"
    return figures | {"changes": changes}


def outputs_of_pins(chip: Chip) -> tuple[int, ...]:
    """Clockwise, counter-clockwise, mist, flood and duty at the end."""
    level = {("P" if edge.port == "P" else (edge.port, edge.pin)): edge.level for edge in chip.edges}
    return tuple(level.get(pin, 0) for pin in (*chip.board.outputs, "P"))


def switches(elf: str) -> Figures:
    """Each combination of spindle, mist and flood, and speeds, at their pins."""
    driver, steps = begun(elf), board_of(elf).duty_steps
    for rpm in (0, 1, 10, 1200, 24_000, 30_000, 12_000.5, 23_999, 2 ** 24 - 1):
        for which in range(12):
            direction, mist, flood = which % 3, which // 3 % 2, which // 6
            driver.give(spindle(direction, int(rpm * 1_000_000), mist, flood))
            driver.play()
            driver.pump(MS_NS)
            duty = 0 if direction == 0 else min(int(rpm * steps / 24000), steps)
            pins = outputs_of_pins(driver.chip)
            assert pins == (direction == 1, direction == 2, mist, flood, duty), (rpm, which, pins)
    return {"handler_us": driver.chip.figure("handler_ns") / US}


def speeds(elf: str) -> Figures:
    """The spindle's speed between steps of 20,000 a second."""
    driver = begun(elf)
    driver.give(spindle(1, 5_000_000_000))
    driver.play()
    driver.chip.edges.clear()
    steps = even(20_000, 6000)
    given = list(words_of(steps))
    for at in range(len(given) - 30, 0, -30):
        given.insert(at, ((1000 + at) * 128, OUTPUT | SPEED))
    driver.give(given)
    driver.play()
    late = lateness(steps, driver.chip.pulses())
    duties = sum(edge.port == "P" for edge in driver.chip.edges)
    assert duties > 100 and max(late) - min(late) < LATE_US * US, (duties, min(late), max(late))
    return {"spread_us": (max(late) - min(late)) / US, "duties": duties}


def short_words(elf: str) -> Figures:
    """Words about as long as the timer's handler works: none is made before it is due, or a turn of the counter
    later."""
    early, late, empty = 0, 0, 0
    for at_once in (0, 1):
        driver = begun(elf, matches_at_once=at_once)
        chance = random.Random(1)
        for turns, ticks in ((turns, ticks) for turns in (0, 1) for ticks in range(LEAST, 130, 2)):
            driver.chip.edges.clear()
            steps = [step for pair in range(120) for step in ((ticks, 1, turns and pair & 1),
                                                              (chance.randint(360, 420), 1, turns and ~pair & 1))]
            driver.give(words_of(steps))
            driver.play()
            off = lateness(steps, driver.chip.pulses())
            early, late = min(early, *off), max(late, *off)
        empty += driver.chip.figure("spurious")
    assert early > -US, f"a step is {-early / US:.1f} us early"
    assert late < MOST_LATE_US * US, f"a step is {late / US:.1f} us late"
    return {"early_us": -early / US, "late_us": late / US, "empty_interrupts": empty}


def pulled(elf: str) -> Figures:
    """The line is pulled out amid 10,000 steps a second: slower and slower, outputs low after 500 ms."""
    driver = begun(elf, ahead=400)
    chip = driver.chip
    at = driver.move(ms=300)
    chip.model.serial_pull(True)
    chip.run(700 * MS_NS)
    chip.model.serial_pull(False)
    answer = driver.await_answer()
    made = chip.pulses()
    after = [pulse for pulse in made if pulse.ns > at]
    assert (answer.state, answer.fault) == (STOPPED, SILENT), answer
    assert answer.made - driver.base == len(made) + 2, (answer, len(made))
    check_ramp(after)
    off = off_at(chip)
    assert off and 490 * MS_NS < off[-1] - at < 520 * MS_NS, "the outputs aren't off after 500 ms"
    return {"steps_after": len(after), "off_after_ms": (off[-1] - at) / MS_NS}


def spoiled(chance: random.Random) -> Callable[[bytes], bytes]:
    """What damages, loses, doubles or cuts each 20th frame."""
    def spoil(frame: bytes) -> bytes:
        what = chance.random()
        at = chance.randrange(len(frame))
        if what < 0.02:
            return frame[:at] + bytes([frame[at] ^ 1 << chance.randrange(8)]) + frame[at + 1:]
        return b"" if what < 0.03 else frame * 2 if what < 0.04 else frame[:at] if what < 0.05 else frame
    return spoil


def damaged(elf: str) -> Figures:
    """Each 20th frame is damaged, lost or doubled: each word is made once, in order."""
    driver = begun(elf)
    driver.spoils = spoiled(random.Random(3))
    steps = even(10_000, 10_000, lambda number: (1 + number % 7, number // 100 % 8))
    driver.give(words_of(steps))
    answer = driver.play()
    lateness(steps, driver.chip.pulses())
    assert answer.lost > 5, answer
    return {"lost": answer.lost, "dry": answer.dry}


def noise(elf: str) -> Figures:
    """Chance bytes amid motion: nothing but what was given is made."""
    driver = begun(elf)
    chance = random.Random(4)
    steps = even(5000, 2500)
    driver.give(words_of(steps))
    for _ in range(300):
        driver.push()
        if chance.random() < 0.3:
            driver.chip.send(chance.randbytes(chance.randrange(60)))
        driver.pump()
    driver.play()
    lateness(steps, driver.chip.pulses())
    return {"lost": driver.last.lost, "dry": driver.last.dry}


def bad_word(elf: str) -> Figures:
    """A frame that isn't damaged holds what isn't a word: it stops by the slopes."""
    driver = begun(elf)
    driver.move(ms=50)
    driver.chip.send(driver.frame(driver.sent, [(LEAST - 1, 1)]))
    driver.pump(200 * MS_NS)
    made = driver.chip.pulses()
    assert (driver.last.state, driver.last.fault) == (STOPPED, WORD), driver.last
    assert driver.last.made - driver.base == len(made) + 2
    check_ramp(made[-40:])
    return {"made": driver.last.made}


def input_stops(elf: str) -> Figures:
    """An input that stops is opened: no step later than 1 ms, outputs off."""
    last_us, off_us = 0.0, 0.0
    for rate, delay in ((10_000, 31), (1000, 77), (200, 500), (7, 100)):
        driver = begun(elf)
        driver.begin(stops=4)
        driver.chip.edges.clear()
        at = driver.move(rate, 100) + delay * US
        driver.chip.model.model_turn_at(at, 2, 1)
        driver.pump(5 * MS_NS)
        answer = driver.await_answer()
        assert driver.has_stopped() and (answer.fault, answer.inputs) == (INPUT, 4), answer
        last_us = max(last_us, (driver.chip.pulses()[-1].ns - at) / US)
        off_us = max(off_us, (off_at(driver.chip)[-1] - at) / US)
    assert last_us <= 1000 and off_us <= 1000, (last_us, off_us)
    return {"last_step_after_us": last_us, "outputs_off_after_us": off_us}


def input_halts(elf: str) -> Figures:
    """An input that brings to rest, and is on while low: by the slopes, and the answer has the count of then."""
    driver = begun(elf, ahead=900)
    driver.chip.model.model_turn_inputs(0x80)
    driver.begin(halts=0x80, low=0x80)
    driver.chip.edges.clear()
    at = driver.move(ms=100)
    driver.chip.model.model_turn_at(at, 7, 0)
    driver.pump(200 * MS_NS)
    answer, made = driver.last, driver.chip.pulses()
    before = sum(pulse.ns <= at for pulse in made)
    assert (answer.state, answer.fault) == (STOPPED, TOUCHED), answer
    assert answer.made - driver.base == len(made) + 2
    assert 0 <= answer.touched - driver.base - 2 - before <= 1, (answer, before)
    check_ramp(made[before:])
    return {"steps_after": len(made) - before}


def stops(elf: str) -> Figures:
    """The sender asks for a stop, by the slopes and dead."""
    figures = {}
    for at_once, wanted, name in ((False, (STOPPED, ASKED), "slopes_ms"), (True, (BROKEN, DEAD), "dead_ms")):
        driver = begun(elf, ahead=900)
        at = driver.move(ms=100)
        driver.stop(at_once)
        driver.pump(200 * MS_NS)
        made = driver.chip.pulses()
        assert (driver.last.state, driver.last.fault) == wanted, driver.last
        assert driver.last.made - driver.base == len(made) + 2
        figures[name] = (made[-1].ns - at) / MS_NS
    assert figures["dead_ms"] <= 1.5 and figures["slopes_ms"] > 20, figures
    return figures


def check_new(driver: Driver, session: int) -> None:
    """The chip has started again: all is off, and it begins as it began first."""
    assert not left_on(driver.chip), left_on(driver.chip)
    answer = driver.await_answer()
    assert (answer.session, answer.state, answer.made, answer.fault) == (session, NEW, 0, NOTHING), answer
    driver.begin()
    driver.give(words_of([(800, 1, 0)] * 100))
    driver.play()
    assert driver.is_done


def reset_amid(elf: str) -> Figures:
    """The pin NRST amid motion: outputs low at once, frames of the old session aren't taken."""
    driver = begun(elf)
    at = driver.move(ms=100)
    driver.chip.model.model_reset()
    for _ in range(60):
        driver.push()  # goes on with its old session
        driver.pump()
    high = [edge for edge in driver.chip.edges if edge.ns > at + US and edge.level
            and (edge.port, edge.pin) in driver.chip.board.driven]
    assert not high, high[:3]
    check_new(driver, 2 << 16)
    return {}


def power(elf: str) -> Figures:
    """The power goes off amid motion for 50 ms, with a battery for the backup register and without."""
    for battery in (1, 0):
        driver = begun(elf, battery=battery)
        driver.move(ms=50)
        driver.chip.model.model_power_off(50 * MS_NS)
        driver.pump(50 * MS_NS)
        check_new(driver, (1 + (battery or not driver.chip.board.needs_battery)) << 16)
    return {}


def crystal(elf: str) -> Figures:
    """The crystal doesn't start: nothing is said, and no output is on."""
    chip = Chip(elf, hse_hz=0)
    chip.run(300 * MS_NS)
    assert not chip.heard and not [edge for edge in chip.edges if edge.port != "R"]
    return {}


def baud(elf: str) -> Figures:
    """The other end's clock is off by 2 % each way."""
    for rate in (1_960_000, 2_040_000):
        driver = begun(elf, baud=rate)
        in_time(driver, even(20_000, 2000))
        assert driver.chip.figure("framing") == 0 and driver.last.lost == 0
    return {}


def oscillators(elf: str) -> tuple[int, int]:
    """The watchdog's slowest and fastest."""
    return board_of(elf).slow_hz, board_of(elf).fast_hz


def watchdog(elf: str) -> Figures:
    """A fault of the core amid motion: the watchdog resets, and all is off. By its slowest and fastest oscillator."""
    figures = {}
    for lsi in oscillators(elf):
        driver = begun(elf, lsi_hz=lsi)
        at = driver.move(ms=100)
        driver.chip.model.model_fault()
        driver.pump(200 * MS_NS)
        resets = [edge.ns for edge in driver.chip.edges if edge.port == "R"]
        late = [pulse for pulse in driver.chip.pulses() if pulse.ns > at]
        assert len(resets) == 1 and not late, (resets, late[:2])
        check_new(driver, 2 << 16)
        figures[f"bites_ms_{lsi // 1000}"] = (resets[0] - at) / MS_NS
    return figures


WAYS: dict[str, Callable[[int], tuple[int, int]]] = {
    "one_axis": lambda number: (1, 0), "three_axes": lambda number: (7, 0),
    "in_turns": lambda number: ((1, 1), (2, 0))[number % 2], "to_and_fro": lambda number: (1, number & 1),
    "three_to_and_fro": lambda number: (7, 7 * (number & 1))}
"""Steps of one axis, of three at once, of two in turns with opposite directions, of one and of three that change their
directions with each step."""


def hung(elf: str) -> Figures:
    """The main loop hangs amid 20,000 steps a second: the timer brings the motors to rest by the slopes, then the
    watchdog resets. By its slowest and fastest oscillator."""
    figures = {}
    for lsi in oscillators(elf):
        driver = begun(elf, ahead=2000, lsi_hz=lsi)
        chip = driver.chip
        at = driver.move(20_000, 150)
        chip.model.model_go_astray(chip.model.model_symbol(b"hang", None))
        driver.pump(400 * MS_NS)
        made = [pulse for pulse in chip.pulses() if pulse.ns > at]
        resets = [edge.ns for edge in chip.edges if edge.port == "R"]
        off = off_at(chip)
        assert len(resets) == 1 and made[-1].ns < off[-1] < resets[0], (made[-1:], off[-1:], resets)
        check_ramp(made)
        check_new(driver, 2 << 16)
        figures[f"rests_ms_{lsi // 1000}"] = (made[-1].ns - at) / MS_NS
        figures[f"bites_ms_{lsi // 1000}"] = (resets[0] - at) / MS_NS
    return figures


def debounced(elf: str) -> Figures:
    """An input that stops dead is open for 0.2 ms: nothing, as 1 ms is asked for; then for good."""
    driver = begun(elf)
    driver.begin(stops=4, debounce_us=1000)
    driver.chip.edges.clear()
    at = driver.move(10_000, 100)
    for after_us, is_open in ((100, 1), (300, 0), (20_000, 1)):
        driver.chip.model.model_turn_at(at + after_us * US, 2, is_open)
    driver.pump(15 * MS_NS)
    assert (driver.last.state, driver.last.fault) == (RUNS, NOTHING), driver.last
    driver.pump(20 * MS_NS)
    last = (driver.chip.pulses()[-1].ns - at) / US - 20_000
    assert (driver.last.state, driver.last.fault) == (BROKEN, INPUT) and 800 < last < 2100, (driver.last, last)
    return {"last_step_after_us": last}


def storm(elf: str) -> Figures:
    """A FIFO full of the shortest words, while bytes keep coming, then slower ones: they are made in order and later,
    evenly; those behind them take their own times, but for 30 us; the main loop has its turn."""
    figures = {}
    for way, how in WAYS.items():
        driver = begun(elf, ahead=2040, lsi_hz=oscillators(elf)[1])
        steps = [(800_000, 1, 0)] + [(LEAST, *how(number)) for number in range(1500)]
        slower = even(10_000, 400, how)
        driver.give(words_of(steps + slower))
        driver.play()
        made = driver.chip.pulses()
        lateness(steps + slower, made)
        gaps = [(after.ns - at.ns) / US for at, after in zip(made[1:], made[2:])]
        assert max(gaps[:1500]) < 100, f"{way}: {max(gaps[:1500]):.0f} us between two of the shortest words"
        lasted = (made[-1].ns - made[len(steps)].ns) / US - 100 * (len(slower) - 1)
        assert abs(lasted) < MOST_LATE_US + LATE_US, f"{way}: the words behind take {lasted:.0f} us more"
        assert driver.is_done and driver.last.state == STANDS and driver.chip.figure("resets") == 0, driver.last
        figures[f"{way}_us"] = sum(gaps[:1500]) / 1500
        figures["poll_us"] = max(figures.get("poll_us", 0), driver.chip.figure("hunger_us"))
    assert figures["poll_us"] < 3000, f"the main loop waits for {figures['poll_us']} us"
    return figures


def flood(elf: str) -> Figures:
    """1,900 speeds in a row, which last no time, and a line that is full all the time: nothing is made twice or left
    out, and the watchdog doesn't bite."""
    driver = begun(elf, ahead=2040, lsi_hz=oscillators(elf)[1])
    driver.give(spindle(1, 5_000_000_000))
    driver.play()
    driver.chip.edges.clear()
    steps = [(40_000, 1, 0), *even(5000, 400)]
    given = list(words_of(steps))
    driver.give([given[0], *[(number * 128, OUTPUT | SPEED) for number in range(1900)], *given[1:]])
    for _ in range(200):
        driver.push()
        while driver.chip.sending < 400:
            driver.chip.send(driver.frame(driver.sent, []))
        driver.pump()
    driver.play()
    late = lateness(steps, driver.chip.pulses())
    assert driver.last.state == STANDS and driver.chip.figure("resets") == 0, driver.last
    return {"late_us": max(late) / US, "poll_us": driver.chip.figure("hunger_us"), "lost": driver.last.lost}


def is_in_time(elf: str, rate: int, way: str, seconds: float = 0.5) -> bool:
    """Whether steps at this rate over the line are all in time."""
    driver = begun(elf, ahead=2000)
    steps = even(rate, int(rate * seconds), WAYS[way])
    driver.give(words_of(steps))
    driver.play(seconds * 3)
    made = driver.chip.pulses()
    late = lateness(steps, made) if len(made) == len(steps) else [0, S_NS]
    return max(late) - min(late) < LATE_US * US


def claimed(elf: str) -> Figures:
    """The rates that docs/SINK.md promises over the line, of all ways: no step is more than 10 us late."""
    for way in WAYS:
        promised = 25_000 if way.endswith("fro") else 35_000
        assert is_in_time(elf, promised, way), f"{way}: a step is late at {promised} a second"
    return {}


def rates(elf: str) -> Figures:
    """The highest rates over the line at which no step is more than 10 us late."""
    figures = {}
    for way in WAYS:
        low, high = 10_000, 41_000
        while high - low > 250:
            middle = (low + high) // 2
            low, high = (middle, high) if is_in_time(elf, middle, way) else (low, middle)
        figures[way] = low
    return figures


def long(elf: str, count: int = 100_000) -> Figures:
    """100,000 words at rates that go up and down, all axes."""
    driver = begun(elf)
    chance = random.Random(9)
    steps, now = [], 800.0
    for number in range(count):
        now = min(max(now * chance.uniform(0.99, 1.0101), 365), 3000)
        axes = chance.randint(1, 7)
        steps.append((int(now), axes, (number // 4000) & axes))
    figures = in_time(driver, steps)
    named = ("latency_ns", "handler_ns", "stack_bytes", "room_bytes", "hunger_us")
    return figures | {name: driver.chip.figure(name) for name in named}


QUICK = (boot, worked_frame, even_steps, still_directions, switches, pulled, damaged, bad_word, input_stops,
         input_halts, debounced, stops, reset_amid, power, crystal, baud, watchdog, hung, storm)
"""Some 10 seconds of processor time."""
SLOW = (all_axes, noise, speeds, flood, claimed, short_words, rates, long)


def told(scenario: Callable[[str], Figures], elf: str) -> tuple[str, bool]:
    """What a scenario says, and whether it holds."""
    try:
        figures = {key: round(value, 2) for key, value in scenario(elf).items()}
    except (AssertionError, IndexError, ValueError) as why:
        return f"FAILS: {type(why).__name__} {str(why)[:300]}", False
    return json.dumps(figures), True


def main(*words: str) -> int:
    """Runs what is named: boards, stm32f103 where there is none, and scenarios."""
    boards = [word for word in words if word in BOARDS] or ["stm32f103"]
    names = [word for word in words if word not in BOARDS]
    if unknown := set(names) - {each.__name__ for each in (*QUICK, *SLOW)}:
        sys.exit(f"neither a board nor a scenario: {' '.join(sorted(unknown))}")
    every = [(board, each) for board in boards for each in (*QUICK, *SLOW) if not names or each.__name__ in names]
    failed = 0
    for board, scenario in every:
        begun_at = time.process_time()
        said, holds = told(scenario, elf_of(board))
        failed += not holds
        print(f"{board} {scenario.__name__:16} {time.process_time() - begun_at:6.1f} s  {said}", flush=True)
    print(f"{len(every) - failed} of {len(every)} hold")
    return 1 if failed or not every else 0


if __name__ == "__main__":
    sys.exit(main(*sys.argv[1:]))
