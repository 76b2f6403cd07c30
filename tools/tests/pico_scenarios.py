"""What the step sink's firmware does on the emulated RP2040 beside what chip_scenarios.py asks of each chip: its flash
keeps the number of the boot, its DMA receives for ever, its watchdog is exact, its oscillator isn't.

    python3 tests/pico_scenarios.py [NAME ..]        all of them, or these; prints the figures of each"""
import ctypes
import struct
import sys
import time
from collections.abc import Callable
from pathlib import Path

sys.path.insert(0, str(Path(__file__).resolve().parent))

from chip_scenarios import LATE_US, WAYS, Figures, begun, check_new, even, lateness, told, words_of
from chip_support import MS_NS, US, Chip, Driver, Violation, elf_of
from sink_frames import NEW

FLASH_BYTES, SECTOR = 2 << 20, 4096
SLOTS = 2 * SECTOR // 4
BLANK = 0xffffffff
RECEIVES = 0  # the channel of the DMA, as the port has it


def number(boot: int) -> int:
    """The word of a boot in the log: its number, and above that its complement."""
    return boot | (boot ^ 0xffff) << 16


def flash(chip: Chip) -> ctypes.Array[ctypes.c_uint8]:
    """The flash's bytes, with which the model's state begins."""
    return (ctypes.c_uint8 * FLASH_BYTES).in_dll(chip.model, "chip")


def log_of(chip: Chip) -> list[int]:
    """The words of the log."""
    return list(struct.unpack(f"<{SLOTS}I", bytes(flash(chip)[FLASH_BYTES - 2 * SECTOR:])))


def session_of(elf: str, log: list[int], cut: int = 0) -> tuple[int, Chip]:
    """The boot's number that a chip with this log begins with, and the chip; power goes off amid the `cut`-th change of
    the flash."""
    chip = Chip(elf)
    flash(chip)[FLASH_BYTES - 2 * SECTOR:] = list(struct.pack(f"<{SLOTS}I", *log, *[BLANK] * (SLOTS - len(log))))
    chip.model.rom_cut(cut)
    chip.run(400 * MS_NS)
    chip.model.rom_cut(0)
    driver = Driver(chip)
    driver.hear()
    assert driver.answers, "the sink doesn't answer"
    assert driver.last.state == NEW and driver.last.session % 65536 == 0, driver.last
    return driver.last.session // 65536, chip


def boots(elf: str) -> Figures:
    """The boot's number is one more than the last: from none on, over 65,535, in a full sector, in a full log, over
    words that aren't numbers."""
    full = [number(boot) for boot in range(1000, 1000 + SLOTS)]
    cases = (([], 1), ([number(7)], 8), ([number(65534), number(65535)], 0),
             ([number(65535), number(0)], 1), (full[:SLOTS // 2], 2024),
             (full, 1000 + SLOTS), ([number(5), 0x12345678, 0], 6), ([0x00010001] * SLOTS, 1),
             ([*full[:700], *[BLANK] * 324, *[number(boot) for boot in range(3000, 3000 + SLOTS // 2)]], 4024))
    for log, wanted in cases:
        got, chip = session_of(elf, log)
        assert got == wanted, f"after {len(log)} words the boot's number is {got}, not {wanted}"
        assert number(wanted) in log_of(chip), "the flash hasn't the number"
    return {"cases": len(cases)}


def kept(elf: str) -> Figures:
    """Each start gives the next number: by the power, the pin RUN, and the watchdog; a word is written once."""
    driver = begun(elf)
    driver.chip.model.model_reset()
    driver.pump(50 * MS_NS)
    check_new(driver, 2 << 16)
    driver.chip.model.model_power_off(50 * MS_NS)
    driver.pump(50 * MS_NS)
    check_new(driver, 3 << 16)
    driver.chip.model.model_fault()
    driver.pump(200 * MS_NS)
    check_new(driver, 4 << 16)
    assert log_of(driver.chip)[:5] == [*map(number, (1, 2, 3, 4)), BLANK], log_of(driver.chip)[:5]
    return {}


def cut(elf: str) -> Figures:
    """Power goes off amid each change of the flash: no number is given twice."""
    full = [number(boot) for boot in range(1000, 1000 + SLOTS)]
    for log, last in ((full, 999 + SLOTS), (full[:10], 1009), (full[:SLOTS // 2], 1023 + 1000)):
        for change in (1, 2):
            got, chip = session_of(elf, log, change)
            newest = max(word & 0xffff for word in log_of(chip) if word == number(word & 0xffff))
            assert got in (last + 1, last + 2) and newest == got, (len(log), change, got, newest, last)
    return {}


def long_line(elf: str) -> Figures:
    """The DMA has counted down what it was given, as after hours: bytes are taken as before."""
    driver = begun(elf)
    driver.chip.model.dma_set_left(RECEIVES, 3000)
    driver.give(words_of(even(10_000, 4000)))
    driver.play()
    assert driver.is_done and driver.last.lost == 0, driver.last
    return {"lost": driver.last.lost}


def bites(elf: str) -> Figures:
    """The watchdog bites 100 ms after it was told last."""
    driver = begun(elf)
    at = driver.move(ms=50)
    driver.chip.model.model_fault()
    driver.pump(200 * MS_NS)
    resets = [edge.ns for edge in driver.chip.edges if edge.port == "R"]
    assert resets, "the watchdog doesn't bite"
    after = resets[0] - at
    assert 99.5 * MS_NS < after < 100.5 * MS_NS, f"the watchdog bites after {after / MS_NS:.1f} ms"
    return {"after_ms": after / MS_NS}


def oscillator(elf: str) -> Figures:
    """The ring oscillator, by which the chip begins, is as slow or as fast as the datasheet says."""
    figures = {}
    for hz in (1_800_000, 12_000_000):
        chip = Chip(elf, lsi_hz=hz)
        chip.run(100 * MS_NS)
        assert chip.heard and {chip.figure(name) for name in ("sys_hz",)} == {128_000_000}
        figures[f"first_byte_ms_{hz // 100_000}"] = chip.heard[0][0] / MS_NS
    return figures


NOT_OF_V6M = {
    "cbz": "b100", "cbnz": "b900", "it": "bf08", "movw": "f2400000", "movt": "f2c00000", "udiv": "fbb0f0f1",
    "sdiv": "fb90f0f1", "clz": "fab0f080", "rbit": "fa90f0a0", "mla": "fb013002", "umull": "fba20103",
    "ldrd": "e9dd0100", "ldr.w": "f8dd0000", "str.w": "f8cd0000", "b.w": "f000b800", "beq.w": "f0008000",
    "tbb": "e8dff000", "push.w": "e92d0110", "add.w": "eb000001", "and.w": "f0000001", "bfi": "f3600000",
    "ubfx": "f3c00000", "ssat": "f3000000", "adr.w": "f20f0000", "ldrex": "e85d0f00", "clrex": "f3bf8f2f"}
OF_V6M = {"nop": "bf00", "dmb": "f3bf8f5f", "dsb": "f3bf8f4f", "isb": "f3bf8f6f", "cpsie": "b662", "uxtb": "b2c0",
          "rev": "ba00", "rsbs": "4240", "muls": "4340", "sxth": "b200", "bl": "f000f800"}
"""Instructions by the manuals of ARMv6-M and ARMv7-M, with r0, r1 and sp."""


def begins_with(elf: str, instruction: str) -> str:
    """What stops a program whose main begins with this instruction; empty where nothing does at once."""
    chip = Chip(elf)
    symbol = {name: chip.model.model_symbol(name.encode(), None) & ~1 for name in ("main", "program_begin",
                                                                                "program_from")}
    at = symbol["main"] - symbol["program_begin"] + symbol["program_from"] - 0x10000000
    halves = [int(instruction[each:each + 4], 16) for each in range(0, len(instruction), 4)]
    flash(chip)[at:at + len(instruction) // 2] = list(struct.pack(f"<{len(halves)}H", *halves))
    try:
        chip.run(20 * MS_NS)
    except Violation as why:
        return str(why)
    return ""


def instructions(elf: str) -> Figures:
    """The core refuses what ARMv7-M has and ARMv6-M hasn't, and takes what both have."""
    for name, code in NOT_OF_V6M.items():
        assert "that this core hasn't" in begins_with(elf, code), f"{name} is taken"
    for name, code in OF_V6M.items():
        assert "that this core hasn't" not in begins_with(elf, code), f"{name} is refused"
    return {"refused": len(NOT_OF_V6M), "taken": len(OF_V6M)}


def is_in_time_from_fifo(elf: str, rate: int, way: str) -> bool:
    """Whether 1,800 steps at this rate, which are in the FIFO when the first is made, are in time."""
    driver = begun(elf, ahead=2040)
    steps = [(800_000, 1, 0), *even(rate, 1800, WAYS[way])]
    driver.give(words_of(steps))
    driver.play()
    late = lateness(steps, driver.chip.pulses())[1:]
    return max(late) - min(late) < LATE_US * US


def fifo_rates(elf: str) -> Figures:
    """The highest rates from the FIFO alone at which no step is more than 10 us late."""
    figures = {}
    for way in WAYS:
        low, high = 30_000, 110_000
        while high - low > 1000:
            middle = (low + high) // 2
            low, high = (middle, high) if is_in_time_from_fifo(elf, middle, way) else (low, middle)
        figures[way] = low
    return figures


EVERY: tuple[Callable[[str], Figures], ...] = (boots, kept, cut, long_line, bites, oscillator, instructions, fifo_rates)


def main(*names: str) -> int:
    """Runs what is named."""
    every = [each for each in EVERY if not names or each.__name__ in names]
    failed = 0
    for scenario in every:
        begun_at = time.process_time()
        said, holds = told(scenario, elf_of("pico"))
        failed += not holds
        print(f"pico {scenario.__name__:16} {time.process_time() - begun_at:6.1f} s  {said}", flush=True)
    print(f"{len(every) - failed} of {len(every)} hold")
    return 1 if failed or not every else 0


if __name__ == "__main__":
    sys.exit(main(*sys.argv[1:]))
