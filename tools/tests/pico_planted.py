"""Faults planted in the Pico's firmware, one at a time: a scenario on the emulated chip has to fail for each.

    python3 tests/pico_planted.py [NAME ..]     all scenarios on the firmware as it is, then all faults; or these faults

It prints which scenario shows a fault, and ends with status 1 where one isn't shown."""
import sys
import tempfile
import time
from collections.abc import Callable
from pathlib import Path

sys.path.insert(0, str(Path(__file__).resolve().parent))

import chip_scenarios as each_chip
import pico_scenarios as of_pico
from chip_planted import Edit, build
from chip_support import Driver

PORT, REGISTERS, BOOT, BOOTS = "rp2040.c", "rp2040.h", "rp2040_boot.c", "rp2040_boots.c"
LINKER, IMAGE, MAKE = "rp2040.ld", "rp2040_image.py", "Makefile"


def port(old: str, new: str) -> list[Edit]:
    """An edit of the port."""
    return [(PORT, old, new)]


CLOCK: dict[str, list[Edit]] = {
    "PLL times 125": port("PLL_FBDIV_INT = 128", "PLL_FBDIV_INT = 125"),
    "PLL times 134": port("PLL_FBDIV_INT = 128", "PLL_FBDIV_INT = 134"),
    "PLL by 5 and 2": port("6u << 16 | 2u << 12", "5u << 16 | 2u << 12"),
    "PLL not waited for": port("while ((PLL_CS & 1u << 31) == 0) {\n    }\n", ""),
    "PLL without its dividers": port("    PLL_PWR = 0x04;\n", ""),
    "crystal not waited for": port("while ((XOSC_STATUS & 1u << 31) == 0) {\n    }\n", ""),
    "crystal with no time to start": port("XOSC_STARTUP = 188", "XOSC_STARTUP = 18"),
    "clk_ref of the ring oscillator": port("CLK_REF_CTRL = 2;\n    while (CLK_REF_SELECTED != 1u << 2) {\n    }\n", ""),
    "clk_sys stays": port("CLK_SYS_CTRL = 1;\n    while (CLK_SYS_SELECTED != 1u << 1) {\n    }\n", ""),
    "clk_peri off": port("    CLK_PERI_CTRL = 1u << 11;\n", ""),
    "a tick of 13": port("1u << 9 | 12", "1u << 9 | 13"),
    "no tick": port("    WATCHDOG_TICK = 1u << 9 | 12;\n", ""),
    "UART0 in reset": port("USED = 1 << 22 | 1 << 21", "USED = 1 << 21"),
    "TIMER in reset": port("1 << 22 | 1 << 21 |", "1 << 22 |"),
    "PWM in reset": port("1 << 21 | 1 << 14 |", "1 << 21 |"),
    "PLL in reset": port("1 << 14 | 1 << 12 |", "1 << 14 |"),
    "pads in reset": port("1 << 12 | 1 << 8 |", "1 << 12 |"),
    "pins in reset": port("1 << 8 | 1 << 5 |", "1 << 8 |"),
    "DMA in reset": port("1 << 5 | 1 << 2 ", "1 << 5 "),
}
START: dict[str, list[Edit]] = {
    "boot block without its checksum": [(IMAGE, "crc = 0xffffffff", "crc = 0")],
    "flash's clock by 2": [(BOOT, "CLOCK_BY = 4", "CLOCK_BY = 2")],
    "flash's other command": [(BOOT, "READ = 0x03", "READ = 0x0b")],
    "SSI changed while on": [(BOOT, "    SSI_SSIENR = 0;\n", "")],
    "boot block begins elsewhere": [(BOOT, "section(\".boot\")", "section(\".start\")")],
    "vectors stay in the flash": port("    VTOR = (uint32_t)(uintptr_t)&vectors;\n", ""),
    "vector one too far": port("void (*faults[14])(void);", "void (*faults[15])(void);"),
    "program not copied": port("&program_begin[at] != program_end", "&program_begin[at] != program_begin"),
    ".bss not cleared": port("&bss_begin[at] != bss_end", "&bss_begin[at] != bss_begin"),
    "program stays in the flash": [(LINKER, "*(.start*)", "*(.start*) *(.text*)")],
    "stack in .bss": [(LINKER, "stack_top = ORIGIN(RAM) + LENGTH(RAM);", "stack_top = bss_end + 64;")],
    "stack beyond the RAM": [(LINKER, "ORIGIN(RAM) + LENGTH(RAM);", "ORIGIN(RAM) + LENGTH(RAM) + 64;")],
    "instructions of a Cortex-M3": [(MAKE, "cortex-m0plus", "cortex-m3")],
    "an unaligned word": port("directions = wanted;", "directions = wanted;\n"
                              "        __asm volatile(\"str %0, [%0]\" : : \"r\"((uintptr_t)to_send | 1));"),
}
LINE: dict[str, list[Edit]] = {
    "baud divisor 5": port("BAUD_DIVISOR = 4", "BAUD_DIVISOR = 5"),
    "a fraction of the baud divisor": port("UART0_FBRD = 0", "UART0_FBRD = 32"),
    "7 bits": port("UART0_LCR_H = 0x70", "UART0_LCR_H = 0x50"),
    "divisor not taken": port("    UART0_LCR_H = 0x70; /* 8 bits, FIFOs */\n", ""),
    "format after it is on": port("    UART0_LCR_H = 0x70; /* 8 bits, FIFOs */\n    UART0_CR = 0x301;\n",
                                  "    UART0_CR = 0x301;\n    UART0_LCR_H = 0x70;\n"),
    "UART without DMA": port("UART0_DMACR = 3", "UART0_DMACR = 2"),
    "UART doesn't receive": port("UART0_CR = 0x301", "UART0_CR = 0x101"),
    "GP0 not the UART's": port("IO_CTRL(PIN_OUT) = 2", "IO_CTRL(PIN_OUT) = 5"),
    "GP1 not the UART's": port("IO_CTRL(PIN_IN) = 2", "IO_CTRL(PIN_IN) = 3"),
    "DMA not round and round": port("RECEIVED_POWER << 6 | ", ""),
    "the other side round": port("1u << 10 | RECEIVED_POWER", "RECEIVED_POWER"),
    "ring not aligned": port("__attribute__((aligned(RECEIVED)))", "__attribute__((aligned(4)))"),
    "ring of 512": port("RECEIVED_POWER << 6", "(RECEIVED_POWER - 1u) << 6"),
    "DMA the wrong way": port("1u << 4 | 1; /* as", "1u << 5 | 1; /* as"),
    "DMA as the other asks": port("20u << 15", "21u << 15"),
    "DMA begins the other": port("(uint32_t)SENDS << 11 | ", ""),
    "DMA not begun again": port("DMA_AGAIN(RECEIVES) = 0xffffffff;", ""),
}
TIMERS: dict[str, list[Edit]] = {
    "ticks of 15": port("TICK_DIVISOR = 16", "TICK_DIVISOR = 15"),
    "time stands": port("PWM_EN = 1u << TIME | ", "PWM_EN = "),
    "alarm stands": port("1u << ALARM | 1u << SPINDLE", "1u << SPINDLE"),
    "alarm a microsecond early": port("(PWM_CTR(TIME) - due)", "(PWM_CTR(TIME) - due + 8)"),
    "alarm 60 us late": port("(PWM_CTR(TIME) - due)", "(PWM_CTR(TIME) - due - 480)"),
    "flag never cleared": port("PWM_INTR = 1u << ALARM;", ""),
    "a turn taken for a due word": port("PWM_INTE != 0 && is_due()", "PWM_INTE != 0 && (is_due() || true)"),
    "alarm set after the look": port(
        "        set_due(after);\n    }\n",
        "        bool is_past = (uint16_t)(due + after - ticks_now() - 1) >= 0x8000;\n"
        "        set_due(after);\n        if (!is_past) {\n            break;\n        }\n    }\n"),
    "all lateness made up for": port("late > MOST_LATE_TICKS &&", "false && late > MOST_LATE_TICKS &&"),
    "another slice's interrupt": port("PWM_INTE = 1u << ALARM", "PWM_INTE = 1u << TIME"),
    "interrupt 5": port("1u << PWM_INTERRUPT;", "1u << (PWM_INTERRUPT + 1);"),
    "first word 8 ms late": port("(ticks_now() + ticks)", "(ticks_now() - ticks)"),
    "watchdog of 50 ms": port("WATCHDOG_COUNT = 200000", "WATCHDOG_COUNT = 100000"),
    "watchdog not fed": port("    WATCHDOG_LOAD = WATCHDOG_COUNT;\n}\n\n/* All", "}\n\n/* All"),
    "watchdog off": port("    WATCHDOG_CTRL = 1u << 30;\n", ""),
    "watchdog resets nothing": port("    PSM_WDSEL = 0x1fffc; ", "    "),
    "watchdog resets the core alone": port("PSM_WDSEL = 0x1fffc", "PSM_WDSEL = 0x8000"),
}
PINS: dict[str, list[Edit]] = {
    "outputs high while they begin": port("SIO_OUT = 0;", "SIO_OUT = STEP_PINS;"),
    "outputs not enabled": port("STEP_PINS | DOWN_PINS | SWITCH_PINS", "STEP_PINS | DOWN_PINS"),
    "no pull-ups": port("        PADS(pin) = 0x5a;\n", ""),
    "inputs float": port("        PADS(pin) = 0x5a;\n", "        PADS(pin) = 0x52;\n"),
    "inputs one pin too far": port("SIO_IN >> INPUTS &", "SIO_IN >> (INPUTS + 1) &"),
    "wrong register: the other bank": [(REGISTERS, "AT(0xd0000004)", "AT(0xd0000008)")],
    "wrong register: turned, not cleared": [(REGISTERS, "AT(0xd0000018)", "AT(0xd000001c)")],
    "PWM of 12801 steps": port("PWM_TOP(SPINDLE) = PWM_STEPS - 1", "PWM_TOP(SPINDLE) = PWM_STEPS"),
    "PWM at the other pin": port("PWM_CC(SPINDLE) = outputs->spindle == 0 ? 0 : duty < PWM_STEPS ? (uint32_t)duty :"
                                 " PWM_STEPS;", "PWM_CC(SPINDLE) = (outputs->spindle == 0 ? 0 : duty < PWM_STEPS ?"
                                 " (uint32_t)duty : PWM_STEPS) << 16;"),
    "PWM's pin not the PWM's": port("pin == SPEED ? 4 : 5", "5"),
    "speed stays with the spindle off": port("outputs->spindle == 0 ? 0 : duty", "duty"),
    "direction after the step": port("    if (wanted != directions) {",
                                     "    SIO_OUT_SET = spread(steps) << STEP_X;\n    if (wanted != directions) {"),
    "direction 2 us before": port("DIRECTION_TICKS = 41", "DIRECTION_TICKS = 17"),
    "directions of axes that stand": port("(directions & ~steps) | (down & steps)", "down"),
    "directions swapped": port("SIO_OUT_SET = spread(wanted) << DOWN_X", "SIO_OUT_SET = spread(wanted ^ 7) << DOWN_X"),
    "directions never cleared": port("        SIO_OUT_CLEAR = DOWN_PINS & ~(spread(wanted) << DOWN_X);\n", ""),
    "steps of 1 us": port("STEP_TICKS = 17", "STEP_TICKS = 8"),
    "Y and Z swapped": port("(axes & 2) << 1 | (axes & 4) << 2", "(axes & 2) << 3 | (axes & 4)"),
    "mist and flood swapped": port("MIST = 11, FLOOD = 12", "MIST = 12, FLOOD = 11"),
}
LOG: dict[str, list[Edit]] = {
    "number not written": [(BOOTS, "write_slot(slot, word)", "write_slot(slot, 0xffffffff)")],
    "number always 1": [(BOOTS, "? boot_log[slot] & 0xffff : 0", "? 0 : 0")],
    "words without a complement": [(BOOTS, "((word >> 16) ^ (word & 0xffff)) == 0xffff", "word != 0xffffffff")],
    "numbers compared as such": [(BOOTS, "(uint16_t)(boot_log[slot] - boot_log[newest]) < 0x8000",
                                  "(boot_log[slot] & 0xffff) > (boot_log[newest] & 0xffff)")],
    "full sector not erased": [(BOOTS, "slot % SLOTS_OF_SECTOR == 0 &&", "slot == SLOTS &&")],
    "both sectors erased": [(BOOTS, "erases(offset_of(slot), BOOT_SECTOR",
                             "erases(offset_of(0 * slot), 2 * BOOT_SECTOR")],
    "flash memory while it is written": [(BOOTS, "    ((call *)rom('E', 'X'))();\n", "")],
    "flash not memory again": [(BOOTS, "    ((call *)rom('C', 'X'))();\n", "")],
    "cache not emptied": [(BOOTS, "    ((call *)rom('F', 'C'))();\n", "")],
    "page not aligned": [(BOOTS, "programs(offset_of(slot) - at, page", "programs(offset_of(slot), page")],
    "page's other bytes zeros": [(BOOTS, ": 0xff;", ": 0;")],
    "log amid the program": [(LINKER, "boot_log = ORIGIN(FLASH) + LENGTH(FLASH);", "boot_log = ORIGIN(FLASH);")],
}
FAULTS = CLOCK | START | LINE | TIMERS | PINS | LOG
Scenarios = tuple[Callable[[str], each_chip.Figures], ...]
FIRST: tuple[tuple[dict[str, list[Edit]], Scenarios], ...] = (
    (CLOCK | START, (each_chip.boot, each_chip.worked_frame)),
    (LINE, (each_chip.boot, each_chip.worked_frame, of_pico.long_line)),
    (TIMERS, (each_chip.boot, each_chip.worked_frame, of_pico.bites, each_chip.storm, each_chip.short_words)),
    (PINS, (each_chip.boot, each_chip.worked_frame, each_chip.still_directions, each_chip.switches,
            each_chip.input_stops, each_chip.all_axes)),
    (LOG, (each_chip.boot, of_pico.kept, of_pico.cut, of_pico.boots)))
"""What is tried first for which faults."""
EVERY = (*each_chip.QUICK, each_chip.short_words, each_chip.all_axes, *of_pico.EVERY[:-1])


def shown_by(name: str) -> str:
    """What shows a fault; empty where nothing does."""
    first = next(scenarios for faults, scenarios in FIRST if name in faults)
    with tempfile.TemporaryDirectory() as folder:
        elf = build(Path(folder), FAULTS[name], "pico")
        if elf is None:
            return "the build refuses it"
        for scenario in (*first, *[each for each in EVERY if each not in first]):
            said, holds = each_chip.told(scenario, elf)
            if not holds:
                return f"{scenario.__name__}: {said}"
    return ""


def main(*names: str) -> int:
    """Plants each. Where a fault has no words made they aren't waited for long."""
    begun, failed = time.process_time(), 0 if names else each_chip.main("pico") + of_pico.main()
    Driver.waits_s = 3
    for name in names or FAULTS:
        said = shown_by(name)
        failed += not said
        print(f"{name:36} {said[:120] or 'NOT SHOWN'}", flush=True)
    print(f"{len(names or FAULTS)} faults, {failed} not shown; {time.process_time() - begun:.0f} s of processor time, "
          "and the compilers'")
    return 1 if failed else 0


if __name__ == "__main__":
    sys.exit(main(*sys.argv[1:]))
