"""Plants faults in the firmware of a chip of ST, one at a time, and looks whether a scenario on the emulated chip fails
for each.

    python3 tests/chip_planted.py [BOARD] [NAME ..]     all scenarios on the firmware as it is, then all faults; or
                                                        these faults. The board is stm32f103, or stm32f411

It prints which scenario shows a fault, and ends with status 1 where one isn't shown."""
import shutil
import sys
import tempfile
import time
from pathlib import Path

sys.path.insert(0, str(Path(__file__).resolve().parent))

import chip_scenarios
from chip_support import SINK, make_chip

Edit = tuple[str, str, str]  # file, what stands there, what is planted
Faults = dict[str, list[Edit]]


def edits(file: str) -> object:
    """What makes an edit of a file."""
    return lambda old, new: [(file, old, new)]


shared, f103, f103_h, f411, f411_h = map(edits, ("stm32.c", "stm32f103.c", "stm32f103.h", "stm32f411.c", "stm32f411.h"))


def linker(board: str) -> Faults:
    """Faults of a linker script."""
    script = edits(f"{board}.ld")
    return {
        "vectors not first": script("vectors_begin = .; KEEP(*(.vectors)) *(.text*)",
                                    "*(.text*) vectors_begin = .; KEEP(*(.vectors))"),
        "stack beyond the RAM": script("LENGTH(RAM);", "LENGTH(RAM) + 64;"),
        "stack in .bss": script("stack_top = ORIGIN(RAM) + LENGTH(RAM);", "stack_top = bss_end + 64;")}


SHARED: Faults = {
    "prescaler not taken": shared("TIM2_EGR = 1;", ""),
    "no auto-reload": shared("TIM2_ARR = (timer_ticks)-1;", ""),
    "auto-reload too small": shared("TIM2_ARR = (timer_ticks)-1;", "TIM2_ARR = (timer_ticks)-2 & 0xffff;"),
    "flag never cleared": shared("TIM2_SR = (uint32_t)~COMPARED;", ""),
    "rc_w0 written with the flag": shared("TIM2_SR = (uint32_t)~COMPARED;", "TIM2_SR = COMPARED;"),
    "a pending match taken for a due word": shared("&& is_due()) {", "&& (is_due() || true)) {"),
    "compare set after the look": shared(
        "        set_due(after);\n", "        bool is_past = (timer_ticks)(due + after - TIM2_CNT - 1) >= HALF_TURN;\n"
        "        set_due(after);\n        if (!is_past) {\n            break;\n        }\n"),
    "all lateness made up for": shared("late > MOST_LATE_TICKS &&", "false && late > MOST_LATE_TICKS &&"),
    "channel 2's interrupt": edits("stm32.h")("COMPARED = 2 ", "COMPARED = 4 "),
    "interrupt 29": shared("1u << TIM2_INTERRUPT;", "1u << (TIM2_INTERRUPT + 1);"),
    "wrong register: CCR1": edits("stm32.h")("AT(0x40000034)", "AT(0x40000038)"),
    ".bss not cleared": shared("clear_words(bss_begin, bss_end);", "clear_words(bss_begin, bss_begin);"),
    ".data not copied": [
        ("stm32.c", "static uint8_t to_send[WIRE_LINE];\n",
         "static uint8_t to_send[WIRE_LINE];\nuint32_t rpm_most = 24000;\n"),
        ("stm32.c", "copy_words(data_begin, data_end,", "copy_words(data_begin, data_begin,"),
        ("stm32.c", "= SPINDLE_MOST_RPM * UINT64_C(1000000)", "= *(volatile uint32_t *)&rpm_most * UINT64_C(1000000)")],
    "watchdog of 1 ms": shared("IWDG_RLR = WATCHDOG_TURNS;", "IWDG_RLR = 1;"),
    "watchdog not fed": shared("IWDG_KR = 0xaaaa;", ""),
    "watchdog without its key": shared("IWDG_KR = 0x5555;", ""),
    "direction after the step": shared("    if (wanted != directions) {",
                                       "    set_steps(0, steps);\n    if (wanted != directions) {"),
    "direction 2 us before": shared("DIRECTION_TICKS = 40,", "DIRECTION_TICKS = 16,"),
    "directions of axes that stand": shared("(directions & ~steps) | (down & steps)", "down"),
    "directions swapped": shared("spread(port, down, X_DIRECTION", "spread(port, down ^ 7, X_DIRECTION"),
    "steps of 1 us": shared("STEP_TICKS = 16,", "STEP_TICKS = 6,"),
    "steps stay high": shared("    clear_steps(0);\n", ""),
    "Y and Z swapped": shared("spread(port, axes, X_STEP, Y_STEP, Z_STEP)",
                              "spread(port, axes, X_STEP, Z_STEP, Y_STEP)"),
    "mist and flood swapped": shared("outputs->mist != 0 ? bit_of(port, MIST)",
                                     "outputs->mist != 0 ? bit_of(port, FLOOD)"),
    "first word late": shared("due = (timer_ticks)(TIM2_CNT + ticks);", "due = (timer_ticks)(TIM2_CNT - ticks);"),
    "a byte too few read": shared("uint32_t end = RECEIVED - RECEIVED_LEFT;",
                                  "uint32_t end = RECEIVED - RECEIVED_LEFT - 1;"),
}
STM32F103: Faults = {
    "baud divisor 39": f103("BAUD_DIVISOR = 36", "BAUD_DIVISOR = 39"),
    "baud divisor of APB1": f103("BAUD_DIVISOR = 36", "BAUD_DIVISOR = 18"),
    "PLL times 8": f103("7u << 18", "6u << 18"),
    "PLL times 10": f103("7u << 18", "8u << 18"),
    "PLL from the inner oscillator": f103("7u << 18 | 1u << 16", "7u << 18"),
    "one wait state": f103("FLASH_ACR = 0x12", "FLASH_ACR = 0x11"),
    "APB1 at 72 MHz": f103("| 4u << 8", ""),
    "PLL not waited for": f103("while ((RCC_CR & 1u << 25) == 0) {\n    }\n", ""),
    "no clock for TIM2": f103("1u << 2 | 1;\n}", "1u << 2;\n}"),
    "no clock for DMA1": f103("RCC_AHBENR |= 1;", ""),
    "no clock for USART1": f103("1u << 14 | 1u << 4", "1u << 4"),
    "no clock for port B": f103("1u << 4 | 1u << 3", "1u << 4"),
    "no clock for BKP": f103("1u << 28 | 1u << 27", "1u << 28"),
    "AHBENR written whole": f103("RCC_AHBENR |= 1;", "RCC_AHBENR = 1;"),
    "backup registers locked": f103("PWR_CR |= 1u << 8;", ""),
    "boot number not counted": f103("BKP_DR1 = (BKP_DR1 + 1) & 0xffff;", ""),
    "boot number of 32 bits": f103("(BKP_DR1 + 1) & 0xffff;", "BKP_DR1 + 0x10001;"),
    "wrong register: IDR": f103_h("#define B_IDR AT(0x40010c08)", "#define B_IDR AT(0x40010c0c)"),
    "wrong register: CNDTR5": f103_h("AT(0x4002005c)", "AT(0x40020060)"),
    "wrong base: DMA2": f103_h("AT(0x40020044)", "AT(0x40020444)"),
    "no pull-ups": f103("set_mode(inputs[each], PULLED, 1);", "set_mode(inputs[each], PULLED, 0);"),
    "inputs float": f103("set_mode(inputs[each], PULLED, 1);", "set_mode(inputs[each], 4, 1);"),
    "PA9 not the USART's": f103("set_mode(PA9, OUTPUT_OF_PERIPHERAL, 0)", "set_mode(PA9, OUTPUT, 0)"),
    "outputs high while they begin": f103("set_mode(outputs[each], OUTPUT, 0);", "set_mode(outputs[each], OUTPUT, 1);"),
    "tick of 7.2 MHz": f103_h("TICK_DIVISOR = 9,", "TICK_DIVISOR = 10,"),
    "vector one too far": f103("void (*faults[14])(void);", "void (*faults[15])(void);"),
    "DMA not round and round": f103("DMA_CCR5 = 0xa1", "DMA_CCR5 = 0x81"),
    "DMA the wrong way": f103("DMA_CCR4 = 0x91", "DMA_CCR4 = 0x81"),
    "DMA set while on": f103("    DMA_CCR4 = 0;\n", ""),
    "USART without DMA": f103("USART1_CR3 = 0xc0", "USART1_CR3 = 0x80"),
    "PWM the other way": f103("TIM4_CCMR1 = 0x68", "TIM4_CCMR1 = 0x78"),
    "PWM of 7201 steps": f103("TIM4_ARR = PWM_STEPS - 1", "TIM4_ARR = PWM_STEPS"),
}
STM32F411: Faults = {
    "baud divisor of APB1": f411_h("LINE_DIVISOR 48u", "LINE_DIVISOR 24u"),
    "baud divisor 52": f411_h("LINE_DIVISOR 48u", "LINE_DIVISOR 52u"),
    "PLL times 200": f411("192u << 6", "200u << 6"),
    "PLL times 168": f411("192u << 6", "168u << 6"),
    "PLL by 4": f411("2u << 28 | 4u << 24", "2u << 28 | 1u << 16 | 4u << 24"),
    "PLL's reserved bits": f411("2u << 28 | 4u << 24", "4u << 24"),
    "PLL for 8 MHz": f411("#define CRYSTAL_MHZ 25u", "#define CRYSTAL_MHZ 8u"),
    "PLL from the inner oscillator": f411("1u << 22 | CRYSTAL_MHZ", "CRYSTAL_MHZ"),
    "PLL not waited for": f411("while ((RCC_CR & 1u << 25) == 0) {\n    }\n", ""),
    "crystal not waited for": f411("while ((RCC_CR & 1u << 17) == 0) {\n    }\n", ""),
    "voltage of 84 MHz": f411("    PWR_CR |= 3u << 14;\n", ""),
    "voltage set too late": [("stm32f411.c", "    PWR_CR |= 3u << 14;\n", ""),
                             ("stm32f411.c", "    FLASH_ACR =", "    PWR_CR |= 3u << 14;\n    FLASH_ACR =")],
    "two wait states": f411("7u << 8 | 3;\n    while ((FLASH_ACR & 15) != 3)",
                            "7u << 8 | 2;\n    while ((FLASH_ACR & 15) != 2)"),
    "APB1 at 96 MHz": f411("RCC_CFGR = 4u << 10;\n", ""),
    "APB1 at 24 MHz": f411("RCC_CFGR = 4u << 10;", "RCC_CFGR = 5u << 10;"),
    "no clock for DMA2": f411("1u << 22 | 1u << 21 | 7", "1u << 21 | 7"),
    "no clock for port B": f411("1u << 22 | 1u << 21 | 7", "1u << 22 | 1u << 21 | 5"),
    "no clock for TIM2": f411("1u << 17 | 7", "1u << 17 | 6"),
    "no clock for TIM4": f411("1u << 17 | 7", "1u << 17 | 3"),
    "no clock for USART1": f411("    RCC_APB2ENR |= 1u << 4;\n", ""),
    "no clock for PWR": f411("    RCC_APB1ENR |= 1u << 28;\n", ""),
    "PWR touched at once": f411("    (void)RCC_APB1ENR;\n    PWR_CR", "    PWR_CR"),
    "backup registers locked": f411("    PWR_CR |= 1u << 8;\n", ""),
    "boot number not counted": f411("RTC_BKP0R = (RTC_BKP0R + 1) & 0xffff;", ""),
    "wrong register: IDR": f411_h("#define B_IDR AT(0x40020410)", "#define B_IDR AT(0x40020414)"),
    "wrong register: BSRR": f411_h("#define A_BSRR AT(0x40020018)", "#define A_BSRR AT(0x40020014)"),
    "wrong register: NDTR": f411_h("AT(STREAM(IN_STREAM) + 4)", "AT(STREAM(IN_STREAM) + 8)"),
    "wrong base: DMA1": f411_h("#define LINE_DMA 0x40026400u", "#define LINE_DMA 0x40026000u"),
    "stream 3": f411_h("#define IN_STREAM 2", "#define IN_STREAM 3"),
    "channel 5": f411("CHANNEL_4 = 4 << 25", "CHANNEL_4 = 5 << 25"),
    "flags not cleared": f411("    DMA_HIFCR = OUT_STREAM == 7 ? 0x3du << 22 : 0x3du << 16;\n", ""),
    "flags of another stream": f411("0x3du << 22 : 0x3du << 16", "0x3du << 16 : 0x3du << 22"),
    "DMA not round and round": f411("MEMORY_STEPS | ROUND | ON", "MEMORY_STEPS | ON"),
    "DMA the wrong way": f411("MEMORY_STEPS | FROM_MEMORY | ON", "MEMORY_STEPS | ON"),
    "DMA to one place": f411("CHANNEL_4 | MEMORY_STEPS | ROUND", "CHANNEL_4 | ROUND"),
    "USART without DMA": f411("USART_CR3 = 0xc0", "USART_CR3 = 0x80"),
    "no pull-ups": f411("2 * at, 3, PULL_UP);\n        set_bits(&MODER(inputs",
                        "2 * at, 3, 0);\n        set_bits(&MODER(inputs"),
    "inputs pulled down": f411("2 * at, 3, PULL_UP);\n        set_bits(&MODER(inputs",
                               "2 * at, 3, 2);\n        set_bits(&MODER(inputs"),
    "another function of the line's pins": f411_h("#define LINE_FUNCTION 7u\n#define LINE_OUT PA9",
                                                  "#define LINE_FUNCTION 8u\n#define LINE_OUT PA9"),
    "another function of the PWM's pin": f411("    TIMERS = 2, ", "    TIMERS = 1, "),
    "function's other half": f411("% 16 < 8 ? 32u : 36u", "% 16 < 8 ? 36u : 32u"),
    "outputs high while they begin": f411("BSRR(outputs[each]) = 1u << (at + 16);", "BSRR(outputs[each]) = 1u << at;"),
    "outputs stay inputs": f411("set_bits(&MODER(outputs[each]), 2 * at, 3, OUTPUT);", ""),
    "tick of 8.7 MHz": f411_h("TICK_DIVISOR = 12,", "TICK_DIVISOR = 11,"),
    "a counter of 16 bits": f411_h("typedef uint32_t timer_ticks;", "typedef uint16_t timer_ticks;"),
    "vector one too far": f411("void (*faults[14])(void);", "void (*faults[15])(void);"),
    "PWM the other way": f411("0x68u <<", "0x78u <<"),
    "PWM of 9601 steps": f411("PWM_ARR = PWM_STEPS - 1", "PWM_ARR = PWM_STEPS"),
    "PWM off": f411("    PWM_CCER = 1u << (PWM_CHANNEL - 1) * 4;\n", ""),
}
FAULTS: dict[str, Faults] = {"stm32f103": {**STM32F103, **SHARED, **linker("stm32f103")},
                             "stm32f411": {**STM32F411, **SHARED, **linker("stm32f411")}}
SHOW = (*chip_scenarios.QUICK, chip_scenarios.short_words, chip_scenarios.all_axes)


def build(folder: Path, edits: list[Edit], board: str = "stm32f103") -> str | None:
    """A board's ELF of a copy of tools/sink with these edits; None where make refuses it."""
    shutil.copytree(SINK, folder / "sink", ignore=shutil.ignore_patterns("out"))
    for file, old, new in edits:
        text = (folder / "sink" / file).read_text()
        assert old in text, f"{file} has no {old!r}"
        (folder / "sink" / file).write_text(text.replace(old, new))
    try:
        make_chip(folder / "sink", folder / "out", board, "arm")
    except AssertionError:
        return None
    return str(folder / "out" / f"{board}.elf")


def shown_by(edits: list[Edit], board: str = "stm32f103") -> str:
    """What shows a fault; empty where nothing does."""
    with tempfile.TemporaryDirectory() as folder:
        elf = build(Path(folder), edits, board)
        if elf is None:
            return "the build refuses it"
        for scenario in SHOW:
            said, holds = chip_scenarios.told(scenario, elf)
            if not holds:
                return f"{scenario.__name__}: {said}"
    return ""


def main(*words: str) -> int:
    """Plants each."""
    board = next((word for word in words if word in FAULTS), "stm32f103")
    names = [word for word in words if word != board]
    begun, failed = time.process_time(), 0 if names else chip_scenarios.main(board)
    for name in names or FAULTS[board]:
        said = shown_by(FAULTS[board][name], board)
        failed += not said
        print(f"{name:36} {said[:120] or 'NOT SHOWN'}", flush=True)
    print(f"{time.process_time() - begun:.0f} s of processor time, and the compilers'")
    return 1 if failed else 0


if __name__ == "__main__":
    sys.exit(main(*sys.argv[1:]))
