#include "core.h"

#include <string.h>

#include "chip.h"
#include "code.h"
#include "flash.h"
#include "memory.h"
#include "nvic.h"
#include "told.h"

struct core core;

enum { ENTRY_CYCLES = CORE_V6M ? 15 : 12, RETURN_CYCLES = CORE_V6M ? 12 : 10 };

void core_pass(uint32_t cycles) {
    chip.now += cycles * chip.cycle;
}

void core_fail(void) {
    core.is_faulty = true;
}

void core_note_stack(void) {
    uint32_t sp = core.r[13];
    core.r[13] = sp & ~3u;
    if (sp < core.least_sp) {
        core.least_sp = sp;
        if (sp < chip.bss_end) {
            violation("the stack comes to %08x, below the end of .bss", (unsigned)sp);
        }
    }
}

uint32_t core_status(void) {
    return core.n << 31 | core.z << 30 | core.c << 29 | core.v << 28 | core.q << 27 | (core.it & 3) << 25 | 1u << 24
        | (core.it >> 2) << 10 | core.exception;
}

void core_set_status(uint32_t value) {
    core.n = value >> 31;
    core.z = value >> 30 & 1;
    core.c = value >> 29 & 1;
    core.v = value >> 28 & 1;
    core.q = value >> 27 & 1;
    core.it = (value >> 25 & 3) | (value >> 10 & 0x3f) << 2;
    core.exception = value & 0x1ff;
}

/* Puts what an exception keeps on the stack. */
static void push_frame(void) {
    uint32_t gap = core.aligns_stack && (core.r[13] & 4) != 0 ? 4 : 0;
    uint32_t frame[8] = {core.r[0],  core.r[1],  core.r[2],  core.r[3],
                         core.r[12], core.r[14], core.r[15], core_status() | gap << 7};
    core.r[13] -= 32 + gap;
    core_note_stack();
    for (uint32_t at = 0; at < 8; at++) {
        memory_store(core.r[13] + 4 * at, 4, frame[at]);
    }
}

void core_enter(uint32_t number) {
    uint64_t from = chip.now;
    if ((core.exception == CORE_HARDFAULT || core.exception == CORE_NMI) && number <= CORE_USAGEFAULT) {
        violation("a fault within the handler of a fault: the core locks up");
    }
    push_frame();
    core.r[14] = core.exception == 0 ? 0xfffffff9 : 0xfffffff1;
    core.exception = number;
    core.it = 0;
    core.is_faulty = false;
    uint32_t vector = memory_load(nvic_vectors() + 4 * number, 4);
    chip.now = from;
    core_pass(ENTRY_CYCLES);
    if ((vector & 1) == 0) {
        violation("the vector of exception %u is %08x, which isn't code of Thumb", (unsigned)number, (unsigned)vector);
    }
    core.r[15] = vector & ~1u;
    flash_leave();
    nvic_entered(number);
}

void core_leave(uint32_t how) {
    uint32_t number = core.exception;
    uint64_t from = chip.now;
    uint32_t frame[8];
    if (how != 0xfffffff1 && how != 0xfffffff9) {
        violation("an exception's return by %08x", (unsigned)how);
        core_fail();
        return;
    }
    for (uint32_t at = 0; at < 8; at++) {
        frame[at] = memory_load(core.r[13] + 4 * at, 4);
    }
    chip.now = from;
    core_pass(RETURN_CYCLES);
    core_set_status(frame[7]);
    memcpy(core.r, frame, 16);
    core.r[12] = frame[4];
    core.r[14] = frame[5];
    core.next = frame[6] & ~1u;
    core.r[13] += 32 + (frame[7] >> 9 & 1) * 4;
    flash_leave();
    if ((core.exception == 0) != (how == 0xfffffff9)) {
        violation("an exception's return to another mode than it says");
    }
    nvic_left(number);
}

void core_reset(void) {
    uint32_t branch_cycles = core.branch_cycles;
    uint32_t least_sp = core.least_sp;
    uint64_t count = core.count;
    uint32_t vectors[2];
    part_vectors(vectors);
    memset(&core, 0, sizeof core);
    core.branch_cycles = branch_cycles == 0 ? 2 : branch_cycles;
    core.least_sp = least_sp;
    core.count = count;
    core.aligns_stack = STACK_IS_ALIGNED;
    core.r[13] = vectors[0] & ~3u;
    core.r[14] = 0xffffffff;
    core.r[15] = vectors[1] & ~1u;
    flash_reset();
    if ((vectors[1] & 1) == 0 || vectors[0] - RAM_AT > RAM_BYTES || (vectors[0] & 7) != 0) {
        violation("the vectors begin with %08x %08x", (unsigned)vectors[0], (unsigned)vectors[1]);
    }
}

static void run_one(void) {
    uint32_t at = core.r[15];
    const struct op *op = code_at(at);
    if (op == NULL) {
        violation("the program counter is %08x, where no code is run", (unsigned)at);
        core_enter(CORE_HARDFAULT);
        return;
    }
    flash_fetch(at, op->size);
    core.count++;
    core.at = at;
    core.next = at + op->size;
    core_pass(1);
    if (!deed_is_left_out()) {
        core.r[15] = at + 4;
        deeds[op->kind](op);
    }
    core.r[15] = core.next;
    if (core.is_faulty) {
        core.r[15] = at;
        core.it = core.it_was;
        core_enter(CORE_HARDFAULT); /* as no other fault is enabled */
    }
}

/* Whether an exception was entered. */
static bool attend(void) {
    if (!chip.is_due) {
        return false;
    }
    chip.is_due = false;
    uint32_t number = nvic_due();
    if (number != 0) {
        core_enter(number);
    }
    return number != 0;
}

void core_one(void) {
    if (!attend()) {
        run_one();
    }
}

void core_run(void) {
    while (chip.now < chip.next_event && !chip.is_stopped) {
        attend();
        run_one();
    }
}
