/* Figures of the model, and what it is told of its surroundings, by names. */
#include <string.h>

#include "chip.h"
#include "core.h"
#include "model.h"
#include "nvic.h"

uint64_t model_figure(const char *name) {
    const struct { const char *name; uint64_t value; } figures[] = {
        {"latency_ns", chip_ns(nvic_figures.latency)},
        {"handler_ns", chip_ns(nvic_figures.handler)},
        {"entries", nvic_figures.entries},
        {"spurious", nvic_figures.spurious},
        {"instructions", core.count},
        {"stack_bytes", RAM_AT + RAM_BYTES - core.least_sp},
        {"room_bytes", core.least_sp - chip.bss_end},
        {"resets", chip.resets},
        {"boots", part_boots()}};
    for (size_t each = 0; each < sizeof figures / sizeof figures[0]; each++) {
        if (strcmp(name, figures[each].name) == 0) {
            return figures[each].value;
        }
    }
    return part_figure(name);
}

static void clear_figures(void) {
    memset(&nvic_figures, 0, sizeof nvic_figures);
    part_clear_figures();
}

bool model_set(const char *name, uint64_t value) {
    static const struct { const char *name; uint32_t *to; } numbers[] = {
        {"baud", &around.baud}, {"lsi_hz", &around.lsi_hz}, {"hse_hz", &around.hse_hz}, {"hse_us", &around.hse_us},
        {"branch_cycles", &core.branch_cycles}};
    for (size_t each = 0; each < sizeof numbers / sizeof numbers[0]; each++) {
        if (strcmp(name, numbers[each].name) == 0) {
            *numbers[each].to = (uint32_t)value;
            return true;
        }
    }
    if (strcmp(name, "battery") == 0) {
        around.has_battery = value != 0;
    } else if (strcmp(name, "matches_at_once") == 0) {
        around.matches_at_once = value != 0;
    } else if (strcmp(name, "clear_figures") == 0) {
        clear_figures();
    } else {
        return false;
    }
    return true;
}
