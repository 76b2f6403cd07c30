/* The boards with an RP2040. */
#include "board.h"

#include <stddef.h>

const struct board boards[] = {
    {"pico",
     .steps = {{'A', 2}, {'A', 4}, {'A', 6}},
     .directions = {{'A', 3}, {'A', 5}, {'A', 7}},
     .clockwise = {'A', 8}, .counter = {'A', 9}, .mist = {'A', 11}, .flood = {'A', 12},
     .inputs = {{'A', 13}, {'A', 14}, {'A', 15}, {'A', 16}, {'A', 17}, {'A', 18}, {'A', 19}, {'A', 20}},
     .duty_steps = 12800},
    {.name = NULL}};
