/* The boards with an STM32F103. */
#include "board.h"

#include <stddef.h>

#include "addresses.h"
#include "line.h"

const struct board boards[] = {
    {"stm32f103",
     .steps = {{'A', 0}, {'A', 2}, {'A', 4}},
     .directions = {{'A', 1}, {'A', 3}, {'A', 5}},
     .clockwise = {'B', 0}, .counter = {'B', 1}, .mist = {'B', 5}, .flood = {'B', 7},
     .inputs = {{'B', 8}, {'B', 9}, {'B', 10}, {'B', 11}, {'B', 12}, {'B', 13}, {'B', 14}, {'B', 15}},
     .duty_steps = 7200},
    {"stm32f103_boot",
     .steps = {{'A', 0}, {'A', 1}, {'A', 2}},
     .directions = {{'A', 3}, {'A', 4}, {'A', 5}},
     .clockwise = {'B', 0}, .counter = {'B', 1}, .mist = {'B', 12}, .flood = {'B', 13},
     .inputs = {{'B', 10}, {'B', 11}, {'B', 14}, {'B', 15}, {'B', 5}, {'B', 7}, {'B', 8}, {'B', 9}},
     .duty_steps = 7200},
    {.name = NULL}};

const struct line *line_of_board(void) {
    static const struct line line = {
        AT_USART1, BUS_APB2, 37, .out = {'A', 9}, .in = {'A', 10}, .pwm = {'B', 6}, .pwm_timer = 2, .pwm_channel = 1};
    return &line;
}
