/* The boards with an STM32F411. */
#include "board.h"

#include <stddef.h>

#include "addresses.h"
#include "line.h"

const struct board boards[] = {
    {"stm32f411",
     .steps = {{'A', 1}, {'A', 2}, {'A', 3}},
     .directions = {{'A', 4}, {'A', 5}, {'A', 6}},
     .clockwise = {'B', 0}, .counter = {'B', 1}, .mist = {'B', 5}, .flood = {'B', 7},
     .inputs = {{'B', 8}, {'B', 9}, {'B', 10}, {'A', 8}, {'B', 12}, {'B', 13}, {'B', 14}, {'B', 15}},
     .duty_steps = 9600},
    {"nucleo_f411re",
     .steps = {{'A', 10}, {'B', 3}, {'B', 5}},
     .directions = {{'B', 4}, {'B', 10}, {'A', 8}},
     .clockwise = {'C', 1}, .counter = {'C', 0}, .mist = {'A', 5}, .flood = {'B', 0},
     .inputs = {{'C', 7}, {'B', 6}, {'A', 6}, {'A', 0}, {'A', 1}, {'A', 4}, {'C', 13}, {'B', 7}},
     .duty_steps = 9600},
    {.name = NULL}};

const struct line *line_of_board(void) {
    static const struct line black_pill = {
        AT_USART1, BUS_APB2, 37, .out = {'A', 9}, .in = {'A', 10}, .pwm = {'B', 6}, .pwm_timer = 2, .pwm_channel = 1};
    static const struct line nucleo = {
        AT_USART2, BUS_APB1, 38, .out = {'A', 2}, .in = {'A', 3}, .pwm = {'A', 7}, .pwm_timer = 1, .pwm_channel = 2};
    return board == &boards[0] ? &black_pill : &nucleo;
}
