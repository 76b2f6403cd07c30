/* Which of a chip's USARTs is the line, and which of its timers makes the PWM: as a board has them. */
#ifndef LINE_H
#define LINE_H

#include <stdint.h>

#include "board.h"
#include "clocks.h"

struct line {
    uint32_t usart; /* its address */
    enum bus bus;
    int irq;
    struct pin out, in;
    struct pin pwm;
    int pwm_timer;   /* 0 for TIM2 */
    int pwm_channel; /* from 1 on */
};

/* That of the board of the firmware that was loaded: in a chip's boards.c. */
const struct line *line_of_board(void);

#endif
