/* What a chip has to have: six functions, which a port defines. Its main program calls sink_start once, with the pins
 * set to no step and all outputs off, then sink_poll for ever; its timer calls sink_make. */
#ifndef SINK_PORT_H
#define SINK_PORT_H

#include <stddef.h>
#include <stdint.h>

#include "wire.h"

/* Starts the timer, which doesn't run: it calls sink_make in so many ticks of 1/8 us, and from then on each time as
 * many after the time at which the last call was due as that call returned; at 0 it stops. Where that time is past it
 * calls at once; what a call is later than some 30 us is lost, and not made up for. */
void sink_port_timer(uint32_t ticks);

/* Makes a step of the axes in `steps` (bit 0 X, 1 Y, 2 Z), once the directions `down` (1 counts down) are set for as
 * long as the drives need. `outputs` are to be set now, or are NULL where nothing switches. Within WIRE_LEAST_TICKS. */
void sink_port_pins(uint8_t steps, uint8_t down, const struct sink_outputs *outputs);

/* The inputs as their pins are: up to 16 bits, 1 high. It doesn't wait. */
uint16_t sink_port_inputs(void);

/* The next byte that came, or -1 where none did. It doesn't wait. */
int sink_port_read(void);

/* Sends these bytes, at most WIRE_LINE, without waiting; where there is no room for all, some or none of them. */
void sink_port_write(const uint8_t *bytes, size_t size);

/* Tells the watchdog that all is well. Where that isn't told for 100 ms it starts the chip again. */
void sink_port_watchdog(void);

#endif
