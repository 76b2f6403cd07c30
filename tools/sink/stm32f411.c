/* The port for an STM32F411 at 96 MHz: its clocks, pins and line. The numbers of registers and bits are those of ST's
 * reference manual RM0383. CRYSTAL_MHZ is that of the board's crystal; 0 for the inner oscillator. */
#include "stm32.h"

#define RCC_CR AT(0x40023800)
#define RCC_PLLCFGR AT(0x40023804)
#define RCC_CFGR AT(0x40023808)
#define RCC_AHB1ENR AT(0x40023830)
#define RCC_APB1ENR AT(0x40023840)
#define RCC_APB2ENR AT(0x40023844)
#define FLASH_ACR AT(0x40023c00)
#define PWR_CR AT(0x40007000)
#define PWR_CSR AT(0x40007004)
#define RTC_BKP0R AT(0x40002850)
#define USART_DR (LINE_USART + 4)
#define USART_BRR AT(LINE_USART + 8)
#define USART_CR1 AT(LINE_USART + 12)
#define USART_CR3 AT(LINE_USART + 20)
#define DMA_LIFCR AT(LINE_DMA + 8)
#define DMA_HIFCR AT(LINE_DMA + 12)
#define S_CR(number) AT(STREAM(number))
#define S_NDTR(number) AT(STREAM(number) + 4)
#define S_PAR(number) AT(STREAM(number) + 8)
#define S_M0AR(number) AT(STREAM(number) + 12)
#define PWM_CR1 AT(PWM_TIMER)
#define PWM_CCMR1 AT(PWM_TIMER + 0x18)
#define PWM_CCER AT(PWM_TIMER + 0x20)
#define PWM_ARR AT(PWM_TIMER + 0x2c)
#define PORT(pin) (0x40020000u + (uint32_t)(pin) / 16 * 0x400)
#define MODER(pin) AT(PORT(pin))
#define OSPEEDR(pin) AT(PORT(pin) + 8)
#define PUPDR(pin) AT(PORT(pin) + 12)
#define BSRR(pin) AT(PORT(pin) + 24)
#define AFR(pin) AT(PORT(pin) + ((pin) % 16 < 8 ? 32u : 36u))

#ifndef CRYSTAL_MHZ
#define CRYSTAL_MHZ 25u
#endif

enum {
    INPUT, OUTPUT, OF_PERIPHERAL, /* of MODER */
    PULL_UP = 1,                  /* of PUPDR */
    FAST = 2,                     /* of OSPEEDR */
    TIMERS = 2,                   /* the alternate function of TIM3 to TIM5 */
    CHANNEL_4 = 4 << 25, MEMORY_STEPS = 1 << 10, ROUND = 1 << 8, FROM_MEMORY = 1 << 6, ON = 1 /* of a stream's CR */
};

static const uint8_t outputs[] = {X_STEP, Y_STEP, Z_STEP, X_DIRECTION, Y_DIRECTION, Z_DIRECTION,
                                  CLOCKWISE, COUNTER, MIST, FLOOD};
static const uint8_t inputs[] = {INPUT_PINS};

/* The source of the PLL: a crystal, which has to start, or the inner oscillator of 16 MHz, which runs. */
static uint32_t begin_source(void) {
    if (CRYSTAL_MHZ == 0) {
        return 16;
    }
    RCC_CR |= 1u << 16;
    while ((RCC_CR & 1u << 17) == 0) {
    }
    return 1u << 22 | CRYSTAL_MHZ;
}

/* 96 MHz: the source divided to 1 MHz, times 192, by 2. The core's voltage is the one for that, and in force once the
 * PLL is on. The flash has three wait states, and all its buffers. The slow peripherals have the half, whose timers
 * have the whole. */
static void begin_clock(void) {
    uint32_t source = begin_source();
    RCC_APB1ENR |= 1u << 28;
    (void)RCC_APB1ENR;
    PWR_CR |= 3u << 14;
    RCC_PLLCFGR = 2u << 28 | 4u << 24 | 192u << 6 | source;
    RCC_CR |= 1u << 24;
    while ((RCC_CR & 1u << 25) == 0) {
    }
    while ((PWR_CSR & 1u << 14) == 0) {
    }
    FLASH_ACR = 7u << 8 | 3;
    while ((FLASH_ACR & 15) != 3) {
    }
    RCC_CFGR = 4u << 10;
    RCC_CFGR |= 2;
    while ((RCC_CFGR & 12) != 8) {
    }
}

/* All that is used; what is read back is there by then. */
static void begin_peripherals(void) {
    RCC_AHB1ENR |= 1u << 22 | 1u << 21 | 7;
    (void)RCC_AHB1ENR;
    RCC_APB1ENR |= 1u << 17 | 7;
    (void)RCC_APB1ENR;
    RCC_APB2ENR |= 1u << 4;
    (void)RCC_APB2ENR;
}

static void set_bits(volatile uint32_t *to, uint32_t at, uint32_t mask, uint32_t value) {
    *to = (*to & ~(mask << at)) | value << at;
}

static void set_function(int pin, uint32_t function, uint32_t pull) {
    uint32_t at = (uint32_t)pin % 16;
    set_bits(&OSPEEDR(pin), 2 * at, 3, FAST);
    set_bits(&PUPDR(pin), 2 * at, 3, pull);
    set_bits(&AFR(pin), at % 8 * 4, 15, function);
    set_bits(&MODER(pin), 2 * at, 3, OF_PERIPHERAL);
}

/* All outputs low before they are outputs; pull-ups at the inputs. */
static void begin_pins(void) {
    for (uint32_t each = 0; each < sizeof outputs; each++) {
        uint32_t at = outputs[each] % 16;
        BSRR(outputs[each]) = 1u << (at + 16);
        set_bits(&OSPEEDR(outputs[each]), 2 * at, 3, FAST);
        set_bits(&PUPDR(outputs[each]), 2 * at, 3, 0);
        set_bits(&MODER(outputs[each]), 2 * at, 3, OUTPUT);
    }
    for (uint32_t each = 0; each < sizeof inputs; each++) {
        uint32_t at = inputs[each] % 16;
        set_bits(&PUPDR(inputs[each]), 2 * at, 3, PULL_UP);
        set_bits(&MODER(inputs[each]), 2 * at, 3, INPUT);
    }
    set_function(LINE_OUT, LINE_FUNCTION, 0);
    set_function(LINE_IN, LINE_FUNCTION, PULL_UP);
    set_function(PWM_PIN, TIMERS, 0);
    PWM_ARR = PWM_STEPS - 1;
    PWM_CCMR1 = 0x68u << (PWM_CHANNEL - 1) * 8;
    PWM_CCER = 1u << (PWM_CHANNEL - 1) * 4;
    PWM_CR1 = 1;
}

static void begin_line(void) {
    S_PAR(OUT_STREAM) = USART_DR;
    S_PAR(IN_STREAM) = USART_DR;
    S_M0AR(IN_STREAM) = (uint32_t)(uintptr_t)received;
    S_NDTR(IN_STREAM) = RECEIVED;
    S_CR(IN_STREAM) = CHANNEL_4 | MEMORY_STEPS | ROUND | ON;
    USART_BRR = LINE_DIVISOR;
    USART_CR3 = 0xc0;
    USART_CR1 = 0x200c;
}

/* What the stream has told of the last bytes is cleared first: else it doesn't begin. */
void stm32_send(const volatile uint8_t *bytes, uint32_t size) {
    DMA_HIFCR = OUT_STREAM == 7 ? 0x3du << 22 : 0x3du << 16;
    S_M0AR(OUT_STREAM) = (uint32_t)(uintptr_t)bytes;
    S_NDTR(OUT_STREAM) = size;
    S_CR(OUT_STREAM) = CHANNEL_4 | MEMORY_STEPS | FROM_MEMORY | ON;
}

uint16_t stm32_begin(void) {
    begin_clock();
    begin_peripherals();
    begin_pins();
    begin_line();
    PWR_CR |= 1u << 8;
    RTC_BKP0R = (RTC_BKP0R + 1) & 0xffff;
    return (uint16_t)RTC_BKP0R;
}

struct vectors {
    uint32_t *stack;
    void (*reset)(void);
    void (*faults[14])(void);
    void (*interrupts[TIM2_INTERRUPT + 1])(void);
};

const struct vectors vectors __attribute__((section(".vectors"), used)) = {
    stack_top, start,
    {hang, hang, hang, hang, hang, hang, hang, hang, hang, hang, hang, hang, hang, hang},
    {[TIM2_INTERRUPT] = timer_handler}};
