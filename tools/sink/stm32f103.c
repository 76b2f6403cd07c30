/* The port for an STM32F103C8 at 72 MHz with a crystal of 8 MHz: its clocks, pins and line. The numbers of registers
 * and bits are those of ST's reference manual RM0008. */
#include "stm32.h"

#define RCC_CR AT(0x40021000)
#define RCC_CFGR AT(0x40021004)
#define RCC_AHBENR AT(0x40021014)
#define RCC_APB2ENR AT(0x40021018)
#define RCC_APB1ENR AT(0x4002101c)
#define FLASH_ACR AT(0x40022000)
#define USART1_DR 0x40013804
#define USART1_BRR AT(0x40013808)
#define USART1_CR1 AT(0x4001380c)
#define USART1_CR3 AT(0x40013814)
#define PWR_CR AT(0x40007000)
#define BKP_DR1 AT(0x40006c04)
#define PORT(pin) (0x40010800u + (uint32_t)(pin) / 16 * 0x400)

enum {
    BAUD_DIVISOR = 36,                                    /* 72 MHz / 36 = 2,000,000 baud */
    OUTPUT = 3, OUTPUT_OF_PERIPHERAL = 11, PULLED = 8     /* of CRL and CRH: push-pull, fast; up where ODR is 1 */
};

static const uint8_t outputs[] = {X_STEP, Y_STEP, Z_STEP, X_DIRECTION, Y_DIRECTION, Z_DIRECTION,
                                  CLOCKWISE, COUNTER, MIST, FLOOD};
static const uint8_t inputs[] = {INPUT_PINS};

/* 72 MHz from the crystal; half of it for the slow peripherals, whose timers have the whole. */
static void begin_clock(void) {
    FLASH_ACR = 0x12;
    RCC_CR |= 1u << 16;
    while ((RCC_CR & 1u << 17) == 0) {
    }
    RCC_CFGR = 7u << 18 | 1u << 16 | 4u << 8;
    RCC_CR |= 1u << 24;
    while ((RCC_CR & 1u << 25) == 0) {
    }
    RCC_CFGR |= 2;
    while ((RCC_CFGR & 12) != 8) {
    }
    RCC_AHBENR |= 1;
    RCC_APB2ENR |= 1u << 14 | 1u << 4 | 1u << 3 | 1u << 2 | 1;
    RCC_APB1ENR |= 1u << 28 | 1u << 27 | 1u << 2 | 1;
}

/* What a pin is, once its level is set. */
static void set_mode(int pin, uint32_t mode, uint32_t level) {
    volatile uint32_t *half = &AT(PORT(pin) + (pin % 16 < 8 ? 0u : 4u));
    uint32_t at = 4u * ((uint32_t)pin % 8);
    AT(PORT(pin) + 0x10) = level != 0 ? 1u << pin % 16 : 1u << (pin % 16 + 16);
    *half = (*half & ~(15u << at)) | mode << at;
}

/* All outputs low before they are outputs; pull-ups at the inputs. */
static void begin_pins(void) {
    for (uint32_t each = 0; each < sizeof outputs; each++) {
        set_mode(outputs[each], OUTPUT, 0);
    }
    for (uint32_t each = 0; each < sizeof inputs; each++) {
        set_mode(inputs[each], PULLED, 1);
    }
    set_mode(PA9, OUTPUT_OF_PERIPHERAL, 0);
    set_mode(PA10, PULLED, 1);
    set_mode(PB6, OUTPUT_OF_PERIPHERAL, 0);
    TIM4_ARR = PWM_STEPS - 1;
    TIM4_CCMR1 = 0x68;
    TIM4_CCER = 1;
    TIM4_CR1 = 1;
}

static void begin_line(void) {
    DMA_CPAR4 = USART1_DR;
    DMA_CPAR5 = USART1_DR;
    DMA_CMAR5 = (uint32_t)(uintptr_t)received;
    DMA_CNDTR5 = RECEIVED;
    DMA_CCR5 = 0xa1; /* to memory, byte by byte, round and round, on */
    USART1_BRR = BAUD_DIVISOR;
    USART1_CR3 = 0xc0;
    USART1_CR1 = 0x200c;
}

void stm32_send(const volatile uint8_t *bytes, uint32_t size) {
    DMA_CCR4 = 0;
    DMA_CMAR4 = (uint32_t)(uintptr_t)bytes;
    DMA_CNDTR4 = size;
    DMA_CCR4 = 0x91; /* from memory, byte by byte, on */
}

uint16_t stm32_begin(void) {
    begin_clock();
    begin_pins();
    begin_line();
    PWR_CR |= 1u << 8;
    BKP_DR1 = (BKP_DR1 + 1) & 0xffff;
    return (uint16_t)BKP_DR1;
}

struct vectors {
    uint32_t *stack;
    void (*reset)(void);
    void (*faults[14])(void);
    void (*interrupts[TIM2_INTERRUPT + 1])(void);
};

const struct vectors vectors __attribute__((section(".vectors"), used)) = {
    stack_top, start,
    {hang, hang, hang, hang, hang, hang, hang, hang, hang, hang, hang, hang, hang, hang},
    {[TIM2_INTERRUPT] = timer_handler}};
