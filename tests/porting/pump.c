/*
 * Infusion pump: dose, ramp of the motor, and alarms.
 */
#include <stdbool.h>
#include <stdint.h>
#include <stdlib.h>
#include "board.h"

#define STEPS_PER_ML 1600
#define MAX_RATE_ML_H 1200.0f
#define ALARM(bit) (alarms |= (bit))
#define BIT(n) (1u << (n))
#define PIN_DIR BIT(4)
#define PIN_STEP BIT(5)

enum { ALARM_OCCLUSION = BIT(0), ALARM_EMPTY = BIT(1), ALARM_BATTERY = BIT(2) };

extern uint16_t adc_read(uint8_t channel);
extern volatile uint32_t tick_ms;

static uint8_t alarms;

struct pump {
    float rate_ml_h;
    float volume_ml;
    uint32_t steps_done;
    uint32_t next_step;
    union {
        uint8_t all;
        struct {
            uint8_t running : 1;
            uint8_t reverse : 1;
        } bit;
    } status;
};

static struct pump pump = {.rate_ml_h = 0};

static void delay_us(volatile unsigned n)
{
    while (n--)
        __asm__ volatile("nop");
}

static void step_once(void)
{
    GPIOA->BSRR = PIN_STEP;
    delay_us(10);
    GPIOA->BSRR = PIN_STEP << 16;
}

bool pump_start(float rate_ml_h, float volume_ml)
{
    if (rate_ml_h <= 0 || rate_ml_h > MAX_RATE_ML_H)
        return false;
    pump.rate_ml_h = rate_ml_h;
    pump.volume_ml = volume_ml;
    pump.steps_done = 0;
    pump.status.bit.running = 1;
    pump.next_step = tick_ms;
    return true;
}

static void check_alarms(void)
{
    static uint16_t history[4];
    static unsigned at;
    uint32_t sum = 0;

    history[at++ & 3] = adc_read(2);
    for (unsigned i = 0; i < 4; i++)
        sum += history[i];
    if (sum / 4 > 3100)
        ALARM(ALARM_OCCLUSION);
    if (adc_read(3) < 200)
        ALARM(ALARM_EMPTY);
    if ((adc_read(0) * 3300 >> 12) < 2900)
        ALARM(ALARM_BATTERY);
}

void pump_poll(void)
{
    uint32_t interval;

    check_alarms();
    if (alarms)
        pump.status.all = 0;
    if (!pump.status.bit.running || (int32_t)(tick_ms - pump.next_step) < 0)
        return;

    interval = (uint32_t)(3600000.0f / (pump.rate_ml_h * STEPS_PER_ML));
    GPIOA->ODR = pump.status.bit.reverse ? GPIOA->ODR | PIN_DIR : GPIOA->ODR & ~PIN_DIR;
    step_once();
    pump.next_step += interval;
    if (++pump.steps_done >= abs((int)(pump.volume_ml * STEPS_PER_ML)))
        pump.status.bit.running = 0;
}
