/*
 * PID controller with anti-windup and derivative on the error.
 */
#include <math.h>
#include <stddef.h>
#include "pid.h"

#define CLAMP(x, lo, hi) ((x) < (lo) ? (lo) : (x) > (hi) ? (hi) : (x))
#define EPSILON 1e-6f

static const pid_ctrl_t pid_defaults = {
    .kp = 1.0f,
    .ki = 0.1f,
    .kd = 0.0f,
    .out_min = -100.0f,
    .out_max = 100.0f,
};

static int update_count;

void pid_init(pid_ctrl_t *pid, float kp, float ki, float kd)
{
    if (!pid)
        return;

    *pid = pid_defaults;
    pid->kp = kp;
    pid->ki = ki;
    pid->kd = kd;
    pid->integral = pid->prev_error = 0.0f;
    pid->flags |= PID_FLAG_ENABLED;
}

void pid_set_limits(pid_ctrl_t *pid, float lo, float hi)
{
    if (lo > hi) {
        float t = lo;
        lo = hi, hi = t;
    }
    pid->out_min = lo;
    pid->out_max = hi;
}

static float pid_integrate(pid_ctrl_t *pid, float error, float dt)
{
    float limit = fmaxf(fabsf(pid->out_min), fabsf(pid->out_max));
    float next = pid->integral + pid->ki * error * dt;

    if (next > limit || next < -limit) {
        pid->flags |= PID_FLAG_SATURATED;
        return pid->integral = CLAMP(next, -limit, limit);
    }
    pid->flags &= ~PID_FLAG_SATURATED;
    return pid->integral = next;
}

float pid_update(pid_ctrl_t *pid, float setpoint, float measured, float dt)
{
    float error, derivative, output;

    update_count++;
    if (!(pid->flags & PID_FLAG_ENABLED))
        return 0.0f;
    if (dt < EPSILON)
        return pid->prev_error * pid->kp;

    error = setpoint - measured;
    derivative = (error - pid->prev_error) / dt;
    pid->prev_error = error;

    output = pid->kp * error + pid_integrate(pid, error, dt) + pid->kd * derivative;
    return CLAMP(output, pid->out_min, pid->out_max);
}
