#ifndef PID_H
#define PID_H

typedef struct pid_ctrl {
    float kp, ki, kd;
    float integral;
    float prev_error;
    float out_min, out_max;
    unsigned int flags;
} pid_ctrl_t;

#define PID_FLAG_ENABLED (1u << 0)
#define PID_FLAG_SATURATED (1u << 1)

void pid_init(pid_ctrl_t *pid, float kp, float ki, float kd);
void pid_set_limits(pid_ctrl_t *pid, float lo, float hi);
float pid_update(pid_ctrl_t *pid, float setpoint, float measured, float dt);

#endif
