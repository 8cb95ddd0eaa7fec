#ifndef CHANNEL_H
#define CHANNEL_H

/* Counts of the converter. */
#define SETPOINT 1200
#define TRIM 35

#endif
