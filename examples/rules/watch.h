#ifndef WATCH_H
#define WATCH_H

#define PLACES 3
#define TWICE(x) (x) + (x)

#endif
