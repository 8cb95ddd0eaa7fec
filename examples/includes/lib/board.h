#pragma once

#if CHAR_BIT != 8
#error bytes of eight bits are wanted
#endif

#define CORRECTION 12
