/* For a compiler that brings no headers of its own. */
#ifndef FREESTANDING_STDBOOL_H
#define FREESTANDING_STDBOOL_H
#define bool _Bool
#define false 0
#define true 1
#endif
