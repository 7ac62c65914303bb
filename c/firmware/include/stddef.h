/* See stdint.h beside it. */
#ifndef FIRMWARE_STDDEF_H
#define FIRMWARE_STDDEF_H

typedef __SIZE_TYPE__ size_t;

#endif
