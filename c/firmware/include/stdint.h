/* The kit's compiler comes without C headers. c/gunwaleish.h asks for these names, and a microcontroller of 32 bits has them so. */
#ifndef FIRMWARE_STDINT_H
#define FIRMWARE_STDINT_H

typedef unsigned char uint8_t;
typedef unsigned short uint16_t;
typedef __UINT32_TYPE__ uint32_t;
typedef unsigned long long uint64_t;
typedef __UINTPTR_TYPE__ uintptr_t;

#endif
