/* A message as the timed calls are handed it. */
#ifndef SAMPLE_H
#define SAMPLE_H
#include <stdint.h>
#include <string.h>

enum { MESSAGE = 36 };

static inline void lay_message(uint8_t *message, uint8_t flags, uint8_t ptp_type) {
    static const uint8_t octets[MESSAGE] = {
        0x10, 0, 0, 15, 0, 0, 0, 0, 0, 0, 0, 0, 0, 2, 0, 20,
        0, 1, 0, 20, 0, 0, 0, 0, 1, 2, 3, 4, 5, 6, 7, 8, 0, 9, 0, 77};
    memcpy(message, octets, MESSAGE);
    message[20] = flags;
    message[23] = ptp_type;
}

#endif
