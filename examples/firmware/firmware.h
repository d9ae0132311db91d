/* The functions of crates/firmware, for C. */
#ifndef FIRMWARE_H
#define FIRMWARE_H

#include <stddef.h>
#include <stdint.h>

/* struct Line of crates/firmware/src/lib.rt */
struct firmware_line {
    size_t bytes;    /* how much of the room the line fills */
    size_t chars;    /* how many characters it has */
    uint8_t refusal; /* the number of a refusal, or 0 */
};

/* Fetches a line of a text, counted from 0, into a room. A slice of Rattle is a pointer and a length;
   `room` must not overlap `text`. */
struct firmware_line firmware_line(const uint8_t *text, size_t text_len, uint32_t line,
                                   uint8_t *room, size_t room_len);

#endif
