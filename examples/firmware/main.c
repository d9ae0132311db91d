/* Prints lines of a text by the reader:
       (cd crates/firmware && rt lib)
       cc -O2 examples/firmware/main.c crates/firmware/out/libfirmware.a -o crates/firmware/out/lines
       crates/firmware/out/lines */
#include <stdio.h>
#include <string.h>

#include "firmware.h"

static void show(const char *text, uint32_t line, size_t room_len) {
    uint8_t room[16];
    struct firmware_line l =
        firmware_line((const uint8_t *)text, strlen(text), line, room, room_len);
    printf("line %u: %zu bytes, %zu characters, refusal %d [%.*s]\n", (unsigned)line, l.bytes,
           l.chars, l.refusal, (int)l.bytes, (const char *)room);
}

int main(void) {
    const char *text = "cone: 6\r\nrate: 15\xC3\xA9\nend";
    for (uint32_t line = 0; line < 4; line++)
        show(text, line, sizeof(uint8_t[16]));
    show(text, 1, 9);
    show("a\xFF", 0, 16);
    return 0;
}
