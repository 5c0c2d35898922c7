/* Lists the start of the board's firmware, then asks for two listings that are refused. */
#include <inttypes.h>
#include <stdio.h>

#include "manik.h"

/* The code of board.c from address 0 on, and the word behind it. */
static const uint8_t image[] = {
    0x40, 0x14, 0x80, 0x21, 0x27, 0x32, 0x30, 0x50, 0xef, 0xfd, 0x30, 0x30, 0xef, 0xfb, 0xf4, 0x00, 0x00, 0x00, 0xff, 0x00,
};

/* Room for any listing of the image. */
static uint8_t out[MANIK_LISTING_ROOM(sizeof image)];

/* Lists from start to before end into so much of the buffer. */
static void list(size_t start, size_t end, size_t room)
{
    size_t written;
    uint32_t reply = manik_list(image, sizeof image, start, end, out, room, &written);
    if (reply == MANIK_LISTED)
        fwrite(out, 1, written, stdout);
    else
        printf("refusal %" PRIu32 "\n", reply);
}

int main(void)
{
    list(0, sizeof image, sizeof out);
    /* Half an instruction. */
    list(1, sizeof image, sizeof out);
    /* One line needs more. */
    list(0, sizeof image, 16);
    return 0;
}
