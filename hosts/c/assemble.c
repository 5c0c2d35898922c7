/* Assembles a snippet into an image and writes its bytes, then two texts that are refused. */
#include <inttypes.h>
#include <stdio.h>
#include <string.h>

#include "manik.h"

/* The loop of board.c without its jump out: it sums a key word again and again. */
static const char snippet[] =
    "\tldrpc\tr1\tkeyat\n"
    "loop\tldr\tr2\t0\tr1\n"
    "\txor\tr3\tr2\n"
    "\tsj\tloop\n"
    "keyat\tword\t0x10000-16*16\n";

static uint8_t image[32];

/* Assembles from start on, and writes what became of it. */
static void assemble(const char *text, size_t start)
{
    size_t line, end;
    uint32_t reply = manik_assemble((const uint8_t *)text, strlen(text), start, image, sizeof image, &line, &end);
    if (reply != MANIK_ASSEMBLED) {
        printf("line %zu: refusal %" PRIu32 "\n", line, reply);
        return;
    }
    printf("%zu lines, from %zu to before %zu:", line, start, end);
    for (size_t at = start; at < end; at++)
        printf(" %02x", image[at]);
    printf("\n");
}

int main(void)
{
    assemble(snippet, 4);
    /* The jump's label is written nowhere. */
    assemble("\tjr\tr1\n\tsj\tnowhere\n", 0);
    /* The last line would pass the image's end. */
    assemble(snippet, 24);
    return 0;
}
