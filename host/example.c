/* Opens session 0x101 as PSP, and receives packet A of document 01, which came over IP. */
#include "sklyapina.h"
#include "standard.h"
static uint8_t holding[SKLYAPINA_HOLDING_SIZE], output[SKLYAPINA_MOST_BYTES];
static uint16_t lengths[SKLYAPINA_MOST_FRAMES];
static const uint8_t packet[] = {0, 0, 1, 1, 0x41, 2, 0xFF, 0xFF, 0xC0, 6, 0x80, 2,
                                 0x11, 0x12, 0x13, 0x14, 0x15, 0x16, 0x21, 0x22};
int main(void)
{
    struct sklyapina_opening opened = sklyapina_open((struct sklyapina_table){0}, 0x101, SKLYAPINA_KIND_PSP);
    struct sklyapina_received answer = sklyapina_receive(opened.table, SKLYAPINA_IP, holding, sizeof holding,
                                                         packet, sizeof packet, output, sizeof output,
                                                         lengths, SKLYAPINA_MOST_FRAMES);
    return printf("code %u, frames %u, bytes %u\n", answer.code, answer.frames, answer.bytes) < 0;
}
