/* Asks the library, from C, for its verdict on packet A of document 01: as PSP, as D-MPT, as a kind that there is not,
 * as PSP with the last byte cut off, and as PSP with S clear, so without a number (document 02, W2); then on the same
 * packet over UDP, by a transport that there is not, and by the wrong one of the two. Prints the answers, where the
 * packet's second segment stands by either transport, and what comes of its first segment in an array that is long
 * enough and in one that is not; and ends with status 0 only where they are the right ones. host/run builds and runs
 * it. */
#include "sklyapina.h"
#include "standard.h"

enum { BEFORE_SESSION = 4, OVER_IP = 20, OVER_UDP = BEFORE_SESSION + OVER_IP };

/* As it comes over UDP: T 0 and version 3, then what it is over IP. Byte 4 of that is 0x41: S set, flow 1. Two
 * segments, of 6 and 2 bytes: 8 + 2 x 2 + 6 + 2 is 20 bytes. */
static const uint8_t udp_packet[OVER_UDP] = {
    0x00, 0x03, 0x00, 0x00,
    0x00, 0x00, 0x01, 0x01, 0x41, 0x02, 0xFF, 0xFF, 0xC0, 0x06,
    0x80, 0x02, 0x11, 0x12, 0x13, 0x14, 0x15, 0x16, 0x21, 0x22
};
static const uint8_t *const ip_packet = udp_packet + BEFORE_SESSION;

/* The same over IP with S clear: byte 4 is 0x01, and the number says nothing. */
static const uint8_t unnumbered_packet[OVER_IP] = {
    0x00, 0x00, 0x01, 0x01, 0x01, 0x02, 0xFF, 0xFF, 0xC0, 0x06,
    0x80, 0x02, 0x11, 0x12, 0x13, 0x14, 0x15, 0x16, 0x21, 0x22
};

static bool kinds_are_told(void)
{
    unsigned int psp = sklyapina_check(SKLYAPINA_KIND_PSP, SKLYAPINA_IP, ip_packet, OVER_IP);
    unsigned int dmpt = sklyapina_check(SKLYAPINA_KIND_DMPT, SKLYAPINA_IP, ip_packet, OVER_IP);
    unsigned int other = sklyapina_check(3, SKLYAPINA_IP, ip_packet, OVER_IP);
    unsigned int cut = sklyapina_check(SKLYAPINA_KIND_PSP, SKLYAPINA_IP, ip_packet, OVER_IP - 1);
    unsigned int unnumbered = sklyapina_check(SKLYAPINA_KIND_PSP, SKLYAPINA_IP, unnumbered_packet, OVER_IP);

    printf("psp %u, dmpt %u, other %u, cut %u, unnumbered %u\n", psp, dmpt, other, cut, unnumbered);
    return psp == SKLYAPINA_NONE && dmpt == SKLYAPINA_FLOW_OUTSIDE && other == SKLYAPINA_KIND_UNKNOWN
        && cut == SKLYAPINA_LENGTHS_DISAGREE && unnumbered == SKLYAPINA_NONE;
}

/* Given as UDP, the session ID 00 00 01 01 has version 0. Given as IP, 00 03 00 00 is the session ID and what was the
 * session ID is the header, which announces no segment. */
static bool transports_are_told(void)
{
    unsigned int udp = sklyapina_check(SKLYAPINA_KIND_PSP, SKLYAPINA_UDP, udp_packet, OVER_UDP);
    unsigned int other = sklyapina_check(SKLYAPINA_KIND_PSP, 3, udp_packet, OVER_UDP);
    unsigned int ip_as_udp = sklyapina_check(SKLYAPINA_KIND_PSP, SKLYAPINA_UDP, ip_packet, OVER_IP);
    unsigned int udp_as_ip = sklyapina_check(SKLYAPINA_KIND_PSP, SKLYAPINA_IP, udp_packet, OVER_UDP);

    printf("udp %u, other %u, ip as udp %u, udp as ip %u\n", udp, other, ip_as_udp, udp_as_ip);
    return udp == SKLYAPINA_NONE && other == SKLYAPINA_KIND_UNKNOWN
        && ip_as_udp == SKLYAPINA_NOT_VERSION_3 && udp_as_ip == SKLYAPINA_NOTHING_CARRIED;
}

static bool places_are_told(void)
{
    struct sklyapina_stretch ip = sklyapina_segment(SKLYAPINA_KIND_PSP, SKLYAPINA_IP, ip_packet, OVER_IP, 1);
    struct sklyapina_stretch udp = sklyapina_segment(SKLYAPINA_KIND_PSP, SKLYAPINA_UDP, udp_packet, OVER_UDP, 1);

    printf("segment 1 at %zu over ip, at %zu over udp\n", ip.place, udp.place);
    return ip_packet + ip.place == udp_packet + udp.place && ip.length == 2 && udp.length == 2;
}

/* The first segment, 11 12 13 14 15 16, copied over 0x00: into eight bytes whole, and into five without its end. */
static bool copies_are_made(void)
{
    uint8_t output[8] = { 0 }, few[5] = { 0 };
    size_t length = sklyapina_segment_copy(SKLYAPINA_KIND_PSP, SKLYAPINA_UDP, udp_packet, OVER_UDP, 0, output, 8);
    size_t cut = sklyapina_segment_copy(SKLYAPINA_KIND_PSP, SKLYAPINA_IP, ip_packet, OVER_IP, 0, few, 5);

    printf("segment 0 has %zu bytes, ending %02x %02x; cut %zu, ending %02x\n",
           length, output[5], output[6], cut, few[4]);
    return length == 6 && output[0] == 0x11 && output[5] == 0x16 && output[6] == 0
        && cut == 6 && few[0] == 0x11 && few[4] == 0x15;
}

int main(void)
{
    bool kinds = kinds_are_told(), transports = transports_are_told(), places = places_are_told();
    bool copies = copies_are_made();

    return kinds && transports && places && copies ? 0 : 1;
}
