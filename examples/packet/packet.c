/*
 * Decodes a packet of a sensor: two bytes of mark, a version, the length of the fields, the fields (tag, length, value), and
 * a checksum as in IPv4's header. A field of samples without a count makes the length of its copy wrap.
 */
#include <stdint.h>
#include <stdio.h>
#include <string.h>

enum { MARK = 0x5eb5, VERSION = 2, HEAD = 5, SUM = 2, OWNER = 1, PLACE = 2, SAMPLES = 3 };

struct sensor {
    char owner[24];
    uint32_t place[2];
    uint8_t samples[64];
};

static unsigned half(const uint8_t *at) { return (unsigned)at[0] << 8 | at[1]; }

static unsigned checksum(const uint8_t *bytes, size_t count)
{
    uint32_t sum = 0;
    for (size_t i = 0; i < count; i++)
        sum += (uint32_t)bytes[i] << (i % 2 == 0 ? 8 : 0);
    while (sum > 0xffff)
        sum = sum % 0x10000 + sum / 0x10000;
    return 0xffff - sum;
}

/* Takes the fields, and answers whether they fill the packet. */
static int decode(const uint8_t *fields, size_t size, struct sensor *sensor)
{
    size_t at = 0;
    while (at + 2 <= size && at + 2 + fields[at + 1] <= size) {
        unsigned tag = fields[at], length = fields[at + 1];
        const uint8_t *value = fields + at + 2;
        if (tag == OWNER && length < sizeof sensor->owner)
            memcpy(sensor->owner, value, length);
        if (tag == PLACE && length == sizeof sensor->place)
            memcpy(sensor->place, value, length);
        if (tag == SAMPLES && length <= sizeof sensor->samples)
            memcpy(sensor->samples, value + 1, length - 1);
        at += 2 + length;
    }
    return at == size;
}

int main(void)
{
    static uint8_t packet[256];
    static struct sensor sensor;
    size_t size = fread(packet, 1, sizeof packet, stdin);
    if (size < HEAD + SUM || half(packet) != MARK || packet[2] != VERSION || half(packet + 3) != size - HEAD - SUM)
        return 1;
    if (checksum(packet, size - SUM) != half(packet + size - SUM))
        return 2;
    if (!decode(packet + HEAD, size - HEAD - SUM, &sensor))
        return 3;
    printf("%s: %u samples\n", sensor.owner, sensor.samples[0]);
    return 0;
}
