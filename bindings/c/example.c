/* Prints the guarded span and the diagnosis of two small images at 0xC000. README.md, "Use it from C", builds and runs it. */
#include <stdio.h>
#include "image_reach.h"

static void tell(const uint8_t *image, size_t length)
{
    const uint16_t entries[] = {0xC000};
    uint64_t slots[16];
    uint16_t low, high;
    uint32_t count;
    size_t records, i;

    uint32_t number = image_reach_guarded_span(image, length, 0xC000, entries, 1, &low, &high, &count);
    printf("span %u: %04X to %04X, %u instructions\n", (unsigned)number, low, high, (unsigned)count);
    number = image_reach_diagnose(image, length, 0xC000, entries, 1, slots, 16, &low, &high, &count, &records);
    printf("diagnosis %u: %04X to %04X, %u instructions, records: %zu\n", (unsigned)number, low, high, (unsigned)count, records);
    for (i = 0; number == IMAGE_REACH_ANSWERED && i < records; i++)
        printf("  %04X %s, weight %u\n", image_reach_record_address(slots[i]),
               image_reach_slug(image_reach_record_cause(slots[i])), image_reach_record_weight(slots[i]));
}

int main(void)
{
    const uint8_t table[] = {0xBD, 0x04, 0xC0, 0x60, 0x11, 0x22, 0x33};
    const uint8_t pointer[] = {0xA9, 0x00, 0x85, 0xFB, 0xA9, 0xC1, 0x85, 0xFC, 0x91, 0xFB, 0x60};

    tell(table, sizeof table);
    tell(pointer, sizeof pointer);
    return 0;
}
