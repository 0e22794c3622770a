/* Counts in sector 1 of the card how often it has booted. */
#include "board.h"

void program(struct kelifandro *sd)
{
    static uint8_t sector[512];
    uint32_t count = 0;
    expect_done("read", kelifandro_read(sd, KELIFANDRO_USER, 1, 1, sector));
    for (int i = 0; i < 4; i++)
        count |= (uint32_t)sector[i] << (8 * i);
    count++;
    for (int i = 0; i < 4; i++)
        sector[i] = (uint8_t)(count >> (8 * i));
    expect_done("write", kelifandro_write(sd, KELIFANDRO_USER, 1, 1, sector));
    print("boot ");
    print_number(count);
    print("\n");
}
