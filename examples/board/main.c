/* A program with nothing below it, on a board with an SD host controller: how the card is reached, and the text in its first sector, which
   is written where there is none. The board is a file of c/boards, which tells where the controller is. */
#include "board.h"

static void print_kind(const struct kelifandro_card *card)
{
    print(card->kind == 0 ? "an SD card, " : "an eMMC device, ");
    print_number(card->lines);
    print(card->high_speed ? " lines at high speed\n" : " lines\n");
}

void program(struct kelifandro *sd)
{
    static const char text[] = "written by a board";
    static uint8_t sector[512];

    print_kind(&sd->card);
    expect_done("read", kelifandro_read(sd, KELIFANDRO_USER, 0, 1, sector));
    if (sector[0] == 0) {
        for (unsigned i = 0; i < sizeof text; i++)
            sector[i] = (uint8_t)text[i];
        expect_done("write", kelifandro_write(sd, KELIFANDRO_USER, 0, 1, sector));
        print("nothing is there yet\n");
        return;
    }
    print("sector 0: ");
    print((const char *)sector);
    print("\n");
}
