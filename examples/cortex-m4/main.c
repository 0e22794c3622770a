/* A firmware for a Cortex-M4 with a controller like STM32F4's SDIO: it counts in sector 1 how often it has booted, which it does three times
   here, then writes sectors and reads them back, and tells what was healed meanwhile. */
#include "model.h"
#include "sdio.h"
#include "start.h"

enum { BOOTS = 3, COUNTS = 1, FIRST = 100, MANY = 64 };
static struct kelifandro sd = {.host = &sdio_host};
static uint8_t out[MANY * 512], in[MANY * 512];

static int is_done(const char *what, int32_t result)
{
    if (result == KELIFANDRO_DONE)
        return 1;
    print(what);
    print(": ");
    print(kelifandro_text(result));
    print("\n");
    return 0;
}

/* The card has its power from here on. */
static int boot(void)
{
    uint8_t *sector = in;
    if (!is_done("open", kelifandro_open(&sd)) || !is_done("read", kelifandro_read(&sd, KELIFANDRO_USER, COUNTS, 1, sector)))
        return 0;
    sector[0]++;
    if (!is_done("write", kelifandro_write(&sd, KELIFANDRO_USER, COUNTS, 1, sector)))
        return 0;
    print("boot ");
    print_number(sector[0]);
    print(": ");
    print_number((uint32_t)kelifandro_sectors(&sd, KELIFANDRO_USER));
    print(" sectors, ");
    print_number(sd.card.lines);
    print(sd.card.high_speed ? " lines at high speed\n" : " lines\n");
    return 1;
}

static int write_and_read_back(uint32_t round)
{
    uint32_t differ = 0;
    for (uint32_t i = 0; i < sizeof out; i++)
        out[i] = (uint8_t)(i * 7 + i / 512 + round);
    if (!is_done("write", kelifandro_write(&sd, KELIFANDRO_USER, FIRST, MANY, out)) || !is_done("read", kelifandro_read(&sd, KELIFANDRO_USER, FIRST, MANY, in)))
        return 0;
    for (uint32_t i = 0; i < sizeof out; i++)
        differ += out[i] != in[i];
    if (differ)
        print("what was read differs\n");
    return differ == 0;
}

int main(void)
{
    uint32_t rounds = 0;
    model_begin(1);
    for (int i = 0; i < BOOTS; i++) {
        if (i)
            kelifandro_close(&sd);
        if (!boot())
            return 1;
    }
    while (rounds < 10)
        if (!write_and_read_back(rounds++))
            return 1;
    print_number(rounds);
    print(" times ");
    print_number(MANY);
    print(" sectors written and read back\n");
    print(sd.healed.by_answer + sd.healed.by_data + sd.healed.by_status > 0 ? "what was lost meanwhile is healed\n" : "nothing was lost\n");
    return 0;
}
