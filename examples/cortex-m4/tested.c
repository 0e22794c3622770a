/* What c/examples/conform.c is to test: the driver, over the model, of which no answer is lost. */
#include "conform.h"
#include "model.h"
#include "sdio.h"

static uint64_t now(void)
{
    return timer_read();
}

struct conform conform_begin(void)
{
    struct conform own = {.host = &sdio_host, .first = 100, .count = 160, .now = now};
    model_begin(0);
    return own;
}
