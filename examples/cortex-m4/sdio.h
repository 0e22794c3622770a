/* A controller that is no SD host controller: the registers of the SDIO of STM32F4 and its like, as their reference manual (RM0090) has them, and
   the pin of DAT0. */
#ifndef SDIO_H
#define SDIO_H
#include "kelifandro.h"

enum { POWER = 0x00, CLKCR = 0x04, ARG = 0x08, CMD = 0x0c, RESPCMD = 0x10, RESP1 = 0x14, DTIMER = 0x24, DLEN = 0x28, DCTRL = 0x2c, DCOUNT = 0x30,
       STA = 0x34, ICR = 0x38, FIFO = 0x80 };
enum { POWER_ON = 3 };
enum { CLKEN = 1 << 8, BYPASS = 1 << 10, FOUR_LINES = 1 << 11, EIGHT_LINES = 2 << 11 };       /* CLKCR; the divisor less 2 in bits 7 to 0 */
enum { SHORT_RESPONSE = 1 << 6, LONG_RESPONSE = 3 << 6, CPSMEN = 1 << 10 };                   /* CMD */
enum { DTEN = 1, FROM_CARD = 2 };                                                             /* DCTRL; bits 7 to 4: the block's length is 2 to that */
enum { CCRCFAIL = 1, DCRCFAIL = 2, CTIMEOUT = 4, DTIMEOUT = 8, TXUNDERR = 16, RXOVERR = 32, CMDREND = 64, CMDSENT = 128, DATAEND = 256,
       STBITERR = 512, ALL_STATIC = 0x7ff, TXFIFOF = 1 << 16, RXDAVL = 1 << 21 };             /* STA, ICR */
enum { FIFO_WORDS = 32, DAT0 = 1 << 8, KERNEL_HERTZ = 48000000 };

/* On a board these three are a volatile load and a store at SDIO's address, and a load of the input register of DAT0's port, which shows the
   pin's level also while the controller has the pin. Here they lead to a model (model.c). */
uint32_t sdio_read(unsigned offset);
void sdio_write(unsigned offset, uint32_t value);
uint32_t port_read(void);
/* A timer that counts microseconds, and begins again after 2^32 of them. */
uint32_t timer_read(void);

extern const struct kelifandro_host sdio_host;
#endif
