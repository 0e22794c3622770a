#include "recorder.h"

/* What came of a block, by the number of read_block and write_block; any other number is as 2. */
static const char *const READ[] = {"good", "bad", "nothing"};
static const char *const WRITTEN[] = {"accepted", "rejected", "nothing"};

static unsigned outcome(int number)
{
    return number == 0 || number == 1 ? (unsigned)number : 2;
}

static void print(const struct recorder *recorder, const char *text)
{
    recorder->print(recorder->context, text);
}

static void print_bytes(const struct recorder *recorder, const uint8_t *bytes, size_t n)
{
    static const char DIGITS[] = "0123456789abcdef";
    for (size_t i = 0; i < n; i++) {
        const char two[3] = {DIGITS[bytes[i] >> 4], DIGITS[bytes[i] & 15], 0};
        print(recorder, two);
    }
}

static void print_number(const struct recorder *recorder, size_t n)
{
    const char digit[2] = {(char)('0' + n % 10), 0};
    if (n >= 10)
        print_number(recorder, n / 10);
    print(recorder, digit);
}

/* CRC7 and the end bit: x^7 + x^3 + 1 (SD Physical Layer 6.00, section 4.5). */
static uint8_t last_byte(const uint8_t *bytes, size_t n)
{
    unsigned check = 0;
    for (size_t i = 0; i < 8 * n; i++) {
        unsigned bit = ((unsigned)bytes[i / 8] >> (7 - i % 8) & 1) ^ (check >> 6);
        check = (check << 1 & 0x7f) ^ (bit ? 9 : 0);
    }
    return (uint8_t)(check << 1 | 1);
}

static void put_words(uint8_t *bytes, const uint32_t *words, size_t n)
{
    for (size_t i = 0; i < n; i++)
        bytes[i] = (uint8_t)(words[i / 4] >> (24 - 8 * (i % 4)));
}

/* A frame of six bytes; one with 63 for its index has ones in place of a check. */
static void print_frame(const struct recorder *recorder, unsigned first, uint32_t argument)
{
    uint8_t frame[6] = {(uint8_t)first};
    put_words(frame + 1, &argument, 4);
    frame[5] = first == 0x3f ? 0xff : last_byte(frame, 5);
    print_bytes(recorder, frame, 6);
}

/* An R2: its check covers the register, without the first byte. */
static void print_register(const struct recorder *recorder, const uint32_t words[4])
{
    uint8_t frame[17] = {0x3f};
    put_words(frame + 1, words, 15);
    frame[16] = last_byte(frame + 1, 15);
    print_bytes(recorder, frame, 17);
}

static void print_command(struct recorder *recorder, const struct kelifandro_command *command, int fault, const uint32_t response[4])
{
    recorder->index = command->index;
    print(recorder, "cmd ");
    print_frame(recorder, 0x40u | command->index, command->argument);
    print(recorder, " rsp ");
    if (command->response == KELIFANDRO_NO_RESPONSE)
        print(recorder, "none");
    else if (fault)
        print(recorder, fault == KELIFANDRO_BAD_CHECK ? "bad" : "none");
    else if (command->response == KELIFANDRO_R2)
        print_register(recorder, response);
    else
        print_frame(recorder, command->response == KELIFANDRO_R3 ? 0x3f : command->index, response[0]);
    print(recorder, "\n");
}

/* Sectors are long, and nobody judges what they hold. */
static void print_read(const struct recorder *recorder, int got, const uint8_t *block, size_t length)
{
    print(recorder, "in ");
    print_number(recorder, length);
    print(recorder, " ");
    print(recorder, READ[outcome(got)]);
    if (got == 0 && (length != 512 || recorder->index == 8)) {
        print(recorder, " ");
        print_bytes(recorder, block, length);
    }
    print(recorder, "\n");
}

static void print_written(const struct recorder *recorder, int got)
{
    print(recorder, "out ");
    print(recorder, WRITTEN[outcome(got)]);
    print(recorder, "\n");
}

static int send(void *context, const struct kelifandro_command *command, uint32_t response[4])
{
    struct recorder *recorder = context;
    int fault = recorder->port->send(recorder->port->context, command, response);
    print_command(recorder, command, fault, response);
    return fault;
}

static int read_block(void *context, void *block, size_t length)
{
    struct recorder *recorder = context;
    int got = recorder->port->read_block(recorder->port->context, block, length);
    print_read(recorder, got, block, length);
    return got;
}

static int write_block(void *context, const void *block)
{
    struct recorder *recorder = context;
    int got = recorder->port->write_block(recorder->port->context, block);
    print_written(recorder, got);
    return got;
}

static int is_busy(void *context, uint32_t microseconds)
{
    struct recorder *recorder = context;
    int is_so = recorder->port->is_busy(recorder->port->context, microseconds);
    print(recorder, is_so ? "busy yes\n" : "busy no\n");
    return is_so;
}

static void set_ios(void *context, int lines, int high_speed, uint32_t hertz)
{
    struct recorder *recorder = context;
    recorder->port->set_ios(recorder->port->context, lines, high_speed, hertz);
    if (lines == recorder->lines && !high_speed == !recorder->high_speed)
        return;
    recorder->lines = lines;
    recorder->high_speed = high_speed;
    print(recorder, "lines ");
    print_number(recorder, (size_t)lines);
    print(recorder, high_speed ? " high\n" : " default\n");
}

static void pause(void *context, uint32_t microseconds)
{
    struct recorder *recorder = context;
    recorder->port->pause(recorder->port->context, microseconds);
}

/* Where a block failed `good` isn't used (kelifandro.h). */
static void print_moved(const struct recorder *recorder, const struct kelifandro_command *command, const uint8_t *memory,
                        const struct kelifandro_moved *moved)
{
    int is_read = command->data == KELIFANDRO_READ, failed = moved->failed;
    if (failed)
        print(recorder, is_read ? "in some\n" : "out some\n");
    for (size_t i = 0; i < (failed ? 1 : moved->good); i++)
        if (is_read)
            print_read(recorder, failed, memory + i * command->block_length, command->block_length);
        else
            print_written(recorder, failed);
}

static int transfer(void *context, const struct kelifandro_command *command, uint32_t response[4], void *memory, size_t blocks,
                    struct kelifandro_moved *moved)
{
    struct recorder *recorder = context;
    int fault = recorder->port->transfer(recorder->port->context, command, response, memory, blocks, moved);
    print_command(recorder, command, fault, response);
    if (!fault && blocks)
        print_moved(recorder, command, memory, moved);
    return fault;
}

static void set_power(void *context, int is_on)
{
    struct recorder *recorder = context;
    recorder->port->set_power(recorder->port->context, is_on);
}

static int is_inserted(void *context)
{
    struct recorder *recorder = context;
    return recorder->port->is_inserted(recorder->port->context);
}

static int is_write_protected(void *context)
{
    struct recorder *recorder = context;
    return recorder->port->is_write_protected(recorder->port->context);
}

struct kelifandro_host record(struct recorder *recorder, const struct kelifandro_host *port, void (*to)(void *context, const char *text),
                              void *context)
{
    *recorder = (struct recorder){.port = port, .print = to, .context = context, .lines = 1};
    struct kelifandro_host host = {.context = recorder, .lines = port->lines, .high_speed = port->high_speed,
                                   .is_busy = is_busy, .set_ios = set_ios, .pause = pause};
    host.send = port->send ? send : 0;
    host.read_block = port->read_block ? read_block : 0;
    host.write_block = port->write_block ? write_block : 0;
    host.transfer = port->transfer ? transfer : 0;
    host.set_power = port->set_power ? set_power : 0;
    host.is_inserted = port->is_inserted ? is_inserted : 0;
    host.is_write_protected = port->is_write_protected ? is_write_protected : 0;
    return host;
}
