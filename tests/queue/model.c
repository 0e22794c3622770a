#include <stdio.h>
#include <stdlib.h>
#include "model.h"

enum { ONE_LOST_OF = 40 };

unsigned any_of(unsigned *seed, unsigned n)
{
    *seed = *seed * 1664525u + 1013904223u;
    return (*seed >> 8) % n;
}

void expect(int is_so, const char *what, unsigned long n)
{
    if (is_so)
        return;
    printf("wrong: %s (%lu)\n", what, n);
    exit(1);
}

/* A command has been sent. Whether its response is lost: the card has done what it was told. */
static int is_lost(struct model *model)
{
    model->commands++;
    if (model->meanwhile)
        model->meanwhile();
    return model->seed && any_of(&model->seed, ONE_LOST_OF) == 0;
}

static int send(void *context, const struct kelifandro_command *command, uint32_t response[4])
{
    struct model *model = context;
    int fault = model->below->send(&model->card, command, response);
    return is_lost(model) ? KELIFANDRO_TIMEOUT : fault;
}

static int read_block(void *context, void *block, size_t length)
{
    struct model *model = context;
    return model->below->read_block(&model->card, block, length);
}

static int write_block(void *context, const void *block)
{
    struct model *model = context;
    if (model->card.next == model->bad && model->card.left) {
        card_reject(&model->card);
        return 1;
    }
    return model->below->write_block(&model->card, block);
}

static int is_busy(void *context, uint32_t microseconds)
{
    struct model *model = context;
    return model->below->is_busy(&model->card, microseconds);
}

static void set_ios(void *context, int lines, int high_speed, uint32_t hertz)
{
    struct model *model = context;
    model->below->set_ios(&model->card, lines, high_speed, hertz);
}

static void wait_for(void *context, uint32_t microseconds)
{
    struct model *model = context;
    model->below->pause(&model->card, microseconds);
}

static int transfer(void *context, const struct kelifandro_command *command, uint32_t response[4], void *memory, size_t blocks,
                    struct kelifandro_moved *moved)
{
    struct model *model = context;
    int fault = model->below->transfer(&model->card, command, response, memory, blocks, moved);
    return is_lost(model) ? KELIFANDRO_TIMEOUT : fault;
}

int model_begin(struct model *model, const struct kelifandro_host *below, int is_emmc)
{
    struct kelifandro_host host = {.context = model, .lines = below->lines, .high_speed = below->high_speed};
    *model = (struct model){.below = below, .bad = NONE_BAD};
    host.is_busy = is_busy;
    host.set_ios = set_ios;
    host.pause = wait_for;
    host.send = below->send ? send : 0;
    host.read_block = below->read_block ? read_block : 0;
    host.write_block = below->write_block ? write_block : 0;
    host.transfer = below->transfer ? transfer : 0;
    model->host = host;
    model->sd.host = &model->host;
    card_begin(&model->card, is_emmc);
    if (kelifandro_open(&model->sd))
        return 0;
    model->commands = model->card.answers = 0;
    return 1;
}
