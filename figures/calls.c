/* The three sides, and a call made to one of them. */
#include "calls.h"

#include "baseline/baseline.h"
#include "stled325.h"

const struct side archive = {
    stled325_power_up, stled325_tick,    stled325_command,       stled325_key_sample, stled325_remote_frame,
    stled325_ready,    stled325_wake_up, stled325_supply_return, stled325_show,       stled325_lines,
};

const struct side baseline = {
    baseline_power_up, baseline_tick,    baseline_command,       baseline_key_sample, baseline_remote_frame,
    baseline_ready,    baseline_wake_up, baseline_supply_return, baseline_show,       baseline_lines,
};

static uint32_t no_tick(uint8_t *image, size_t image_len)
{
    (void)image, (void)image_len;
    return 0;
}

const struct side nothing = {.tick = no_tick};

const char *kind_name(enum kind kind)
{
    static const char *const names[KINDS] = {
        "power_up", "tick",    "command",       "key_sample", "remote_frame",
        "ready",    "wake_up", "supply_return", "show",       "lines",
    };
    return names[kind];
}

/* One loop for each kind of call, so that nothing is decided between two calls. */
#define EACH(made)                                          \
    for (; count > 0; count--, image += STLED325_IMAGE_LEN) \
        number = (made);                                    \
    break

uint32_t make_calls(const struct side *side, const struct call *call, uint8_t *image, size_t count, uint8_t *out)
{
    size_t len = call->image_len, out_len = call->out_len;
    uint32_t number = 0;

    switch (call->kind) {
    case POWER_UP:
        EACH(side->power_up(image, len));
    case TICK:
        EACH(side->tick(image, len));
    case COMMAND:
        EACH(side->command(image, len, call->bytes, call->bytes_len, out, out_len));
    case KEY_SAMPLE:
        EACH(side->key_sample(image, len, (uint16_t)call->number));
    case REMOTE_FRAME:
        EACH(side->remote_frame(image, len, call->number));
    case READY:
        EACH(side->ready(image, len, call->number));
    case WAKE_UP:
        EACH(side->wake_up(image, len, call->number));
    case SUPPLY_RETURN:
        EACH(side->supply_return(image, len, call->number));
    case SHOW:
        EACH(side->show(image, len, out, out_len));
    default:
        EACH(side->lines(image, len, out, out_len));
    }
    return number;
}
