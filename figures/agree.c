/*
 * The same random calls to the archive and to the baseline. Only if every
 * number, image and output is equal are the two the same rule, and their times
 * comparable.
 */
#include <stdio.h>
#include <string.h>

#include "draw.h"
#include "stled325.h"

#define REFUSALS 13
#define CALLS_PER_IMAGE 8

struct answer {
    uint32_t number;
    uint8_t image[STLED325_IMAGE_LEN];
    uint8_t out[MOST_BYTES];
};

static unsigned long met[KINDS][REFUSALS];

static struct answer answer_of(const struct side *side, const struct call *call, const uint8_t *image)
{
    struct answer answer;

    memcpy(answer.image, image, STLED325_IMAGE_LEN);
    memset(answer.out, 0xA5, sizeof answer.out);
    answer.number = make_calls(side, call, answer.image, 1, answer.out);
    return answer;
}

static void print_bytes(const char *name, const uint8_t *bytes, size_t len)
{
    size_t i;

    fprintf(stderr, "  %s:", name);
    for (i = 0; i < len; i++)
        fprintf(stderr, " %02X", bytes[i]);
    fputc('\n', stderr);
}

static void print_answer(const char *name, const struct answer *answer)
{
    fprintf(stderr, "  %s: %u\n", name, (unsigned)answer->number);
    print_bytes("image", answer->image, sizeof answer->image);
    print_bytes("output", answer->out, sizeof answer->out);
}

/* Makes one call to both; the image after it on agreement. */
static int agree_on(const struct call *call, uint8_t *image)
{
    struct answer proved = answer_of(&archive, call, image);
    struct answer by_hand = answer_of(&baseline, call, image);

    if (proved.number != by_hand.number || memcmp(proved.image, by_hand.image, sizeof proved.image) != 0 ||
        memcmp(proved.out, by_hand.out, sizeof proved.out) != 0) {
        fprintf(stderr, "figures: archive and baseline differ on %s, number %u\n", kind_name(call->kind),
                (unsigned)call->number);
        print_bytes("image before", image, STLED325_IMAGE_LEN);
        print_bytes("command", call->bytes, call->bytes_len);
        print_answer("archive", &proved);
        print_answer("baseline", &by_hand);
        return 0;
    }
    if (proved.number < REFUSALS)
        met[call->kind][proved.number]++;
    memcpy(image, proved.image, STLED325_IMAGE_LEN);
    return 1;
}

/* Each call must have been accepted, and each refusal number given, often enough to count. */
static int all_met(void)
{
    unsigned number, kind;

    for (kind = 0; kind < KINDS; kind++)
        if (met[kind][STLED325_ACCEPTED] < 100) {
            fprintf(stderr, "figures: %s was hardly ever accepted\n", kind_name((enum kind)kind));
            return 0;
        }
    for (number = 1; number < REFUSALS; number++) {
        unsigned long times = 0;
        for (kind = 0; kind < KINDS; kind++)
            times += met[kind][number];
        if (times < 100) {
            fprintf(stderr, "figures: refusal %u was hardly ever given\n", number);
            return 0;
        }
    }
    return 1;
}

int check_agreement(unsigned long calls)
{
    uint8_t image[STLED325_IMAGE_LEN];
    struct call call;
    unsigned long i;

    for (i = 0; i < calls; i++) {
        if (i % CALLS_PER_IMAGE == 0)
            random_image(image);
        if (i % CALLS_PER_IMAGE == CALLS_PER_IMAGE - 1 && once_in(2))
            image[below(STLED325_IMAGE_LEN)] ^= (uint8_t)(1u << below(8));
        random_call(&call, image);
        if (!agree_on(&call, image))
            return 0;
    }
    return all_met();
}
