/* Writes Conj from its cubes, summarises it, matches it to Disj and checks the claim, then a wrong
   one; prints each answer's five numbers. */
#include <inttypes.h>
#include <stdio.h>

#include "zap.h"

static const uint8_t on[] = {3, 0};        /* x0 and x1 */
static const uint8_t off[] = {0, 1, 0, 2}; /* not x0; not x1 */
static const uint8_t g[] = {0x46, 0x4E, 2, 2, 1, 1, 0, 2, 0, 0, 3}; /* Disj */
static const uint8_t wrong[] = {0x4D, 0x54, 2, 0, 0, 1}; /* a claim: x0 to x0, x1 to x1 */

static void print_answer(uint64_t answer)
{
    printf("%u %u %u %" PRIu64 " %u\n", zap_code(answer), zap_kind(answer), zap_record(answer),
           zap_place(answer), zap_pattern(answer));
}

static void print_bytes(const uint8_t *bytes, size_t length)
{
    for (size_t i = 0; i < length; i++)
        printf(i == 0 ? "%02X" : " %02X", bytes[i]);
    printf("\n");
}

int main(void)
{
    uint8_t f[261];
    uint64_t answer = zap_write(2, on, sizeof on, off, sizeof off, f, sizeof f);
    print_answer(answer);
    if (zap_code(answer) != ZAP_ACCEPTED)
        return 1;
    size_t f_length = (size_t)zap_place(answer);
    print_bytes(f, f_length);

    uint64_t figures[3];
    print_answer(zap_summary(f, f_length, figures, 3));
    printf("%" PRIu64 " on, %" PRIu64 " off, %" PRIu64 " in use\n", figures[0], figures[1],
           figures[2]);

    uint8_t claim[4096];
    answer = zap_match(f, f_length, g, sizeof g, claim, sizeof claim);
    print_answer(answer);
    if (zap_code(answer) != ZAP_ACCEPTED)
        return 1;
    size_t length = (size_t)zap_place(answer);
    print_bytes(claim, length);

    print_answer(zap_check(f, f_length, g, sizeof g, claim, length));

    answer = zap_check(f, f_length, g, sizeof g, wrong, sizeof wrong);
    print_answer(answer);
    if (zap_code(answer) == ZAP_NOT_AGREEING) {
        unsigned y = zap_pattern(answer);
        printf("they disagree where g's inputs are x0 = %u, x1 = %u\n", y & 1, y >> 1 & 1);
    }
    return 0;
}
