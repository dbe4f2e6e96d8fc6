/* stripe.c: P and Q of a stripe of three data blocks of one byte each; then two blocks are lost and recovered. */
#include "stripe.h"

#include <stdio.h>

int main(void)
{
    uint8_t stripe[5] = {1, 2, 3};
    const size_t len = stripe_len(3, 2, 1);
    const uint32_t made = stripe_make_parity(3, 2, 1, stripe, len);

    printf("made %u: P %u, Q %u\n", made, stripe[3], stripe[4]);
    stripe[0] = stripe[1] = 0xff;
    const uint32_t recovered = stripe_recover(3, 2, 1, 0, 1, stripe, len);
    printf("recovered %u: %u %u %u\n", recovered, stripe[0], stripe[1], stripe[2]);

    const uint32_t refused = stripe_recover(3, 2, 1, 0, 5, stripe, len);
    printf("refused %u: %s, %s\n", refused, stripe_name(refused), stripe_text(refused));
    return made != STRIPE_OK || recovered != STRIPE_OK;
}
