/* Decodes P2 so many times with asn1c's decoder, and frees what it made. */
#include <stdio.h>
#include <stdlib.h>
#include "Apdu.h"

static const unsigned char P2[] = {0xA2, 0x0B, 0x02, 0x01, 0x05, 0x30, 0x06, 0x02, 0x01, 0x07, 0x02, 0x01, 0x00};

int main(int count, char **words) {
    long times = count > 1 ? atol(words[1]) : 1, decoded = 0;
    for (long i = 0; i < times; i++) {
        Apdu_t *apdu = 0;
        asn_dec_rval_t r = ber_decode(0, &asn_DEF_Apdu, (void **)&apdu, P2, sizeof P2);
        decoded += r.code == RC_OK && apdu->present == Apdu_PR_result && apdu->choice.result.body != 0;
        ASN_STRUCT_FREE(asn_DEF_Apdu, apdu);
    }
    printf("%ld\n", decoded);
    return decoded != times;
}
