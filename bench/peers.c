/* liquid-dsp's SECDED codes on 4096 data bytes, in counted regions. Prints `peer TAG NAME CALL`; the figures are a data byte's. */
#include <complex.h>
#include <stdio.h>
#include <string.h>
#include <liquid/liquid.h>
#include "mark.h"

enum { BYTES = 4096 };
static unsigned char data[BYTES], coded[4 * BYTES], decoded[BYTES];
static long tag;

static long next_case(const char *name, const char *call)
{
    printf("peer %ld %s %s\n", ++tag, name, call);
    return tag;
}

/* One flipped bit in every code word of `unit` bytes. */
static void harm(unsigned length, unsigned unit)
{
    for (unsigned i = 0; i + unit <= length; i += unit) coded[i + i / unit % unit] ^= (unsigned char)(1u << i % 8);
}

static int measure(fec_scheme scheme, const char *name, unsigned unit)
{
    fec code = fec_create(scheme, NULL);
    COUNTED(next_case(name, "encode"), fec_encode(code, BYTES, data, coded));
    COUNTED(next_case(name, "check-clean"), fec_decode(code, BYTES, coded, decoded));
    int good = memcmp(data, decoded, BYTES) == 0;
    harm(fec_get_enc_msg_length(scheme, BYTES), unit);
    COUNTED(next_case(name, "check-one-error-a-word"), fec_decode(code, BYTES, coded, decoded));
    good &= memcmp(data, decoded, BYTES) == 0;
    fec_destroy(code);
    return good;
}

int main(void)
{
    COUNTED(0, (void)0);
    for (unsigned i = 0; i < BYTES; i++) data[i] = (unsigned char)(i * 37 + 11);
    int good = measure(LIQUID_FEC_SECDED7264, "secded-72-64", 9);
    good &= measure(LIQUID_FEC_SECDED3932, "secded-39-32", 5);
    if (!good) fprintf(stderr, "peers: a decoded byte is wrong\n");
    return !good;
}
