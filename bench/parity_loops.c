/* The loops in C that bench/parity times the proved functions against. They take no header, so that any compiler compiles them. */

typedef unsigned char sector[512];

void loop_xor_into(unsigned char *restrict to, const unsigned char *restrict from) {
    for (int i = 0; i < 512; i++)
        to[i] ^= from[i];
}

/* Sector by sector, as the proved function goes. */
void loop_xor_all(const sector *restrict sectors, unsigned long count, unsigned char *restrict to) {
    for (int i = 0; i < 512; i++)
        to[i] = 0;
    for (unsigned long k = 0; k < count; k++)
        for (int i = 0; i < 512; i++)
            to[i] ^= sectors[k][i];
}

/* Byte by byte, for eight sectors. */
void loop_xor_eight(const sector *restrict sectors, unsigned long count, unsigned char *restrict to) {
    (void)count;
    for (int i = 0; i < 512; i++) {
        unsigned char sum = 0;
        for (int k = 0; k < 8; k++)
            sum ^= sectors[k][i];
        to[i] = sum;
    }
}
