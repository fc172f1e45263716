/* MD5: ours against OpenSSL's, in one run. */
#define OPENSSL_SUPPRESS_DEPRECATED
#include "clock.h"
#include "../include/par1.h"
#include <openssl/md5.h>
#include <string.h>

int main(void) {
    static const size_t sizes[] = {64, 1024, 65536, 16777216};
    static const int calls[] = {4096, 512, 16, 1};
    uint8_t *bytes = random_bytes(sizes[3]);
    static const char *const what[] = {"MD5 of 64 bytes", "MD5 of 1 KiB", "MD5 of 64 KiB", "MD5 of 16 MiB"};
    static const double wanted[] = {0, 0.80, 0, 0.90};
    uint8_t ours[16], theirs[16];
    int right = 1;
    for (int i = 0; i < 4; i++) {
        double a = 0, b = 0;
        COMPARE(i == 3 ? 20 : 200, calls[i], par1_md5(bytes, sizes[i], ours, 16), MD5(bytes, sizes[i], theirs), a, b)
        if (memcmp(ours, theirs, 16) != 0) {
            puts("md5: the digests differ");
            return 1;
        }
        right &= row(what[i], "OpenSSL", sizes[i], a, b, wanted[i]);
    }
    return !right;
}
