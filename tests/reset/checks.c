#include "checks.h"

int gives(const uint8_t *disk, size_t length, const char *name, const uint8_t *bytes, size_t count)
{
    enum { OLD_BYTE = 0x5A, MORE = 16 };
    static uint8_t out[IMAGE_MOST + MORE];
    size_t n;
    memset(out, OLD_BYTE, count + MORE);
    if (bm_rescue(disk, length, NAME(name), out, count + MORE) != count || memcmp(out, bytes, count) != 0)
        return 0;
    for (n = count; n < count + MORE; n++)
        if (out[n] != OLD_BYTE)
            return 0;
    return 1;
}

int gives_tare(const uint8_t *disk, size_t length, size_t count)
{
    static uint8_t tare[IMAGE_MOST];
    size_t n;
    for (n = 0; n < count; n++)
        tare[n] = tare_byte(n);
    return gives(disk, length, names[0], tare, count);
}
