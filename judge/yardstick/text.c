/* Text of a yardstick: UTF-8 of XML 1.0 characters. */
#include "yardstick.h"

#define HIGH UINT64_C(0x8080808080808080)
#define EACH(byte) (UINT64_C(0x0101010101010101) * (byte))

/* whether eight bytes are from the blank to the tilde: none has its high bit, none comes to it with one more, and each does with 96 more where it has none of the low five */
static int are_plain(uint64_t eight)
{
    uint64_t low = eight & ~HIGH;
    return ((eight | (low + EACH(1)) | ~(low + EACH(96))) & HIGH) == 0;
}

/* whether a text of four bytes or more is plain, by words that may overlap */
static int is_plain(const uint8_t *s, size_t len)
{
    if (len < 8)
        return are_plain((uint64_t)get32(s) << 32 | get32(s + len - 4));
    for (size_t i = 0; i < len - 8; i += 8) {
        if (!are_plain(get64(s + i)))
            return 0;
    }
    return are_plain(get64(s + len - 8));
}

/* the continuation bytes behind a first byte, in the character's value; above the last one where they are not */
static uint32_t continued(const uint8_t *s, size_t more, uint32_t value)
{
    for (size_t i = 1; i <= more; i++) {
        if ((s[i] & 0xc0) != 0x80)
            return UINT32_MAX;
        value = value << 6 | (s[i] & 0x3fu);
    }
    return value;
}

/* how long the character of several bytes at the start of a text is; 0 where none is there */
static size_t character(const uint8_t *s, size_t left)
{
    static const uint32_t least[4] = {0, 0x80, 0x800, 0x10000};
    size_t more = s[0] < 0xe0 ? 1 : s[0] < 0xf0 ? 2 : 3;
    if (s[0] < 0xc2 || s[0] > 0xf4 || more >= left)
        return 0;
    uint32_t value = continued(s, more, s[0] & (0x3fu >> more));
    if (value < least[more] || value > 0x10ffff || (value >= 0xd800 && value < 0xe000) || value == 0xfffe || value == 0xffff)
        return 0;
    return more + 1;
}

int yardstick_is_text(const uint8_t *s, size_t len)
{
    size_t i = 0;
    if (len >= 4 && is_plain(s, len))
        return 1;
    while (i < len) {
        if (s[i] < 0x80) {
            if (s[i] < 32 && s[i] != '\t' && s[i] != '\n' && s[i] != '\r')
                return 0;
            i++;
        } else {
            size_t bytes = character(s + i, len - i);
            if (bytes == 0)
                return 0;
            i += bytes;
        }
    }
    return 1;
}
