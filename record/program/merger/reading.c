/* Numbers and texts, as DWARF has them. */
#include <string.h>

#include "dwarf.h"

uint64_t take_number(struct bytes *rest, unsigned size)
{
    uint64_t value = 0;
    if (size > sizeof value || (size_t)(rest->end - rest->at) < size) {
        *rest = (struct bytes){NULL, NULL};
        return 0;
    }
    for (unsigned byte = 0; byte < size; byte++)
        value |= (uint64_t)rest->at[byte] << 8 * byte;
    rest->at += size;
    return value;
}

uint64_t take_packed(struct bytes *rest, bool is_signed)
{
    uint64_t value = 0;
    for (unsigned shift = 0; rest->at < rest->end; shift += 7) {
        unsigned char byte = *rest->at++;
        if (shift < 64)
            value |= (uint64_t)(byte & 0x7f) << shift;
        if (!(byte & 0x80)) {
            if (is_signed && (byte & 0x40) && shift < 57)
                value |= ~UINT64_C(0) << (shift + 7);
            return value;
        }
    }
    *rest = (struct bytes){NULL, NULL};
    return 0;
}

const char *take_text(struct bytes *rest)
{
    const char *text = text_in(*rest, 0);
    if (text)
        rest->at += strlen(text) + 1;
    else
        *rest = (struct bytes){NULL, NULL};
    return text;
}

void take_skip(struct bytes *rest, uint64_t count)
{
    if (count > (uint64_t)(rest->end - rest->at))
        *rest = (struct bytes){NULL, NULL};
    else
        rest->at += count;
}
