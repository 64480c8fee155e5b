// The check of a layout in plain C.
#include "plain.h"

int read_layout(const uint8_t *layout, size_t length, struct region r[REGIONS])
{
    if (length != 4 * REGIONS)
        return 2;
    for (int k = 0; k < REGIONS; k++)
        r[k] = (struct region){(uint16_t)word(layout + 4 * k), (uint16_t)word(layout + 4 * k + 2)};
    for (int k = 0; k < REGIONS; k++)
        if (r[k].hi < r[k].lo)
            return 3;
    if (r[KR].hi - r[KR].lo != 63 || r[MR].hi - r[MR].lo < 95 || r[CTR].hi - r[CTR].lo != 31)
        return 4;
    if (r[CR].lo == 0)
        return 5;
    for (int i = 0; i < REGIONS; i++)
        for (int j = i + 1; j < REGIONS; j++)
            if (!(i == CR && j == AR) && r[i].lo <= r[j].hi && r[j].lo <= r[i].hi)
                return 6;
    return 0;
}
