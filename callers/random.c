#include "random.h"

/* splitmix64 */
uint64_t any(struct chance *chance)
{
    chance->state += UINT64_C(0x9e3779b97f4a7c15);
    uint64_t z = chance->state;
    z = (z ^ z >> 30) * UINT64_C(0xbf58476d1ce4e5b9);
    z = (z ^ z >> 27) * UINT64_C(0x94d049bb133111eb);
    return z ^ z >> 31;
}

uint64_t below(struct chance *chance, uint64_t limit)
{
    return any(chance) % limit;
}

uint64_t up_to(struct chance *chance, uint64_t most)
{
    return 1 + below(chance, 1 + below(chance, most));
}

bool odds(struct chance *chance, unsigned percent)
{
    return below(chance, 100) < percent;
}
