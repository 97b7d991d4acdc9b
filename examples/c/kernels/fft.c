/* A Fourier transform of 512 points in fixed point: nine rounds of 256 butterflies, which are dealt among the contexts, with a barrier behind
   each round. Numbers are halved in each round, so that they fit. Context 0 prints a sum in which each number counts by its place. */
#include "alewife.h"

enum { BITS = 9, COUNT = 1 << BITS, ONE_BITS = 14 };

struct point {
    int32_t real, imaginary;
};

LINE static struct point points[COUNT];
static struct barrier barrier;

/* The sine over a quarter of a turn, of 16384. */
LINE static const int16_t quarter[COUNT / 4 + 1] = {
    0, 201, 402, 603, 804, 1005, 1205, 1406, 1606, 1806, 2006, 2205, 2404, 2603, 2801, 2999,
    3196, 3393, 3590, 3786, 3981, 4176, 4370, 4563, 4756, 4948, 5139, 5330, 5520, 5708, 5897, 6084,
    6270, 6455, 6639, 6823, 7005, 7186, 7366, 7545, 7723, 7900, 8076, 8250, 8423, 8595, 8765, 8935,
    9102, 9269, 9434, 9598, 9760, 9921, 10080, 10238, 10394, 10549, 10702, 10853, 11003, 11151, 11297, 11442,
    11585, 11727, 11866, 12004, 12140, 12274, 12406, 12537, 12665, 12792, 12916, 13039, 13160, 13279, 13395, 13510,
    13623, 13733, 13842, 13949, 14053, 14155, 14256, 14354, 14449, 14543, 14635, 14724, 14811, 14896, 14978, 15059,
    15137, 15213, 15286, 15357, 15426, 15493, 15557, 15619, 15679, 15736, 15791, 15843, 15893, 15941, 15986, 16029,
    16069, 16107, 16143, 16176, 16207, 16235, 16261, 16284, 16305, 16324, 16340, 16353, 16364, 16373, 16379, 16383,
    16384,
};

static int32_t sine_of(uint32_t step)
{
    uint32_t within = step % (COUNT / 2), folded = within <= COUNT / 4 ? within : COUNT / 2 - within;
    return step % COUNT < COUNT / 2 ? quarter[folded] : -quarter[folded];
}

static uint32_t reversed(uint32_t place)
{
    uint32_t bits = 0;
    for (uint32_t i = 0; i < BITS; i++)
        bits = bits << 1 | (place >> i & 1);
    return bits;
}

static void fill(uint32_t place)
{
    struct point point = {(int32_t)(place * 2654435761u >> 19) - 4096, 0};
    points[reversed(place)] = point;
}

/* A butterfly: the pair becomes half of its sum and half of its difference, with the upper one turned first. */
static void combine(struct point *low, struct point *high, uint32_t step)
{
    int32_t cosine = sine_of(step + COUNT / 4), sine = -sine_of(step);
    int32_t real = (high->real * cosine - high->imaginary * sine) >> ONE_BITS;
    int32_t imaginary = (high->real * sine + high->imaginary * cosine) >> ONE_BITS;
    struct point sum = {(low->real + real) >> 1, (low->imaginary + imaginary) >> 1};
    struct point difference = {(low->real - real) >> 1, (low->imaginary - imaginary) >> 1};
    *low = sum;
    *high = difference;
}

static uint32_t part_of_sum(uint32_t first, uint32_t last)
{
    uint32_t sum = 0;
    for (uint32_t i = first; i < last; i++)
        sum += (uint32_t)points[i].real * (i + 1) + (uint32_t)points[i].imaginary * (COUNT + i + 1);
    return sum;
}

void program(uint32_t context, uint32_t contexts)
{
    uint32_t first = context * COUNT / contexts, last = (context + 1) * COUNT / contexts, sum;
    for (uint32_t i = first; i < last; i++)
        fill(i);
    for (uint32_t round = 0; round < BITS; round++) {
        wait_for_all(&barrier, contexts);
        for (uint32_t i = first / 2; i < last / 2; i++) {
            uint32_t half = 1u << round, within = i & (half - 1), low = (i >> round << (round + 1)) + within;
            combine(&points[low], &points[low + half], within << (BITS - 1 - round));
        }
    }
    wait_for_all(&barrier, contexts);
    sum = sum_of_all(&barrier, contexts, part_of_sum(first, last));
    if (context == 0)
        print(sum);
}
