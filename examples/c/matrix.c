/* A product of matrices: each context fills its rows, multiplies them behind a barrier, and behind another prints a sum over all rows. */
#include "alewife.h"

enum { SIZE = 8 };

LINE static uint32_t left[SIZE][SIZE];
LINE static uint32_t right[SIZE][SIZE];
LINE static uint32_t product[SIZE][SIZE];
static struct barrier barrier;

static void fill_row(uint32_t row)
{
    for (uint32_t column = 0; column < SIZE; column++) {
        left[row][column] = (row * 7 + column * 3) & 15;
        right[row][column] = (row * 5 + column * 11) & 31;
    }
}

static void multiply_row(uint32_t row)
{
    for (uint32_t column = 0; column < SIZE; column++) {
        uint32_t sum = 0;
        for (uint32_t k = 0; k < SIZE; k++)
            sum += left[row][k] * right[k][column];
        product[row][column] = sum;
    }
}

void program(uint32_t context, uint32_t contexts)
{
    uint32_t sum = context;
    for (uint32_t row = context; row < SIZE; row += contexts)
        fill_row(row);
    wait_for_all(&barrier, contexts);
    for (uint32_t row = context; row < SIZE; row += contexts)
        multiply_row(row);
    wait_for_all(&barrier, contexts);
    for (uint32_t row = 0; row < SIZE; row++)
        for (uint32_t column = 0; column < SIZE; column++)
            sum = sum * 31 + product[row][column];
    print(sum);
}
