/* A matrix of 16 by 16 is factored into a lower and an upper one, in blocks of 2 by 2, a line each, which are dealt among the contexts. Numbers
   are modulo 2^32, where each odd number has an inverse; off the diagonal all are even, so that pivots stay odd and the factors are exact. At the
   end the contexts multiply a vector by the factors and by the matrix. Context 0 prints in how many places the two differ, and a sum. */
#include "alewife.h"

enum { SIDE = 2, BLOCKS = 8, COUNT = SIDE * BLOCKS };

typedef uint32_t block[SIDE][SIDE];

/* Where a block is. */
struct place {
    uint32_t row, column;
};

LINE static block matrix[BLOCKS][BLOCKS];
LINE static uint32_t product[COUNT];
static struct barrier barrier;

/* The place so many blocks on, row by row. */
static struct place further(struct place place, uint32_t count)
{
    for (place.column += count; place.column >= BLOCKS; place.column -= BLOCKS)
        place.row++;
    return place;
}

static uint32_t given(uint32_t row, uint32_t column)
{
    return (row * COUNT + column + 1) * 2654435761u << 1 | (row == column);
}

static uint32_t *at(uint32_t row, uint32_t column)
{
    return &matrix[row / SIDE][column / SIDE][row % SIDE][column % SIDE];
}

static void fill(struct place own)
{
    for (uint32_t i = 0; i < SIDE; i++)
        for (uint32_t k = 0; k < SIDE; k++)
            matrix[own.row][own.column][i][k] = given(own.row * SIDE + i, own.column * SIDE + k);
}

/* The inverse of an odd number: each round doubles the bits that are right, of which the number itself has three. */
static uint32_t inverse_of(uint32_t odd)
{
    uint32_t inverse = odd;
    for (uint32_t round = 0; round < 4; round++)
        inverse *= 2 - odd * inverse;
    return inverse;
}

static void factor(block *pivot)
{
    for (uint32_t k = 0; k < SIDE; k++) {
        uint32_t inverse = inverse_of((*pivot)[k][k]);
        for (uint32_t i = k + 1; i < SIDE; i++) {
            (*pivot)[i][k] *= inverse;
            for (uint32_t j = k + 1; j < SIDE; j++)
                (*pivot)[i][j] -= (*pivot)[i][k] * (*pivot)[k][j];
        }
    }
}

/* A block beside the pivot: each row less its share of the rows above. */
static void divide_row(block *own, block *pivot)
{
    for (uint32_t k = 0; k < SIDE; k++)
        for (uint32_t i = k + 1; i < SIDE; i++)
            for (uint32_t j = 0; j < SIDE; j++)
                (*own)[i][j] -= (*pivot)[i][k] * (*own)[k][j];
}

/* A block below the pivot: each column divided, and less its share of the columns before. */
static void divide_column(block *own, block *pivot)
{
    for (uint32_t k = 0; k < SIDE; k++) {
        uint32_t inverse = inverse_of((*pivot)[k][k]);
        for (uint32_t i = 0; i < SIDE; i++) {
            (*own)[i][k] *= inverse;
            for (uint32_t j = k + 1; j < SIDE; j++)
                (*own)[i][j] -= (*own)[i][k] * (*pivot)[k][j];
        }
    }
}

static void update(block *own, block *left, block *above)
{
    for (uint32_t i = 0; i < SIDE; i++)
        for (uint32_t k = 0; k < SIDE; k++)
            for (uint32_t j = 0; j < SIDE; j++)
                (*own)[i][j] -= (*left)[i][k] * (*above)[k][j];
}

/* What a block is to do in the first part of a step: those beside and below the pivot. */
static void divide(struct place own, uint32_t step)
{
    block *pivot = &matrix[step][step];
    if (own.row == step && own.column > step)
        divide_row(&matrix[own.row][own.column], pivot);
    else if (own.column == step && own.row > step)
        divide_column(&matrix[own.row][own.column], pivot);
}

/* What a block is to do in the second part: the rest, of which the next pivot is factored at once. */
static void subtract(struct place own, uint32_t step)
{
    if (own.row <= step || own.column <= step)
        return;
    update(&matrix[own.row][own.column], &matrix[own.row][step], &matrix[step][own.column]);
    if (own.row == step + 1 && own.column == step + 1)
        factor(&matrix[own.row][own.column]);
}

/* A row of the upper factor times a vector; a row of the lower factor times that; a row of the matrix times the vector. */
static uint32_t upper_times(uint32_t row)
{
    uint32_t sum = 0;
    for (uint32_t k = row; k < COUNT; k++)
        sum += *at(row, k) * (k + 1);
    return sum;
}

static uint32_t lower_times(uint32_t row)
{
    uint32_t sum = product[row];
    for (uint32_t k = 0; k < row; k++)
        sum += *at(row, k) * product[k];
    return sum;
}

static uint32_t matrix_times(uint32_t row)
{
    uint32_t sum = 0;
    for (uint32_t k = 0; k < COUNT; k++)
        sum += given(row, k) * (k + 1);
    return sum;
}

void program(uint32_t context, uint32_t contexts)
{
    const struct place corner = {0, 0}, first = further(corner, context);
    uint32_t wrong = 0, sum = 0;
    for (struct place own = first; own.row < BLOCKS; own = further(own, contexts))
        fill(own);
    if (context == 0)
        factor(&matrix[0][0]);
    for (uint32_t step = 0; step < BLOCKS; step++) {
        wait_for_all(&barrier, contexts);
        for (struct place own = first; own.row < BLOCKS; own = further(own, contexts))
            divide(own, step);
        wait_for_all(&barrier, contexts);
        for (struct place own = first; own.row < BLOCKS; own = further(own, contexts))
            subtract(own, step);
    }
    for (uint32_t row = context; row < COUNT; row += contexts)
        product[row] = upper_times(row);
    wait_for_all(&barrier, contexts);
    for (uint32_t row = context; row < COUNT; row += contexts) {
        wrong += lower_times(row) != matrix_times(row);
        sum += product[row] * (row + 1);
    }
    wrong = sum_of_all(&barrier, contexts, wrong);
    sum = sum_of_all(&barrier, contexts, sum);
    if (context == 0)
        print2(wrong, sum);
}
