/* A stencil: each inner cell of a grid becomes the mean of its four neighbours, six times over. Cells are dealt by lines of four. Context 0
   prints after each round how far the cells have moved in all, and at the end a sum in which each cell counts by its place. */
#include "alewife.h"

enum { SIDE = 32, STEP = 4, PIECES = SIDE * SIDE / STEP, ROUNDS = 6, WIDTH = SIDE + 2 * STEP };

LINE static int32_t grid[2][SIDE + 2][WIDTH];
static struct barrier barrier;

/* The cells of a piece, from their old values: how far they move. */
static uint32_t relax(int32_t old[][WIDTH], int32_t new[][WIDTH], uint32_t piece)
{
    uint32_t moved = 0, row = 1 + piece / (SIDE / STEP), first = STEP + piece % (SIDE / STEP) * STEP;
    for (uint32_t k = first; k < first + STEP; k++) {
        int32_t cell = (old[row - 1][k] + old[row + 1][k] + old[row][k - 1] + old[row][k + 1]) / 4;
        moved += cell > old[row][k] ? (uint32_t)(cell - old[row][k]) : (uint32_t)(old[row][k] - cell);
        new[row][k] = cell;
    }
    return moved;
}

static uint32_t part_of_sum(int32_t cells[][WIDTH], uint32_t piece)
{
    uint32_t sum = 0, row = 1 + piece / (SIDE / STEP), first = STEP + piece % (SIDE / STEP) * STEP;
    for (uint32_t k = first; k < first + STEP; k++)
        sum += (uint32_t)cells[row][k] * (row * WIDTH + k);
    return sum;
}

/* The edges: warm above and at the left. */
static void fill_edges(void)
{
    for (uint32_t i = 0; i < SIDE; i++) {
        grid[0][0][STEP + i] = grid[1][0][STEP + i] = 100 << 16;
        grid[0][1 + i][STEP - 1] = grid[1][1 + i][STEP - 1] = 50 << 16;
    }
}

void program(uint32_t context, uint32_t contexts)
{
    uint32_t first = context * PIECES / contexts, last = (context + 1) * PIECES / contexts, sum = 0;
    if (context == 0)
        fill_edges();
    wait_for_all(&barrier, contexts);
    for (uint32_t round = 0; round < ROUNDS; round++) {
        uint32_t moved = 0;
        for (uint32_t piece = first; piece < last; piece++)
            moved += relax(grid[round % 2], grid[1 - round % 2], piece);
        moved = sum_of_all(&barrier, contexts, moved);
        if (context == 0)
            print(moved);
    }
    for (uint32_t piece = first; piece < last; piece++)
        sum += part_of_sum(grid[ROUNDS % 2], piece);
    sum = sum_of_all(&barrier, contexts, sum);
    if (context == 0)
        print(sum);
}
