/* A plain program that searches prices by the rule of the market: it draws the book of crates/batch_benchmark, visits the assets in turn,
   and finds the end of each move by halving, with no bounds, no slopes and no orders left out. It prints what that program prints, which
   has to be the same, and is what its time is compared with. The words are assets, orders, moves at most, and parts of a unit. */
#include <stdint.h>
#include <stdio.h>
#include <stdlib.h>

enum { ASSETS = 64, ENTRIES = 3 };

typedef struct {
    int64_t low, high, span;
    uint64_t rate, room;
    __int128 price;
} order;

typedef struct {
    uint32_t place;
    int32_t weight;
} cell;

typedef struct {
    cell *cells;
    size_t count;
    int64_t steepness;
} column;

typedef struct {
    int64_t low, high;
} excess;

static uint64_t state = 7;

static uint32_t below(uint32_t end)
{
    state = state * 6364136223846793005u + 1442695040888963407u;
    return (uint32_t)(state >> 33) % end;
}

/* What a column asks for once the price of its asset has risen so far, in parts of a unit. */
static excess asked(const column *of, const order *orders, __int128 rise, int64_t parts)
{
    excess sum = {0, 0};
    for (size_t k = 0; k < of->count; k++) {
        const order *o = &orders[of->cells[k].place];
        int64_t weight = of->cells[k].weight;
        __int128 most = (__int128)o->room * o->span;
        __int128 demand = (o->high - (o->price + weight * rise)) * (__int128)o->rate;
        demand = demand < 0 ? 0 : demand > most ? most : demand;
        unsigned __int128 all = (unsigned __int128)demand * (uint64_t)parts;
        int64_t down = (int64_t)(all / (uint64_t)o->span), up = down + (all % (uint64_t)o->span != 0);
        sum.low += weight * (weight > 0 ? down : up);
        sum.high += weight * (weight > 0 ? up : down);
    }
    return sum;
}

/* 1 if the price has to rise, -1 if it has to fall, and 0 if it has done so. */
static int direction(excess sum, int64_t bound)
{
    return sum.low > bound ? 1 : sum.high < -bound ? -1 : 0;
}

int main(int count, char **words)
{
    if (count != 5)
        return 1;
    uint32_t assets = (uint32_t)atol(words[1]), number = (uint32_t)atol(words[2]);
    long most = atol(words[3]), made = 0;
    int64_t parts = atol(words[4]), prices[ASSETS] = {0}, sum = 0;
    column columns[ASSETS] = {{0}};
    order *orders = calloc(number + 1, sizeof *orders);
    for (int a = 0; a < ASSETS; a++)
        columns[a].cells = calloc(number + 1, sizeof(cell));
    for (uint32_t k = 0; k < number; k++) {
        uint32_t legs = below(ENTRIES) + 1;
        legs = legs < assets ? legs : assets;
        uint32_t first = below(assets - legs + 1);
        int64_t middle = 0;
        for (uint32_t a = first; a < first + legs; a++) {
            int32_t size = (int32_t)below(4) + 1, weight = below(2) == 1 ? -size : size;
            middle += weight * 1000 * ((int64_t)a + 1);
            columns[a].cells[columns[a].count++] = (cell){k, weight};
            columns[a].steepness += weight * weight;
        }
        middle += (int64_t)below(41) - 20;
        int64_t half = below(50) + 1;
        uint64_t rate = below(1000) + 1, turns = below(20) + 1;
        orders[k] = (order){(middle - half) << 32, (middle + half) << 32, (2 * half) << 32, rate, rate * turns < rate ? rate * turns : rate, 0};
    }
    for (int a = 0; a < ASSETS; a++)
        columns[a].steepness = (columns[a].steepness + 255) / 256;
    int next = 0, settled = 0;
    while (!settled) {
        int asset = 0, way = 0;
        for (int k = 0; k < ASSETS && !way; k++) {
            asset = (next + k) % ASSETS;
            way = direction(asked(&columns[asset], orders, 0, 1), columns[asset].steepness);
        }
        settled = !way;
        if (settled || made == most)
            break;
        int64_t low = 0, high = (int64_t)1 << 45;
        while (high - low > 1) {
            int64_t middle = low + (high - low) / 2;
            if (direction(asked(&columns[asset], orders, way * middle, parts), parts * columns[asset].steepness) == way)
                low = middle;
            else
                high = middle;
        }
        prices[asset] += way * high;
        for (size_t k = 0; k < columns[asset].count; k++)
            orders[columns[asset].cells[k].place].price += (__int128)columns[asset].cells[k].weight * way * high;
        made++;
        next = (asset + 1) % ASSETS;
    }
    for (int a = 0; a < ASSETS; a++)
        sum = (int64_t)((uint64_t)sum * 31 + (uint64_t)prices[a]);
    return printf("%ld %s %lld\n", made, settled ? "true" : "false", (long long)sum) < 0;
}
