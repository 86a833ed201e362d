/* A plain program that serves new assets, new accounts, deposits and withdrawals of a command file of version 1: the same reads and writes
   as `flow run` makes, and the same journal, with nothing proved. Its time is what that of `flow run` is compared with. It knows no orders, so
   nothing is reserved, and ends with 1 at a record that it doesn't know. */
#include <stdint.h>
#include <stdlib.h>
#include <string.h>
#include <unistd.h>

enum { ASSETS = 64, ACCOUNTS = 65536, WINDOW = 1029, HEAD = 5, REFUSED = 132 };
enum { NO_ACCOUNT = 7, NO_ASSET = 8, ZERO_AMOUNT = 9, TOTAL_LIMIT = 10, NOT_FREE = 11 };

typedef struct {
    __int128 money;
    int64_t units[ASSETS];
} account;

static account *accounts;
static uint32_t opened;
static uint16_t assets;
static __int128 total;
static int64_t totals[ASSETS];

static uint64_t number(const uint8_t *bytes, size_t size)
{
    uint64_t n = 0;
    while (size--)
        n = n << 8 | *bytes++;
    return n;
}

/* Adds so much of a balance, which may be below 0, and returns the refusal, or 0. */
static uint8_t change(__int128 *held, __int128 *all, __int128 amount, __int128 most)
{
    if (amount > 0 && *all + amount > most)
        return TOTAL_LIMIT;
    if (*held + amount < 0)
        return NOT_FREE;
    *held += amount;
    *all += amount;
    return 0;
}

static uint8_t move(const uint8_t *body, int has_asset, int sign)
{
    uint32_t at = (uint32_t)number(body, 4);
    uint16_t asset = has_asset ? (uint16_t)number(body + 4, 2) : 0;
    uint64_t amount = number(body + (has_asset ? 6 : 4), 8);
    if (at == 0 || at > opened)
        return NO_ACCOUNT;
    if (has_asset && asset >= assets)
        return NO_ASSET;
    if (amount == 0)
        return ZERO_AMOUNT;
    if (!has_asset)
        return change(&accounts[at - 1].money, &total, ((__int128)amount << 32) * sign, (__int128)1 << 100);
    __int128 held = accounts[at - 1].units[asset], all = totals[asset];
    uint8_t refusal = change(&held, &all, (__int128)amount * sign, (__int128)1 << 60);
    accounts[at - 1].units[asset] = (int64_t)held;
    totals[asset] = (int64_t)all;
    return refusal;
}

/* Serves a record, puts its reply after it, and returns how long that is; 0 if the record is none of these. */
static size_t serve(const uint8_t *record, uint8_t *reply)
{
    uint8_t refusal = 0;
    uint64_t answer = 0;
    size_t size = 0;
    reply[0] = 128;
    switch (record[0]) {
    case 1:
        reply[0] = 129, answer = assets++, size = 2;
        break;
    case 2:
        reply[0] = 130, answer = ++opened, size = 4;
        break;
    case 3: case 5:
        refusal = move(record + HEAD, 0, record[0] == 3 ? 1 : -1);
        break;
    case 4: case 6:
        refusal = move(record + HEAD, 1, record[0] == 4 ? 1 : -1);
        break;
    default:
        return 0;
    }
    if (refusal)
        reply[0] = REFUSED, answer = refusal, size = 1;
    memset(reply + 1, 0, HEAD - 2);
    reply[HEAD - 1] = (uint8_t)size;
    for (size_t k = 0; k < size; k++)
        reply[HEAD + k] = (uint8_t)(answer >> 8 * (size - 1 - k));
    return HEAD + size;
}

int main(void)
{
    static uint8_t window[WINDOW], entry[WINDOW + 16];
    size_t from = 0, to = 0, whole = 8;
    accounts = calloc(ACCOUNTS, sizeof *accounts);
    for (int opening = 1;;) {
        while (to - from < whole) {
            memmove(window, window + from, to - from);
            to -= from, from = 0;
            ssize_t count = read(0, window + to, WINDOW - to);
            if (count <= 0)
                return count < 0 || to != 0;
            to += (size_t)count;
        }
        if (opening) {
            opening = 0, from += whole, whole = HEAD;
            if (write(1, "FLOWJNL1", 8) != 8)
                return 1;
            continue;
        }
        whole = HEAD + number(window + from + 1, 4);
        if (to - from < whole)
            continue;
        memcpy(entry, window + from, whole);
        size_t more = serve(window + from, entry + whole);
        if (!more || write(1, entry, whole + more) != (ssize_t)(whole + more))
            return 1;
        from += whole, whole = HEAD;
    }
}
