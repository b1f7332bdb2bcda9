// See published.h. Slots are counted from 1 within one rotation, as in the paper: s_1 is not taken, s_2 is.
#include "published.h"

#define MOST 64

static int has(uint64_t set, int slot) { return (int)(set >> slot & 1); }

int published_words(int n, int s, int h, int p, uint64_t set)
{
    int count = 0, total = 0, first = -1;
    for (int i = 0; i < n; i++) {
        count += has(set, i);
        if (first < 0 && !has(set, i))
            first = i;
    }
    if (first < 0)
        return n * s - (n + p - 1) / p * h;
    for (int d = 1, run = 0; d <= n; d++) {
        if (has(set, (first + d) % n)) {
            total += run % p == 0 ? s - h : s;
            run++;
        } else {
            run = 0;
        }
    }
    return count == 0 ? 0 : total;
}

int published_gap(int n, uint64_t set)
{
    int largest = 0;
    for (int i = 0; i < n; i++) {
        if (!has(set, i))
            continue;
        int d = 1;
        while (!has(set, (i + d) % n))
            d++;
        if (largest < d)
            largest = d;
    }
    return largest;
}

// best[k][i][j] words of the best set that ends at s_k with i slots (mod P) in its last run and j slots in all; 0: none.
static int best[MOST + 1][MOST][MOST + 1];
static uint64_t sets[MOST + 1][MOST][MOST + 1];

published_answer published_select(int n, int s, int h, int p, uint64_t free, int words, int limit)
{
    published_answer none = {0, 0, 0, 0};
    int all = published_words(n, s, h, p, free);
    if (all < words || published_gap(n, free) > limit)
        return none;
    published_answer found = {1, free, __builtin_popcountll(free), all};
    int small = s - h, large = s, one = 1 % p;
    for (int turn = 0; turn < n; turn++) {
        int second = (turn + 1) % n;
        if (n < 2 || !has(free, second))
            continue;
        for (int i = 0; i < p; i++)
            for (int j = 1; j <= n; j++)
                best[2][i][j] = 0;
        best[2][one][1] = small;
        sets[2][one][1] = (uint64_t)1 << second;
        for (int k = 3; k <= n; k++) {
            for (int i = 0; i < p; i++)
                for (int j = 1; j <= n; j++)
                    best[k][i][j] = 0;
            int slot = (turn + k - 1) % n;
            if (!has(free, slot))
                continue;
            uint64_t bit = (uint64_t)1 << slot;
            int from = k - limit < 2 ? 2 : k - limit;
            for (int j = 2; j < k; j++)
                for (int x = 0; x < p; x++)
                    for (int y = from; y <= k - 2; y++)
                        if (best[y][x][j - 1] && best[k][one][j] < best[y][x][j - 1] + small) {
                            best[k][one][j] = best[y][x][j - 1] + small;
                            sets[k][one][j] = sets[y][x][j - 1] | bit;
                        }
            for (int i = 0; i < p; i++) {
                int x = (i + p - 1) % p, gain = i == one ? small : large;
                for (int j = 2; j < k; j++)
                    if (best[k - 1][x][j - 1] && best[k][i][j] < best[k - 1][x][j - 1] + gain) {
                        best[k][i][j] = best[k - 1][x][j - 1] + gain;
                        sets[k][i][j] = sets[k - 1][x][j - 1] | bit;
                    }
            }
        }
        int last = n + 2 - limit < 2 ? 2 : n + 2 - limit;
        for (int k = last; k <= n; k++)
            for (int i = 0; i < p; i++)
                for (int j = 1; j < k; j++)
                    if (best[k][i][j] && words <= best[k][i][j]
                        && (j < found.count || (j == found.count && found.words < best[k][i][j]))) {
                        found.slots = sets[k][i][j];
                        found.count = j;
                        found.words = best[k][i][j];
                    }
    }
    return found;
}
