/* The plain program beside mint's table: it computes the same greatest values with a work list, from
   which it takes the sequences first, applies imports to them one after the other, and answers one
   question for a net, or prints all values. To standard error it writes the number of its conclusions,
   and the nanoseconds of the processor that the imports took.
   Usage: plain_table M S [Q NET_M NET_S] [IMPORTS], where IMPORTS is a file with a line for each import:
   its kind, ooa or seq, and Q M S DEPTH K, with M for the DEPTH of a sequence */
#include <stdint.h>
#include <stdio.h>
#include <stdlib.h>
#include <string.h>
#include <time.h>

enum { ORDERS = 7 };

static const int orders[ORDERS] = {2, 3, 4, 5, 7, 8, 9};
static int m_max, s_max, arrays, per_order;
static unsigned char *values, *waits;
static int *since;
static int from, version;
static long conclusions;

static int array_number(int order, int m, int s, int depth) {
    return order * per_order + s_max * (m * (m - 1) / 2) + (s - 1) * m + (depth - 1);
}

static int greatest_axiom(int m, int s, int depth) {
    if (s == 1 && depth == m) return m;
    if (s == m + 1 && depth == 1) return m;
    return 1;
}

static void raise_to(int n, int k) {
    conclusions++;
    if (values[n] >= k) return;
    values[n] = k;
    since[n] = version;
    waits[n] = 1;
    if (n < from) from = n;
}

static int sequence_number(int order, int m, int s) {
    return order * per_order + arrays + (m - 1) * s_max + (s - 1);
}

static int below(int k) { return k > 0 ? k - 1 : 0; }

static int least(int j, int k) { return j < k ? j : k; }

/* Tries the product and (u,u+v) of two arrays, of s and t coordinates, for each t of the second. */
static void try_seconds(int order, int m, int s, int depth, int n, int deeper) {
    int k = values[array_number(order, m, s, depth)];
    int e = depth == deeper ? k : least(k, depth);
    for (int t = 1; s + t <= s_max; t++) {
        int l = values[array_number(order, n, t, deeper)];
        int target = array_number(order, m + n, s + t, deeper);
        raise_to(target, least(e, l));
        if (s <= t) raise_to(target, least(2 * e + 1, l));
    }
}

/* The same for each s of the first, but for the second array itself. */
static void try_firsts(int order, int m, int t, int deeper, int n, int depth) {
    int l = values[array_number(order, m, t, deeper)];
    for (int s = 1; s + t <= s_max; s++) {
        if (n == m && s == t && depth == deeper) continue;
        int k = values[array_number(order, n, s, depth)];
        int e = depth == deeper ? k : least(k, depth);
        int target = array_number(order, m + n, s + t, deeper);
        raise_to(target, least(e, l));
        if (s <= t) raise_to(target, least(2 * e + 1, l));
    }
}

/* Tries every instance with two parents of which this array is one. */
static void try_pairs(int order, int m, int s, int depth) {
    for (int n = 1; m + n <= m_max; n++) {
        for (int deeper = depth; deeper <= n; deeper++) try_seconds(order, m, s, depth, n, deeper);
        for (int lower = 1; lower <= n && lower <= depth; lower++)
            try_firsts(order, m, s, depth, n, lower);
    }
}

/* Tries every instance that has this array as a parent. */
static void try_array(int order, int m, int s, int depth) {
    try_pairs(order, m, s, depth);
    int k = values[array_number(order, m, s, depth)];
    if (s >= 2) raise_to(array_number(order, m, s - 1, depth), k);
    if (depth >= 2) raise_to(array_number(order, m, s, depth - 1), k);
    if (depth < m) raise_to(array_number(order, m, s, depth + 1), k < depth ? k : depth);
    if (m < m_max) raise_to(array_number(order, m + 1, s, depth), k);
    if (m >= 2 && depth >= 2) raise_to(array_number(order, m - 1, s, depth - 1), below(k));
    if (m >= 2 && s >= 2 && depth < m) raise_to(array_number(order, m - 1, s - 1, depth), below(k));
}

/* Tries every instance that has this sequence as a parent. */
static void try_sequence(int order, int m, int s) {
    int k = values[sequence_number(order, m, s)];
    if (s >= 2) raise_to(sequence_number(order, m, s - 1), k);
    if (m >= 2) raise_to(sequence_number(order, m - 1, s), below(k));
    if (s < s_max) raise_to(array_number(order, m, s + 1, m), k);
}

/* How many monic irreducible polynomials of degree d there are over a field of q elements (Gauss). */
static long irreducible(int q, int d) {
    long words = 1;
    for (int i = 0; i < d; i++) words *= q;
    for (int e = 1; e < d; e++)
        if (d % e == 0) words -= e * irreducible(q, e);
    return words / d;
}

/* The axioms of sequences: m less the sum of the degrees less 1 of the first s irreducible
   polynomials, which are the polynomials that are coprime to all before them. */
static void start_sequences(int order) {
    int degree = 1, quality = 0;
    long left = irreducible(orders[order], 1);
    for (int s = 1; s <= s_max; s++) {
        while (left == 0) left = irreducible(orders[order], ++degree);
        left--;
        quality += degree - 1;
        for (int m = 1; m <= m_max; m++)
            values[sequence_number(order, m, s)] = quality < m ? m - quality : 0;
    }
}

static void try_cell(int n) {
    int order = n / per_order, rest = n % per_order, m = 1;
    if (rest >= arrays) {
        rest -= arrays;
        try_sequence(order, rest / s_max + 1, rest % s_max + 1);
        return;
    }
    while (rest >= s_max * m) rest -= s_max * m++;
    try_array(order, m, rest / m + 1, rest % m + 1);
}

/* Tries every instance of each cell that waits, until none does. */
static void try_waiting(int cells) {
    while (from < cells) {
        if (!waits[from]) {
            from++;
            continue;
        }
        waits[from] = 0;
        try_cell(from);
    }
}

static int order_of(int q) {
    int order = 0;
    while (order < ORDERS && orders[order] != q) order++;
    return order;
}

/* Applies the imports of a file, and answers whether each line is one. */
static int apply_imports(const char *path, int cells) {
    FILE *file = fopen(path, "r");
    char kind[4];
    int q, m, s, depth, k, found;
    if (!file) return 0;
    while ((found = fscanf(file, "%3s %d %d %d %d %d", kind, &q, &m, &s, &depth, &k)) == 6) {
        int order = order_of(q);
        if (order == ORDERS || m < 1 || m > m_max || s < 1 || s > s_max || depth < 1 || depth > m) break;
        version++;
        raise_to(kind[0] == 's' ? sequence_number(order, m, s) : array_number(order, m, s, depth), k);
        try_waiting(cells);
    }
    fclose(file);
    return found == EOF;
}

static void print_cell(const char *kind, int q, int m, int s, int depth, int n) {
    printf("%s,%d,%d,%d,%d,%d,%d\n", kind, q, m, s, depth, values[n], since[n]);
}

static void print_all(void) {
    puts("kind,q,m,s,depth,k,since");
    for (int order = 0; order < ORDERS; order++) {
        int q = orders[order];
        for (int m = 1; m <= m_max; m++)
            for (int s = 1; s <= s_max; s++)
                for (int depth = 1; depth <= m; depth++)
                    print_cell("ooa", q, m, s, depth, array_number(order, m, s, depth));
        for (int m = 1; m <= m_max; m++)
            for (int s = 1; s <= s_max; s++)
                print_cell("seq", q, m, s, m, sequence_number(order, m, s));
    }
}

static uint64_t now(void) {
    struct timespec time;
    clock_gettime(CLOCK_PROCESS_CPUTIME_ID, &time);
    return (uint64_t)time.tv_sec * 1000000000u + (uint64_t)time.tv_nsec;
}

int main(int count, char **words) {
    if (count != 3 && count != 4 && count != 6 && count != 7) return 2;
    m_max = atoi(words[1]);
    s_max = atoi(words[2]);
    arrays = s_max * (m_max * (m_max + 1) / 2);
    per_order = arrays + m_max * s_max;
    int cells = ORDERS * per_order;
    values = calloc(cells, 1);
    waits = malloc(cells);
    since = calloc(cells, sizeof *since);
    if (!values || !waits || !since) return 1;
    memset(waits, 1, cells);
    for (int order = 0; order < ORDERS; order++) start_sequences(order);
    for (int order = 0; order < ORDERS; order++)
        for (int m = 1; m <= m_max; m++)
            for (int s = 1; s <= s_max; s++)
                for (int depth = 1; depth <= m; depth++)
                    values[array_number(order, m, s, depth)] = greatest_axiom(m, s, depth);
    for (int n = 0; n < cells; n++) {
        if (n % per_order < arrays) continue;
        waits[n] = 0;
        try_cell(n);
    }
    try_waiting(cells);
    uint64_t start = now();
    if ((count == 4 || count == 7) && !apply_imports(words[count - 1], cells)) return 2;
    fprintf(stderr, "%ld %llu\n", conclusions, (unsigned long long)(now() - start));
    if (count < 6) {
        print_all();
        return 0;
    }
    int q = atoi(words[3]), m = atoi(words[4]), s = atoi(words[5]), order = order_of(q);
    if (order == ORDERS || m < 1 || m > m_max || s < 1 || s > s_max) return 8;
    int n = array_number(order, m, s, m), k = values[n];
    printf("net %d %d %d: k %d, t %d, since %d, version %d\n", q, m, s, k, m - k, since[n], version);
    return 0;
}
