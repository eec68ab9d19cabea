/* Read one import text on standard input, check its strength by elimination
   and backtracking, and print the line that mint prints. A measure for mint:
   arguments are ignored.

   The walk goes through the choices as lists, by the next coordinate that gives
   rows. With each front of rows goes a copy of all rows that may follow, less
   their parts in the front: a choice then depends when its next row is zero. */

#include <stdint.h>
#include <stdio.h>
#include <stdlib.h>
#include <string.h>

enum { MOST_DIGITS = 20, MOST_COORDINATES = 48, MOST_ORDER = 9 };
enum { MOST_BYTES = 65536, MOST_CHOICES = 4000000, MOST_NOTE = 200 };

static int order, digits, coordinates, depth;
static uint8_t matrix[MOST_COORDINATES][MOST_DIGITS][MOST_DIGITS];

/* ---- fields ---- */

static uint8_t sum[MOST_ORDER][MOST_ORDER], product[MOST_ORDER][MOST_ORDER];
static uint8_t negative[MOST_ORDER], inverse[MOST_ORDER];

static int sum_of(int a, int b)
{
    if (order == 4 || order == 8)
        return a ^ b;
    if (order == 9)
        return (a % 3 + b % 3) % 3 + (a / 3 + b / 3) % 3 * 3;
    return (a + b) % order;
}

static int product_of(int a, int b)
{
    if (order == 4 || order == 8) {
        int degree = order == 4 ? 2 : 3, modulus = order == 4 ? 7 : 11, result = 0;
        for (int place = 0; place < degree; place++)
            result ^= (b >> place & 1) * (a << place);
        for (int place = degree - 2; place >= 0; place--)
            result ^= (result >> (place + degree) & 1) * (modulus << place);
        return result;
    }
    if (order == 9) {
        int low = a % 3 * (b % 3) + 2 * (a / 3) * (b / 3);
        int high = a % 3 * (b / 3) + a / 3 * (b % 3);
        return low % 3 + high % 3 * 3;
    }
    return a * b % order;
}

static void make_field(void)
{
    for (int a = 0; a < order; a++)
        for (int b = 0; b < order; b++) {
            sum[a][b] = sum_of(a, b);
            product[a][b] = product_of(a, b);
            if (sum[a][b] == 0)
                negative[a] = b;
            if (product[a][b] == 1)
                inverse[a] = b;
        }
}

/* ---- rows ---- */

/* Over 2: a bit for each digit. */
typedef uint32_t binary;
typedef struct { binary row; int place; } binary_pivot;

static binary binary_pack(const uint8_t *row)
{
    binary result = 0;
    for (int place = 0; place < digits; place++)
        result |= (binary)row[place] << place;
    return result;
}

static int binary_is_zero(binary row) { return row == 0; }

static binary_pivot binary_pivot_of(binary row)
{
    int place = 0;
    while (!(row >> place & 1))
        place++;
    return (binary_pivot){row, place};
}

static inline binary binary_clear(binary_pivot pivot, binary row)
{
    return row ^ (pivot.row & -(row >> pivot.place & 1));
}

/* Over 3: bits 0..31 for the digits 1, bits 32..63 for the digits 2. */
typedef uint64_t ternary;
typedef struct { ternary row, opposite; int place; } ternary_pivot;

static ternary ternary_pack(const uint8_t *row)
{
    ternary result = 0;
    for (int place = 0; place < digits; place++)
        if (row[place])
            result |= (ternary)1 << (place + 32 * (row[place] - 1));
    return result;
}

static int ternary_is_zero(ternary row) { return row == 0; }

static inline ternary ternary_negative(ternary row) { return row << 32 | row >> 32; }

static ternary_pivot ternary_pivot_of(ternary row)
{
    int place = 0;
    while (!((row | row >> 32) >> place & 1))
        place++;
    if (!(row >> place & 1))
        row = ternary_negative(row);
    return (ternary_pivot){row, ternary_negative(row), place};
}

static inline ternary ternary_clear(ternary_pivot pivot, ternary row)
{
    ternary added = (pivot.opposite & -(row >> pivot.place & 1))
                  | (pivot.row & -(row >> (pivot.place + 32) & 1));
    ternary other = ternary_negative(row), turned = ternary_negative(added);
    return (other | turned) ^ (row | turned) ^ (other | added);
}

/* Over any order: a byte for each digit. */
typedef struct { uint8_t digit[MOST_DIGITS]; } general;
typedef struct { general row; int place; } general_pivot;

static general general_pack(const uint8_t *row)
{
    general result = {{0}};
    memcpy(result.digit, row, digits);
    return result;
}

static int general_is_zero(general row)
{
    for (int place = 0; place < digits; place++)
        if (row.digit[place])
            return 0;
    return 1;
}

static general_pivot general_pivot_of(general row)
{
    int place = 0;
    while (!row.digit[place])
        place++;
    int scale = inverse[row.digit[place]];
    for (int other = 0; other < digits; other++)
        row.digit[other] = product[scale][row.digit[other]];
    return (general_pivot){row, place};
}

static inline general general_clear(general_pivot pivot, general row)
{
    int factor = negative[row.digit[pivot.place]];
    if (factor)
        for (int place = 0; place < digits; place++)
            row.digit[place] =
                sum[row.digit[place]][product[factor][pivot.row.digit[place]]];
    return row;
}

/* ---- the walk ---- */

static int limit;       /* the size up to which a dependent choice is wanted */
static int found_size;  /* the size of the best one found, or 0 */
static int choice[MOST_COORDINATES], found[MOST_COORDINATES];

static void keep_choice(int size)
{
    memcpy(found, choice, sizeof found);
    found_size = size;
    limit = size - 1;
}

static int lesser(int a, int b) { return a < b ? a : b; }

/* rest[size][row][coordinate]: the rows less their parts in a front of this size. */
#define DEFINE_WALK(kind)                                                          \
    static kind kind##_rest[MOST_DIGITS + 1][MOST_DIGITS][MOST_COORDINATES];       \
                                                                                   \
    static void kind##_walk(int start, int first)                                  \
    {                                                                              \
        for (int at = coordinates - 1; at >= first; at--) {                        \
            int size = start;                                                      \
            for (int row = 0; row < depth && size < limit; row++) {                \
                kind next = kind##_rest[size][row][at];                            \
                choice[at] = row + 1;                                              \
                size++;                                                            \
                if (kind##_is_zero(next)) {                                        \
                    keep_choice(size);                                             \
                    break;                                                         \
                }                                                                  \
                if (size == limit)                                                 \
                    break;                                                         \
                kind##_pivot pivot = kind##_pivot_of(next);                        \
                for (int other = 0; other < lesser(depth, limit - size); other++)  \
                    for (int to = at + 1; to < coordinates; to++)                  \
                        kind##_rest[size][other][to] =                             \
                            kind##_clear(pivot, kind##_rest[size - 1][other][to]); \
                for (int other = row + 1;                                          \
                     other < lesser(depth, row + 1 + limit - size); other++)       \
                    kind##_rest[size][other][at] =                                 \
                        kind##_clear(pivot, kind##_rest[size - 1][other][at]);     \
                kind##_walk(size, at + 1);                                         \
            }                                                                      \
            choice[at] = 0;                                                        \
        }                                                                          \
    }                                                                              \
                                                                                   \
    static void kind##_begin(void)                                                 \
    {                                                                              \
        for (int at = 0; at < coordinates; at++)                                   \
            for (int row = 0; row < depth; row++)                                  \
                kind##_rest[0][row][at] = kind##_pack(matrix[at][row]);            \
        kind##_walk(0, 0);                                                         \
    }

DEFINE_WALK(binary)
DEFINE_WALK(ternary)
DEFINE_WALK(general)

/* Whether a strength holds for the present digits and depth. */
static int holds(int strength)
{
    found_size = 0;
    limit = strength;
    if (order == 2)
        binary_begin();
    else if (order == 3)
        ternary_begin();
    else
        general_begin();
    return found_size == 0;
}

/* ---- answers ---- */

/* The found rows depend and all but the last do not: one combination is zero. */
static void print_found(void)
{
    uint8_t basis[MOST_DIGITS + 1][2 * MOST_DIGITS + 1];
    int place_of[MOST_DIGITS + 1], width = digits + found_size, count = 0;
    for (int at = 0; at < coordinates; at++)
        for (int row = 0; row < found[at]; row++, count++) {
            uint8_t *vector = basis[count];
            memset(vector, 0, sizeof basis[count]);
            memcpy(vector, matrix[at][row], digits);
            vector[digits + count] = 1;
            for (int before = 0; before < count; before++) {
                int factor = negative[vector[place_of[before]]];
                for (int place = 0; place < width; place++)
                    vector[place] = sum[vector[place]][product[factor][basis[before][place]]];
            }
            if (count == found_size - 1)
                break;
            int place = 0;
            while (!vector[place])
                place++;
            place_of[count] = place;
            int scale = inverse[vector[place]];
            for (place = 0; place < width; place++)
                vector[place] = product[scale][vector[place]];
        }
    printf("choice ");
    for (int at = 0; at < coordinates; at++)
        printf("%s%d", at ? "," : "", found[at]);
    printf(" depends with ");
    for (int row = 0; row < found_size; row++)
        printf("%s%d", row ? "," : "", basis[found_size - 1][digits + row]);
    putchar('\n');
}

/* The number of choices, which is summed over the parts for a sequence. */
static uint64_t count_choices(int is_sequence, int strength)
{
    uint64_t counts[MOST_DIGITS + 1] = {1}, all[MOST_DIGITS + 1], total = 0;
    for (int at = 0; at < coordinates; at++)
        for (int size = strength; size >= 0; size--)
            for (int rows = 1; rows <= lesser(depth, size); rows++)
                counts[size] += counts[size - rows];
    for (int size = 0; size <= strength; size++) {
        all[size] = counts[size] + (size ? all[size - 1] : 0);
        total += size ? all[size] : 0;
    }
    return is_sequence ? total : all[strength];
}

/* ---- the text ---- */

static char text[MOST_BYTES + 1];
static const char *unread = text, *text_end;
static int line_number;

/* Part of a line; a line is without its end. */
typedef struct { const char *start, *end; } piece;

static int next_line(piece *line)
{
    line_number++;
    if (unread == text_end)
        return 0;
    const char *feed = memchr(unread, '\n', text_end - unread);
    line->start = unread;
    line->end = feed ? feed : text_end;
    unread = feed ? feed + 1 : text_end;
    if (line->end > line->start && line->end[-1] == '\r')
        line->end--;
    return 1;
}

static int is_blank(char byte) { return byte == ' ' || byte == '\t'; }

/* The next word of a line, which is empty where there is none. */
static piece next_word(piece *line)
{
    piece word;
    while (line->start < line->end && is_blank(*line->start))
        line->start++;
    word.start = line->start;
    while (line->start < line->end && !is_blank(*line->start))
        line->start++;
    word.end = line->start;
    return word;
}

static int is_word(piece word, const char *other)
{
    size_t length = strlen(other);
    return (size_t)(word.end - word.start) == length && memcmp(word.start, other, length) == 0;
}

/* A number below 1000, or -1. */
static int number_of(piece word)
{
    int length = word.end - word.start, number = 0;
    if (length < 1 || length > 3 || (length > 1 && *word.start == '0'))
        return -1;
    for (; word.start < word.end; word.start++) {
        if (*word.start < '0' || *word.start > '9')
            return -1;
        number = 10 * number + *word.start - '0';
    }
    return number;
}

static int is_name(piece word)
{
    if (word.end == word.start || word.end - word.start > 40)
        return 0;
    for (; word.start < word.end; word.start++)
        if (!(*word.start >= 'a' && *word.start <= 'z')
            && !(*word.start >= '0' && *word.start <= '9')
            && *word.start != '-' && *word.start != '_' && *word.start != '.')
            return 0;
    return 1;
}

static piece form, name;
static int strength;

static int read_header(void)
{
    piece line;
    int numbers[5] = {0};
    if (!next_line(&line))
        return 0;
    form = next_word(&line);
    int is_array = is_word(form, "ooa");
    if (!is_array && !is_word(form, "net") && !is_word(form, "seq"))
        return 0;
    for (int place = 0; place < 4 + is_array; place++) {
        numbers[place] = number_of(next_word(&line));
        if (numbers[place] < 0)
            return 0;
    }
    name = next_word(&line);
    piece rest = next_word(&line);
    order = numbers[0];
    digits = numbers[1];
    coordinates = numbers[2];
    depth = is_array ? numbers[3] : digits;
    strength = is_array ? numbers[4] : digits - numbers[3];
    return is_name(name) && rest.start == rest.end && order >= 2 && order != 6
        && order <= MOST_ORDER && digits >= 1 && coordinates >= 1 && depth >= 1
        && depth <= digits && strength >= 0 && strength <= digits;
}

/* Whether the next line is no source line or a good one, which is then passed. */
static int pass_source(void)
{
    const char *before = unread;
    piece line;
    if (!next_line(&line)) {
        line_number--;
        return 1;
    }
    while (line.start < line.end && is_blank(*line.start))
        line.start++;
    while (line.start < line.end && is_blank(line.end[-1]))
        line.end--;
    if (line.end - line.start < 6 || memcmp(line.start, "source", 6) != 0) {
        unread = before;
        line_number--;
        return 1;
    }
    const char *note = line.start + 6;
    while (note < line.end && is_blank(*note))
        note++;
    if (note == line.start + 6 || note == line.end || line.end - note > MOST_NOTE)
        return 0;
    for (; note < line.end; note++)
        if (*note < ' ' || *note > '~')
            return 0;
    return 1;
}

/* Reads a row past the greatest sizes too, but keeps no digit of it. */
static int read_row(int at, int row)
{
    piece line;
    int count = 0;
    if (!next_line(&line))
        return 0;
    for (; line.start < line.end; line.start++) {
        if (is_blank(*line.start))
            continue;
        if (*line.start < '0' || *line.start >= '0' + order)
            return 0;
        if (count < MOST_DIGITS && at < MOST_COORDINATES && row < MOST_DIGITS)
            matrix[at][row][count] = *line.start - '0';
        count++;
    }
    return count == digits;
}

static int refused_line(const char *wanted)
{
    printf("refused: line %d is %s\n", line_number, wanted);
    return 3;
}

int main(void)
{
    piece line;
    text_end = text + fread(text, 1, sizeof text, stdin);
    if (text_end - text > MOST_BYTES) {
        printf("refused: more than %d bytes\n", MOST_BYTES);
        return 3;
    }
    if (!read_header())
        return refused_line("no header");
    if (!pass_source())
        return refused_line("no source");
    for (int at = 0; at < coordinates; at++)
        for (int row = 0; row < depth; row++)
            if (!read_row(at, row))
                return refused_line("no row");
    while (next_line(&line)) {
        piece word = next_word(&line);
        if (word.start < word.end)
            return refused_line("not blank");
    }
    if (digits > MOST_DIGITS) {
        printf("refused: m %d is over %d\n", digits, MOST_DIGITS);
        return 3;
    }
    if (coordinates > MOST_COORDINATES) {
        printf("refused: s %d is over %d\n", coordinates, MOST_COORDINATES);
        return 3;
    }
    int is_sequence = is_word(form, "seq");
    uint64_t choices = count_choices(is_sequence, strength);
    if (choices > MOST_CHOICES) {
        printf("refused: %llu choices, more than %d\n", (unsigned long long)choices,
               MOST_CHOICES);
        return 3;
    }
    make_field();

    int good = 1;
    if (!is_sequence)
        good = holds(strength);
    else
        for (int whole = digits, size = whole - strength + 1; good && size <= whole; size++) {
            digits = depth = size;
            good = holds(size - (whole - strength));
        }
    if (!good) {
        printf("refused: ");
        if (is_sequence)
            printf("part %d ", digits);
        print_found();
        return 3;
    }
    printf("holds %.*s\n", (int)(name.end - name.start), name.start);
    return 0;
}
