/* Checks what a receiver concluded about a transport block, from a certificate and the shift table alone.

       cc -std=c99 -O2 -o verify examples/verify.c
       ./verify TABLE CERTIFICATE

   This is the twin of tools/verify, and says the same of every certificate. docs/certificates.md explains both. Like tools/verify
   it shares nothing with the rest of the project, and is written from TS 38.212 for a reader. The certificate may be -.
   Exit status: 0 if everything is verified, 1 if something is wrong, 2 if a file cannot be read. */

#include <stdarg.h>
#include <stdint.h>
#include <stdio.h>
#include <stdlib.h>
#include <string.h>

enum { ROWS = 46, COLUMNS = 68, MOST_Z = 384, SETS = 8, MOST_C = 344 };
enum { CRC24A = 0x1864CFB, CRC24B = 0x1800063, CRC16 = 0x11021 }; /* the generator polynomials of 5.1 */
typedef unsigned char Bit;
/* Table 5.3.2-1: the lifting sizes of a set index are this number times powers of two, up to 384. */
static const int FACTORS[SETS] = {2, 3, 5, 7, 9, 11, 13, 15};
/* The base graphs of 5.3.2: their rows and columns, and how many columns hold the information bits. Table 5.4.2.1-2: k0. */
static const struct { int rows, columns, n, starts[4]; } SHAPES[3] = {
    {0, 0, 0, {0}}, {46, 68, 22, {0, 17, 33, 56}}, {42, 52, 10, {0, 13, 25, 43}}};
/* The shift table: by base graph, row and column the values for the set indexes, or -1 where there is no entry. */
static int table[3][ROWS][COLUMNS][SETS], has_graph[3];
static const char *reading = ""; /* the file that an error is in */

static void stop(int status, const char *format, ...) {
    va_list values;
    va_start(values, format);
    fflush(stdout);
    if (status == 1) printf("wrong: "); else fprintf(stderr, "verify: %s%s", reading, *reading ? ": " : "");
    vfprintf(status == 1 ? stdout : stderr, format, values);
    fputs("\n", status == 1 ? stdout : stderr);
    exit(status);
}

static void *room(void *old, size_t size) {
    if (!(old = realloc(old, size + 1))) stop(2, "there is no memory");
    return old;
}

/* All of a file, which may be standard input. */
static char *text_of(const char *path, size_t *length) {
    FILE *file = strcmp(path, "-") ? fopen(path, "rb") : stdin;
    char *text = NULL;
    size_t size = 1 << 16;
    for (*length = 0; file && (!text || *length == size); *length += fread(text + *length, 1, size - *length, file))
        text = room(text, size *= 2);
    if (!file || ferror(file)) reading = "", stop(2, "%s cannot be read", path);
    text[*length] = 0;
    return text;
}

/* Whether the parity columns are as in Tables 5.3.2-2 and 5.3.2-3, so that the information bits determine one codeword. */
static int has_shape(int g) {
    int n = SHAPES[g].n, middle = table[g][1][n][0] < 0 ? 2 : 1, is_so = table[g][3 - middle][n][0] < 0;
    for (int s = 0; s < SETS; s++) {
        int a = table[g][0][n][s], b = table[g][middle][n][s], c = table[g][3][n][s];
        is_so &= a >= 0 && b >= 0 && c >= 0 && (a == b || b == c || a == c);
        for (int i = 0; i < SHAPES[g].rows; i++) for (int j = i < 4 ? n + 1 : n + 4; j < SHAPES[g].columns; j++)
            is_so &= table[g][i][j][s] == (j == n + i || (i < 4 && j == n + i + 1 && j < n + 4) ? 0 : -1);
    }
    return is_so;
}

static void read_table(const char *path) {
    size_t length;
    char *text = text_of(path, &length), *record = strtok(strncmp(text, "\xef\xbb\xbf", 3) ? text : text + 3, "\r\n");
    memset(table, -1, sizeof table);
    for (int number = 1; record; record = strtok(NULL, "\r\n"), number++) {
        long long it[11] = {0};
        int count = 0, end = 0, is_entry = 1;
        for (char *p = record; *p; p++) if (*p == '"') *p = ' ';
        if (number == 1 && !strncmp(record + strspn(record, " \t"), "graph", 5)) continue;
        for (; count < 11 && sscanf(record, count ? " ,%10lld %n" : "%10lld %n", &it[count], &end) == 1; count++, record += end)
            is_entry &= it[count] >= 0 && it[count] <= 65535;
        is_entry &= count == 11 && !*record && (it[0] == 1 || it[0] == 2);
        if (!is_entry || it[1] >= SHAPES[it[0]].rows || it[2] >= SHAPES[it[0]].columns || table[it[0]][it[1]][it[2]][0] >= 0)
            stop(2, "record %d of the table is not an entry, or repeats one", number);
        for (int s = 0; s < SETS; s++) table[it[0]][it[1]][it[2]][s] = (int)it[3 + s];
        has_graph[it[0]] = 1;
    }
    for (int g = 1; g < 3; g++)
        if (has_graph[g] && !has_shape(g)) stop(2, "base graph %d of the table does not have the shape of 5.3.2", g);
}

/* The rows of a base graph at a lifting size: each column with its shift P = V mod Zc. */
typedef struct { int z, count; struct { int count, column[COLUMNS], shift[COLUMNS]; } row[ROWS]; } Rows;

static void shift_rows(Rows *rows, int g, int set, int z) {
    rows->z = z, rows->count = SHAPES[g].rows;
    for (int i = 0, k; i < rows->count; rows->row[i++].count = k)
        for (int j = k = 0; j < SHAPES[g].columns; j++)
            if (table[g][i][j][set] >= 0) rows->row[i].column[k] = j, rows->row[i].shift[k++] = table[g][i][j][set] % z;
}

/* The position of entry k in check row t of row i, which is the one of the identity matrix shifted to the right P times. */
static int position(const Rows *rows, int i, int k, int t) {
    int shifted = t + rows->row[i].shift[k];
    return rows->row[i].column[k] * rows->z + (shifted < rows->z ? shifted : shifted - rows->z);
}

/* What a check row adds up in the columns below a limit and without one column: the sum, how many positions of it are not known
   (if it is asked), and one of these. Row i Zc + t is row t of row i of the base graph. */
typedef struct { int sum, unknown, at; } Look;
static Look look(const Rows *rows, int row, const Bit *word, const Bit *known, int below, int without) {
    Look found = {0, 0, -1};
    for (int i = row / rows->z, t = row % rows->z, k = 0; k < rows->row[i].count; k++) {
        int p = position(rows, i, k, t), column = rows->row[i].column[k];
        if (column < below && column != without) found.sum ^= word[p];
        if (known && !known[p]) found.unknown++, found.at = p;
    }
    return found;
}

/* Computes the parity bits of a word whose first n columns are given, as tools/verify does. */
static void encode(const Rows *rows, int n, Bit *word) {
    int z = rows->z, odd = 0;
    for (int i = 0; i < 4; i++)
        for (int k = 0; k < rows->row[i].count; k++) if (rows->row[i].column[k] == n) odd ^= rows->row[i].shift[k];
    memset(word + n * z, 0, (size_t)z);
    for (int row = 0; row < 4 * z; row++) word[n * z + (row % z + odd) % z] ^= (Bit)look(rows, row, word, NULL, n, -1).sum;
    for (int row = 0, i; i = row / z, row < rows->count * z; row++)
        if (i != 3) word[(n + i + (i < 3)) * z + row % z] = (Bit)look(rows, row, word, NULL, COLUMNS, n + i + (i < 3)).sum;
}

/* The parity bits of 5.1 as a number, which is 0 for bits that end with their own parity bits. */
static uint32_t remainder_of(const Bit *bits, long count, uint32_t generator) {
    uint32_t rest = 0, degree = generator == CRC16 ? 16 : 24;
    for (long at = 0; at < count; at++) rest = rest << 1 ^ (uint32_t)bits[at] << degree, rest ^= rest >> degree & 1 ? generator : 0;
    return rest;
}

#define TURNED(x, a, b, c) (((x) >> (a) | (x) << (32 - (a))) ^ ((x) >> (b) | (x) << (32 - (b))) ^ ((x) >> (c) | (x) << (32 - (c))))

/* SHA-256 (FIPS 180-4) of a text behind which there are 72 octets more. */
static void sha256(unsigned char *text, size_t length, unsigned char digest[32]) {
    static const uint32_t K[64] = {0x428a2f98, 0x71374491, 0xb5c0fbcf, 0xe9b5dba5, 0x3956c25b, 0x59f111f1, 0x923f82a4, 0xab1c5ed5,
        0xd807aa98, 0x12835b01, 0x243185be, 0x550c7dc3, 0x72be5d74, 0x80deb1fe, 0x9bdc06a7, 0xc19bf174, 0xe49b69c1, 0xefbe4786,
        0x0fc19dc6, 0x240ca1cc, 0x2de92c6f, 0x4a7484aa, 0x5cb0a9dc, 0x76f988da, 0x983e5152, 0xa831c66d, 0xb00327c8, 0xbf597fc7,
        0xc6e00bf3, 0xd5a79147, 0x06ca6351, 0x14292967, 0x27b70a85, 0x2e1b2138, 0x4d2c6dfc, 0x53380d13, 0x650a7354, 0x766a0abb,
        0x81c2c92e, 0x92722c85, 0xa2bfe8a1, 0xa81a664b, 0xc24b8b70, 0xc76c51a3, 0xd192e819, 0xd6990624, 0xf40e3585, 0x106aa070,
        0x19a4c116, 0x1e376c08, 0x2748774c, 0x34b0bcb5, 0x391c0cb3, 0x4ed8aa4a, 0x5b9cca4f, 0x682e6ff3, 0x748f82ee, 0x78a5636f,
        0x84c87814, 0x8cc70208, 0x90befffa, 0xa4506ceb, 0xbef9a3f7, 0xc67178f2};
    uint32_t h[8] = {0x6a09e667, 0xbb67ae85, 0x3c6ef372, 0xa54ff53a, 0x510e527f, 0x9b05688c, 0x1f83d9ab, 0x5be0cd19};
    size_t whole = (length + 8) / 64 * 64 + 64;
    memset(text + length, 0, whole - length), text[length] = 0x80;
    for (int at = 0; at < 8; at++) text[whole - 1 - at] = (unsigned char)((uint64_t)length * 8 >> 8 * at);
    for (; whole; whole -= 64, text += 64) {
        uint32_t w[64] = {0}, v[8];
        memcpy(v, h, sizeof v);
        for (int i = 0; i < 64; i++) w[i / 4] |= (uint32_t)text[i] << (24 - 8 * (i % 4));
        for (int i = 0; i < 64; i++) {
            if (i > 15) w[i] = w[i - 16] + w[i - 7] + (TURNED(w[i - 15], 7, 18, 3) ^ w[i - 15] << 29)
                + (TURNED(w[i - 2], 17, 19, 10) ^ w[i - 2] << 22); /* the third of these is a shift, not a rotation */
            uint32_t one = v[7] + TURNED(v[4], 6, 11, 25) + ((v[4] & v[5]) ^ (~v[4] & v[6])) + K[i] + w[i];
            uint32_t two = TURNED(v[0], 2, 13, 22) + ((v[0] & v[1]) ^ (v[0] & v[2]) ^ (v[1] & v[2]));
            memmove(v + 1, v, 7 * sizeof *v), v[4] += one, v[0] = one + two;
        }
        for (int i = 0; i < 8; i++) h[i] += v[i];
    }
    for (int i = 0; i < 32; i++) digest[i] = (unsigned char)(h[i / 4] >> (24 - 8 * (i % 4)));
}

/* The hexadecimal digit of four bits. */
static char digit(const Bit *bits) { return "0123456789abcdef"[bits[0] << 3 | bits[1] << 2 | bits[2] << 1 | bits[3]]; }

/* The line that `tools/table fingerprint` writes for a base graph and a set index (docs/tables.md). */
static const char *fingerprint(int g, int set) {
    static unsigned char text[COLUMNS * MOST_Z / 4 + 80], digest[32];
    static Bit word[COLUMNS * MOST_Z];
    static Rows rows;
    int z = FACTORS[set], n = SHAPES[g].n;
    while (2 * z <= MOST_Z) z *= 2;
    int a = n * z - 24 > 3824 ? n * z - 24 : n * z - 16, digits = (SHAPES[g].columns - 2) * z / 4;
    for (int i = 0; i < a; i++) {
        if (i % 256 == 0) sha256(text, (size_t)sprintf((char *)text, "linksim table bg%d set%d %d", g, set, i / 256), digest);
        word[i] = digest[i / 8 % 32] >> (7 - i % 8) & 1;
    }
    uint32_t parity = remainder_of(word, a, a > 3824 ? CRC24A : CRC16);
    for (int i = a; i < n * z; i++) word[i] = parity >> (n * z - 1 - i) & 1;
    shift_rows(&rows, g, set, z);
    encode(&rows, n, word);
    for (int i = 0; i < digits; i++) text[i] = (unsigned char)digit(word + 2 * z + 4 * i);
    sha256(text, (size_t)digits, digest);
    for (int i = 0, at = sprintf((char *)text, "graph %d set %d ", g, set); i < 6; i++, at += 2)
        sprintf((char *)text + at, "%02x", digest[i]);
    return (char *)text;
}

/* 5.2.2, 5.3.2 and 5.4.2.1: the base graph, C, L, K', the set index, Zc, K, the positions of a codeword, and Ncb. */
typedef struct { int g, c, l, kdash, set, z, k, size, ncb; } Plan;

/* The numbers of a block of A bits at a code rate in 2048ths; 0 if there are none. TBS_LBRM is -1 if the buffer is not limited. */
static int plan_of(Plan *plan, long long a, long long rate2048, long long lbrm) {
    if (a % 8 || a < 8 || a > 1310720 || rate2048 < 1 || rate2048 > 2048) return 0;
    int g = a <= 292 || (a <= 3824 && 100 * rate2048 <= 67 * 2048) || 4 * rate2048 <= 2048 ? 2 : 1; /* 6.2.2 and 7.2.2 */
    int b = (int)a + (a > 3824 ? 24 : 16), most = g == 1 ? 8448 : 3840; /* 6.2.1 and 7.2.1 */
    int c = b <= most ? 1 : (b + most - 25) / (most - 24), l = c == 1 ? 0 : 24, kdash = (b + c * l) / c, z = 2 * MOST_Z, set = 0;
    int kb = g == 1 ? 22 : b > 640 ? 10 : b > 560 ? 9 : b > 192 ? 8 : 6;
    for (int s = 0; s < SETS; s++)
        for (int size = FACTORS[s]; size <= MOST_Z; size *= 2) if (kb * size >= kdash && size < z) z = size, set = s;
    long long n = (SHAPES[g].columns - 2) * z, limit = 3 * lbrm / (2 * c);
    *plan = (Plan){g, c, l, kdash, set, z, SHAPES[g].n * z, SHAPES[g].columns * z, (int)(lbrm >= 0 && limit < n ? limit : n)};
    return plan->ncb > 0 && (b + c * l) % c == 0;
}

/* A transmission: its numbers, the scheduled code blocks, and at each of its G places the bit 0 or 1, or - if nothing arrived. */
typedef struct { long long rv, g, qm, nl; int count, scheduled[MOST_C]; const char *received; } Sent;

/* A line of a certificate: a JSON object of numbers, texts without escapes, and lists of numbers. It is read key by key. */
typedef struct { long at; const char *text; } Line;
static char *cursor, *end_of_file;

static const char *blank(const char *p) { return p + strspn(p, " \t\r"); }
static Line next_line(long at) {
    Line line = {at, cursor};
    if (cursor == end_of_file) stop(2, "the certificate ends too early");
    char *end = memchr(cursor, '\n', (size_t)(end_of_file - cursor));
    end = end ? end : end_of_file, *end = 0, cursor = end + (end < end_of_file);
    const char *p = blank(line.text);
    if (*p == '{') p += 1 + strcspn(p + 1, "{}\\");
    if (*p != '}' || blank(p + 1) != end) stop(2, "line %ld is not a JSON object of numbers, texts and lists of numbers", at);
    return line;
}

/* What follows a key, if it stands in the line once; NULL if it stands nowhere. */
static const char *find(const Line *line, const char *name) {
    size_t length = strlen(name);
    const char *found = NULL;
    for (const char *p = line->text; (p = strstr(p, name)); p += length)
        if (p[-1] == '"' && p[length] == '"') found = found ? "\0" : blank(p + length + 1);
    return found;
}

/* The value of a key that stands there once. */
static const char *get(const Line *line, const char *name, const char *kind) {
    const char *p = find(line, name), *ends = *kind == 'n' ? "" : *kind == 't' ? "\"\"" : "[]";
    p = p && *p == ':' ? blank(p + 1) : "\0";
    size_t size = *kind == 't' ? 1 + strcspn(p + 1, "\"") : strspn(p + !!*ends, *ends ? "0123456789, \t" : "0123456789") + !!*ends;
    int is_one = *ends ? *p == ends[0] && p[size] == ends[1] : size && size < 16 && (*p != '0' || size == 1);
    if (!is_one || !strchr(",}", *blank(p + size + !!*ends))) stop(2, "line %ld lacks the %s %s", line->at, kind, name);
    return p;
}

static long long number_of(const Line *line, const char *name) { return atoll(get(line, name, "number")); }
static int is_text(const char *value, const char *text) {
    return !strncmp(value + 1, text, strlen(text)) && value[1 + strlen(text)] == '"';
}

/* The next number of a list; 0 at its end. */
static int next_number(const char **list, long long *number) {
    *list += strspn(*list, "[, \t");
    if (**list == ']') return 0;
    *number = strtoll(*list, (char **)list, 10);
    return 1;
}

/* A transmission, which stands in a line. */
static Sent sent_of(const Line *line, const Plan *plan) {
    Sent it = {number_of(line, "rv"), number_of(line, "g"), number_of(line, "qm"), number_of(line, "nl"), 0, {0}, NULL};
    const char *list = get(line, "codeblocks", "list");
    int is_possible = it.rv < 4 && it.qm < 9 && (it.qm == 1 || it.qm % 2 == 0) && it.qm && it.nl >= 1 && it.nl <= 4
        && it.g >= 1 && it.g <= 4194304 && it.g % (it.nl * it.qm) == 0;
    for (long long r, last = -1; next_number(&list, &r); last = r)
        if (is_possible &= r > last && r < plan->c) it.scheduled[it.count++] = (int)r;
    if (!is_possible || !it.count) stop(1, "line %ld: no transmission has these numbers", line->at);
    it.received = get(line, "received", "text") + 1;
    if (strspn(it.received, "01-") != (size_t)it.g || it.received[it.g] != '"')
        stop(1, "line %ld: received is not one of 0, 1 and - for each place", line->at);
    return it;
}

/* Follows the steps by which known positions of a codeword fix others, and returns how many there are. */
static long follow(const Line *line, const Rows *rows, Bit *known, Bit *word) {
    const char *some = get(line, "rows", "list"), *others = get(line, "positions", "list");
    long long row, p;
    long step = 0;
    int is_row, is_position;
    while (is_row = next_number(&some, &row), is_position = next_number(&others, &p), is_row && is_position) {
        Look here = {0, 0, 0};
        if (row < rows->count * rows->z) here = look(rows, (int)row, word, known, COLUMNS, -1);
        if (step++, here.unknown != 1 || here.at != p)
            stop(1, "line %ld: step %ld: its position is not the only unknown one of its row", line->at, step);
        known[p] = 1, word[p] = (Bit)here.sum;
    }
    if (is_row != is_position) stop(1, "line %ld: rows and positions are not equally many", line->at);
    for (int at = 0; at < rows->count * rows->z; at++)
        if (look(rows, at, word, known, 0, 0).unknown == 1) stop(1, "line %ld: row %d has one unknown position left", line->at, at);
    return step;
}

/* What a certificate names as inconsistent: a transmission and a place, a code block, or nothing for the block; whether it is. */
static struct { int is_delivered, names, is_there; long long named[2]; } claim;
static void contradicts(long line, int names, long long a, long long b) {
    static const char *const WHAT[] = {
        "line %ld: the CRC of the block contradicts the delivery", "line %ld: the CRC24B contradicts the delivery",
        "line %ld: transmission %lld contradicts the delivery at place %lld"};
    if (claim.is_delivered) stop(1, WHAT[names], line, a, b);
    claim.is_there |= names == claim.names && (names < 1 || a == claim.named[0]) && (names < 2 || b == claim.named[1]);
}

/* Takes what arrived of code block r in transmission t: as known, where nothing is, or, without `known`, against its codeword. */
static void take(const Plan *plan, const Sent *sent, long t, int r, Bit *known, Bit *word, long line) {
    static int turn[COLUMNS * MOST_Z];
    int j = 0, z = plan->z, turns = 0;
    while (j < sent->count && sent->scheduled[j] != r) j++;
    if (j == sent->count) return;
    /* 5.4.2.1: G is shared out in units of NL Qm bits, and the last code blocks take what is left over. 5.5: joined. */
    int qm = (int)sent->qm, unit = (int)sent->nl * qm, units = (int)sent->g / unit, share = units / sent->count;
    int shorter = sent->count - units % sent->count, e = unit * (share + (j >= shorter));
    int first = unit * (j * share + (j > shorter ? j - shorter : 0));
    /* 5.4.2.1: the buffer is the codeword from position 2 Zc on. It is read from k0 on, round and round, without fillers. */
    int k0 = SHAPES[plan->g].starts[sent->rv] * plan->ncb / ((SHAPES[plan->g].columns - 2) * z) * z;
    for (int q = k0; q < k0 + plan->ncb; q++) {
        int p = (q < plan->ncb ? q : q - plan->ncb) + 2 * z;
        if (p < plan->kdash || p >= plan->k) turn[turns++] = p;
    }
    for (int m = 0; m < e; m++) { /* 5.4.2.2: bit i + j Qm of f is bit i E / Qm + j of e */
        int p = turn[(m % qm * (e / qm) + m / qm) % turns], bit = sent->received[first + m] - '0';
        if (bit < 0 || (known && known[p])) continue;
        if (known) known[p] = 1, word[p] = (Bit)bit;
        else if (word[p] != bit) contradicts(line, 2, t, first + m);
    }
}

/* Checks the certificate that begins with a line, and returns the number of its last line. */
static long verify(Line head) {
    static Bit known[COLUMNS * MOST_Z], word[COLUMNS * MOST_Z];
    static const char *const OUTCOMES[] = {"delivered", "undecided", "inconsistent", ""};
    static Rows rows;
    Plan plan;
    int kind = 0;
    const char *outcome = get(&head, "outcome", "text");
    while (kind < 3 && !is_text(outcome, OUTCOMES[kind])) kind++;
    if (number_of(&head, "certificate") != 1 || kind == 3) stop(2, "line %ld does not begin a certificate of version 1", head.at);
    long long a = number_of(&head, "a"), rate = number_of(&head, "rate2048");
    if (!plan_of(&plan, a, rate, find(&head, "lbrm") ? number_of(&head, "lbrm") : -1))
        stop(1, "line %ld: no transport block has this size, code rate and buffer", head.at);
    if (!is_text(get(&head, "fingerprint", "text"), has_graph[plan.g] ? fingerprint(plan.g, plan.set) : "\n"))
        stop(1, "line %ld: the certificate is about another table", head.at);
    shift_rows(&rows, plan.g, plan.set, plan.z);
    long at = head.at, steps = 0, stuck = 0, part = plan.kdash - plan.l;
    long long count = number_of(&head, "transmissions"), p;
    Sent *sent = NULL;
    while (at - head.at < count) {
        Line line = next_line(++at);
        sent = room(sent, (size_t)(at - head.at) * sizeof *sent);
        sent[at - head.at - 1] = sent_of(&line, &plan);
    }
    const char *list = kind == 2 ? get(&head, "contradiction", "list") : "]";
    for (claim.names = 0; next_number(&list, &p); claim.names++) claim.named[claim.names > 0] = p;
    claim.is_delivered = kind == 0, claim.is_there = 0;
    Bit *b = room(NULL, (size_t)(plan.c * part));
    for (int r = 0; r < plan.c; r++) {
        Line line = next_line(++at);
        if (number_of(&line, "codeblock") != r) stop(1, "line %ld: code block %d should stand here", line.at, r);
        memset(known, 0, sizeof known), memset(word, 0, sizeof word), memset(known + plan.kdash, 1, (size_t)(plan.k - plan.kdash));
        for (long t = 0; t < count; t++) take(&plan, &sent[t], t + 1, r, known, word, at);
        steps += follow(&line, &rows, known, word);
        list = find(&line, "stuck") ? get(&line, "stuck", "list") : "]";
        int is_stuck = memchr(known, 0, (size_t)plan.kdash) != NULL, is_right = 1;
        for (int q = 0; is_stuck && q < plan.size; q++) if (!known[q]) is_right &= next_number(&list, &p) && p == q;
        if (!is_right || next_number(&list, &p))
            stop(1, "line %ld: stuck is not the list of the positions that the steps leave unknown", line.at);
        stuck += is_stuck;
        if (kind == 1) continue;
        if (is_stuck) stop(1, "line %ld: the code block is stuck, and the outcome %s", line.at, OUTCOMES[kind]);
        list = kind == 2 ? get(&line, "bits", "text") + 1 : NULL;
        for (int q = 0; list && q <= plan.kdash; q++, list++)
            if (*list != (q == plan.kdash ? '"' : '0' + word[q])) stop(1, "line %ld: bits are not what the steps fix", line.at);
        memcpy(b + r * part, word, (size_t)part);
        encode(&rows, SHAPES[plan.g].n, word);
        for (int row = 0; row < rows.count * rows.z; row++)
            if (look(&rows, row, word, NULL, COLUMNS, -1).sum) stop(1, "line %ld: the codeword does not meet every row", line.at);
        for (long t = 0; t < count; t++) take(&plan, &sent[t], t + 1, r, NULL, word, at);
        if (plan.l && remainder_of(word, plan.kdash, CRC24B)) contradicts(at, 1, r, 0);
    }
    if (kind != 1 && remainder_of(b, plan.c * part, a > 3824 ? CRC24A : CRC16)) contradicts(head.at, 0, 0, 0);
    if (kind == 1 && !stuck) stop(1, "line %ld: no code block is stuck", head.at);
    if (kind == 2 && !claim.is_there) stop(1, "line %ld: the contradiction is none", head.at);
    list = kind == 0 ? get(&head, "block", "text") + 1 : NULL;
    for (long q = 0; list && q <= a; q += 4, list++)
        if (*list != (q == a ? '"' : digit(b + q))) stop(1, "line %ld: block is not what the steps fix", head.at);
    printf("%s: %ld steps, %d rows, ", OUTCOMES[kind], steps, plan.c * rows.count * rows.z);
    if (kind == 1) printf("%ld of %d code blocks stuck\n", stuck, plan.c);
    else puts(kind ? "no block" : "the only block");
    free(sent), free(b);
    return at;
}

int main(int count, char **words) {
    size_t length;
    if (count != 3) stop(2, "usage: verify TABLE CERTIFICATE");
    read_table(reading = words[1]);
    cursor = text_of(reading = words[2], &length), end_of_file = cursor + length;
    for (long at = 0; !at || cursor < end_of_file;) at = verify(next_line(at + 1));
    return 0;
}
