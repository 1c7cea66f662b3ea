/* The cases of a suite, one after the other, and what a DUT gives of each. It is judged beat by beat, and written as a line of plain
   words that tools/conform check reads. */
#include "nr_held.h"

#include <stdio.h>
#include <stdlib.h>
#include <string.h>

/* A line has at most the digits of the longest block, and the rest of a case. */
enum { MOST_LINE = 2 * NR_MOST_OCTETS + 4096, MOST_LETTERS = 63, MOST_TOO_MANY = 4096 };

/* What a DUT gave of a stage: the bits of its code blocks as text, with commas between. If a code block is `open`, `place` is that of
   the beat which comes next. Its bits begin at `from`, and it is `wrong` if that was said. */
typedef struct Given {
    char *text;
    size_t count, room, from;
    NrPlace place;
    uint32_t blocks, commas;
    int open, wrong;
} Given;

struct NrSuite {
    FILE *cases, *answers;
    NrTx tx;
    Given stages[NR_STAGES];
    char id[MOST_LETTERS + 1], only[MOST_LETTERS + 1], line[MOST_LINE];
};

void nr_suite_free(NrSuite *suite) {
    if (!suite) return;
    for (int i = 0; i < NR_STAGES; i++) free(suite->stages[i].text);
    if (suite->answers) fclose(suite->answers);
    fclose(suite->cases);
    free(suite);
}

/* A golden transmission that has a suite. */
static NrStaged *with_suite(void *golden) {
    NrStaged *it = (NrStaged *)nr_held(golden, NR_KIND_GOLDEN);
    return it && it->suite ? it : NULL;
}

uint32_t nr_golden_open(void *golden, const char *path) {
    NrStaged *it = (NrStaged *)nr_held(golden, NR_KIND_GOLDEN);
    if (!it) return NR_GOLDEN_HANDLE;
    FILE *cases = fopen(path, "rb");
    if (!cases) return NR_ERR_READ;
    NrSuite *suite = (NrSuite *)calloc(1, sizeof *suite);
    if (!suite) {
        fclose(cases);
        return NR_ERR_MEMORY;
    }
    suite->cases = cases;
    nr_suite_free(it->suite);
    it->suite = suite;
    return NR_OK;
}

/* Reads the next line that is neither blank nor a comment. */
static uint32_t read_line(NrSuite *suite) {
    do {
        if (!fgets(suite->line, sizeof suite->line, suite->cases))
            return ferror(suite->cases) ? (uint32_t)NR_ERR_READ : (uint32_t)NR_GOLDEN_END;
        if (!strchr(suite->line, '\n') && !feof(suite->cases)) return NR_GOLDEN_CASE;
    } while (!suite->line[strspn(suite->line, " \t\r\n")] || suite->line[0] == '#');
    return NR_OK;
}

/* The code blocks that a mask of digits names; `all` is every one. */
static int read_mask(NrTx *tx, const char *digits) {
    tx->some = strcmp(digits, "all") != 0;
    for (size_t r = 0; tx->some && digits[r]; r++) {
        if (r >= NR_MOST_BLOCKS || (digits[r] != '0' && digits[r] != '1')) return 0;
        if (digits[r] == '1') tx->blocks[r / 64] |= (uint64_t)1 << r % 64;
    }
    return 1;
}

/* Takes a name and its value; 0 if they are none of a case. */
static int read_pair(NrSuite *suite, NrSettings *settings, const char *name, const char *value, const char **hex) {
    NrTx *tx = &suite->tx;
    static const char *const NAMES[] = {"rate2048", "lbrm", "rv", "g", "qm", "nl"};
    uint32_t *const into[] = {&settings->rate2048, &settings->lbrm, &tx->rv, &tx->g, &tx->qm, &tx->nl};
    if (!strcmp(name, "id")) return strlen(value) <= MOST_LETTERS && strcpy(suite->id, value);
    if (!strcmp(name, "mask")) return read_mask(tx, value);
    if (!strcmp(name, "a")) return (*hex = value) != NULL;
    for (size_t i = 0; i < sizeof NAMES / sizeof *NAMES; i++) {
        if (strcmp(name, NAMES[i])) continue;
        if (i == 1 && !strcmp(value, "-")) return 1;
        char *end;
        unsigned long found = strtoul(value, &end, 10);
        *into[i] = (uint32_t)found;
        return *value >= '0' && *value <= '9' && strlen(value) < 11 && found <= UINT32_MAX && !*end;
    }
    return 0;
}

uint32_t nr_golden_only(void *golden, const char *id) {
    NrStaged *it = with_suite(golden);
    if (!it) return NR_GOLDEN_HANDLE;
    if (strlen(id) > MOST_LETTERS) return NR_GOLDEN_CASE;
    strcpy(it->suite->only, id);
    return NR_OK;
}

/* Reads the next case. */
static uint32_t read_case(NrSuite *suite, NrSettings *settings, const char **hex) {
    static const char *const BLANKS = " \t\r\n";
    uint32_t status = read_line(suite);
    if (status != NR_OK) return status;
    memset(settings, 0, sizeof *settings);
    memset(&suite->tx, 0, sizeof suite->tx);
    suite->tx.qm = suite->tx.nl = 1;
    suite->id[0] = 0;
    for (char *name = strtok(suite->line, BLANKS); name; name = strtok(NULL, BLANKS)) {
        const char *value = strtok(NULL, BLANKS);
        if (!value || !read_pair(suite, settings, name, value, hex)) return NR_GOLDEN_CASE;
    }
    return suite->id[0] && *hex ? (uint32_t)NR_OK : (uint32_t)NR_GOLDEN_CASE;
}

uint32_t nr_golden_next(void *golden, void *table) {
    NrStaged *it = with_suite(golden);
    if (!it) return NR_GOLDEN_HANDLE;
    NrSuite *suite = it->suite;
    NrSettings settings;
    const char *hex = NULL;
    do {
        uint32_t status = read_case(suite, &settings, &hex);
        if (status != NR_OK) return status;
    } while (suite->only[0] && strcmp(suite->id, suite->only));
    for (int i = 0; i < NR_STAGES; i++) {
        Given *mine = &suite->stages[i];
        mine->count = mine->blocks = mine->commas = 0;
        mine->open = 0;
    }
    return nr_golden_send(golden, table, &settings, &suite->tx, hex);
}

uint32_t nr_golden_case(void *golden, NrTx *tx) {
    NrStaged *it = with_suite(golden);
    if (!it) return NR_GOLDEN_HANDLE;
    *tx = it->suite->tx;
    return NR_OK;
}

/* Says what differs with the case's name before it. */
static uint32_t differs(NrStaged *it) {
    char said[sizeof it->said];
    memcpy(said, it->said, sizeof said);
    snprintf(it->said, sizeof it->said, "case %.*s, %.*s", MOST_LETTERS, it->suite->id, (int)(sizeof said - MOST_LETTERS - 8), said);
    return NR_GOLDEN_DIFFERS;
}

/* Ends the code block of a stage that is open: it lacks its last beat. */
static uint32_t end(NrStaged *it, Given *mine) {
    uint32_t right = 0;
    if (!mine->open) return NR_OK;
    mine->open = 0;
    if (mine->wrong) return NR_OK;
    nr_stage_of(&it->stages, mine->place.stage, mine->place.r, &right);
    snprintf(it->said, sizeof it->said, "%s of code block r = %u: %u bits came, right are %u", nr_stage_name(mine->place.stage),
             mine->place.r, (uint32_t)(mine->count - mine->from), right);
    return differs(it);
}

uint32_t nr_golden_end(void *golden) {
    NrStaged *it = with_suite(golden);
    uint32_t status = it ? (uint32_t)NR_OK : (uint32_t)NR_GOLDEN_HANDLE;
    for (int i = 0; it && status == NR_OK && i < NR_STAGES; i++) status = end(it, &it->suite->stages[i]);
    return status;
}

/* Room for so many characters more. */
static int has_room(Given *mine, size_t more) {
    if (mine->count + more <= mine->room) return 1;
    size_t room = 2 * (mine->count + more);
    char *text = (char *)realloc(mine->text, room);
    if (!text) return 0;
    mine->text = text;
    mine->room = room;
    return 1;
}

uint32_t nr_golden_expect(void *golden, const NrPlace *place) {
    NrStaged *it = with_suite(golden);
    uint32_t right = 0;
    if (!it) return NR_GOLDEN_HANDLE;
    if (place->width < 1 || place->width > NR_WIDEST) return NR_GOLDEN_WIDTH;
    if (!nr_stage_of(&it->stages, place->stage, place->r, &right) || !right) return NR_GOLDEN_BEAT;
    Given *mine = &it->suite->stages[place->stage];
    if (mine->blocks && place->r <= mine->place.r) return NR_GOLDEN_BEAT;
    if (!has_room(mine, NR_MOST_BLOCKS)) return NR_ERR_MEMORY;
    uint32_t status = end(it, mine);
    for (; mine->commas < place->r; mine->commas++) mine->text[mine->count++] = ',';
    mine->from = mine->count;
    mine->place = *place;
    mine->place.beat = 0;
    mine->blocks++;
    mine->open = 1;
    mine->wrong = 0;
    return status;
}

/* Keeps the bits of a beat whose octets are kept; a filler is `-`. What stands past the right ones in the last octet is not. */
static void keep_bits(NrStaged *it, Given *mine, const uint32_t *data, const uint32_t *keep, int last) {
    uint32_t right = 0, width = mine->place.width;
    const uint8_t *bits = nr_stage_of(&it->stages, mine->place.stage, mine->place.r, &right);
    size_t most = (size_t)right + MOST_TOO_MANY;
    for (uint32_t i = 0; i < width && mine->count - mine->from < most; i++) {
        uint32_t lane = nr_lane(&mine->place, i);
        size_t at = mine->count - mine->from;
        if (nr_bit(keep, lane / 8)) {
            char digit = (char)('0' + nr_bit(data, lane));
            mine->text[mine->count++] = at < right && bits[at] == NR_BIT_FILLER ? '-' : digit;
        }
    }
    size_t found = mine->count - mine->from;
    if (last && width >= 8 && found > right && found < (size_t)right + 8) mine->count = mine->from + right;
}

uint32_t nr_golden_take(void *golden, uint32_t stage, const uint32_t *data, const uint32_t *unknown, const uint32_t *keep, uint32_t last) {
    NrStaged *it = with_suite(golden);
    if (!it) return NR_GOLDEN_HANDLE;
    if (stage >= NR_STAGES || !it->suite->stages[stage].open) return NR_GOLDEN_BEAT;
    Given *mine = &it->suite->stages[stage];
    if (!has_room(mine, NR_WIDEST)) return NR_ERR_MEMORY;
    uint32_t status = NR_OK;
    if (!mine->wrong) status = nr_golden_judge(golden, &mine->place, data, unknown);
    if (!mine->wrong && status == NR_OK) status = nr_golden_judge_sides(golden, &mine->place, keep, last);
    mine->wrong |= status != NR_OK;
    keep_bits(it, mine, data, keep, last != 0);
    mine->place.beat++;
    mine->open = !last;
    return status == NR_GOLDEN_DIFFERS ? differs(it) : status;
}

/* How many code blocks a stage has. */
static uint32_t blocks_of(const NrStaged *it, uint32_t stage) {
    uint32_t count = 0, blocks = 0, all = stage == NR_STAGE_ATTACHED || stage == NR_STAGE_SENT ? 1 : it->stages.plan.c;
    for (uint32_t r = 0; r < all; r++) blocks += nr_stage_of(&it->stages, stage, r, &count) && count;
    return blocks;
}

/* Writes a stage of which every code block came. The f of all of them, joined, are also what is sent. */
static void answer(NrStaged *it, uint32_t stage) {
    Given *mine = &it->suite->stages[stage];
    FILE *file = it->suite->answers;
    if (!mine->blocks || mine->blocks != blocks_of(it, stage)) return;
    fprintf(file, " %s %.*s", nr_stage_name(stage), (int)mine->count, mine->text);
    if (stage != NR_STAGE_ATTACHED && stage != NR_STAGE_SENT)
        for (uint32_t r = mine->commas + 1; r < it->stages.plan.c; r++) fputc(',', file);
    if (stage != NR_STAGE_F || it->suite->stages[NR_STAGE_SENT].blocks) return;
    fprintf(file, " %s ", nr_stage_name(NR_STAGE_SENT));
    for (size_t i = 0; i < mine->count; i++)
        if (mine->text[i] != ',') fputc(mine->text[i], file);
}

uint32_t nr_golden_answer(void *golden, const char *path) {
    NrStaged *it = with_suite(golden);
    if (!it) return NR_GOLDEN_HANDLE;
    NrSuite *suite = it->suite;
    if (!suite->answers) suite->answers = fopen(path, "w");
    if (!suite->answers) return NR_GOLDEN_WRITE;
    fprintf(suite->answers, "id %s", suite->id);
    for (uint32_t stage = NR_STAGE_ATTACHED; stage < NR_STAGES; stage++) answer(it, stage);
    fputc('\n', suite->answers);
    return fflush(suite->answers) || ferror(suite->answers) ? (uint32_t)NR_GOLDEN_WRITE : (uint32_t)NR_OK;
}
