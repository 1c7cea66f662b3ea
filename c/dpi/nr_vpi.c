/* The golden transmission and the golden receiver in simulators without DPI, as Icarus Verilog. The calls $nr_golden_send and
   so on take what nr_dpi_golden_send and so on of nr_dpi_pkg.sv do, and give the same. A handle is a variable of 64 bits, a
   packed struct its bits. An argument with X or Z is refused (Unknown), but where a result goes.

       cc -shared -fPIC $(iverilog-vpi --cflags) nr_vpi.c nr_golden.c nr_golden_receiver.c nr_beats.c nr_packed.c nr_suite.c \
           -l:libnr.a -o nr.vpi
       iverilog -g2012 -DNR_VPI -L. -mnr nr_dpi_pkg.sv tb.sv -o tb && vvp -M. -mnr tb */
#include "nr_vpi_call.h"

static uint32_t table_open(Call *call) {
    void *table = NULL;
    char *path = text(call, 0);
    uint32_t status = path ? nr_golden_table_open(path, &table) : call->status;
    if (status == NR_OK) put_handle(call, 1, table);
    free(path);
    return status;
}

/* Frees what a handle stands for. */
static uint32_t freed(Call *call, uint32_t (*frees)(void **)) {
    void *it = handle(call, 0);
    uint32_t status = call->status == NR_OK ? frees(&it) : call->status;
    if (status == NR_OK) put_handle(call, 0, it);
    return status;
}

static uint32_t table_close(Call *call) { return freed(call, nr_golden_table_close); }
static uint32_t golden_free(Call *call) { return freed(call, nr_golden_free); }
static uint32_t receiver_free(Call *call) { return freed(call, nr_golden_receiver_free); }

static uint32_t golden_new(Call *call) {
    void *golden = NULL;
    uint32_t status = nr_golden_new(&golden);
    if (status == NR_OK) put_handle(call, 0, golden);
    return status;
}

static uint32_t golden_send(Call *call) {
    uint32_t packed[NR_TX_WORDS];
    void *golden = handle(call, 0), *table = handle(call, 1);
    NrSettings settings = nr_packed_settings(number(call, 2), number(call, 3));
    words(call, 4, packed, NR_TX_WORDS);
    char *hex = text(call, 5);
    NrTx tx = nr_packed_tx(packed);
    uint32_t status = call->status == NR_OK ? nr_golden_send(golden, table, &settings, &tx, hex) : call->status;
    free(hex);
    return status;
}

static uint32_t golden_plan(Call *call) {
    NrPlan plan;
    uint32_t packed[NR_PLAN_WORDS];
    void *golden = handle(call, 0);
    uint32_t status = call->status == NR_OK ? nr_golden_plan(golden, &plan) : call->status;
    if (status != NR_OK) return status;
    nr_packed_plan(&plan, packed);
    put(call->arguments[1], packed, NR_PLAN_WORDS);
    return NR_OK;
}

static uint32_t golden_block(Call *call) {
    NrBuffer buffer;
    void *golden = handle(call, 0);
    uint32_t e = 0, r = number(call, 1), status = call->status;
    if (status == NR_OK) status = nr_golden_block(golden, r, &buffer, &e);
    if (status != NR_OK) return status;
    put(call->arguments[2], &buffer.ncb, 1);
    put(call->arguments[3], &buffer.k0, 1);
    put(call->arguments[4], &e, 1);
    return NR_OK;
}

static uint32_t golden_place(Call *call) {
    void *golden = handle(call, 0);
    uint32_t r = 0, n = 0, m = number(call, 1), status = call->status;
    if (status == NR_OK) status = nr_golden_place(golden, m, &r, &n);
    if (status != NR_OK) return status;
    put(call->arguments[2], &r, 1);
    put(call->arguments[3], &n, 1);
    return NR_OK;
}

static uint32_t golden_count(Call *call) {
    void *golden = handle(call, 0);
    uint32_t bits = 0, stage = number(call, 1), r = number(call, 2), status = call->status;
    if (status == NR_OK) status = nr_golden_count(golden, stage, r, &bits);
    if (status == NR_OK) put(call->arguments[3], &bits, 1);
    return status;
}

static uint32_t golden_beat(Call *call) {
    void *golden = handle(call, 0);
    NrPlace place = place_from(call, 1, 3);
    NrBeat beat;
    uint32_t packed[NR_BEAT_WORDS], status = call->status;
    if (status == NR_OK) status = nr_golden_beat(golden, &place, &beat);
    if (status != NR_OK) return status;
    nr_packed_beat(&beat, packed);
    put(call->arguments[6], packed, NR_BEAT_WORDS);
    return NR_OK;
}

/* A call of a beat's place with two vectors, which are the arguments from `at` on. */
static uint32_t with_data(Call *call, NrPlace place, int at,
                          uint32_t (*does)(void *, const NrPlace *, const uint32_t *, const uint32_t *)) {
    void *it = handle(call, 0);
    uint32_t data[NR_DATA_WORDS], marks[NR_DATA_WORDS];
    words(call, at, data, NR_DATA_WORDS);
    words(call, at + 1, marks, NR_DATA_WORDS);
    return call->status == NR_OK ? does(it, &place, data, marks) : call->status;
}

static uint32_t golden_judge(Call *call) { return with_data(call, place_from(call, 1, 3), 6, nr_golden_judge); }

static uint32_t receiver_hear(Call *call) { return with_data(call, place_from(call, 0, 1), 4, nr_golden_receiver_hear); }

static uint32_t golden_judge_sides(Call *call) {
    void *golden = handle(call, 0);
    NrPlace place = place_from(call, 1, 3);
    uint32_t keep[NR_KEEP_WORDS], last = number(call, 7);
    words(call, 6, keep, NR_KEEP_WORDS);
    return call->status == NR_OK ? nr_golden_judge_sides(golden, &place, keep, last) : call->status;
}

/* A call of a golden transmission and a file, or an id. */
static uint32_t with_path(Call *call, uint32_t (*does)(void *, const char *)) {
    void *golden = handle(call, 0);
    char *path = text(call, 1);
    uint32_t status = call->status == NR_OK ? does(golden, path) : call->status;
    free(path);
    return status;
}

static uint32_t golden_open(Call *call) { return with_path(call, nr_golden_open); }
static uint32_t golden_only(Call *call) { return with_path(call, nr_golden_only); }
static uint32_t golden_answer(Call *call) { return with_path(call, nr_golden_answer); }

/* A call of a golden transmission and a table, or of the first alone. */
static uint32_t golden_next(Call *call) {
    void *golden = handle(call, 0), *table = handle(call, 1);
    return call->status == NR_OK ? nr_golden_next(golden, table) : call->status;
}
static uint32_t golden_end(Call *call) { return call->status == NR_OK ? nr_golden_end(handle(call, 0)) : call->status; }

static uint32_t golden_case(Call *call) {
    NrTx tx;
    void *golden = handle(call, 0);
    uint32_t status = call->status == NR_OK ? nr_golden_case(golden, &tx) : call->status;
    const uint32_t *const from[] = {&tx.rv, &tx.g, &tx.qm, &tx.nl};
    for (int i = 0; status == NR_OK && i < 4; i++) put(call->arguments[1 + i], from[i], 1);
    return status;
}

static uint32_t golden_expect(Call *call) {
    void *golden = handle(call, 0);
    NrPlace place = {number(call, 1), number(call, 2), 0, number(call, 3), number(call, 4)};
    return call->status == NR_OK ? nr_golden_expect(golden, &place) : call->status;
}

static uint32_t golden_take(Call *call) {
    void *golden = handle(call, 0);
    uint32_t data[NR_DATA_WORDS], unknown[NR_DATA_WORDS], keep[NR_KEEP_WORDS], stage = number(call, 1), last = number(call, 5);
    words(call, 2, data, NR_DATA_WORDS);
    words(call, 3, unknown, NR_DATA_WORDS);
    words(call, 4, keep, NR_KEEP_WORDS);
    return call->status == NR_OK ? nr_golden_take(golden, stage, data, unknown, keep, last) : call->status;
}

static uint32_t receiver_new(Call *call) {
    void *table = handle(call, 0), *receiver = NULL;
    NrSettings settings = nr_packed_settings(number(call, 1), number(call, 2));
    uint32_t a = number(call, 3), status = call->status;
    if (status == NR_OK) status = nr_golden_receiver_new(table, &settings, a, &receiver);
    if (status == NR_OK) put_handle(call, 4, receiver);
    return status;
}

static uint32_t receiver_take(Call *call) {
    void *receiver = handle(call, 0);
    uint32_t packed[NR_TX_WORDS], outcome = 0, status;
    words(call, 1, packed, NR_TX_WORDS);
    NrTx tx = nr_packed_tx(packed);
    status = call->status == NR_OK ? nr_golden_receiver_take(receiver, &tx, &outcome) : call->status;
    if (status == NR_OK) put(call->arguments[2], &outcome, 1);
    return status;
}

static uint32_t receiver_left(Call *call) {
    void *receiver = handle(call, 0);
    uint32_t left = 0, r = number(call, 1), status = call->status;
    if (status == NR_OK) status = nr_golden_receiver_left(receiver, r, &left);
    if (status == NR_OK) put(call->arguments[2], &left, 1);
    return status;
}

/* The calls, and how many arguments each takes. The last two give a text. */
typedef struct Entry {
    const char *name;
    int arguments;
    uint32_t (*does)(Call *call);
} Entry;

static const Entry CALLS[] = {
    {"$nr_table_open", 2, table_open},
    {"$nr_table_close", 1, table_close},
    {"$nr_golden_new", 1, golden_new},
    {"$nr_golden_free", 1, golden_free},
    {"$nr_golden_send", 6, golden_send},
    {"$nr_golden_plan", 2, golden_plan},
    {"$nr_golden_block", 5, golden_block},
    {"$nr_golden_place", 4, golden_place},
    {"$nr_golden_count", 4, golden_count},
    {"$nr_golden_beat", 7, golden_beat},
    {"$nr_golden_judge", 8, golden_judge},
    {"$nr_golden_judge_sides", 8, golden_judge_sides},
    {"$nr_golden_open", 2, golden_open},
    {"$nr_golden_only", 2, golden_only},
    {"$nr_golden_next", 2, golden_next},
    {"$nr_golden_case", 5, golden_case},
    {"$nr_golden_expect", 5, golden_expect},
    {"$nr_golden_take", 6, golden_take},
    {"$nr_golden_end", 1, golden_end},
    {"$nr_golden_answer", 2, golden_answer},
    {"$nr_receiver_new", 5, receiver_new},
    {"$nr_receiver_free", 1, receiver_free},
    {"$nr_receiver_hear", 6, receiver_hear},
    {"$nr_receiver_take", 3, receiver_take},
    {"$nr_receiver_left", 3, receiver_left},
    {"$nr_fault_name", 1, NULL},
    {"$nr_golden_said", 1, NULL},
};

/* The arguments of the call that runs; how many there are. */
static int arguments_of(Call *call) {
    int count = 0;
    vpiHandle list, one;
    memset(call, 0, sizeof *call);
    call->self = vpi_handle(vpiSysTfCall, NULL);
    list = vpi_iterate(vpiArgument, call->self);
    while (list && (one = vpi_scan(list))) {
        if (count < MOST_ARGUMENTS) call->arguments[count] = one;
        count++;
    }
    return count;
}

/* A call with too few or too many arguments ends the compilation. */
static PLI_INT32 judge_arguments(PLI_BYTE8 *data) {
    const Entry *entry = (const Entry *)(const void *)data;
    Call call;
    int count = arguments_of(&call);
    if (count == entry->arguments) return 0;
    vpi_printf("ERROR: %s takes %d arguments, and has %d\n", entry->name, entry->arguments, count);
    vpi_control(vpiFinish, 1);
    return 0;
}

static PLI_INT32 run(PLI_BYTE8 *data) {
    const Entry *entry = (const Entry *)(const void *)data;
    Call call;
    arguments_of(&call);
    if (entry->does) {
        uint32_t status = entry->does(&call);
        put(call.self, &status, 1);
        return 0;
    }
    int is_name = strcmp(entry->name, "$nr_fault_name") == 0;
    const char *said = is_name ? nr_golden_fault_name(number(&call, 0)) : nr_golden_said(handle(&call, 0));
    char copy[TEXT_BITS / 8];
    s_vpi_value value;
    strncpy(copy, said, sizeof copy - 1);
    copy[sizeof copy - 1] = 0;
    value.format = vpiStringVal;
    value.value.str = copy;
    vpi_put_value(call.self, &value, NULL, vpiNoDelay);
    return 0;
}

static PLI_INT32 size_of(PLI_BYTE8 *data) { return ((const Entry *)(const void *)data)->does ? 32 : TEXT_BITS; }

static void register_calls(void) {
    for (size_t i = 0; i < sizeof CALLS / sizeof *CALLS; i++) {
        PLI_BYTE8 *entry = (PLI_BYTE8 *)(uintptr_t)&CALLS[i];
        s_vpi_systf_data data = {vpiSysFunc, vpiSizedFunc, CALLS[i].name, run, judge_arguments, size_of, entry};
        vpi_register_systf(&data);
    }
}

void (*vlog_startup_routines[])(void) = {register_calls, 0};
