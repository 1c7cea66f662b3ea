/* nr_golden.h: shift tables by handle, the golden transmission and the golden receiver, for a testbench of RTL: what nr_dpi.c
   (DPI-C) and nr_vpi.c (VPI) stand on. All bits are those of nr.h's calls.

   Each call returns a status: 0, a fault of nr.h, or one of those below. One that returns another number than 0 has written
   nothing, and what a handle stands for is as it was. A handle is what a call gave and no other has freed: any other is refused.
   One thread at a time may call. */

#ifndef NR_GOLDEN_H
#define NR_GOLDEN_H

#include "nr.h"

#ifdef __cplusplus
extern "C" {
#endif

enum NrGoldenStatus {
    NR_GOLDEN_HANDLE = 1001,  /* nothing is open by this handle */
    NR_GOLDEN_HEX = 1002,     /* the block is not whole octets of two hexadecimal digits */
    NR_GOLDEN_WIDTH = 1003,   /* a beat is not 1 to 512 bits wide */
    NR_GOLDEN_BEAT = 1004,    /* there is no such stage, code block or beat */
    NR_GOLDEN_DIFFERS = 1005, /* what is judged is wrong: nr_golden_said tells how */
    NR_GOLDEN_UNKNOWN = 1006, /* an argument has a bit X or Z */
    NR_GOLDEN_END = 1007,     /* the suite has no case more */
    NR_GOLDEN_CASE = 1008,    /* a line is no case of a suite */
    NR_GOLDEN_WRITE = 1009    /* the file of answers cannot be written */
};

/* The fault's name, as "Width"; else as nr_fault_name has it. */
const char *nr_golden_fault_name(uint32_t status);

/* The table of a file, by a handle.
   Faults: READ, if it cannot be read; as nr_table_entries has them; MEMORY. */
uint32_t nr_golden_table_open(const char *path, void **table);
uint32_t nr_golden_table_close(void **table);

/* The entries that a handle stands for, as the calls of nr.h take them. Fault: HANDLE. */
uint32_t nr_golden_entries(void *table, const NrEntry **entries, size_t *count);

/* What stands between a transport block and its sent bits. `attached` is the block with its CRC (6.2.1, 7.2.1). `bits`, K' bits,
   and d, N bits with fillers, are those of a code block (5.2.2, 5.3.2). So are e and f, E_r bits, selected and interleaved
   (5.4.2). `sent` is the f of all of them, joined (5.5). */
enum NrStage {
    NR_STAGE_A,
    NR_STAGE_ATTACHED,
    NR_STAGE_BITS,
    NR_STAGE_D,
    NR_STAGE_E,
    NR_STAGE_F,
    NR_STAGE_SENT,
    NR_STAGES
};

/* Where a beat stands. It has its stage, the code block r (of the stages of one), its number from 0, and how many bits it is
   wide. `first` says where its first bit is: in tdata[0], or in tdata[width - 1]. */
enum NrFirst { NR_FIRST_LOWEST = 0, NR_FIRST_HIGHEST = 1 };
typedef struct NrPlace {
    uint32_t stage, r, beat, width, first;
} NrPlace;

enum { NR_WIDEST = 512, NR_DATA_WORDS = 16, NR_KEEP_WORDS = 2 };

/* A beat of an AXI4-Stream, its words lowest first. It has tdata, in which fillers are 0, and a 1 for each filler. Its tkeep
   has a 1 for each octet of tdata that has a bit. `bits` is how many it has,
   fewer than its width in a last beat, and `last` is tlast. */
typedef struct NrBeat {
    uint32_t data[NR_DATA_WORDS], filler[NR_DATA_WORDS], keep[NR_KEEP_WORDS], bits, last;
} NrBeat;

/* The golden transmission: all stages of a transport block, made once, then read in beats. */
uint32_t nr_golden_new(void **golden);
uint32_t nr_golden_free(void **golden);

/* Makes the stages of a block, which `hex` has as hexadecimal digits.
   Faults: HANDLE; HEX; as nr_send has them from SIZE on. */
uint32_t nr_golden_send(void *golden, void *table, const NrSettings *settings, const NrTx *tx, const char *hex);

/* The numbers of what was made. Faults: HANDLE; BEAT, if nothing was, or r is not below C. */
uint32_t nr_golden_plan(void *golden, NrPlan *plan);
uint32_t nr_golden_block(void *golden, uint32_t r, NrBuffer *buffer, uint32_t *e);

/* Which bit place m of the transmission carries, from 0: bit d_n of code block r, for a DUT that recovers the rate (nr_places).
   Faults: HANDLE; BEAT, if nothing was made, or m is not below G. */
uint32_t nr_golden_place(void *golden, uint32_t m, uint32_t *r, uint32_t *n);

/* How many bits a stage has; one of its beats. `golden` may be a receiver too, which has the stage NR_STAGE_A if its block is
   delivered. Faults: HANDLE, WIDTH, BEAT. */
uint32_t nr_golden_count(void *golden, uint32_t stage, uint32_t r, uint32_t *bits);
uint32_t nr_golden_beat(void *golden, const NrPlace *place, NrBeat *beat);

/* Compares a beat: its bits but fillers, where `unknown` has 1 for those that are X or Z; and its tkeep and tlast. What follows the
   last bit is not looked at. Faults: HANDLE, WIDTH; BEAT, if there is no such stage or code block; DIFFERS. */
uint32_t nr_golden_judge(void *golden, const NrPlace *place, const uint32_t *data, const uint32_t *unknown);
uint32_t nr_golden_judge_sides(void *golden, const NrPlace *place, const uint32_t *keep, uint32_t last);

/* What differed when something last did, as "sent of code block r = 0: bit 3 is 1, right is 0 (beat 0, tdata[3])". */
const char *nr_golden_said(void *golden);

/* The cases of a suite, as tools/conform plain writes them: `next` makes the stages of the next one, `case` says how it is sent.
   After `only` all but the case of this id are passed over.
   Faults: HANDLE, READ, MEMORY; END; CASE; as nr_golden_send has them. */
uint32_t nr_golden_open(void *golden, const char *path);
uint32_t nr_golden_only(void *golden, const char *id);
uint32_t nr_golden_next(void *golden, void *table);
uint32_t nr_golden_case(void *golden, NrTx *tx);

/* What a DUT gives of a case. `expect` names the code block whose beats of a stage come now: each is expected once, in rising order.
   `take` judges the next beat as the two calls above do, until one was wrong. It keeps the bits, and ends the code block if `last` is
   not 0. `end` says whether every one that was begun has ended. `answer` appends a line to a file that is empty at first. The line has
   the stages of which every code block came, and what is sent if all f came.
   Faults: HANDLE, WIDTH, BEAT, MEMORY; DIFFERS; WRITE. */
uint32_t nr_golden_expect(void *golden, const NrPlace *place);
uint32_t nr_golden_take(void *golden, uint32_t stage, const uint32_t *data, const uint32_t *unknown, const uint32_t *keep, uint32_t last);
uint32_t nr_golden_end(void *golden);
uint32_t nr_golden_answer(void *golden, const char *path);

/* The golden receiver of a transport block of `a` bits: hears transmissions, and answers as nr_receive does of all so far. It keeps
   the table's entries.
   Faults: HANDLE; as nr_receive has them of no transmission. */
uint32_t nr_golden_receiver_new(void *table, const NrSettings *settings, uint32_t a, void **receiver);
uint32_t nr_golden_receiver_free(void **receiver);

/* Hears a beat of the transmission that is taken next: `data` where `erased` is 0. What no beat has is erased. `stage` and `r` of
   the place are not looked at. Faults: HANDLE, WIDTH; BEAT, if it is past 4,194,304 places; MEMORY. */
uint32_t nr_golden_receiver_hear(void *receiver, const NrPlace *place, const uint32_t *data, const uint32_t *erased);

/* Takes what was heard as one transmission: `outcome` is the NrOutcome of it and those before it. If it is refused, what was
   heard is kept for the next call.
   Faults: HANDLE; as nr_receive has them, of which LENGTH is that a place from G on was heard. */
uint32_t nr_golden_receiver_take(void *receiver, const NrTx *tx, uint32_t *outcome);

/* How many of the K' bits of code block r are not fixed yet. Faults: HANDLE; BEAT. */
uint32_t nr_golden_receiver_left(void *receiver, uint32_t r, uint32_t *left);

#ifdef __cplusplus
}
#endif

#endif
