/* nr.h: the data coding chain of 5G NR's shared channels, DL-SCH and UL-SCH (3GPP TS 38.212, Release 15).

   nr_send returns the bits that a transmission sends of a transport block: CRC attachment, segmentation, LDPC coding, rate
   matching, bit interleaving and concatenation. nr_receive is a receiver over erasures, with HARQ combining and peeling decoding.
   Each stage can be called by itself too. Numbers such as (5.4.2) are clauses of TS 38.212.

   A program reads a shift table, the numbers that define the code, once by nr_table_entries, and passes its entries to the other
   functions. A complete example is c/examples/erasures.c. docs/overview.md explains the terms, and docs/c-library.md says what is
   proved about each function.

   Arrays. Every array is passed as a pointer followed by its length. The pointer must be aligned and must point to at least that
   many elements; input arrays must be initialised. A pointer may be NULL only if its length is 0. Memory that a function may write
   must not overlap any other argument, and no other thread may use it during the call.

   Bits. An octet of a transport block has eight bits, the first bit highest. Everywhere else a bit has an octet of its own.

   Errors. Every function returns NR_OK or an error. Its description ends with its errors in the order in which they are tested,
   without the prefix NR_ERR_; if several apply, the first is returned. TABLE stands for ENTRIES, EMPTY, CORE, EXTENSION,
   MISSING_ROW, and TRANSMISSION for RV, ORDER, LAYERS, TOTAL, RAGGED, NONE_SCHEDULED. A failed allocation is returned where MEMORY
   stands in the list, or, if the list says "at any point", as soon as it happens. On an error nothing has been written, except
   where a function says otherwise.

   Memory and threads. No function opens a file, starts a thread, or keeps state or memory between calls. Any number of threads may
   call at once; each needs 64 KiB of stack. Do not call from a signal handler, nor in the forked child of a process that has
   several threads. malloc, realloc and free must belong to the same allocator.

   Allocations. A function frees what it allocates before it returns. With C code blocks and T transmissions it allocates about
   this often: nr_crc once, nr_select and nr_interleave 2 times, nr_cut and nr_match 3, nr_encode 5, nr_codeword 6, nr_join C + 2;
   nr_send C + 9, nr_send_packed C + 10, nr_send_many 5, and C + 2 T + 3 for each block; nr_receive 8 C + T + 15,
   nr_receive_packed 8 C + 5 T + 13, nr_receive_many 16 C + 23, and T for each block; nr_receiver_start 8 C + 10 and
   nr_receiver_take 8 C + 18. Of these a copy of the table is 4, with 40 octets an entry, and the receiver of a code block 8, with
   about 2.5 octets for each of its N + 2 Zc codeword bits. A transmission is 1, with A / 8 octets. The 4 with which received places
   are marked, about G / 4 + G / 4 C octets, serve all transmissions, unless a later one is longer; nr_receive_packed asks for 4
   more for each.

   Structs. Set members called `reserved` to 0, as by {.g = 300, .qm = 2, .nl = 1}. A later version may give them a meaning, and 0
   will then mean what this version does. */

#ifndef NR_H
#define NR_H

#include <stddef.h>
#include <stdint.h>

/* The version of this header, as in the file VERSION, and that of the library's interface, as in libnr.so.3. */
#define NR_VERSION "0.3.0-dev"
#define NR_VERSION_MAJOR 0
#define NR_VERSION_MINOR 3
#define NR_VERSION_PATCH 0
#define NR_INTERFACE 3

/* Makes the compiler warn if the status of a call is ignored. */
#if defined(__GNUC__) || defined(__clang__)
#define NR_CHECKED __attribute__((__warn_unused_result__))
#else
#define NR_CHECKED
#endif

#ifdef __cplusplus
extern "C" {
#endif

typedef enum NrStatus {
    NR_OK = 0,
    NR_ERR_MEMORY = 1,     /* memory could not be allocated; the call may be repeated */
    NR_ERR_ROOM = 2,       /* an output array does not have the length of the result */
    NR_ERR_MANY = 3,       /* there are more items than the call accepts */
    NR_ERR_POLY = 4,       /* the generator polynomial is not CRC24A, CRC24B or CRC16 (0 to 2) */
    NR_ERR_BIT = 5,        /* a value that stands for a bit is neither 0 nor 1 */
    NR_ERR_LIFTING = 6,    /* no code block of this base graph has this lifting size */
    NR_ERR_CODE_BLOCK = 7, /* no code block has this index, or this number of filler bits */
    NR_ERR_STATE = 8,      /* the receiver's state was created for another table, block size or buffer limit, or it is corrupt */
    /* shift table, as text */
    NR_ERR_READ = 20,        /* never returned: files have it */
    NR_ERR_CSV = 21,         /* a record of the table does not have as many fields as record 1 */
    NR_ERR_FIELDS = 22,      /* record 1 of the table does not have eleven fields */
    NR_ERR_NUMBER = 23,      /* a field of a record of the table is not 1 to 10 decimal digits */
    NR_ERR_RANGE = 24,       /* a number in a record of the table is out of range */
    NR_ERR_TWICE = 25,       /* a record of the table has the base graph, row and column of an earlier record */
    NR_ERR_CORE = 26,        /* rows 0 to 3 of a base graph do not have the shape of the standard's */
    NR_ERR_EXTENSION = 27,   /* a row i >= 4 of a base graph does not end in a single zero shift, at column n + i (n = 22 or 10) */
    NR_ERR_MISSING_ROW = 28, /* a base graph has a row without an entry */
    NR_ERR_EMPTY = 29,       /* the table has no entries */
    NR_ERR_TOO_LONG = 30,    /* the table's text is longer than 4,194,304 octets */
    /* shift table, as entries; also 26 to 29 */
    NR_ERR_ENTRIES = 31, /* an entry is outside its base graph, or not in ascending order */
    /* transport block */
    NR_ERR_SIZE = 40,       /* a transport block has 8 to 1,310,720 bits, a multiple of 8 */
    NR_ERR_RATE_RANGE = 41, /* the code rate is not 1 to 2048 in 2048ths */
    NR_ERR_SIZE_RANGE = 42, /* never returned, as the next two: NR_ERR_SIZE comes first */
    NR_ERR_SHORT = 43,      /* there are too few bits */
    NR_ERR_LONG = 44,       /* there are too many bits */
    NR_ERR_UNEVEN = 45,     /* the code blocks of this transport block would differ in length (5.2.2) */
    NR_ERR_GRAPH = 46,      /* the table has no entries for the base graph, or there is no such base graph */
    NR_ERR_NO_BUFFER = 47,  /* lbrm leaves no bit of a code block in the buffer, or ncb is not 1 to N (5.4.2.1) */
    /* transmission */
    NR_ERR_RV = 50,             /* rv is not 0 to 3 */
    NR_ERR_ORDER = 51,          /* qm is not 1, 2, 4, 6 or 8 */
    NR_ERR_LAYERS = 52,         /* nl is not 1 to 4 */
    NR_ERR_TOTAL = 53,          /* g is not 1 to 4,194,304 */
    NR_ERR_RAGGED = 54,         /* g is not a multiple of qm * nl, or a code block's bit count is not a multiple of qm */
    NR_ERR_NONE_SCHEDULED = 55, /* no code block of this transport block is scheduled */
    NR_ERR_LENGTH = 56          /* an input array does not have the required length */
} NrStatus;

/* The name of an error, as "NoBuffer" for NR_ERR_NO_BUFFER. The program linksim prints the same names (docs/formats.md). Returns
   "Ok" for 0, and "unknown" for a number that is no status. */
const char *nr_fault_name(uint32_t status);

/* The version of the library that is linked, as "0.3.0"; NR_VERSION is that of the header. */
const char *nr_version(void);

/* For NrSettings.lbrm: the circular buffer is not limited. */
#define NR_NO_LIMIT 0xFFFFFFFF

/* What both ends of a link have to agree on. */
typedef struct NrSettings {
    uint32_t rate2048; /* the code rate in 2048ths, 1 to 2048: twice the "target code rate x 1024" of TS 38.214's MCS tables */
    uint32_t lbrm;     /* TBS_LBRM in bits, which limits the circular buffer (5.4.2.1), or NR_NO_LIMIT. In this struct 0 means
                          NR_NO_LIMIT too, so that a zeroed one has no limit; a settings file of linksim does not accept 0 */
    uint32_t reserved[2];
} NrSettings;

/* One transmission of a transport block (5.4.2). */
typedef struct NrTx {
    uint32_t rv;        /* the redundancy version, 0 to 3 */
    uint32_t g;         /* G, the number of bits sent, 1 to 4,194,304: a multiple of qm * nl */
    uint32_t qm;        /* Qm, the bits of a modulation symbol: 1, 2, 4, 6 or 8 */
    uint32_t nl;        /* NL, the transmission layers: 1 to 4 */
    uint64_t some;      /* 0 if all code blocks are sent, else `blocks` is the CBG mask, resolved to code blocks */
    uint64_t blocks[6]; /* code block r, from 0, is sent if bit r % 64 of word r / 64 is set */
    uint32_t reserved[4];
} NrTx;

/* The segmentation parameters of a transport block (5.2.2, 5.3.2). */
typedef struct NrPlan {
    uint32_t graph; /* the base graph, 1 or 2 */
    uint32_t b;     /* B, the transport block's bits with its CRC */
    uint32_t l;     /* L, the CRC bits of each code block: 24, or 0 if there is one code block */
    uint32_t c;     /* C, the number of code blocks: 1 to 344 */
    uint32_t kdash; /* K', the bits of a code block with its CRC, without filler bits */
    uint32_t kb;    /* Kb, the number of columns that hold the K' bits */
    uint32_t z;     /* Zc, the lifting size */
    uint32_t set;   /* the set index of Zc, 0 to 7 */
    uint32_t k;     /* K, the bits of a code block with filler bits */
    uint32_t n;     /* N, the bits of a codeword */
    uint32_t reserved[2];
} NrPlan;

/* What nr_table_check reports. */
typedef struct NrReport {
    uint32_t one;   /* the entries of base graph 1 if the table is accepted, else 0 */
    uint32_t two;   /* the entries of base graph 2 if the table is accepted, else 0 */
    uint32_t place; /* where the error is: the record, from 1, for NR_ERR_CSV, NR_ERR_NUMBER, NR_ERR_RANGE and NR_ERR_TWICE; the
                       base graph for NR_ERR_CORE, NR_ERR_EXTENSION and NR_ERR_MISSING_ROW; else 0 */
    uint32_t reserved;
} NrReport;

/* Checks the text of a shift table (5.3.2): comma-separated values, with a record for each entry of Tables 5.3.2-2 and 5.3.2-3. A
   record has the base graph, the row, the column and the shift values of the sets 0 to 7. Records are checked one after the other,
   then base graph 1, then base graph 2. `out` is written on errors too, except for MEMORY. A text of more than 4,194,304 octets is
   TOO_LONG even if no memory is left.
   Errors: TOO_LONG, CSV, FIELDS, NUMBER, RANGE, TWICE, EMPTY, CORE, EXTENSION, MISSING_ROW, MEMORY. */
NR_CHECKED NrStatus nr_table_check(const uint8_t *text, size_t text_len, NrReport *out);

/* An entry of a shift table (Tables 5.3.2-2 and 5.3.2-3): 22 octets without padding. The entries of a table ascend by base graph,
   then by row, then by column. */
typedef struct NrEntry {
    uint16_t graph;     /* the base graph, 1 or 2 */
    uint16_t row;       /* the row, from 0: below 46 in base graph 1, below 42 in base graph 2 */
    uint16_t col;       /* the column, from 0: below 68 in base graph 1, below 52 in base graph 2 */
    uint16_t values[8]; /* the shift value of each set 0 to 7, not reduced by a lifting size */
} NrEntry;

/* Reads the entries of a shift table from its text, in the order that all other functions expect. `count` is set to their number,
   which `out_len` must equal: if it does not, ROOM is returned with `count` set, so that a first call with NULL, 0 finds the size.
   A table has at most 1,850 entries; Tables 5.3.2-2 and 5.3.2-3 have 316 and 197.
   Errors: TOO_LONG, CSV, FIELDS, NUMBER, RANGE, TWICE, EMPTY, CORE, EXTENSION, MISSING_ROW, MEMORY, ROOM. */
NR_CHECKED NrStatus nr_table_entries(const uint8_t *text, size_t text_len, NrEntry *out, size_t out_len, size_t *count);

/* Computes the segmentation parameters of a transport block of `a` bits at code rate rate2048 / 2048 (5.2.2, 6.2.2, 7.2.2).
   Allocates nothing.
   Errors: SIZE, RATE_RANGE, UNEVEN. */
NR_CHECKED NrStatus nr_plan(uint32_t rate2048, uint32_t a, NrPlan *out);

/* Computes E_r, the number of bits that a transmission sends of each code block of a transport block of `a` bits (5.4.2.1).
   `out_len` must equal C. Allocates nothing.
   Errors: SIZE, RATE_RANGE, UNEVEN, TRANSMISSION, ROOM. */
NR_CHECKED NrStatus nr_lengths(uint32_t rate2048, uint32_t a, const NrTx *tx, uint32_t *out, size_t out_len);

/* The circular buffer of a code block (5.4.2.1). */
typedef struct NrBuffer {
    uint32_t ncb; /* Ncb, the bits of a codeword that the buffer keeps: 1 to N */
    uint32_t k0;  /* the index in the buffer at which the redundancy version starts: below ncb */
    uint32_t reserved[2];
} NrBuffer;

/* Computes the circular buffer of the code blocks of a transport block of `a` bits, and where redundancy version `rv` starts in it.
   All code blocks have the same. Allocates nothing.
   Errors: SIZE, RATE_RANGE, UNEVEN, NO_BUFFER, RV. */
NR_CHECKED NrStatus nr_buffer(const NrSettings *settings, uint32_t a, uint32_t rv, NrBuffer *out);

/* The values of an octet that stands for a bit. A received place that has any number above 1 counts as erased. */
enum NrBit { NR_BIT_0 = 0, NR_BIT_1 = 1, NR_BIT_ERASED = 2, NR_BIT_FILLER = 2 };

/* Extracts code block r, from 0, of a transport block: the K' bits c_r without filler bits (5.2.2). They are its part of the block
   with the block's CRC and, if there are several code blocks, its own CRC24B. `out_len` must equal K'. CODE_BLOCK means that r is
   not below C.
   Errors: SIZE, RATE_RANGE, UNEVEN, CODE_BLOCK, ROOM, MEMORY. */
NR_CHECKED NrStatus nr_cut(uint32_t rate2048, const uint8_t *block, size_t block_len, uint32_t r, uint8_t *out, size_t out_len);

/* Encodes the K bits c of a code block into the N bits d (5.3.2), for a base graph and a lifting size Zc of Table 5.3.2-1. K is 22
   Zc in base graph 1 and 10 Zc in base graph 2; N is 66 Zc and 50 Zc. A bit may be NR_BIT_FILLER, which is encoded as 0 and marked
   in d too. GRAPH means that `graph` is neither 1 nor 2, or that the table has no entries for it. LIFTING is returned for the sizes
   2 and 3 of base graph 2 too, which no code block has.
   Errors: TABLE, GRAPH, LIFTING, LENGTH, BIT, ROOM; MEMORY at any point. */
NR_CHECKED NrStatus nr_encode(const NrEntry *table, size_t table_len, uint32_t graph, uint32_t z, const uint8_t *bits,
                              size_t bits_len, uint8_t *out, size_t out_len);

/* Encodes a code block of a transport block of `a` bits (5.3.2). `bits` has its K' bits with its CRC, without filler bits, as
   nr_cut returns them; `out` gets the N bits d, each 0, 1 or NR_BIT_FILLER.
   Errors: TABLE, SIZE, RATE_RANGE, UNEVEN, GRAPH, LENGTH, BIT, ROOM; MEMORY at any point. */
NR_CHECKED NrStatus nr_codeword(const NrEntry *table, size_t table_len, uint32_t rate2048, uint32_t a, const uint8_t *bits,
                                size_t bits_len, uint8_t *out, size_t out_len);

/* Selects the bits e_r that redundancy version `rv` sends of a code block of a transport block of `a` bits (5.4.2.1): as many as
   `out_len` says, for which nr_lengths has the numbers. `d` has the N bits that nr_encode or nr_codeword returned. BIT means that
   one of them is not a bit, or not NR_BIT_FILLER exactly where a filler bit is; MANY that out_len is above 4,194,304.
   Errors: SIZE, RATE_RANGE, UNEVEN, NO_BUFFER, RV, LENGTH, BIT, MANY, MEMORY. */
NR_CHECKED NrStatus nr_select(const NrSettings *settings, uint32_t a, uint32_t rv, const uint8_t *d, size_t d_len, uint8_t *out,
                              size_t out_len);

/* Interleaves the bits e_r of a code block into f_r, the order in which they are sent (5.4.2.2). A transmission sends the f_r of
   its code blocks one after the other (5.5). out_len must equal bits_len. MANY means more than 4,194,304 bits; RAGGED that their
   number is not a multiple of qm.
   Errors: ORDER, MANY, RAGGED, BIT, ROOM, MEMORY. */
NR_CHECKED NrStatus nr_interleave(uint32_t qm, const uint8_t *bits, size_t bits_len, uint8_t *out, size_t out_len);

/* The parameters by which a single code block is rate matched (5.4.2). */
typedef struct NrMatch {
    uint32_t graph;   /* the base graph, 1 or 2 */
    uint32_t z;       /* Zc, the lifting size */
    uint32_t fillers; /* K - K', the number of filler bits: the last of the K bits */
    uint32_t ncb;     /* Ncb, the bits that the circular buffer keeps: 1 to N */
    uint32_t rv;      /* the redundancy version, 0 to 3: with Ncb and Zc it gives k0 (Table 5.4.2.1-2) */
    uint32_t qm;      /* Qm, the bits of a modulation symbol: 1, 2, 4, 6 or 8; 1 leaves the selected bits in their order */
    uint32_t reserved[2];
} NrMatch;

/* Rate matches a single code block, without a transport block (5.4.2), as DPDK's test-bbdev does: selects `out_len` bits of d and
   interleaves them. `d` has the N bits that nr_encode returned. GRAPH means that `graph` is neither 1 nor 2; CODE_BLOCK that
   `fillers` is not below K - 2 Zc; NO_BUFFER that `ncb` is not 1 to N; BIT and MANY as for nr_select; RAGGED that out_len is not a
   multiple of qm.
   Errors: GRAPH, LIFTING, CODE_BLOCK, NO_BUFFER, RV, ORDER, LENGTH, BIT, MANY, RAGGED, MEMORY. */
NR_CHECKED NrStatus nr_match(const NrMatch *numbers, const uint8_t *d, size_t d_len, uint8_t *out, size_t out_len);

/* Finds which bit each of the G places of a transmission of a transport block of `a` bits carries (5.4.2, 5.5). `out` gets G
   numbers: r N + n at a place that carries bit d_n of code block r, both from 0. N is nr_plan's, and d is what nr_codeword
   returns. A receiver with C rows of N soft values adds the value of place m to value out[m]; in numpy,
   np.add.at(values.reshape(-1), out, llr). Allocates nothing.
   Errors: SIZE, RATE_RANGE, UNEVEN, NO_BUFFER, TRANSMISSION, ROOM. */
NR_CHECKED NrStatus nr_places(const NrSettings *settings, uint32_t a, const NrTx *tx, uint32_t *out, size_t out_len);

/* Joins the code blocks of a transport block of `a` bits and checks their CRCs (5.1, 5.2.2). `bits` has C rows of K' bits, as
   nr_cut returns them. passed[r] becomes 1 if the CRC24B of code block r is right, else 0, and `block_passed` 1 if the CRC of
   the transport block is right, else 0. A single code block has no CRC24B, so that passed[0] is the same as `block_passed`.
   `block` gets a / 8 octets, whether a CRC is right or not. LENGTH means that `bits` does not have C K' octets.
   Errors: SIZE, RATE_RANGE, UNEVEN, LENGTH, BIT, ROOM, MEMORY. */
NR_CHECKED NrStatus nr_join(uint32_t rate2048, uint32_t a, const uint8_t *bits, size_t bits_len, uint8_t *passed, size_t passed_len,
                            uint32_t *block_passed, uint8_t *block, size_t block_len);

/* The generator polynomials (5.1). */
enum NrPoly { NR_POLY_CRC24A = 0, NR_POLY_CRC24B = 1, NR_POLY_CRC16 = 2 };

/* Computes the parity bits of octets (5.1), as a number of 24 or 16 bits with the first parity bit highest. MANY means more than
   2,097,152 octets.
   Errors: POLY, MANY, MEMORY. */
NR_CHECKED NrStatus nr_crc(uint32_t poly, const uint8_t *octets, size_t octets_len, uint32_t *out);

/* Computes the G bits that a transmission sends of a transport block (6.2, 7.2). `out_len` must equal tx->g.
   Errors: TABLE, SIZE, RATE_RANGE, UNEVEN, GRAPH, NO_BUFFER, TRANSMISSION, ROOM; MEMORY at any point. */
NR_CHECKED NrStatus nr_send(const NrEntry *table, size_t table_len, const NrSettings *settings, const uint8_t *block,
                            size_t block_len, const NrTx *tx, uint8_t *out, size_t out_len);

/* Does what nr_send does, with eight bits an octet, the first bit highest. out_len must equal (tx->g + 7) / 8. The last octet is
   filled with zero bits.
   Errors: TABLE, SIZE, RATE_RANGE, UNEVEN, GRAPH, NO_BUFFER, TRANSMISSION, ROOM; MEMORY at any point. */
NR_CHECKED NrStatus nr_send_packed(const NrEntry *table, size_t table_len, const NrSettings *settings, const uint8_t *block,
                                   size_t block_len, const NrTx *tx, uint8_t *out, size_t out_len);

/* Computes the bits that the transmissions `txs` send of each of `count` transport blocks of `a` bits, and prepares the table only
   once. `blocks` has count rows of a / 8 octets. `out` gets count rows of txs[0].g + txs[1].g + .. bits, transmission by
   transmission, as nr_receive_many reads them. MANY means more than 1,000 transmissions; SIZE that `a` is out of range or
   blocks_len is not count * a / 8. All arguments are checked even if count is 0.
   Errors: TABLE, MANY, SIZE, RATE_RANGE, UNEVEN, GRAPH, NO_BUFFER; for each transmission TRANSMISSION; ROOM; MEMORY at any
   point. */
NR_CHECKED NrStatus nr_send_many(const NrEntry *table, size_t table_len, const NrSettings *settings, uint32_t a, const NrTx *txs,
                                 size_t txs_len, size_t count, const uint8_t *blocks, size_t blocks_len, uint8_t *out,
                                 size_t out_len);

/* What a receiver knows after a transmission. OPEN: undecided, since at least one bit is still unknown. DELIVERED: exactly one
   transport block is consistent with everything received. CONTRADICTION: inconsistent, since no transport block is. */
enum NrOutcome { NR_OUTCOME_OPEN = 0, NR_OUTCOME_DELIVERED = 1, NR_OUTCOME_CONTRADICTION = 2 };

/* Receives a transport block of `a` bits. `heard` has the places of the transmissions `txs` one after the other, txs[0].g +
   txs[1].g + .. octets of NrBit. A peeling decoder applies parity check rows (5.3.2) with one unknown bit; the block is delivered
   if this fixes all K' bits of each code block and its bits equal everything received. `outcomes` gets an NrOutcome for each
   transmission, of everything received up to it, so outcomes_len must equal txs_len. `left` gets the number of unknown bits of each
   code block after the last transmission (left_len is C). `block` gets the a / 8 octets of the block if the last outcome is
   NR_OUTCOME_DELIVERED, and is unchanged otherwise. LENGTH means that `heard` has fewer places than the transmissions up to this
   one, or after the last one more.
   Errors: TABLE, SIZE, RATE_RANGE, UNEVEN, ROOM, GRAPH, NO_BUFFER; for each transmission LENGTH, TRANSMISSION; LENGTH; MEMORY at
   any point. */
NR_CHECKED NrStatus nr_receive(const NrEntry *table, size_t table_len, const NrSettings *settings, uint32_t a, const NrTx *txs,
                               size_t txs_len, const uint8_t *heard, size_t heard_len, uint32_t *outcomes, size_t outcomes_len,
                               uint32_t *left, size_t left_len, uint8_t *block, size_t block_len);

/* Does what nr_receive does, with eight places an octet, the first place highest. In `known` a place that was received has a 1 and
   an erased one a 0; in `bits` a received place has its bit, and an erased one anything. In both, each transmission begins with a
   new octet and has (g + 7) / 8 of them, the last of which may be filled with anything. LENGTH means that either has too few
   octets or too many.
   Errors: TABLE, SIZE, RATE_RANGE, UNEVEN, ROOM, GRAPH, NO_BUFFER; for each transmission LENGTH, TRANSMISSION; LENGTH; MEMORY at
   any point. */
NR_CHECKED NrStatus nr_receive_packed(const NrEntry *table, size_t table_len, const NrSettings *settings, uint32_t a,
                                      const NrTx *txs, size_t txs_len, const uint8_t *bits, size_t bits_len, const uint8_t *known,
                                      size_t known_len, uint32_t *outcomes, size_t outcomes_len, uint32_t *left, size_t left_len,
                                      uint8_t *block, size_t block_len);

/* Receives `count` transport blocks of `a` bits, and prepares the table only once. `heard`, `outcomes`, `left` and `blocks` have a
   row for each block, of as many elements as nr_receive expects for one. MANY means more than 1,000 transmissions; LENGTH that
   `heard` does not have count rows.
   Errors: TABLE, MANY, SIZE, RATE_RANGE, UNEVEN, ROOM, LENGTH, GRAPH, NO_BUFFER; for each transmission TRANSMISSION; MEMORY at
   any point. */
NR_CHECKED NrStatus nr_receive_many(const NrEntry *table, size_t table_len, const NrSettings *settings, uint32_t a,
                                    const NrTx *txs, size_t txs_len, size_t count, const uint8_t *heard, size_t heard_len,
                                    uint32_t *outcomes, size_t outcomes_len, uint32_t *left, size_t left_len, uint8_t *blocks,
                                    size_t blocks_len);

/* A receiver that takes one transmission a call keeps its HARQ buffer in memory of the caller, the room. A room is plain data: it
   may be copied, written to a file and sent elsewhere, so sixteen HARQ processes are sixteen rooms. It holds an octet for each
   codeword bit, and records for which table, block size and buffer limit it was started. Keep a room no longer than one version of
   the library is used: another version may reject it with NR_ERR_STATE. */

/* Computes the octets of a room for transport blocks of `a` bits: C (N + 2 Zc + 1) + 32. Allocates nothing.
   Errors: SIZE, RATE_RANGE, UNEVEN. */
NR_CHECKED NrStatus nr_receiver_size(uint32_t rate2048, uint32_t a, size_t *out);

/* Starts a receiver that has received nothing. `room_len` must equal what nr_receiver_size returned.
   Errors: TABLE, SIZE, RATE_RANGE, UNEVEN, ROOM, GRAPH, NO_BUFFER; MEMORY at any point. */
NR_CHECKED NrStatus nr_receiver_start(const NrEntry *table, size_t table_len, const NrSettings *settings, uint32_t a,
                                      uint8_t *room, size_t room_len);

/* Receives one transmission, whose g places are in `heard`, and adds it to the room. `outcome` gets the NrOutcome of everything the
   room has received, the same as nr_receive returns for all of the transmissions; `left` and `block` are those of nr_receive.
   Decoding starts afresh in each call, so that one nr_receive of several transmissions is faster. LENGTH means that heard_len is
   not tx->g.
   Errors: TABLE, SIZE, RATE_RANGE, UNEVEN, ROOM, GRAPH, NO_BUFFER, STATE, TRANSMISSION, LENGTH; MEMORY at any point. */
NR_CHECKED NrStatus nr_receiver_take(const NrEntry *table, size_t table_len, const NrSettings *settings, uint32_t a,
                                     uint8_t *room, size_t room_len, const NrTx *tx, const uint8_t *heard, size_t heard_len,
                                     uint32_t *outcome, uint32_t *left, size_t left_len, uint8_t *block, size_t block_len);

/* Erases random places, each with probability threshold / 2^32: sets octet m to NR_BIT_ERASED if output m of a generator, from 0,
   is below the threshold. The generator is PCG-XSH-RR 64/32 from `seed` on stream 54, as for pcg:seed:threshold in a schedule of
   linksim. Allocates nothing and always returns NR_OK. */
NR_CHECKED NrStatus nr_erase(uint64_t seed, uint32_t threshold, uint8_t *heard, size_t heard_len);

/* Simulates rounds of a transport block of `a` bits over a link that erases random places. A round sends `txs` in turn until the
   block is delivered. Transmission k of round i is erased as nr_erase erases with seeds[i * txs_len + k] and thresholds[k]. No
   block is given, because over erasures the result depends on the places alone and is the same for every block. delivered_len is
   the number of rounds, which are independent, so that threads may share them out. Ask for multiples of 64: rounds are decoded 64
   at once, and fewer take about as long. Memory for 64 rounds is 8 octets for each codeword bit (55 MB for 344 code blocks), 8 for
   each place of the longest code block, 512 for each code block of a transmission, and as much as the results. `delivered` gets,
   for each round, the number of transmissions after which the block was delivered, or 0. `left` and `erased` get seeds_len * C
   numbers, by round, transmission and code block: how many of the K' bits were unknown after that transmission, and how many places
   that transmission erased. Both are 0 for transmissions after the delivery, which are not sent. MANY means more than 1,000
   transmissions; LENGTH that thresholds_len is not txs_len, or seeds_len not delivered_len * txs_len.
   Errors: TABLE, SIZE, RATE_RANGE, UNEVEN, MANY, LENGTH, ROOM, GRAPH, NO_BUFFER; for each transmission TRANSMISSION; MEMORY at
   any point. */
NR_CHECKED NrStatus nr_simulate(const NrEntry *table, size_t table_len, const NrSettings *settings, uint32_t a, const NrTx *txs,
                                size_t txs_len, const uint32_t *thresholds, size_t thresholds_len, const uint64_t *seeds,
                                size_t seeds_len, uint32_t *delivered, size_t delivered_len, uint32_t *left, size_t left_len,
                                uint32_t *erased, size_t erased_len);

#ifdef NR_SHORT_NAMES
#include "nr_short_names.h"
#endif

#ifdef __cplusplus
}
#endif

#endif
