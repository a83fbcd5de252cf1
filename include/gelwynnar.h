/* Gelwynnar for C99 and C++: a proved packet buffer, one slot at a time or many, in memory that the caller lends.
 *
 *     static gel_buffer buffer;                              // about 20 KB; no heap, no copy
 *     static uint8_t store[2 * 4 * 2];                       // Q x K x b bytes of slow store
 *     if (gel_buffer_open(&buffer, 2, 2, 4) != 0) ...        // 1: sizes outside the limits
 *     gel_answer a = gel_buffer_slot(&buffer, gel_both(1, 'x', 0), store, sizeof store);
 *     if (a.number == 0 && a.delivers) printf("byte %d of queue %d\n", a.value, a.queue);
 *
 * Link with libgelwynnar.a (rt lib in crates/gelwynnar), on x86-64. What each function promises is its contract in
 * crates/gelwynnar/src, proved over the paper's own slot (crates/model/specs); this page says it in a sentence.
 *
 * Q queues, 1 to 64; b bytes to a block, 1 to 128; K blocks of slow store to a queue, 1 to 255; Q(b - 1) at most 2,016.
 * From a fresh buffer a byte that is asked for leaves exactly L = Q(b - 1) + 1 accepted slots later, whatever happens.
 * A slot that ran without a half is an accepted one.
 *
 * The numbers are the paper's. 0 is accepted. 5 and 7 drop their half of a slot, which runs without it (`dropped`,
 * below); with any other number a call did nothing at all.
 *    1  sizes outside the limits                       8  the byte that is due is not in the head cache
 *    2  the store is under Q x K x b bytes             9  the arrival does not fit the tail cache
 *    3  the state breaks a rule                       10  the block to read does not fit the head cache
 *    4  the arrival's queue is Q or more              11  no block for this line rate and memory grade
 *    5  the arrival's queue is full                   12  an unknown command
 *    6  the request's queue is Q or more              13  a command's operands are cut short
 *    7  the request's queue has no byte left to ask   14  the first command is not sizes, or sizes come again
 *                                                     15  no command where one is due, or bytes after the end
 *                                                     16  a command, or a capture's script, does not fit the output
 *                                                     17  no header of a capture, or another than is read here
 *                                                     18  a record cut short, or of over 9,016 captured bytes
 *                                                     19  fewer than 8 queues for a capture
 * 5 does not come to a slot that asks for the same queue and takes an older byte of it from the tail cache, which makes
 * room for the arrival. Where the byte that it asks for is in slow store or in the head cache, or would be the arriving
 * one, 5 comes. 7 is judged without an arrival that was dropped, so that both may come together. 4 and 6 look at the
 * call as it came, 9 and 10 at what is left of it. What stops a slot is its only answer: no 5 or 7 comes with it.
 * 8, 9 and 10 come on states that were handed in, and never from a fresh buffer. */
#ifndef GELWYNNAR_H
#define GELWYNNAR_H

#include <stddef.h>
#include <stdint.h>

#if SIZE_MAX != 0xffffffffffffffff
#error "the library is for size_t of 64 bits"
#endif

#ifdef __cplusplus
extern "C" {
#endif

/* The interface that this page describes. A caller that may meet another library asks gel_version() first. What is not
 * as in 1:
 *    2: some slots are accepted that 1 refused with 5 (see there);
 *    3: a ninth register, the queue that the round robin arbiter asked last; and gel_arbiter_slot and gel_arbiter_step,
 *       in which it chooses the request;
 *    4: 5 and 7 no longer refuse a slot: it runs without that half, answers 0, and `dropped` tells what it dropped;
 *       gel_judge answers a gel_judgement, which tells it too. A script prints a line for each;
 *    5: `slots_left` of an answer and of its word is no longer 0 at a read, a script prints a line M for each, and
 *       gel_script_run asks for more output. */
#define GEL_VERSION 5

uint32_t gel_version(void);

/* ---- The buffer ------------------------------------------------------------------------------------------------ */

/* How long the arrays of a buffer are. */
#define GEL_REGS 9
#define GEL_TAIL_PLACES 2144
#define GEL_HEAD_PLACES 4034
#define GEL_CELL_PLACES 2017
#define GEL_QUEUE_PLACES 64

/* The registers, by their place in `regs`: Q, b, K, the phase, the bytes in each cache, the high marks, each the
 * greatest fill of its cache since the buffer was opened, and the queue that the round robin arbiter asked last, which
 * is below Q, and Q - 1 in a fresh buffer. */
enum gel_reg {
    GEL_QUEUES,
    GEL_BLOCK,
    GEL_DEPTH,
    GEL_PHASE,
    GEL_TAIL_FILL,
    GEL_HEAD_FILL,
    GEL_TAIL_MARK,
    GEL_HEAD_MARK,
    GEL_LAST_ASKED
};

/* A buffer: the state of the paper, and beside it counts by queue, which are the library's own. A copy of it and of the
 * store is a place to come back to. */
typedef struct gel_buffer {
    size_t regs[GEL_REGS];
    uint16_t tail[GEL_TAIL_PLACES];    /* queue x 256 + value, oldest first, up to the fill */
    uint16_t head[GEL_HEAD_PLACES];    /* the same */
    uint32_t cells[GEL_CELL_PLACES];   /* kind (0 empty, 1 Held, 2 Owed) x 65,536 + queue x 256 + value, oldest first */
    uint8_t firsts[GEL_QUEUE_PLACES];  /* of each queue the first block of its ring */
    uint8_t stored[GEL_QUEUE_PLACES];  /* .. and how many blocks it has there */
    uint16_t tails[GEL_QUEUE_PLACES];  /* counts by queue: tail bytes, */
    uint16_t heads[GEL_QUEUE_PLACES];  /* head bytes, */
    uint16_t owing[GEL_QUEUE_PLACES];  /* and Owed cells */
} gel_buffer;

/* What a slot is asked: one word. Bits 0-7 the value that arrives, 8-23 its queue, 24 whether a byte arrives, 25-40 the
 * queue asked, 41 whether one is asked; the others are to be 0, though this version does not look at them. A queue that
 * there is not is refused (4 or 6). */
static inline uint64_t gel_nothing(void) { return 0; }
static inline uint64_t gel_arrive(uint16_t queue, uint8_t value) {
    return (uint64_t)1 << 24 | (uint64_t)queue << 8 | value;
}
static inline uint64_t gel_ask(uint16_t queue) { return (uint64_t)1 << 41 | (uint64_t)queue << 25; }
static inline uint64_t gel_both(uint16_t queue, uint8_t value, uint16_t asked) {
    return gel_arrive(queue, value) | gel_ask(asked);
}

/* What a slot answers. Where `number` is not 0, the slot did not happen and all other fields are 0. A half that is
 * dropped never came: the slot is that of the call without it, and is accepted. Where a slot reads a block, the nth
 * accepted slot after it delivers a byte of that queue, n being `slots_left`. */
typedef struct gel_answer {
    uint8_t number;      /* 0, or what stopped the slot; never 5 or 7 */
    uint8_t dropped;     /* bit 0: the arrival was dropped (5), bit 1: the request was (7) */
    uint8_t delivers;    /* 1 where a byte leaves: `value` of `queue`; else 0, and so are they */
    uint8_t writes;      /* 1 where a block of `written` went to the slow store */
    uint8_t reads;       /* 1 where a block of `read` came from it */
    uint8_t value;
    uint16_t queue;
    uint16_t written;
    uint16_t read;
    uint32_t slots_left; /* at a read: in how many slots the cell leaves that the block was for, 1 to L; else 0 */
} gel_answer;

/* The same as one word, for runs of many slots. Bits 0-7 the value delivered, 8-17 its queue, 18 whether there is one;
 * 19-28 the queue written, 29 whether one was; 30-39 the queue read, 40 whether one was; 41-53 slots left; 54 and 55
 * whether the arrival and the request were dropped; 56-63 the number. */
static inline gel_answer gel_answer_of(uint64_t word) {
    gel_answer a;
    a.number = (uint8_t)(word >> 56);
    a.dropped = (uint8_t)(word >> 54 & 3);
    a.delivers = (uint8_t)(word >> 18 & 1);
    a.writes = (uint8_t)(word >> 29 & 1);
    a.reads = (uint8_t)(word >> 40 & 1);
    a.value = (uint8_t)word;
    a.queue = (uint16_t)(word >> 8 & 1023);
    a.written = (uint16_t)(word >> 19 & 1023);
    a.read = (uint16_t)(word >> 30 & 1023);
    a.slots_left = (uint32_t)(word >> 41 & 8191);
    return a;
}

/* What is judged of a slot: `number` and `dropped` as in its answer. */
typedef struct gel_judgement {
    uint8_t number;
    uint8_t dropped;
} gel_judgement;

/* What a slot answers in which the round robin arbiter chooses: as any slot, and the queue that it asked. */
typedef struct gel_arbiter_answer {
    gel_answer slot;
    uint8_t asks;        /* 1 where the slot is accepted and asked for `asked`; else both are 0 */
    uint16_t asked;
} gel_arbiter_answer;

/* What a stretch of idle slots answers: how many were tried, and what the last of them answered. All before it were
 * accepted, and neither delivered nor moved. */
typedef struct gel_stretch {
    size_t passed;
    gel_answer last;
} gel_stretch;

/* Every function below takes the arrays of one buffer, each as long as in gel_buffer. A pointer and the number behind
 * it are one slice; where the number is 0, the pointer may be NULL. No array and no slice overlaps another one: the
 * answers of a run do not go over its calls. Nothing is kept after the call.
 *
 * gel_slot, gel_arbiter_slot, gel_run and gel_idle take whatever lies in the arrays, the counts by queue too. Where the
 * state keeps the rules, they leave the counts right, so that gel_step or gel_arbiter_step may follow; where it breaks
 * one, which is 3, as they came. */

/* A fresh buffer of Q queues, b bytes to a block, K blocks of slow store to a queue: 0; or 1, with nothing changed. */
uint8_t gel_open(size_t queues, size_t block, size_t depth, size_t *regs, uint16_t *tail, uint16_t *head,
                 uint32_t *cells, uint8_t *firsts, uint8_t *stored, uint16_t *tails, uint16_t *heads, uint16_t *owing);

/* One slot, whatever lies in the arrays and in the store: 3 and 2 are judged. On a refusal the registers, the five
 * arrays of the state and the store are as they came, places past a fill included. */
gel_answer gel_slot(size_t *regs, uint16_t *tail, uint16_t *head, uint32_t *cells, uint8_t *firsts, uint8_t *stored,
                    uint16_t *tails, uint16_t *heads, uint16_t *owing, uint64_t call, uint8_t *store,
                    size_t store_bytes);

/* The same slot, not judging 3 and 2, which is quicker. The caller owes two things: only this library has written the
 * arrays since gel_open answered 0, or since gel_slot, gel_arbiter_slot, gel_run or gel_idle of a slot or more answered
 * neither 3 nor 2 (or they are a whole copy of such); and the store has Q x K x b bytes or more. Without them the step
 * is undefined. */
gel_answer gel_step(size_t *regs, uint16_t *tail, uint16_t *head, uint32_t *cells, uint8_t *firsts, uint8_t *stored,
                    uint16_t *tails, uint16_t *heads, uint16_t *owing, uint64_t call, uint8_t *store,
                    size_t store_bytes);

/* One slot in which the round robin arbiter chooses the request: of the call's word only the arrival is looked at. It
 * asks for the next queue, counting up from the last one asked (regs[GEL_LAST_ASKED]) and wrapping, that has an
 * unrequested byte, this slot's arrival counted unless its queue is full; where none has, the slot has no request. Then
 * it is gel_slot with that request, whatever lies in the arrays and in the store, and 6 and 7 never come. The last one
 * asked moves only where the slot is accepted and a queue was asked; a request of the caller's own leaves it.
 * If from then on every slot is the arbiter's, a queue with an unrequested byte is asked within Q accepted slots, that
 * slot included, and its front byte leaves at most Q - 1 + L accepted slots later, if so many come. */
gel_arbiter_answer gel_arbiter_slot(size_t *regs, uint16_t *tail, uint16_t *head, uint32_t *cells, uint8_t *firsts,
                                    uint8_t *stored, uint16_t *tails, uint16_t *heads, uint16_t *owing, uint64_t call,
                                    uint8_t *store, size_t store_bytes);

/* The same slot, not judging 3 and 2, which is quicker. The caller owes what he owes to gel_step. */
gel_arbiter_answer gel_arbiter_step(size_t *regs, uint16_t *tail, uint16_t *head, uint32_t *cells, uint8_t *firsts,
                                    uint8_t *stored, uint16_t *tails, uint16_t *heads, uint16_t *owing, uint64_t call,
                                    uint8_t *store, size_t store_bytes);

/* Many slots, as gel_slot one after the other: as many as there are calls and places for their answers, refused ones
 * included. 0, or 3 or 2, which then each of them answers; that is judged of no slots too. */
uint8_t gel_run(size_t *regs, uint16_t *tail, uint16_t *head, uint32_t *cells, uint8_t *firsts, uint8_t *stored,
                uint16_t *tails, uint16_t *heads, uint16_t *owing, const uint64_t *calls, size_t calls_count,
                uint64_t *answers, size_t answers_count, uint8_t *store, size_t store_bytes);

/* At most so many idle slots, by the count: at the latest up to and with the first that delivers, moves or is refused,
 * so that none of these is lost. Of 0 slots none is tried: 0 passed, and the answer is 0, whatever the state. */
gel_stretch gel_idle(size_t *regs, uint16_t *tail, uint16_t *head, uint32_t *cells, uint8_t *firsts, uint8_t *stored,
                     uint16_t *tails, uint16_t *heads, uint16_t *owing, size_t slots, uint8_t *store,
                     size_t store_bytes);

/* The number that gel_slot would answer with a store of so many bytes, and what it would drop. Nothing changes. */
gel_judgement gel_judge(const size_t *regs, const uint16_t *tail, const uint16_t *head, const uint32_t *cells,
                        const uint8_t *firsts, const uint8_t *stored, uint64_t call, size_t store_bytes);

/* The margin of a queue: its head bytes less its Owed cells. Below zero the queue is critical. */
int32_t gel_margin(const size_t *regs, const uint16_t *head, const uint32_t *cells, uint16_t queue);

/* The same over one object. */
static inline uint8_t gel_buffer_open(gel_buffer *g, size_t queues, size_t block, size_t depth) {
    return gel_open(queues, block, depth, g->regs, g->tail, g->head, g->cells, g->firsts, g->stored, g->tails,
                    g->heads, g->owing);
}
static inline gel_answer gel_buffer_slot(gel_buffer *g, uint64_t call, uint8_t *store, size_t store_bytes) {
    return gel_slot(g->regs, g->tail, g->head, g->cells, g->firsts, g->stored, g->tails, g->heads, g->owing, call,
                    store, store_bytes);
}
static inline gel_answer gel_buffer_step(gel_buffer *g, uint64_t call, uint8_t *store, size_t store_bytes) {
    return gel_step(g->regs, g->tail, g->head, g->cells, g->firsts, g->stored, g->tails, g->heads, g->owing, call,
                    store, store_bytes);
}
static inline gel_arbiter_answer gel_buffer_arbiter_slot(gel_buffer *g, uint64_t call, uint8_t *store,
                                                         size_t store_bytes) {
    return gel_arbiter_slot(g->regs, g->tail, g->head, g->cells, g->firsts, g->stored, g->tails, g->heads, g->owing,
                            call, store, store_bytes);
}
static inline gel_arbiter_answer gel_buffer_arbiter_step(gel_buffer *g, uint64_t call, uint8_t *store,
                                                         size_t store_bytes) {
    return gel_arbiter_step(g->regs, g->tail, g->head, g->cells, g->firsts, g->stored, g->tails, g->heads, g->owing,
                            call, store, store_bytes);
}
static inline uint8_t gel_buffer_run(gel_buffer *g, const uint64_t *calls, uint64_t *answers, size_t count,
                                     uint8_t *store, size_t store_bytes) {
    return gel_run(g->regs, g->tail, g->head, g->cells, g->firsts, g->stored, g->tails, g->heads, g->owing, calls,
                   count, answers, count, store, store_bytes);
}
static inline gel_stretch gel_buffer_idle(gel_buffer *g, size_t slots, uint8_t *store, size_t store_bytes) {
    return gel_idle(g->regs, g->tail, g->head, g->cells, g->firsts, g->stored, g->tails, g->heads, g->owing, slots,
                    store, store_bytes);
}
static inline gel_judgement gel_buffer_judge(const gel_buffer *g, uint64_t call, size_t store_bytes) {
    return gel_judge(g->regs, g->tail, g->head, g->cells, g->firsts, g->stored, call, store_bytes);
}
static inline int32_t gel_buffer_margin(const gel_buffer *g, uint16_t queue) {
    return gel_margin(g->regs, g->head, g->cells, queue);
}

/* ---- Sizes ----------------------------------------------------------------------------------------------------- */

/* What a line card needs: the lookahead in cells, which is also the delay in slots, and the memories in bytes. */
typedef struct gel_memories {
    size_t lookahead;
    size_t tail;
    size_t head;
    size_t store;
} gel_memories;

/* The memories of Q queues, b bytes to a block, K blocks to a queue; all 0 where these sizes are refused (1). */
gel_memories gel_memory_sizes(size_t queues, size_t block, size_t depth);

/* The bytes of a block at a line rate of 1 to 100 Gb/s and a memory grade of 0 to 15, whose cycle takes 5 * (grade + 1)
 * ns: rate * cycle / 4, rounded up. 0 where the rule refuses them (11): a number outside its range, or a block over 128
 * bytes. */
size_t gel_block_size(size_t rate, size_t grade);

/* ---- Scripts --------------------------------------------------------------------------------------------------- */

/* A command as numbers, 0 for each operand that it does not have:
 *    0x10  sizes: Q, b, K                       0x03  a slot with both: queue, byte, queue asked
 *    0x00  an idle slot                         0x04  as many idle slots: count
 *    0x01  a slot with an arrival: queue, byte  0x05  the end
 *    0x02  a slot with a request: queue */
typedef struct gel_command {
    uint16_t code;
    uint16_t one;
    uint16_t two;
    uint16_t three;
} gel_command;

/* A script judged: 0, or the number of its first fault (12 to 15) and the offset of its place. */
typedef struct gel_fault {
    size_t offset;
    uint8_t number;
} gel_fault;

/* A command read: 0, the command and how many bytes it has; or the refusal (12 to 15) and zeros. */
typedef struct gel_reading {
    size_t length;
    gel_command command;
    uint8_t number;
} gel_reading;

/* A command or a whole script written: 0 and how many bytes it has; or the refusal and 0. */
typedef struct gel_writing {
    size_t length;
    uint8_t number;
} gel_writing;

/* A whole script, before any slot runs. */
gel_fault gel_script_judge(const uint8_t *script, size_t script_bytes);

/* The command at the front of what is left of a script; `first` is not 0 where it is to be the script's first. */
gel_reading gel_script_read(const uint8_t *rest, size_t rest_bytes, uint8_t first);

/* A command at the front of the output: it reads back as itself. 12 where the code is none; 16 where an operand is too
 * wide for the command, or is one that it does not have and not 0, or where the command does not fit the output. On a
 * refusal the output is as it came. */
gel_writing gel_script_write(gel_command command, uint8_t *output, size_t output_bytes);

/* How many bytes of output gel_script_run asks for a script of so many bytes: 720,907 are enough for any. */
size_t gel_script_output(size_t script_bytes);

/* A script run on a store: how many bytes of lines it printed, 1 or more; or 0, with nothing touched, where the output
 * is shorter than gel_script_output of the script's bytes. The lines are `D t q v` for a byte v of queue q that leaves
 * in slot t, `R t n` for a number n, `M t q n` for a block of queue q that is read with n slots left, last `E t` with
 * the slots accepted; or `S n offset` alone for a script with a fault. A slot prints its D first, then R with 5, then R
 * with 7, then M, each with its own t; one that is stopped prints one R, with the t of the slot that would have run. */
size_t gel_script_run(const uint8_t *script, size_t script_bytes, uint8_t *store, size_t store_bytes, uint8_t *output,
                      size_t output_bytes);

/* A capture as a script of Q, b and K at the front of the output: the sizes, an arrival for each captured byte, the
 * end. A capture is the bytes of a classic pcap file in its little-endian form (it begins D4 C3 B2 A1), version 2.4,
 * link type 1, which is Ethernet. A frame's bytes go to the queue of its 802.1Q priority, which is the top three bits
 * of its byte 14 (counted from 0), where its bytes 12 and 13 are 81 00 and 15 bytes or more were captured, and else to
 * queue 0. n captured bytes make a script of 5 + 3n, and an output of three times the capture's bytes always has room.
 * The script reads well, and no slot of it answers 4; an arrival to a full queue is dropped (5). gel_script_run takes
 * scripts of at most 65,536 bytes, which is 21,843 captured bytes.
 * On a refusal the output is as it came: 1, 19, 17, 18, 16, tested in this order, so that with an output of no bytes 16
 * says that all else is good. Of a longer output the bytes behind the script stay. */
gel_writing gel_capture_to_script(size_t queues, size_t block, size_t depth, const uint8_t *capture,
                                  size_t capture_bytes, uint8_t *output, size_t output_bytes);

#ifdef __cplusplus
}
#endif
#endif
