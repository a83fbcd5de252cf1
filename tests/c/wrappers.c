/* The library as a C or C++ caller meets it: every function of include/gelwynnar.h at least once, inline ones included.
 * A line for each failure; the last line is 'N passed, M failed', and the exit status 0 only where M is 0. */
#include <stdio.h>
#include <string.h>

#include "gelwynnar.h"

static int passed, failed;

#define CHECK(what) check((what) ? 1 : 0, #what, __LINE__)

static void check(int holds, const char *what, int line) {
    if (holds) {
        passed++;
    } else {
        failed++;
        printf("tests/c/wrappers.c:%d: not so: %s\n", line, what);
    }
}

/* ---- The nine slots of the README's table: Q = 2, b = 2, K = 4 ------------------------------------------------- */

enum { SLOTS = 9, STORE = 2 * 4 * 2 };

static gel_buffer by_slot, by_step, by_run, other;
static uint8_t slot_store[STORE], step_store[STORE], run_store[STORE], other_store[STORE];
static uint64_t calls[SLOTS], words[SLOTS], other_words[SLOTS];

/* What each slot answers: number, dropped, delivers, writes, reads, value, queue, written, read, slots left. */
static const gel_answer table[SLOTS] = {
    {0, 0, 0, 0, 0, 0, 0, 0, 0, 0},   {0, 0, 0, 1, 0, 0, 0, 0, 0, 0},  {0, 0, 0, 0, 0, 0, 0, 0, 0, 0},
    {0, 0, 0, 0, 1, 0, 0, 0, 0, 2},   {0, 0, 0, 0, 0, 0, 0, 0, 0, 0},  {0, 0, 1, 0, 0, 'a', 0, 0, 0, 0},
    {0, 0, 1, 0, 0, 'x', 1, 0, 0, 0}, {0, 0, 1, 0, 0, 'b', 0, 0, 0, 0}, {0, 0, 1, 0, 0, 'y', 1, 0, 0, 0},
};

static const gel_answer nothing = {0, 0, 0, 0, 0, 0, 0, 0, 0, 0};

static int same(gel_answer a, gel_answer b) {
    return a.number == b.number && a.dropped == b.dropped && a.delivers == b.delivers && a.writes == b.writes &&
           a.reads == b.reads && a.value == b.value && a.queue == b.queue && a.written == b.written &&
           a.read == b.read && a.slots_left == b.slots_left;
}

/* A slot is judged so: its number, and what it would drop. */
static int judges(const gel_buffer *g, uint64_t call, size_t bytes, uint8_t number, uint8_t dropped) {
    gel_judgement j = gel_buffer_judge(g, call, bytes);
    return j.number == number && j.dropped == dropped;
}

/* The same answer with these halves dropped: 1 is the arrival, 2 the request, 3 both. */
static gel_answer with_dropped(gel_answer a, uint8_t dropped) {
    a.dropped = dropped;
    return a;
}

/* An answer that is what stops the slot and nothing else. */
static int refused(gel_answer a, uint8_t number) {
    gel_answer b = nothing;
    b.number = number;
    return same(a, b);
}

static int same_buffer(const gel_buffer *a, const gel_buffer *b) { return memcmp(a, b, sizeof *a) == 0; }

/* The same state and counts, whatever lies in places that do not count. */
static int alike(const gel_buffer *a, const gel_buffer *b) {
    const size_t *r = a->regs;
    size_t queues = r[GEL_QUEUES], cells = queues * (r[GEL_BLOCK] - 1) + 1;
    return memcmp(r, b->regs, sizeof a->regs) == 0 &&
           memcmp(a->tail, b->tail, r[GEL_TAIL_FILL] * sizeof a->tail[0]) == 0 &&
           memcmp(a->head, b->head, r[GEL_HEAD_FILL] * sizeof a->head[0]) == 0 &&
           memcmp(a->cells, b->cells, cells * sizeof a->cells[0]) == 0 &&
           memcmp(a->firsts, b->firsts, queues * sizeof a->firsts[0]) == 0 &&
           memcmp(a->stored, b->stored, queues * sizeof a->stored[0]) == 0 &&
           memcmp(a->tails, b->tails, queues * sizeof a->tails[0]) == 0 &&
           memcmp(a->heads, b->heads, queues * sizeof a->heads[0]) == 0 &&
           memcmp(a->owing, b->owing, queues * sizeof a->owing[0]) == 0;
}

static void set_calls(void) {
    calls[0] = gel_arrive(0, 'a');
    calls[1] = gel_arrive(0, 'b');
    calls[2] = gel_both(1, 'x', 0);
    calls[3] = gel_both(1, 'y', 1);
    calls[4] = gel_ask(0);
    calls[5] = gel_ask(1);
    calls[6] = calls[7] = calls[8] = gel_nothing();
}

static void nine_slots(void) {
    static gel_buffer kept;
    static uint8_t kept_store[STORE];
    set_calls();
    CHECK(gel_buffer_open(&by_slot, 2, 2, 4) == 0);
    CHECK(gel_buffer_open(&by_step, 2, 2, 4) == 0);
    CHECK(gel_buffer_open(&by_run, 2, 2, 4) == 0);
    CHECK(gel_buffer_run(&by_run, calls, words, SLOTS, run_store, STORE) == 0);
    for (int t = 0; t < SLOTS; t++) {
        CHECK(judges(&by_slot, calls[t], STORE, 0, 0));
        CHECK(same(gel_buffer_slot(&by_slot, calls[t], slot_store, STORE), table[t]));
        CHECK(same(gel_buffer_step(&by_step, calls[t], step_store, STORE), table[t]));
        CHECK(same(gel_answer_of(words[t]), table[t]));
        CHECK(alike(&by_slot, &by_step) && memcmp(slot_store, step_store, STORE) == 0);
        if (t == 2) { /* one Owed cell of queue 0, and no head byte; 256 is another queue, which there is not */
            CHECK(gel_buffer_margin(&by_slot, 0) == -1);
            CHECK(gel_buffer_margin(&by_slot, 1) == 0);
            CHECK(gel_buffer_margin(&by_slot, 256) == 0);
        }
        if (t == 3) { /* two head bytes */
            CHECK(gel_buffer_margin(&by_slot, 0) == 1);
            CHECK(by_slot.regs[GEL_HEAD_FILL] == 2 && by_slot.regs[GEL_TAIL_FILL] == 1);
            CHECK(by_slot.heads[0] == 2 && by_slot.tails[1] == 1 && by_slot.owing[0] == 1);
            CHECK(by_slot.head[0] == 'a' && by_slot.head[1] == 'b' && by_slot.tail[0] == 256 + 'y');
            CHECK(by_slot.cells[0] == 0 && by_slot.cells[1] == 2 * 65536 && by_slot.cells[2] == 65536 + 256 + 'x');
            CHECK(by_slot.firsts[0] == 1 && by_slot.stored[0] == 0);
            kept = by_slot;
            memcpy(kept_store, slot_store, STORE);
            CHECK(gel_buffer_open(&other, 2, 2, 4) == 0);
            CHECK(gel_buffer_run(&other, calls, other_words, 4, other_store, STORE) == 0 && alike(&by_slot, &other));
        }
    }
    CHECK(by_slot.regs[GEL_QUEUES] == 2 && by_slot.regs[GEL_BLOCK] == 2 && by_slot.regs[GEL_DEPTH] == 4);
    CHECK(by_slot.regs[GEL_PHASE] == 1);
    CHECK(by_slot.regs[GEL_TAIL_FILL] == 0 && by_slot.regs[GEL_HEAD_FILL] == 0);
    CHECK(by_slot.regs[GEL_TAIL_MARK] == 2 && by_slot.regs[GEL_HEAD_MARK] == 2);
    CHECK(by_slot.regs[GEL_LAST_ASKED] == 1);
    CHECK(alike(&by_slot, &by_run) && memcmp(slot_store, run_store, STORE) == 0);
    CHECK(slot_store[0] == 'a' && slot_store[1] == 'b');
    /* A place to come back to. */
    for (int t = 4; t < SLOTS; t++) {
        CHECK(same(gel_buffer_step(&kept, calls[t], kept_store, STORE), table[t]));
    }
}

/* ---- What is refused ------------------------------------------------------------------------------------------- */

static void sizes_refused(void) {
    other = by_slot;
    CHECK(gel_buffer_open(&other, 0, 2, 4) == 1 && gel_buffer_open(&other, 65, 1, 1) == 1);
    CHECK(gel_buffer_open(&other, 2, 129, 4) == 1 && gel_buffer_open(&other, 2, 2, 256) == 1);
    CHECK(gel_buffer_open(&other, 64, 33, 1) == 1 && gel_buffer_open(&other, SIZE_MAX, SIZE_MAX, SIZE_MAX) == 1);
    CHECK(same_buffer(&other, &by_slot));
    CHECK(gel_buffer_open(&other, 64, 32, 255) == 0 && other.regs[GEL_LAST_ASKED] == 63);
    CHECK(gel_buffer_open(&other, 1, 1, 1) == 0 && other.regs[GEL_LAST_ASKED] == 0);
}

/* A slot of `other` with this call is stopped so, by judging too, and all is as it came. */
static int refuses(uint64_t call, uint8_t number) {
    static gel_buffer before;
    uint8_t store[STORE];
    before = other;
    memcpy(store, other_store, STORE);
    return judges(&other, call, STORE, number, 0) &&
           refused(gel_buffer_slot(&other, call, other_store, STORE), number) && same_buffer(&other, &before) &&
           memcmp(store, other_store, STORE) == 0;
}

static void slots_refused(void) {
    CHECK(gel_buffer_open(&other, 2, 2, 4) == 0);
    CHECK(refuses(gel_arrive(2, 'z'), 4) && refuses(gel_ask(2), 6));
    CHECK(refuses(gel_arrive(256, 'z'), 4) && refuses(gel_ask(256), 6));
    CHECK(refuses(gel_arrive(65535, 'z'), 4) && refuses(gel_ask(65535), 6));
    CHECK(refuses(gel_both(256, 'z', 256), 4) && refuses(gel_both(0, 'z', 256), 6));
    CHECK(refused(gel_buffer_step(&other, gel_arrive(256, 'z'), other_store, STORE), 4));
    CHECK(refused(gel_buffer_step(&other, gel_ask(256), other_store, STORE), 6));
    /* A store that is too short, and none at all. */
    CHECK(refused(gel_buffer_slot(&other, gel_arrive(0, 'z'), other_store, STORE - 1), 2));
    CHECK(refused(gel_buffer_slot(&other, gel_arrive(256, 'z'), NULL, 0), 2));
    CHECK(judges(&other, gel_nothing(), STORE - 1, 2, 0) && judges(&other, gel_nothing(), 0, 2, 0));
    /* A state that breaks a rule. */
    CHECK(gel_buffer_open(&other, 2, 2, 4) == 0);
    other.regs[GEL_LAST_ASKED] = 2;
    CHECK(refuses(gel_nothing(), 3));
    other.regs[GEL_LAST_ASKED] = 0;
    CHECK(same(gel_buffer_slot(&other, gel_nothing(), other_store, STORE), nothing) && other.regs[GEL_LAST_ASKED] == 0);
    CHECK(gel_buffer_open(&other, 2, 2, 4) == 0);
    other.regs[GEL_PHASE] = 2;
    other.tails[0] = 77;
    CHECK(refuses(gel_nothing(), 3) && refuses(gel_arrive(256, 'z'), 3));
    CHECK(refused(gel_buffer_slot(&other, gel_nothing(), NULL, 0), 3));
    CHECK(gel_buffer_run(&other, calls, words, 2, other_store, STORE) == 3);
    CHECK(refused(gel_answer_of(words[0]), 3) && refused(gel_answer_of(words[1]), 3));
    CHECK(refused(gel_buffer_idle(&other, 5, other_store, STORE).last, 3));
}

/* A slot of `other` with this call runs as one with what is left of it, and tells what was dropped: as a slot, as a
 * step and in a run, whose word is in words[0]; and nothing stops it, by judging too. */
static int runs_without(uint64_t call, uint64_t left, uint8_t dropped) {
    gel_answer wanted;
    int judged = judges(&other, call, STORE, 0, dropped);
    by_slot = by_step = by_run = other;
    memcpy(slot_store, other_store, STORE);
    memcpy(step_store, other_store, STORE);
    memcpy(run_store, other_store, STORE);
    wanted = gel_buffer_slot(&other, left, other_store, STORE);
    return judged && wanted.number == 0 && wanted.dropped == 0 &&
           same(gel_buffer_slot(&by_slot, call, slot_store, STORE), with_dropped(wanted, dropped)) &&
           same(gel_buffer_step(&by_step, call, step_store, STORE), with_dropped(wanted, dropped)) &&
           gel_buffer_run(&by_run, &call, words, 1, run_store, STORE) == 0 &&
           same(gel_answer_of(words[0]), with_dropped(wanted, dropped)) && alike(&other, &by_slot) &&
           alike(&other, &by_step) && alike(&other, &by_run) && memcmp(other_store, slot_store, STORE) == 0 &&
           memcmp(other_store, step_store, STORE) == 0 && memcmp(other_store, run_store, STORE) == 0;
}

/* 5 drops the arrival, 7 the request, and the slot runs without. */
static void halves_dropped(void) {
    const gel_answer reads = {0, 0, 0, 0, 1, 0, 0, 0, 1, 2};
    const gel_answer delivers_and_reads = {0, 0, 1, 0, 1, 'c', 1, 0, 0, 1};
    /* A fresh buffer has no byte to ask for. The phase passes, and what arrives beside is taken. */
    CHECK(gel_buffer_open(&other, 2, 2, 4) == 0);
    CHECK(runs_without(gel_ask(1), gel_nothing(), 2) && other.regs[GEL_PHASE] == 1);
    CHECK(runs_without(gel_both(0, 'a', 1), gel_arrive(0, 'a'), 2) && other.regs[GEL_PHASE] == 0);
    CHECK(other.regs[GEL_TAIL_FILL] == 1 && other.regs[GEL_TAIL_MARK] == 1);
    /* A full queue: one block of one byte. */
    CHECK(gel_buffer_open(&other, 1, 1, 1) == 0);
    CHECK(gel_buffer_slot(&other, gel_arrive(0, 'z'), other_store, 1).writes == 1 && other_store[0] == 'z');
    CHECK(same(gel_buffer_slot(&other, gel_arrive(0, 'y'), other_store, 1), with_dropped(nothing, 1)));
    CHECK(other_store[0] == 'z' && other.regs[GEL_TAIL_FILL] == 0 && other.stored[0] == 1);
    /* A full queue whose block is in store; what stops a slot is its only answer. */
    CHECK(gel_buffer_open(&other, 2, 2, 1) == 0);
    CHECK(same(gel_buffer_slot(&other, gel_arrive(0, 'a'), other_store, STORE), nothing));
    CHECK(gel_buffer_slot(&other, gel_arrive(0, 'b'), other_store, STORE).writes == 1);
    CHECK(refuses(gel_both(0, 'z', 2), 6) && refuses(gel_both(2, 'z', 1), 4));
    CHECK(runs_without(gel_arrive(0, 'z'), gel_nothing(), 1) && other.regs[GEL_TAIL_MARK] == 2);
    CHECK(runs_without(gel_both(0, 'z', 1), gel_nothing(), 3));
    CHECK(runs_without(gel_both(0, 'z', 0), gel_ask(0), 1) && other.owing[0] == 1);
    /* Its bytes are all in store and owed: the request is for the arriving one, which is dropped, and then it is too.
     * The slot delivers what was asked for before, and reads. */
    CHECK(gel_buffer_open(&other, 2, 2, 1) == 0);
    for (uint8_t t = 0; t < 4; t++) {
        CHECK(gel_buffer_slot(&other, gel_arrive(t / 2, (uint8_t)('a' + t)), other_store, STORE).writes == t % 2);
    }
    CHECK(same(gel_buffer_slot(&other, gel_ask(1), other_store, STORE), nothing));
    CHECK(same(gel_buffer_slot(&other, gel_ask(0), other_store, STORE), reads));
    CHECK(same(gel_buffer_slot(&other, gel_ask(0), other_store, STORE), nothing) && other.owing[0] == 2);
    CHECK(runs_without(gel_both(0, 'z', 0), gel_nothing(), 3));
    CHECK(same(gel_answer_of(words[0]), with_dropped(delivers_and_reads, 3)));
}

/* A full queue that is read and refilled in one slot: the arrival is dropped where its bytes are a block in store, and
 * taken where they are in the tail, which takes an idle slot before them. */
static void full_queue_refilled(void) {
    static gel_buffer kept;
    const gel_answer writes = {0, 0, 0, 1, 0, 0, 0, 0, 0, 0};
    const gel_answer delivers = {0, 0, 1, 0, 0, 'a', 0, 0, 0, 0};
    CHECK(gel_buffer_open(&other, 1, 2, 1) == 0);
    CHECK(same(gel_buffer_slot(&other, gel_arrive(0, 'a'), other_store, 2), nothing));
    CHECK(same(gel_buffer_slot(&other, gel_arrive(0, 'b'), other_store, 2), writes));
    CHECK(runs_without(gel_both(0, 'c', 0), gel_ask(0), 1));
    CHECK(gel_buffer_open(&other, 1, 2, 1) == 0);
    CHECK(same(gel_buffer_slot(&other, gel_nothing(), other_store, 2), nothing));
    CHECK(same(gel_buffer_slot(&other, gel_arrive(0, 'a'), other_store, 2), nothing));
    CHECK(same(gel_buffer_slot(&other, gel_arrive(0, 'b'), other_store, 2), nothing));
    kept = other;
    CHECK(runs_without(gel_arrive(0, 'c'), gel_nothing(), 1));
    other = kept;
    CHECK(judges(&other, gel_both(0, 'c', 0), 2, 0, 0));
    CHECK(same(gel_buffer_slot(&other, gel_both(0, 'c', 0), other_store, 2), writes));
    CHECK(other_store[0] == 'b' && other_store[1] == 'c' && other.regs[GEL_TAIL_MARK] == 2);
    CHECK(same(gel_buffer_step(&other, gel_nothing(), other_store, 2), nothing));
    CHECK(same(gel_buffer_step(&other, gel_nothing(), other_store, 2), delivers));
}

/* How many slots are left at a read: all L = 2 where the block is asked for in the slot that reads it, and 1 where the
 * slot before asked, also by the count of idle slots. */
static void slots_left(void) {
    static gel_buffer kept;
    const gel_answer with_all = {0, 0, 0, 0, 1, 0, 0, 0, 0, 2}, with_1 = {0, 0, 0, 0, 1, 0, 0, 0, 0, 1};
    gel_stretch s;
    CHECK(gel_buffer_open(&other, 1, 2, 1) == 0);
    CHECK(same(gel_buffer_slot(&other, gel_arrive(0, 'a'), other_store, STORE), nothing));
    CHECK(gel_buffer_slot(&other, gel_arrive(0, 'b'), other_store, STORE).writes == 1);
    kept = other;
    CHECK(same(gel_buffer_slot(&other, gel_nothing(), other_store, STORE), nothing));
    CHECK(runs_without(gel_ask(0), gel_ask(0), 0) && same(gel_answer_of(words[0]), with_all));
    other = kept;
    CHECK(same(gel_buffer_slot(&other, gel_ask(0), other_store, STORE), nothing));
    kept = other;
    CHECK(runs_without(gel_nothing(), gel_nothing(), 0) && same(gel_answer_of(words[0]), with_1));
    other = kept;
    s = gel_buffer_idle(&other, 5, other_store, STORE);
    CHECK(s.passed == 1 && same(s.last, with_1));
}

/* The counts by queue of `other`, which has one tail byte of queue 1 and nothing else, are right. */
static int counts_right(void) {
    int right = other.tails[0] == 0 && other.tails[1] == 1 && other.heads[1] == 0 && other.owing[1] == 0;
    other.tails[0] = other.heads[1] = other.owing[1] = 77;
    return right;
}

/* Counts that are wrong are right after whatever judges the rules and does not answer 3. */
static void counts_mended(void) {
    CHECK(gel_buffer_open(&other, 2, 2, 4) == 0);
    CHECK(same(gel_buffer_slot(&other, gel_arrive(1, 'z'), other_store, STORE), nothing) && counts_right());
    CHECK(refused(gel_buffer_slot(&other, gel_ask(2), other_store, STORE), 6) && counts_right());
    CHECK(refused(gel_buffer_slot(&other, gel_ask(2), NULL, 0), 2) && counts_right());
    CHECK(same(gel_buffer_slot(&other, gel_nothing(), other_store, STORE), nothing) && counts_right());
    CHECK(gel_buffer_run(&other, NULL, NULL, 0, other_store, STORE) == 0 && counts_right());
    CHECK(gel_buffer_idle(&other, 7, other_store, STORE).passed == 7 && counts_right());
    CHECK(gel_buffer_arbiter_slot(&other, gel_arrive(2, 'z'), other_store, STORE).slot.number == 4 && counts_right());
    CHECK(gel_buffer_arbiter_slot(&other, gel_nothing(), NULL, 0).slot.number == 2 && counts_right());
}

/* ---- The round robin arbiter ----------------------------------------------------------------------------------- */

/* A slot of `other` in which the arbiter chooses. The step does the same to a copy. */
static gel_arbiter_answer arbitrate(uint64_t call) {
    gel_arbiter_answer a, b;
    by_step = other;
    memcpy(step_store, other_store, STORE);
    a = gel_buffer_arbiter_slot(&other, call, other_store, STORE);
    b = gel_buffer_arbiter_step(&by_step, call, step_store, STORE);
    CHECK(same(a.slot, b.slot) && a.asks == b.asks && a.asked == b.asked);
    CHECK(alike(&other, &by_step) && memcmp(other_store, step_store, STORE) == 0);
    return a;
}

/* It is accepted, asks for this queue, and moves nothing else. */
static int asks(uint64_t call, uint16_t queue) {
    gel_arbiter_answer a = arbitrate(call);
    return same(a.slot, nothing) && a.asks == 1 && a.asked == queue && other.regs[GEL_LAST_ASKED] == queue;
}

/* It is accepted, and asks for none. */
static int asks_none(uint64_t call, gel_answer wanted) {
    size_t last = other.regs[GEL_LAST_ASKED];
    gel_arbiter_answer a = arbitrate(call);
    return same(a.slot, wanted) && a.asks == 0 && a.asked == 0 && other.regs[GEL_LAST_ASKED] == last;
}

static int arbiter_refused(gel_arbiter_answer a, uint8_t number) {
    return refused(a.slot, number) && a.asks == 0 && a.asked == 0;
}

/* It is refused so, and all is as it came. */
static int arbiter_refuses(uint64_t call, uint8_t number) {
    static gel_buffer before;
    uint8_t store[STORE];
    before = other;
    memcpy(store, other_store, STORE);
    return arbiter_refused(arbitrate(call), number) && same_buffer(&other, &before) &&
           memcmp(store, other_store, STORE) == 0;
}

static void arbiter_chooses(void) {
    const gel_answer delivers_a = {0, 0, 1, 0, 0, 'a', 0, 0, 0, 0};
    const gel_answer delivers_b = {0, 0, 1, 0, 0, 'b', 1, 0, 0, 0};
    gel_arbiter_answer a;
    /* A fresh buffer has nothing to ask for; a byte that arrives is asked for at once. */
    CHECK(gel_buffer_open(&other, 3, 2, 1) == 0);
    CHECK(asks_none(gel_nothing(), nothing) && other.regs[GEL_LAST_ASKED] == 2 && other.regs[GEL_PHASE] == 1);
    CHECK(gel_buffer_open(&other, 3, 2, 1) == 0);
    CHECK(asks(gel_arrive(1, 'z'), 1) && other.cells[3] == 65536 + 256 + 'z' && other.regs[GEL_TAIL_FILL] == 0);
    /* Both queues have a byte, and 1 was asked last: first 0, then 1, then none. L = 3 slots later they leave. */
    CHECK(gel_buffer_open(&other, 2, 2, 4) == 0 && other.regs[GEL_LAST_ASKED] == 1);
    CHECK(same(gel_buffer_slot(&other, gel_arrive(0, 'a'), other_store, STORE), nothing));
    CHECK(same(gel_buffer_slot(&other, gel_arrive(1, 'b'), other_store, STORE), nothing));
    CHECK(asks(gel_nothing(), 0) && asks(gel_nothing(), 1) && asks_none(gel_nothing(), nothing));
    CHECK(asks_none(gel_nothing(), delivers_a) && asks_none(gel_nothing(), delivers_b));
    /* A caller's own request leaves the last one asked, and the arbiter goes on from there. */
    CHECK(gel_buffer_open(&other, 2, 2, 4) == 0);
    CHECK(asks(gel_arrive(0, 'a'), 0));
    CHECK(same(gel_buffer_slot(&other, gel_both(1, 'b', 1), other_store, STORE), nothing));
    CHECK(same(gel_buffer_step(&other, gel_arrive(0, 'c'), other_store, STORE), nothing));
    by_step = other;
    CHECK(other.regs[GEL_LAST_ASKED] == 0 && gel_buffer_step(&by_step, gel_ask(1), step_store, STORE).dropped == 2);
    /* In an arbiter's slot it is not looked at, nor are the other bits: 1 has no byte, and 65,535 is no queue. */
    a = arbitrate(gel_ask(1) | (uint64_t)0x3fffff << 42);
    CHECK(same(a.slot, delivers_a) && a.asks == 1 && a.asked == 0);
}

/* One byte of each of four queues, all in store: the last waits Q - 1 slots to be asked, and leaves L = 1 later. */
static void greatest_wait(void) {
    CHECK(gel_buffer_open(&other, 4, 1, 1) == 0);
    for (uint16_t queue = 0; queue < 4; queue++) {
        CHECK(gel_buffer_slot(&other, gel_arrive(queue, (uint8_t)('a' + queue)), other_store, STORE).writes == 1);
    }
    for (uint16_t t = 0; t < 5; t++) {
        gel_arbiter_answer a = arbitrate(gel_ask(9));
        CHECK(a.slot.number == 0 && a.asks == (t < 4) && a.asked == (t < 4 ? t : 0) && a.slot.reads == a.asks);
        CHECK(a.slot.slots_left == a.asks); /* of L = 1 */
        CHECK(a.slot.delivers == (t > 0) && (t == 0 || (a.slot.queue == t - 1 && a.slot.value == 'a' + t - 1)));
    }
    CHECK(other.regs[GEL_LAST_ASKED] == 3);
}

static void arbiter_is_refused(void) {
    CHECK(gel_buffer_open(&other, 2, 2, 4) == 0);
    CHECK(arbiter_refuses(gel_arrive(2, 'z'), 4) && arbiter_refuses(gel_arrive(256, 'z'), 4));
    CHECK(arbiter_refuses(gel_both(65535, 'z', 65535), 4));
    CHECK(arbiter_refused(gel_buffer_arbiter_slot(&other, gel_nothing(), other_store, STORE - 1), 2));
    CHECK(arbiter_refused(gel_buffer_arbiter_slot(&other, gel_arrive(256, 'z'), NULL, 0), 2));
    /* The last one asked is Q, and the same after a bit that a narrower register does not have. */
    other.regs[GEL_LAST_ASKED] = 2;
    CHECK(arbiter_refused(gel_buffer_arbiter_slot(&other, gel_nothing(), other_store, STORE), 3));
    CHECK(arbiter_refused(gel_buffer_arbiter_slot(&other, gel_arrive(256, 'z'), NULL, 0), 3));
    other.regs[GEL_LAST_ASKED] = (size_t)1 << 32;
    CHECK(arbiter_refused(gel_buffer_arbiter_slot(&other, gel_nothing(), other_store, STORE), 3));
    CHECK(other.regs[GEL_LAST_ASKED] == (size_t)1 << 32 && other.regs[GEL_PHASE] == 0);
}

static void arbiter_meets_a_full_queue(void) {
    const gel_answer reads = {0, 1, 0, 0, 1, 0, 0, 0, 0, 1};
    const gel_answer delivers = {0, 0, 1, 0, 0, 's', 0, 0, 0, 0};
    gel_arbiter_answer a;
    /* Queue 0 is full, with both its bytes in store and owed, and no other has a byte: its arrival is dropped and does
     * not count, and there is no request. From a fresh buffer that does not come. The counts are right then, and a step
     * may follow, which reads the block. */
    CHECK(gel_buffer_open(&other, 3, 2, 1) == 0);
    other.stored[0] = 1;
    other.cells[2] = other.cells[3] = 2 * 65536;
    other_store[0] = 's';
    other_store[1] = 't';
    a = gel_buffer_arbiter_slot(&other, gel_arrive(0, 'z'), other_store, STORE);
    CHECK(same(a.slot, with_dropped(nothing, 1)) && a.asks == 0 && a.asked == 0);
    CHECK(other.owing[0] == 2 && other.regs[GEL_LAST_ASKED] == 2 && other.regs[GEL_PHASE] == 1);
    CHECK(asks_none(gel_arrive(0, 'z'), reads) && other.regs[GEL_TAIL_MARK] == 0);
    a = arbitrate(gel_arrive(1, 'z'));
    CHECK(same(a.slot, delivers) && a.asks == 1 && a.asked == 1 && other.regs[GEL_LAST_ASKED] == 1);
    /* It is asked for a byte in store: its arrival is dropped, and the queue asked is noted. */
    CHECK(gel_buffer_open(&other, 2, 2, 1) == 0);
    CHECK(same(gel_buffer_slot(&other, gel_arrive(0, 'a'), other_store, STORE), nothing));
    CHECK(gel_buffer_slot(&other, gel_arrive(0, 'b'), other_store, STORE).writes == 1);
    a = arbitrate(gel_arrive(0, 'c'));
    CHECK(same(a.slot, with_dropped(nothing, 1)) && a.asks == 1 && a.asked == 0 && other.regs[GEL_LAST_ASKED] == 0);
    /* A full queue that is asked for an older byte takes the arriving one. */
    CHECK(gel_buffer_open(&other, 1, 2, 1) == 0);
    CHECK(asks_none(gel_nothing(), nothing));
    CHECK(same(gel_buffer_slot(&other, gel_arrive(0, 'a'), other_store, 2), nothing));
    CHECK(same(gel_buffer_slot(&other, gel_arrive(0, 'b'), other_store, 2), nothing));
    a = arbitrate(gel_arrive(0, 'c'));
    CHECK(a.slot.number == 0 && a.slot.writes == 1 && a.asks == 1 && a.asked == 0);
    CHECK(other_store[0] == 'b' && other_store[1] == 'c' && other.regs[GEL_TAIL_FILL] == 0);
}

/* ---- Runs, idle slots, words ----------------------------------------------------------------------------------- */

static void runs(void) {
    uint64_t answers[3] = {~(uint64_t)0, ~(uint64_t)0, ~(uint64_t)0};
    CHECK(gel_buffer_open(&other, 2, 2, 4) == 0);
    CHECK(gel_buffer_run(&other, NULL, NULL, 0, other_store, STORE) == 0 && other.regs[GEL_PHASE] == 0);
    CHECK(gel_buffer_run(&other, NULL, NULL, 0, NULL, 0) == 2);
    /* As many as there are calls and places for answers. */
    CHECK(gel_run(other.regs, other.tail, other.head, other.cells, other.firsts, other.stored, other.tails, other.heads,
                  other.owing, calls, SLOTS, answers, 1, other_store, STORE) == 0);
    CHECK(other.regs[GEL_PHASE] == 1 && answers[0] == 0 && answers[1] == ~(uint64_t)0);
    CHECK(gel_run(other.regs, other.tail, other.head, other.cells, other.firsts, other.stored, other.tails, other.heads,
                  other.owing, calls + 1, 1, answers, 3, other_store, STORE) == 0);
    CHECK(other.regs[GEL_PHASE] == 0 && answers[1] == ~(uint64_t)0);
    CHECK(same(gel_answer_of(answers[0]), table[1]));
    /* A refused slot among others; and a store that is too short for all. */
    answers[0] = gel_ask(256);
    CHECK(gel_buffer_run(&other, answers, words, 1, other_store, STORE) == 0 && refused(gel_answer_of(words[0]), 6));
    CHECK(gel_buffer_run(&other, calls, words, 2, NULL, 0) == 2);
    CHECK(refused(gel_answer_of(words[0]), 2) && refused(gel_answer_of(words[1]), 2));
}

static void idle_slots(void) {
    gel_stretch s;
    /* Behind four of the nine slots one idle slot, as a slot and by the count. */
    CHECK(gel_buffer_open(&other, 2, 2, 4) == 0);
    CHECK(gel_buffer_run(&other, calls, words, 4, other_store, STORE) == 0);
    by_slot = other;
    memcpy(slot_store, other_store, STORE);
    CHECK(same(gel_buffer_slot(&by_slot, gel_nothing(), slot_store, STORE), nothing));
    s = gel_buffer_idle(&other, 1, other_store, STORE);
    CHECK(s.passed == 1 && same(s.last, nothing) && alike(&by_slot, &other));
    CHECK(gel_buffer_open(&other, 2, 2, 4) == 0);
    CHECK(same(gel_buffer_slot(&other, gel_both(0, 'z', 0), other_store, STORE), nothing));
    /* L = 3 slots later it leaves. */
    s = gel_buffer_idle(&other, 2, other_store, STORE);
    CHECK(s.passed == 2 && same(s.last, nothing));
    s = gel_buffer_idle(&other, 10, other_store, STORE);
    CHECK(s.passed == 1 && s.last.number == 0 && s.last.delivers == 1 && s.last.value == 'z' && s.last.queue == 0);
    s = gel_buffer_idle(&other, 1000000000, other_store, STORE);
    CHECK(s.passed == 1000000000 && same(s.last, nothing) && other.regs[GEL_PHASE] == 0);
    s = gel_buffer_idle(&other, 0, other_store, STORE);
    CHECK(s.passed == 0 && same(s.last, nothing));
    /* A refusal is the last of them; of 0 slots none is tried. */
    s = gel_buffer_idle(&other, 5, NULL, 0);
    CHECK(s.passed == 1 && refused(s.last, 2));
    s = gel_buffer_idle(&other, 0, NULL, 0);
    CHECK(s.passed == 0 && same(s.last, nothing));
}

static void call_and_answer_words(void) {
    gel_answer a = gel_answer_of((uint64_t)0xab | (uint64_t)1022 << 8 | (uint64_t)1 << 18 | (uint64_t)513 << 19 |
                                 (uint64_t)1 << 29 | (uint64_t)7 << 30 | (uint64_t)1 << 40 | (uint64_t)8190 << 41 |
                                 (uint64_t)2 << 54 | (uint64_t)200 << 56);
    CHECK(a.number == 200 && a.dropped == 2 && a.delivers == 1 && a.writes == 1 && a.reads == 1);
    CHECK(same(gel_answer_of((uint64_t)1 << 54), with_dropped(nothing, 1)));
    CHECK(same(gel_answer_of((uint64_t)3 << 54), with_dropped(nothing, 3)));
    CHECK(a.value == 0xab && a.queue == 1022 && a.written == 513 && a.read == 7 && a.slots_left == 8190);
    CHECK(same(gel_answer_of(0), nothing));
    CHECK(gel_nothing() == 0);
    CHECK(gel_arrive(65535, 255) == 0x1ffffff && gel_ask(65535) == (uint64_t)0x1ffff << 25);
    CHECK(gel_both(1, 2, 3) == (gel_arrive(1, 2) | gel_ask(3)));
    /* What this version does not look at: bits 42 to 63, and a queue or a value where no byte arrives or is asked. */
    CHECK(gel_buffer_open(&other, 2, 2, 4) == 0);
    CHECK(same(gel_buffer_slot(&other, ~gel_arrive(0, 0) & ~gel_ask(0), other_store, STORE), nothing));
    CHECK(other.regs[GEL_PHASE] == 1 && other.regs[GEL_TAIL_FILL] == 0);
}

/* ---- Sizes ----------------------------------------------------------------------------------------------------- */

static int memories_are(gel_memories m, size_t lookahead, size_t tail, size_t head, size_t store) {
    return m.lookahead == lookahead && m.tail == tail && m.head == head && m.store == store;
}

static void sizes(void) {
    CHECK(memories_are(gel_memory_sizes(2, 2, 4), 3, 4, 5, STORE));
    CHECK(memories_are(gel_memory_sizes(16, 125, 8), 1985, 2109, 3969, 16000));
    CHECK(memories_are(gel_memory_sizes(0, 2, 4), 0, 0, 0, 0));
    CHECK(memories_are(gel_memory_sizes(SIZE_MAX, 2, 4), 0, 0, 0, 0));
    CHECK(gel_block_size(10, 9) == 125 && gel_block_size(1, 9) == 13 && gel_block_size(100, 0) == 125);
    CHECK(gel_block_size(0, 9) == 0 && gel_block_size(100, 9) == 0 && gel_block_size(1, 16) == 0);
    CHECK(gel_block_size(SIZE_MAX, SIZE_MAX) == 0);
}

/* ---- Scripts --------------------------------------------------------------------------------------------------- */

/* The nine slots again: sizes, arrivals, both, requests, three idle slots by their count, the end. */
static const gel_command commands[] = {{16, 2, 2, 4},   {1, 0, 'a', 0}, {1, 0, 'b', 0}, {3, 1, 'x', 0}, {3, 1, 'y', 1},
                                       {2, 0, 0, 0},    {2, 1, 0, 0},   {4, 2, 0, 0},   {0, 0, 0, 0},   {5, 0, 0, 0}};
static const char lines[] = "M 3 0 2\nD 5 0 97\nD 6 1 120\nD 7 0 98\nD 8 1 121\nE 9\n";

/* In slot 7 a byte leaves, and both halves are dropped. */
static const uint8_t dropping_script[] = {16, 2, 2, 1, 1, 0, 'a', 1, 0, 'b', 1, 1, 'c', 1, 1, 'd', 2, 1,
                                          2,  0, 2, 0, 3, 0, 'z', 0, 4, 2,   0, 5};
static const char dropping_lines[] = "M 5 1 2\nD 7 1 99\nR 7 5\nR 7 7\nM 7 0 1\nD 8 0 97\nD 9 0 98\nE 10\n";

static gel_command command(uint16_t code, uint16_t one, uint16_t two, uint16_t three) {
    gel_command c;
    c.code = code;
    c.one = one;
    c.two = two;
    c.three = three;
    return c;
}

static int read_as(gel_reading r, gel_command c, size_t length) {
    return r.number == 0 && r.length == length && r.command.code == c.code && r.command.one == c.one &&
           r.command.two == c.two && r.command.three == c.three;
}

static int read_refused(gel_reading r, uint8_t number) {
    return r.number == number && r.length == 0 && r.command.code == 0 && r.command.one == 0 && r.command.two == 0 &&
           r.command.three == 0;
}

/* It is written, and reads back as itself. */
static int reads_back(gel_command c, size_t length) {
    uint8_t bytes[4];
    gel_writing w = gel_script_write(c, bytes, sizeof bytes);
    return w.number == 0 && w.length == length && read_as(gel_script_read(bytes, w.length, c.code == 16), c, length);
}

/* It is refused, and the output is as it came. */
static int write_refused(gel_command c, size_t output_bytes, uint8_t number) {
    uint8_t bytes[4] = {201, 202, 203, 204};
    gel_writing w = gel_script_write(c, bytes, output_bytes);
    return w.number == number && w.length == 0 && bytes[0] == 201 && bytes[1] == 202 && bytes[2] == 203 &&
           bytes[3] == 204;
}

static void commands_one_by_one(void) {
    const uint8_t sizes_cut[] = {16, 2, 2}, idle[] = {0}, unknown[] = {6};
    gel_writing w;
    CHECK(reads_back(command(16, 255, 255, 255), 4) && reads_back(command(3, 255, 255, 255), 4));
    CHECK(reads_back(command(4, 65535, 0, 0), 3) && reads_back(command(5, 0, 0, 0), 1));
    CHECK(write_refused(command(6, 0, 0, 0), 4, 12) && write_refused(command(16 + 256, 2, 2, 4), 4, 12));
    CHECK(write_refused(command(1, 256, 0, 0), 4, 16) && write_refused(command(3, 0, 0, 256), 4, 16));
    CHECK(write_refused(command(0, 1, 0, 0), 4, 16) && write_refused(command(4, 1, 1, 0), 4, 16));
    CHECK(write_refused(command(16, 2, 2, 4), 3, 16));
    w = gel_script_write(command(5, 0, 0, 0), NULL, 0);
    CHECK(w.number == 16 && w.length == 0);
    CHECK(read_refused(gel_script_read(NULL, 0, 1), 15) && read_refused(gel_script_read(unknown, 1, 0), 12));
    CHECK(read_refused(gel_script_read(sizes_cut, 3, 1), 13) && read_refused(gel_script_read(sizes_cut, 3, 0), 14));
    CHECK(read_refused(gel_script_read(idle, 1, 1), 14));
    CHECK(read_as(gel_script_read(idle, 1, 0), command(0, 0, 0, 0), 1));
}

static int fault_is(gel_fault f, uint8_t number, size_t offset) { return f.number == number && f.offset == offset; }

static void whole_scripts(void) {
    static uint8_t script[64], output[1024];
    uint8_t store[STORE];
    size_t bytes = 0, printed;
    for (size_t i = 0; i < sizeof commands / sizeof commands[0]; i++) {
        gel_writing w = gel_script_write(commands[i], script + bytes, sizeof script - bytes);
        CHECK(w.number == 0 && read_as(gel_script_read(script + bytes, w.length, i == 0), commands[i], w.length));
        bytes += w.length;
    }
    CHECK(fault_is(gel_script_judge(script, bytes), 0, 0));
    CHECK(fault_is(gel_script_judge(script, bytes - 1), 15, bytes - 1));
    CHECK(fault_is(gel_script_judge(script + 4, bytes - 4), 14, 0));
    CHECK(fault_is(gel_script_judge(NULL, 0), 15, 0));

    CHECK(gel_script_output(0) == 11 && gel_script_output(1) == 22);
    CHECK(gel_script_output(65536) == 720907 && gel_script_output(SIZE_MAX) == 720907);
    memset(store, 0, STORE);
    memset(output, '?', sizeof output);
    CHECK(gel_script_run(script, bytes, store, STORE, output, gel_script_output(bytes) - 1) == 0);
    CHECK(gel_script_run(script, bytes, store, STORE, NULL, 0) == 0);
    CHECK(output[0] == '?' && store[0] == 0);
    printed = gel_script_run(script, bytes, store, STORE, output, gel_script_output(bytes));
    CHECK(printed == strlen(lines) && memcmp(output, lines, printed) == 0 && output[printed] == '?');
    CHECK(store[0] == 'a' && store[1] == 'b');
    printed = gel_script_run(dropping_script, sizeof dropping_script, store, STORE, output, sizeof output);
    CHECK(printed == strlen(dropping_lines) && memcmp(output, dropping_lines, printed) == 0);
    printed = gel_script_run(script, bytes, NULL, 0, output, sizeof output);
    CHECK(printed == 10 && memcmp(output, "R 0 2\nE 0\n", printed) == 0);
    printed = gel_script_run(NULL, 0, NULL, 0, output, 11);
    CHECK(printed == 7 && memcmp(output, "S 15 0\n", printed) == 0);
}

/* ---- Captures -------------------------------------------------------------------------------------------------- */

static const uint8_t capture[] = {
    /* the header */
    0xd4, 0xc3, 0xb2, 0xa1, 2, 0, 4, 0, 0, 0, 0, 0, 0, 0, 0, 0, 0xff, 0xff, 0, 0, 1, 0, 0, 0,
    /* a frame of 16 bytes with a tag of priority 5 */
    1, 0, 0, 0, 2, 0, 0, 0, 16, 0, 0, 0, 16, 0, 0, 0,
    'a', 'b', 'c', 'd', 'e', 'f', 'g', 'h', 'i', 'j', 'k', 'l', 0x81, 0x00, 0xbf, 'z',
    /* a frame without a tag, of which 2 bytes of 60 were captured */
    3, 0, 0, 0, 4, 0, 0, 0, 2, 0, 0, 0, 60, 0, 0, 0,
    'x', 'y'};

/* Its script with Q = 8, b = 2, K = 4. */
static const uint8_t capture_script[] = {
    16, 8, 2, 4,
    1, 5, 'a', 1, 5, 'b', 1, 5, 'c', 1, 5, 'd', 1, 5, 'e', 1, 5, 'f', 1, 5, 'g', 1, 5, 'h',
    1, 5, 'i', 1, 5, 'j', 1, 5, 'k', 1, 5, 'l', 1, 5, 0x81, 1, 5, 0x00, 1, 5, 0xbf, 1, 5, 'z',
    1, 0, 'x', 1, 0, 'y',
    5};

/* Queue 5 takes K x b = 8 bytes, and the 8 after them are dropped. */
static const char capture_lines[] = "R 8 5\nR 9 5\nR 10 5\nR 11 5\nR 12 5\nR 13 5\nR 14 5\nR 15 5\nE 18\n";

enum { CAPTURE = sizeof capture, CAPTURE_SCRIPT = sizeof capture_script, CAPTURE_STORE = 8 * 4 * 2 };

/* From a place on an output has question marks alone. */
static int stays(const uint8_t *output, size_t from, size_t bytes) {
    while (from < bytes && output[from] == '?') {
        from++;
    }
    return from == bytes;
}

/* With K = 4 it is refused so, and the output is as it came. */
static int capture_refused(size_t queues, size_t block, const uint8_t *bytes, size_t count, size_t room,
                           uint8_t number) {
    uint8_t output[2 * CAPTURE_SCRIPT];
    gel_writing w;
    memset(output, '?', sizeof output);
    w = gel_capture_to_script(queues, block, 4, bytes, count, output, room);
    return w.number == number && w.length == 0 && stays(output, 0, sizeof output);
}

/* The same where one byte of the capture is another. */
static int capture_with_refused(size_t place, uint8_t byte, uint8_t number) {
    uint8_t bytes[CAPTURE];
    memcpy(bytes, capture, CAPTURE);
    bytes[place] = byte;
    return capture_refused(8, 2, bytes, CAPTURE, CAPTURE_SCRIPT, number);
}

static void captures(void) {
    static uint8_t script[2 * CAPTURE_SCRIPT], output[1024];
    uint8_t store[CAPTURE_STORE];
    size_t printed;
    gel_writing w;
    /* Just as much room as it needs, and more: behind the script the output stays. */
    memset(script, '?', sizeof script);
    w = gel_capture_to_script(8, 2, 4, capture, CAPTURE, script, CAPTURE_SCRIPT);
    CHECK(w.number == 0 && w.length == CAPTURE_SCRIPT && memcmp(script, capture_script, CAPTURE_SCRIPT) == 0);
    CHECK(stays(script, CAPTURE_SCRIPT, sizeof script));
    memset(script, '?', sizeof script);
    w = gel_capture_to_script(8, 2, 4, capture, CAPTURE, script, sizeof script);
    CHECK(w.number == 0 && w.length == CAPTURE_SCRIPT && memcmp(script, capture_script, CAPTURE_SCRIPT) == 0);
    CHECK(stays(script, CAPTURE_SCRIPT, sizeof script));
    /* What was written runs. */
    CHECK(fault_is(gel_script_judge(script, w.length), 0, 0));
    CHECK(gel_memory_sizes(8, 2, 4).store == CAPTURE_STORE && gel_script_output(w.length) <= sizeof output);
    memset(store, 0, sizeof store);
    printed = gel_script_run(script, w.length, store, sizeof store, output, gel_script_output(w.length));
    CHECK(printed == strlen(capture_lines) && memcmp(output, capture_lines, printed) == 0);
    /* Refused, each alone: sizes, queues, the header, the records, the room. */
    CHECK(capture_refused(65, 2, capture, CAPTURE, CAPTURE_SCRIPT, 1));
    CHECK(capture_refused(8 + 256, 2, capture, CAPTURE, CAPTURE_SCRIPT, 1));
    CHECK(capture_refused(SIZE_MAX, SIZE_MAX, capture, CAPTURE, CAPTURE_SCRIPT, 1));
    CHECK(capture_refused(7, 2, capture, CAPTURE, CAPTURE_SCRIPT, 19));
    CHECK(capture_refused(8, 2, capture, 23, CAPTURE_SCRIPT, 17));
    CHECK(capture_with_refused(0, 0xa1, 17) && capture_with_refused(6, 5, 17) && capture_with_refused(20, 101, 17));
    CHECK(capture_refused(8, 2, capture, CAPTURE - 1, CAPTURE_SCRIPT, 18));
    CHECK(capture_refused(8, 2, capture, 25, CAPTURE_SCRIPT, 18) && capture_with_refused(24 + 11, 1, 18));
    CHECK(capture_refused(8, 2, capture, CAPTURE, CAPTURE_SCRIPT - 1, 16));
    CHECK(capture_refused(8, 2, capture, CAPTURE, 0, 16));
    /* All at once, in their order; and no bytes at all. */
    CHECK(capture_refused(7, 0, NULL, 0, 0, 1) && capture_refused(7, 2, NULL, 0, 0, 19));
    CHECK(capture_refused(8, 2, NULL, 0, 0, 17) && capture_refused(8, 2, capture, CAPTURE - 1, 0, 18));
    CHECK(capture_refused(8, 2, NULL, 0, CAPTURE_SCRIPT, 17));
    w = gel_capture_to_script(8, 2, 4, capture, CAPTURE, NULL, 0);
    CHECK(w.number == 16 && w.length == 0);
    w = gel_capture_to_script(8, 2, 4, NULL, 0, NULL, 0);
    CHECK(w.number == 17 && w.length == 0);
    /* The header alone is the sizes and the end. */
    w = gel_capture_to_script(8, 2, 4, capture, 24, script, 5);
    CHECK(w.number == 0 && w.length == 5 && memcmp(script, "\x10\x08\x02\x04\x05", 5) == 0);
}

int main(void) {
    CHECK(gel_version() == GEL_VERSION);
    nine_slots();
    sizes_refused();
    slots_refused();
    halves_dropped();
    full_queue_refilled();
    slots_left();
    counts_mended();
    arbiter_chooses();
    greatest_wait();
    arbiter_is_refused();
    arbiter_meets_a_full_queue();
    runs();
    idle_slots();
    call_and_answer_words();
    sizes();
    commands_one_by_one();
    whole_scripts();
    captures();
    printf("%d passed, %d failed\n", passed, failed);
    return failed == 0 ? 0 : 1;
}
