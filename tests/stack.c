/* No call takes 4 KiB of stack, and each kind of call has a limit of its own. Each call runs on a stack of its own that
   was painted before: the deepest byte that lost its paint says how far the call went. The heap is a chain of 1,024
   objects, up or down, so that marking nests as deep as it may and a CLEAR frees them all.

   The take-off of a line or a record has room of 2 KiB for its work list, in its own frame. In its callers' frames it would stand in
   calls that never use it, CLEAR and FINISH among them, and these would pass their limit. */
#include "../include/vekszalir.h"

#include <stdio.h>
#include <string.h>
#include <ucontext.h>

enum { N = 1024, STACK = 65536, PAINT = 0xA5 };
enum { CALL = 2560, LINE = 3584, BATCH = 3584, AUDIT = 2576 }; /* the most bytes of each kind */

static VEK_STORAGE(N) heap;

static _Alignas(16) unsigned char stack[STACK];
static ucontext_t here, there;
static vek_answer answer;
static int failed;

static void run_fresh(void) { answer = vek_fresh(VEK_LEND(heap)); }
static void run_new(void) { answer = vek_new(VEK_LEND_ALL(heap), 1, VEK_OBJECT, 0); }
static void run_clear(void) { answer = vek_clear(VEK_LEND_ALL(heap), 0); }
static void run_copy(void) { answer = vek_copy(VEK_LEND_ALL(heap), 1, 0); }
static void run_load(void) { answer = vek_load(VEK_LEND_ALL(heap), 1, 0, 0); }
static void run_store(void) { answer = vek_store(VEK_LEND_ALL(heap), 0, 1, 0); }
static void run_collect(void) { answer = vek_collect(VEK_LEND_ALL(heap)); }
static void run_start(void) { answer = vek_start(VEK_LEND_ALL(heap), 1); }
static void run_finish(void) { answer = vek_finish(VEK_LEND_ALL(heap)); }

/* A call as a line, which vek_take answers at its CR LF and vek_end without it. */
static uint8_t line[] = {'6', ',', '0', ',', '0', ',', '0', '\r', '\n'};
static vek_progress progress;
static uint8_t out[VEK_ANSWER_LEN + 1]; /* the last one stays 0 */

static void hold(void) { progress = vek_take(VEK_LEND(heap), (vek_reader){0}, line, sizeof line - 2, out, VEK_ANSWER_LEN); }
static void run_take(void) { progress = vek_take(VEK_LEND(heap), (vek_reader){0}, line, sizeof line, out, VEK_ANSWER_LEN); }
static void run_end(void) { progress = vek_end(VEK_LEND(heap), progress.reader, out, VEK_ANSWER_LEN); }

/* A call as the only record of a batch; its answer, where the batch is done. */
static vek_record record;
static vek_answer answered;
static vek_totals totals;

static void run_batch(void)
{
    answer = vek_batch(VEK_LEND(heap), &record, 1, &answered, 1, &totals);
    if (answer.refused == VEK_DONE)
        answer = answered;
}

/* The audit; its row, a chain's N cells at zero, is looked at here. */
static int32_t differences[N];

static void run_audit(void)
{
    vek_audited a = vek_audit(VEK_LEND(heap), differences, N, (vek_report)VEK_REPORT_START);
    answer = (vek_answer){a.refused, (uint16_t)(N - a.heap.at), 0, 0};
}

/* What the line's answer says, for `measure` to look at. */
static void read_answer(void)
{
    char op;
    unsigned refused, freed;
    if (sscanf((char *)out, "%c,%u,%u,", &op, &refused, &freed) == 3 && op == line[0])
        answer.refused = refused, answer.freed = freed;
}

/* The first n cells as a chain through slot 0, from cell 0 up or from cell n - 1 down; root 0 holds its head. */
static void chain(unsigned n, int up)
{
    vek_fresh(VEK_LEND(heap));
    for (unsigned i = 0; i < n; i++) {
        unsigned c = up ? i : n - 1 - i;
        heap.kind[c] = VEK_OBJECT;
        heap.count[c] = 1;
        *(i ? heap.slots + 8 * (up ? c - 1 : c + 1) : heap.roots) = c + 1;
    }
}

static size_t depth(void)
{
    size_t untouched = 0;
    while (untouched < STACK && stack[untouched] == PAINT)
        untouched++;
    return STACK - untouched;
}

static void measure(const char *name, void (*run)(void), unsigned freed, size_t limit)
{
    answer.refused = VEK_SIZE;
    progress.written = 0;
    memset(stack, PAINT, STACK);
    getcontext(&there);
    there.uc_stack.ss_sp = stack;
    there.uc_stack.ss_size = STACK;
    there.uc_link = &here;
    makecontext(&there, run, 0);
    swapcontext(&here, &there);
    size_t deep = depth();
    if (progress.written > 0)
        read_answer();
    printf("stack of %s: %zu bytes\n", name, deep);
    if (answer.refused != VEK_DONE || answer.freed != freed || deep == 0 || deep > limit) {
        printf("stack of %s: refused %u, freed %u, or more than %zu bytes\n", name, answer.refused, answer.freed, limit);
        failed = 1;
    }
}

/* The chain's head waits in the queue, and FINISH frees the whole chain. */
static void waiting_chain(void) { chain(N, 1), heap.roots[0] = 0, heap.queue[0] = 1, heap.control[0] = 1, heap.flags[0] = 1; }

static void measure_line(const char *name, char op, unsigned freed) { line[0] = op, measure(name, run_take, freed, LINE); }
static void measure_batch(const char *name, uint16_t call, unsigned freed) { record.call = call, measure(name, run_batch, freed, BATCH); }

int main(void)
{
    chain(N - 1, 1), measure("new", run_new, 0, CALL);
    chain(N, 1), measure("copy", run_copy, 0, CALL);
    chain(N, 1), measure("load", run_load, 0, CALL);
    chain(N, 1), measure("store", run_store, 0, CALL);
    chain(N, 1), measure("collect, a chain up", run_collect, 0, CALL);
    chain(N, 0), measure("collect, a chain down", run_collect, 0, CALL);
    chain(N, 1), heap.roots[0] = 0, heap.count[0] = 1, heap.slots[8 * (N - 1)] = 1;
    measure("collect, a loose ring", run_collect, N, CALL);
    chain(N, 1), measure("clear", run_clear, N, CALL);
    waiting_chain(), measure("start", run_start, 0, CALL), measure("finish", run_finish, N, CALL);
    chain(N, 1), measure_line("take, a line of CLEAR", '2', N);
    waiting_chain(), run_start(), measure_line("take, a line of FINISH", '8', N);
    chain(N, 1), measure_line("take, a line of COLLECT", '6', 0);
    chain(N, 1), measure_batch("batch, a record of CLEAR", VEK_CALL_CLEAR, N);
    waiting_chain(), run_start(), measure_batch("batch, a record of FINISH", VEK_CALL_FINISH, N);
    chain(N, 1), measure_batch("batch, a record of COLLECT", VEK_CALL_COLLECT, 0);
    chain(N, 1), hold(), measure("end, a line of COLLECT", run_end, 0, LINE);
    chain(N, 1), measure("audit", run_audit, 0, AUDIT);
    measure("fresh", run_fresh, 0, CALL);
    return failed;
}
