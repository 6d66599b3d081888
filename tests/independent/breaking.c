#include "breaking.h"

#include "random.h"

static bool queued(const struct heap *heap, size_t cell)
{
    for (size_t i = 0; i < heap->control.at[LENGTH]; i++)
        if (heap->queue.at[i] == cell + 1)
            return true;
    return false;
}

static bool is(const struct heap *heap, enum who who, size_t cell)
{
    uint16_t kind = heap->kind.at[cell], flags = heap->flags.at[cell];
    switch (who) {
    case FREED:
        return kind == FREE;
    case TEXT:
        return kind == STRING;
    case BYTES:
        return kind == BUFFER;
    case PLAIN:
        return kind == OBJECT && flags == 0;
    case WAITING:
        return flags == FINALIZER && !queued(heap, cell);
    case QUEUED:
        return queued(heap, cell);
    case RUN_ONCE:
        return flags == (FINALIZER | FINALISED);
    case SHARED:
        return heap->count.at[cell] > 1;
    default:
        return kind != FREE;
    }
}

/* A cell that is so, as a reference; 0 if there is none. */
static uint16_t reference_to(const struct heap *heap, enum who who)
{
    size_t n = heap->kind.len, start = below(n);
    if (who == ABOVE || who == LARGEST)
        return who == ABOVE ? n + 1 : 65535;
    for (size_t i = 0; i < n; i++)
        if (is(heap, who, (start + i) % n))
            return (start + i) % n + 1;
    return 0;
}

/* An empty entry among `len`; null if there is none. */
static uint16_t *empty_entry(uint16_t *at, size_t len)
{
    size_t start = len == 0 ? 0 : below(len);
    for (size_t i = 0; i < len; i++)
        if (at[(start + i) % len] == 0)
            return &at[(start + i) % len];
    return NULL;
}

static uint16_t *entry_for(struct heap *heap, const struct damage *damage)
{
    uint16_t owner = reference_to(heap, damage->owner), length = heap->control.at[LENGTH];
    switch (damage->place) {
    case IN_ROOT:
        return empty_entry(heap->roots.at, ROOTS);
    case IN_SLOT:
        return owner == 0 ? NULL : empty_entry(&heap->slots.at[SLOTS * (owner - 1)], SLOTS);
    case IN_QUEUE:
        return length == heap->queue.len ? NULL : &heap->queue.at[length];
    default:
        return empty_entry(heap->queue.at + length, heap->queue.len - length);
    }
}

static bool put_reference(struct heap *heap, const struct damage *damage)
{
    uint16_t *entry = entry_for(heap, damage), ref = reference_to(heap, damage->who);
    if (entry == NULL || ref == 0)
        return false;
    *entry = ref;
    heap->control.at[LENGTH] += damage->place == IN_QUEUE;
    if (ref <= heap->kind.len)
        heap->count.at[ref - 1] += damage->raise;
    return true;
}

static bool lengthen_queue(struct heap *heap, const struct damage *damage)
{
    (void)damage;
    if (heap->control.at[LENGTH] == heap->kind.len)
        return false;
    heap->control.at[LENGTH]++;
    return true;
}

static bool change_entry(struct heap *heap, const struct damage *damage, bool add)
{
    uint16_t ref = reference_to(heap, damage->who);
    uint16_t *entry = &table_of(heap, damage->table)->at[ref == 0 ? 0 : ref - 1];
    if (ref != 0)
        *entry = (add ? *entry : 0) + damage->value;
    return ref != 0;
}

static bool set_entry(struct heap *heap, const struct damage *damage)
{
    return change_entry(heap, damage, false);
}

static bool add_to_entry(struct heap *heap, const struct damage *damage)
{
    return change_entry(heap, damage, true);
}

static bool set_control(struct heap *heap, enum control entry, const struct damage *damage)
{
    size_t length = heap->control.at[LENGTH];
    enum queue_state state = length == 0 ? QUEUE_NONE : length == heap->kind.len ? QUEUE_ALL : QUEUE_SOME;
    if (state != damage->queue)
        return false;
    heap->control.at[entry] = damage->value;
    return true;
}

static bool set_running(struct heap *heap, const struct damage *damage)
{
    return set_control(heap, RUNNING, damage);
}

/* The value is how much longer than N the queue is said to be. */
static bool set_length(struct heap *heap, const struct damage *damage)
{
    struct damage above = *damage;
    above.value += heap->kind.len;
    return set_control(heap, LENGTH, &above);
}

#define SET(WHO, TABLE, VALUE) .apply = set_entry, .who = WHO, .table = TABLE, .value = VALUE
#define ADD(WHO, VALUE) .apply = add_to_entry, .who = WHO, .table = T_COUNT, .value = (uint16_t)(VALUE)
#define PUT(PLACE, WHO, RAISE) .apply = put_reference, .place = PLACE, .who = WHO, .raise = RAISE
#define PUT_SLOT(OWNER, WHO, RAISE) PUT(IN_SLOT, WHO, RAISE), .owner = OWNER
#define SET_RUNNING(QUEUE, VALUE) .apply = set_running, .queue = QUEUE, .value = VALUE

const struct damage damages[] = {
    { "1: kind 4", SET(TEXT, T_KIND, 4) },
    { "1: kind 256", SET(BYTES, T_KIND, 256) },
    { "1: kind 65535", SET(PLAIN, T_KIND, 65535) },
    { "1: free with flags 1", SET(FREED, T_FLAGS, 1) },
    { "1: free with flags 2", SET(FREED, T_FLAGS, 2) },
    { "1: free with flags 3", SET(FREED, T_FLAGS, 3) },
    { "1: free with count 1", SET(FREED, T_COUNT, 1) },
    { "1: free with count 65535", SET(FREED, T_COUNT, 65535) },
    { "1: free with a slot in use", PUT_SLOT(FREED, USED, 1) },
    { "2: string with flags 1", SET(TEXT, T_FLAGS, 1) },
    { "2: string with flags 2", SET(TEXT, T_FLAGS, 2) },
    { "2: string with flags 3", SET(TEXT, T_FLAGS, 3) },
    { "2: buffer with flags 1", SET(BYTES, T_FLAGS, 1) },
    { "2: buffer with flags 3", SET(BYTES, T_FLAGS, 3) },
    { "2: string with a slot in use", PUT_SLOT(TEXT, USED, 1) },
    { "2: buffer with a slot in use", PUT_SLOT(BYTES, USED, 1) },
    { "2: object with flags 2", SET(PLAIN, T_FLAGS, 2) },
    { "2: object with flags 4", SET(PLAIN, T_FLAGS, 4) },
    { "2: object with flags 5", SET(WAITING, T_FLAGS, 5) },
    { "2: object with flags 7", SET(RUN_ONCE, T_FLAGS, 7) },
    { "2: object with flags 256", SET(PLAIN, T_FLAGS, 256) },
    { "2: object with flags 65535", SET(RUN_ONCE, T_FLAGS, 65535) },
    { "3: root names a free cell", PUT(IN_ROOT, FREED, 0) },
    { "3: root names cell N", PUT(IN_ROOT, ABOVE, 0) },
    { "3: root names cell 65534", PUT(IN_ROOT, LARGEST, 0) },
    { "3: slot names a free cell", PUT_SLOT(PLAIN, FREED, 0) },
    { "3: slot names cell N", PUT_SLOT(PLAIN, ABOVE, 0) },
    { "3: slot of a queued cell names cell 65534", PUT_SLOT(QUEUED, LARGEST, 0) },
    { "3: queue names a free cell", PUT(IN_QUEUE, FREED, 0) },
    { "3: queue names cell N", PUT(IN_QUEUE, ABOVE, 0) },
    { "3: queue names cell 65534", PUT(IN_QUEUE, LARGEST, 0) },
    { "3: queue names cell N past its length", PUT(PAST_QUEUE, ABOVE, 0) },
    { "4: queue longer than N by 1", .apply = set_length, .queue = QUEUE_ALL, .value = 1 },
    { "4: queue longer than N by 60000", .apply = set_length, .queue = QUEUE_ALL, .value = 60000 },
    { "4: cell queued twice", PUT(IN_QUEUE, QUEUED, 0) },
    { "4: cell queued twice and counted twice", PUT(IN_QUEUE, QUEUED, 1) },
    { "4: queued string", PUT(IN_QUEUE, TEXT, 1) },
    { "4: queued buffer", PUT(IN_QUEUE, BYTES, 1) },
    { "4: queued object with flags 0", PUT(IN_QUEUE, PLAIN, 1) },
    { "4: queued object with flags 3", PUT(IN_QUEUE, RUN_ONCE, 1) },
    { "4: empty entry below the length", .apply = lengthen_queue },
    { "4: entry past the length", PUT(PAST_QUEUE, WAITING, 0) },
    { "4: entry past the length, counted", PUT(PAST_QUEUE, WAITING, 1) },
    { "4: queued cell again past the length", PUT(PAST_QUEUE, QUEUED, 0) },
    { "4: finalised cell past the length", PUT(PAST_QUEUE, RUN_ONCE, 0) },
    { "5: running root 64", SET_RUNNING(QUEUE_SOME, 65) },
    { "5: running root 65534", SET_RUNNING(QUEUE_SOME, 65535) },
    { "5: running root 0 with an empty queue", SET_RUNNING(QUEUE_NONE, 1) },
    { "5: running root 63 with an empty queue", SET_RUNNING(QUEUE_NONE, 64) },
    { "6: count one too high", ADD(USED, 1) },
    { "6: count of a queued cell one too high", ADD(QUEUED, 1) },
    { "6: count of a queued cell one too low", ADD(QUEUED, -1) },
    { "6: count one too low, above zero", ADD(SHARED, -1) },
    { "6: count too high by 256", ADD(USED, 256) },
    { "6: count too high by 32768", ADD(USED, 32768) },
    { "6: count 0", SET(USED, T_COUNT, 0) },
    { "6: count 65535", SET(USED, T_COUNT, 65535) },
    { "6: used cell that nothing refers to, with count 0", SET(FREED, T_KIND, OBJECT) },
    { "6: reference in a root not counted", PUT(IN_ROOT, USED, 0) },
    { "6: reference in a slot not counted", PUT_SLOT(PLAIN, USED, 0) },
    { "6: queued cell not counted", PUT(IN_QUEUE, WAITING, 0) },
};

const size_t damage_count = sizeof damages / sizeof *damages;
