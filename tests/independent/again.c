/* A freed cell is used again as another kind: what it was before shows in none of its slots. */
#include "suites.h"

#include "baskets.h"

/* Which root is for what, besides those of the objects made. */
enum { AGAIN = NO_BASKET, READ, NOTHING, OTHERS };

/* What a cell is besides an object, and the root whose cell stands in all slots of the object: another object's, or its own. */
struct use {
    enum kind kind;
    size_t stored;
};

static const struct use uses[] = { { STRING, LAST }, { BUFFER, LAST }, { STRING, AGAIN }, { BUFFER, AGAIN } };

enum { USES = sizeof uses / sizeof *uses };

/* The root held something before, so an empty slot empties it. */
static void demand_slot(struct pair *pair, size_t object_root, size_t slot, uint16_t wanted)
{
    pair_call(pair, COPY, READ, object_root, 0);
    pair_call(pair, LOAD, READ, object_root, slot);
    demand(pair->ours.roots.at[READ] == wanted, "a slot holds what was stored there since NEW");
}

static void new_object(struct pair *pair, size_t root, size_t cell)
{
    demand(pair_call(pair, NEW, root, OBJECT, 0).cell == cell, "the lowest free cell becomes an object");
    for (size_t slot = 0; slot < SLOTS; slot++)
        demand_slot(pair, root, slot, 0);
}

static void new_and_freed(struct pair *pair, size_t cell, enum kind kind)
{
    demand(pair_call(pair, NEW, AGAIN, kind, 0).cell == cell, "the lowest free cell becomes a string or buffer");
    demand(pair_call(pair, CLEAR, AGAIN, 0, 0).freed == 1, "a string or buffer is freed by CLEAR");
}

static void fill_slots(struct pair *pair, size_t stored)
{
    for (size_t slot = 0; slot < SLOTS; slot++) {
        pair_call(pair, STORE, AGAIN, slot, stored);
        demand_slot(pair, AGAIN, slot, pair->ours.roots.at[stored]);
    }
    pair_call(pair, CLEAR, READ, 0, 0);
}

static void free_object(struct pair *pair, bool holds_itself)
{
    demand(pair_call(pair, CLEAR, AGAIN, 0, 0).freed == !holds_itself, "CLEAR frees an object unless it holds itself");
    demand(pair_call(pair, COLLECT, 0, 0, 0).freed == holds_itself, "COLLECT frees an object that holds itself");
}

/* In turns it is a string or buffer and an object. */
static void use_lowest(struct pair *pair, size_t cell, const struct use *use)
{
    new_and_freed(pair, cell, use->kind);
    new_object(pair, AGAIN, cell);
    fill_slots(pair, use->stored);
    free_object(pair, use->stored == AGAIN);
    new_and_freed(pair, cell, use->kind);
    new_object(pair, AGAIN, cell);
    free_object(pair, false);
}

/* There is no other object, so this one holds itself. */
static void first_cell(size_t cells)
{
    pair_sequence("the first cell used again");
    struct pair pair = pair_of(cells);
    for (size_t i = 0; i < USES; i++)
        if (uses[i].stored == AGAIN)
            use_lowest(&pair, 0, &uses[i]);
    pair_free(&pair);
}

/* Those that the last object holds, from the highest down, so that the one just freed is the lowest free cell. */
static void last_cells(size_t cells)
{
    struct pair pair = pair_made("the last cells used again", cells, make_baskets);
    size_t object = pair.ours.roots.at[LAST] - 1;
    for (size_t cell = cells - 1; cell > object; cell--) {
        size_t slot = cell - object - 1;
        demand(pair_call(&pair, STORE, LAST, slot, NOTHING).freed == 1, "a string or buffer is freed by STORE");
        use_lowest(&pair, cell, &uses[slot % USES]);
    }
    pair_free(&pair);
}

/* The cells of an object, of what it held and of the next object become objects, after one call has freed all cells. */
static void all_freed_at_once(size_t cells, void (*free_all)(struct pair *))
{
    struct pair pair = pair_made("cells used again after all were freed", cells, make_baskets);
    free_all(&pair);
    for (size_t cell = 0; cell <= SLOTS && cell < cells; cell++)
        new_object(&pair, OTHERS + cell, cell);
    pair_free(&pair);
}

void again(void)
{
    for (size_t i = 0; i < BASKET_SIZES; i++) {
        first_cell(basket_sizes[i]);
        last_cells(basket_sizes[i]);
        all_freed_at_once(basket_sizes[i], free_by_clear);
        all_freed_at_once(basket_sizes[i], free_by_collect);
    }
}
