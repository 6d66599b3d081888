/* Compares the heap under test with the independent one, call by call and entry by entry:  compare SEED [PART]
   With a second word, calls, audits or batches, only these are compared.
   Ends with status 1 at the first difference, where a count is met at zero, or if something that should be met wasn't. */
#include "audit_coverage.h"
#include "batch_coverage.h"
#include "coverage.h"
#include "pair.h"
#include "random.h"
#include "suites.h"

#include <stdio.h>
#include <stdlib.h>
#include <string.h>

static bool compare_calls(void)
{
    book();
    numbers();
    damage();
    freeing();
    freed_examples();
    stops();
    lengths();
    freed_lengths();
    corners();
    chains();
    trees();
    lists();
    noise();
    bits();
    readers();
    baskets();
    again();
    borders();
    orders();
    rings();
    filled();
    losing();
    return coverage_report();
}

static bool compare_audits(void)
{
    audit_examples();
    audit_lengths();
    audit_reports();
    audit_lists();
    audit_reached();
    audit_small();
    return audit_coverage_report();
}

static bool compare_batches(void)
{
    batch_examples();
    batch_book();
    batch_numbers();
    batch_lengths();
    batch_refusals();
    batch_totals();
    batch_damage();
    batch_large();
    batch_lists();
    return batch_coverage_report();
}

static const struct {
    const char *name;
    bool (*compare)(void);
} parts[] = { { "calls", compare_calls }, { "audits", compare_audits }, { "batches", compare_batches } };

int main(int argc, char **argv)
{
    unsigned long long seed = argc > 1 ? strtoull(argv[1], NULL, 10) : 1;
    random_seed(seed);
    pair_seed(seed);
    bool all = true;
    for (size_t i = 0; i < sizeof parts / sizeof *parts; i++)
        if (argc <= 2 || strcmp(argv[2], parts[i].name) == 0)
            all &= parts[i].compare();
    return all ? 0 : 1;
}
