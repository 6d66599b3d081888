/* The parts of the comparison; each ends the program at the first difference. */
#ifndef SUITES_H
#define SUITES_H

void book(void);    /* the marked examples, K1 to K12 of document 01 and K13 to K15 of Q-2, with their answers */
void corners(void); /* situations that random lists seldom meet */
void chains(void);  /* chains and rings of every length */
void trees(void);   /* trees with finalizers */
void baskets(void); /* objects that are freed with the strings and buffers they hold */
void again(void);   /* freed cells used again as another kind */
void numbers(void); /* numbers up to the largest in every place of every call */
void damage(void);  /* a sound heap with a single clause broken */
void lengths(void); /* tables whose lengths don't fit */
void lists(void);   /* long random lists of calls */
void noise(void);   /* random tables, sound and not */
void bits(void);    /* lines that arrive in bits, cut in every way */
void readers(void); /* readers with any numbers in them */
void borders(void); /* each cell at the border of a 64-bit word, with another fate than the rest */
void orders(void);  /* long chains through many words, in strange orders */
void rings(void);   /* rings through many words, with strings and finalizers */
void filled(void);  /* heaps filled up to the border of a word */
void losing(void);  /* random heaps that lose their roots */
void freeing(void); /* the freeing step of the independent heap alone, on any tables */
void stops(void);   /* counts met at zero by the independent heap alone, in tables that calls refuse */

void freed_examples(void); /* lists of freed cells that are known */
void freed_lengths(void);  /* lists of freed cells whose lengths don't fit */

void audit_examples(void); /* heaps whose differences are known */
void audit_lengths(void);  /* tables and differences whose lengths don't fit */
void audit_reports(void);  /* reports with any numbers in them */
void audit_lists(void);    /* lists of heaps of all sorts, up to a thousand and beyond */
void audit_reached(void);  /* a list for each report within the bounds, and none beyond them */
void audit_small(void);    /* the bounds of the independent audit alone, with limits so small that all heaps can be made */

void batch_examples(void); /* batches whose answers are known */
void batch_book(void);     /* the marked examples as batches */
void batch_numbers(void);  /* records with numbers up to the largest in every place */
void batch_lengths(void);  /* lists and tables whose lengths don't fit */
void batch_refusals(void); /* several reasons to refuse a batch at once */
void batch_totals(void);   /* totals near their end */
void batch_damage(void);   /* batches on heaps with a single clause broken */
void batch_large(void);    /* batches in which one record frees or queues all cells */
void batch_lists(void);    /* random batches, and single calls among them */

#endif
