/* Parity beside ISA-L. */
#ifndef BENCH_PARITY_H
#define BENCH_PARITY_H

/* Prints the table of encodings and rebuildings by each variant, beside ISA-L's vector code and its
 * portable code. */
void print_parity(void);

#endif
