/* The library's codes and causes in words. */
#ifndef CODES_H
#define CODES_H

#include <stdint.h>

/* What was wrong, and what to do next. */
const char *code_words(uint64_t code);
const char *code_next(uint64_t code);

/* Why a reply is rejected, and what the host is told; words for none too. */
const char *cause_words(uint64_t cause);
const char *cause_next(uint64_t cause);

#endif
