/*
 * The vendor's text into a log and back, written in C without a proof: what
 * import and export are measured against. Each goes through its input once and
 * writes as it goes, so that a refused one leaves a part behind.
 */
#ifndef SCRIBE_H
#define SCRIBE_H

#include <stddef.h>
#include <stdint.h>

/* Both answer how many bytes were written; 0 for refused. */
size_t scribe_import(const uint8_t *text, size_t ntext, uint8_t *log, size_t nlog);
size_t scribe_export(const uint8_t *log, size_t nlog, uint8_t *text, size_t ntext);

#endif
