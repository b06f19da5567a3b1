/*
 * Two versions of sixteen words in a domain, of which one is current: readers find it by a pointer. Each file that includes
 * this has versions of its own.
 */
#ifndef SHELF_H
#define SHELF_H

#include "domain.h"

struct version {
	_Alignas(STRIDE) _Atomic uint64_t words[VERSION_WORDS];
};

static struct version versions[2];
static _Alignas(STRIDE) struct version *_Atomic current = &versions[0];
static uint64_t retired;

/*
 * As a change of a chain or a table: the number is loaded to see whether the version that is not current is free again,
 * its words are stored, it becomes current, and the grace period of the other is asked for and driven.
 */
static inline void put_words(const uint64_t *words)
{
	struct version *other = atomic_load(&current) == &versions[0] ? &versions[1] : &versions[0];

	wait_until_done(retired);
	for (unsigned i = 0; i < VERSION_WORDS; i++)
		atomic_store(&other->words[i], words[i]);
	atomic_store(&current, other);
	retired = ask_for_period();
	run_quiet_period();
}

#endif
