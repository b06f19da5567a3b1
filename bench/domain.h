/*
 * The words of a domain in C11, at the same distances as the proved one has them, and the steps of its readers and of its
 * engine. Each file that includes this has a domain of its own.
 */
#ifndef DOMAIN_H
#define DOMAIN_H

#include "peers.h"

#include <stdatomic.h>

#define MOST_PROCESSORS 256

struct word {
	_Alignas(STRIDE) _Atomic uint64_t value;
};

/* The counters of one processor: two of begun and two of ended sections, one of each for each index. */
struct processor {
	_Alignas(STRIDE) _Atomic uint64_t locks[2];
	_Atomic uint64_t unlocks[2];
};

static struct word current_index;
static struct word number;
static struct word need;
static struct processor processors[MOST_PROCESSORS];
static unsigned processor_count;

/* An even index word and a number at rest stay so, so that each measurement finds the domain as the first one did. */
static inline void prepare_processors(unsigned size)
{
	processor_count = size < MOST_PROCESSORS ? size : MOST_PROCESSORS;
}

static inline struct processor *processor_of(const struct worker *worker)
{
	return &processors[worker->number % MOST_PROCESSORS];
}

/* As `read_lock`: the index is loaded, and a counter goes up by one. Returns the index. */
static inline unsigned begin_section(struct processor *own)
{
	unsigned index = atomic_load(&current_index.value) & 1;

	atomic_fetch_add(&own->locks[index], 1);
	return index;
}

/* As `read_unlock`. */
static inline void end_section(struct processor *own, unsigned index)
{
	atomic_fetch_add(&own->unlocks[index], 1);
}

/*
 * Whether every section of the index is over. The unlocks are summed first: a section that ends between the two sums
 * is then missing from the smaller sum, and never from the larger one.
 */
static inline int is_drained(unsigned index)
{
	const unsigned count = processor_count;
	uint64_t unlocks = 0;
	uint64_t locks = 0;

	for (unsigned i = 0; i < count; i++)
		unlocks += atomic_load(&processors[i].unlocks[index]);
	for (unsigned i = 0; i < count; i++)
		locks += atomic_load(&processors[i].locks[index]);
	return locks == unlocks;
}

static inline void wait_until_drained(unsigned index)
{
	while (!is_drained(index))
		;
}

/* The need is loaded, the number starts, one index is scanned, the index flips, the other is scanned, the number ends. */
static inline void run_quiet_period(void)
{
	unsigned index = atomic_load(&current_index.value) & 1;

	(void)atomic_load(&need.value);
	atomic_fetch_add(&number.value, 1);
	wait_until_drained(!index);
	atomic_fetch_add(&current_index.value, 1);
	atomic_fetch_add(&number.value, 1);
	wait_until_drained(index);
	atomic_fetch_add(&number.value, 2);
}

/* The cookie of what is retired now, which is asked for. */
static inline uint64_t ask_for_period(void)
{
	uint64_t cookie = atomic_load(&number.value) + 4;

	if (atomic_load(&need.value) < cookie)
		atomic_store(&need.value, cookie);
	return cookie;
}

static inline void wait_until_done(uint64_t cookie)
{
	while (atomic_load(&number.value) < cookie)
		;
}

#endif
