/*
 * What readers use who have no RCU: a lock that readers share, and one counter for all of them. And what takes the place
 * of a tree of needs: one word that all raise.
 */
#include "peers.h"

#include <pthread.h>
#include <stdatomic.h>

static _Alignas(STRIDE) pthread_rwlock_t lock = PTHREAD_RWLOCK_INITIALIZER;
static _Alignas(STRIDE) _Atomic uint64_t readers;
static _Alignas(STRIDE) _Atomic uint64_t need;

static void prepare_nothing(unsigned size)
{
	(void)size;
}

static void make_rwlock_pairs(const struct worker *worker)
{
	for (uint64_t round = 0; round < worker->rounds; round++) {
		pthread_rwlock_rdlock(&lock);
		pthread_rwlock_unlock(&lock);
	}
}

static void make_counter_pairs(const struct worker *worker)
{
	for (uint64_t round = 0; round < worker->rounds; round++) {
		atomic_fetch_add(&readers, 1);
		atomic_fetch_sub(&readers, 1);
	}
}

static void prepare_need(unsigned size)
{
	(void)size;
	atomic_store(&need, 0);
}

/* As a compiler builds `fetch_max`: it writes where the word is as great, too. */
static void raise_need(uint64_t number)
{
	uint64_t found = atomic_load(&need);

	while (!atomic_compare_exchange_weak(&need, &found, found < number ? number : found))
		;
}

static void raise_to_new_numbers(const struct worker *worker)
{
	for (uint64_t round = 0; round < worker->rounds; round++)
		raise_need(4 * (round + 1));
}

static void raise_to_one_number(const struct worker *worker)
{
	for (uint64_t round = 0; round < worker->rounds; round++)
		raise_need(4);
}

const struct thing rwlock_pair = {
	.name = "rwlock",
	.prepare = prepare_nothing,
	.work = make_rwlock_pairs,
	.less_often = 8,
};

const struct thing counter_pair = {
	.name = "counter",
	.prepare = prepare_nothing,
	.work = make_counter_pairs,
	.less_often = 4,
};

const struct thing max_of_new_numbers = {
	.name = "shared-max-new",
	.prepare = prepare_need,
	.work = raise_to_new_numbers,
	.less_often = 4,
};

const struct thing max_of_one_number = {
	.name = "shared-max-known",
	.prepare = prepare_need,
	.work = raise_to_one_number,
	.less_often = 4,
};
