/*
 * What readers use for a value of sixteen words who have no RCU: a pointer to it, which nobody may free, or a lock that
 * readers share and a writer has alone.
 */
#include "peers.h"

#include <pthread.h>
#include <stdatomic.h>
#include <stddef.h>

struct value {
	_Alignas(STRIDE) _Atomic uint64_t words[VERSION_WORDS];
};

static _Alignas(STRIDE) pthread_rwlock_t lock = PTHREAD_RWLOCK_INITIALIZER;
static struct value value;
static _Alignas(STRIDE) struct value *_Atomic current = &value;

static void prepare_nothing(unsigned size)
{
	(void)size;
}

/* Each word is loaded, though nobody looks at it. */
static void read_words(struct value *found, unsigned words)
{
	for (unsigned i = 0; i < words; i++)
		(void)atomic_load_explicit(&found->words[i], memory_order_relaxed);
}

static void read_one_by_pointer(const struct worker *worker)
{
	for (uint64_t round = 0; round < worker->rounds; round++)
		read_words(atomic_load(&current), 1);
}

static void read_all_by_pointer(const struct worker *worker)
{
	for (uint64_t round = 0; round < worker->rounds; round++)
		read_words(atomic_load(&current), VERSION_WORDS);
}

static void read_one_locked(const struct worker *worker)
{
	for (uint64_t round = 0; round < worker->rounds; round++) {
		pthread_rwlock_rdlock(&lock);
		read_words(&value, 1);
		pthread_rwlock_unlock(&lock);
	}
}

static void read_all_locked(const struct worker *worker)
{
	for (uint64_t round = 0; round < worker->rounds; round++) {
		pthread_rwlock_rdlock(&lock);
		read_words(&value, VERSION_WORDS);
		pthread_rwlock_unlock(&lock);
	}
}

static void write_all_locked(const struct worker *worker)
{
	for (uint64_t round = 0; round < worker->rounds; round++) {
		pthread_rwlock_wrlock(&lock);
		for (unsigned i = 0; i < VERSION_WORDS; i++)
			atomic_store_explicit(&value.words[i], round, memory_order_relaxed);
		pthread_rwlock_unlock(&lock);
	}
}

const struct thing pointer_one = {
	.name = "pointer-find-1",
	.prepare = prepare_nothing,
	.work = read_one_by_pointer,
	.less_often = 1,
};

const struct thing pointer_all = {
	.name = "pointer-find-16",
	.prepare = prepare_nothing,
	.work = read_all_by_pointer,
	.less_often = 1,
};

const struct thing rwlock_one = {
	.name = "rwlock-find-1",
	.prepare = prepare_nothing,
	.work = read_one_locked,
	.less_often = 8,
};

const struct thing rwlock_all = {
	.name = "rwlock-find-16",
	.prepare = prepare_nothing,
	.work = read_all_locked,
	.less_often = 8,
};

const struct thing rwlock_put = {
	.name = "rwlock-put",
	.prepare = prepare_nothing,
	.work = write_all_locked,
	.less_often = 4,
	.sizes = one_size,
};
