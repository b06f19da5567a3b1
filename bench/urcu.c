/* liburcu's readers, as a program under its licence inlines them, and its grace periods: of the flavours `mb` and `memb`. */
#define _LGPL_SOURCE
#include <urcu/urcu-mb.h>
#include <urcu/urcu-memb.h>

#include <urcu/pointer.h>

#include "peers.h"

#include <pthread.h>
#include <stdlib.h>

#define MOST_READERS 256

/* Readers that are registered, and sleep until they are told to leave. */
static pthread_t readers[MOST_READERS];
static unsigned reader_count;
static pthread_barrier_t registered;
static pthread_barrier_t leaving;

static void prepare_nothing(unsigned size)
{
	(void)size;
}

static void make_mb_pairs(const struct worker *worker)
{
	urcu_mb_register_thread();
	for (uint64_t round = 0; round < worker->rounds; round++) {
		urcu_mb_read_lock();
		urcu_mb_read_unlock();
	}
	urcu_mb_unregister_thread();
}

static void make_memb_pairs(const struct worker *worker)
{
	urcu_memb_register_thread();
	for (uint64_t round = 0; round < worker->rounds; round++) {
		urcu_memb_read_lock();
		urcu_memb_read_unlock();
	}
	urcu_memb_unregister_thread();
}

/* What readers follow a pointer to. They load its first word. */
struct box {
	_Alignas(STRIDE) volatile uint64_t words[VERSION_WORDS];
};

static struct box box;
static _Alignas(STRIDE) struct box *current_box = &box;

static void follow_pointers(const struct worker *worker)
{
	urcu_memb_register_thread();
	for (uint64_t round = 0; round < worker->rounds; round++) {
		urcu_memb_read_lock();
		(void)rcu_dereference(current_box)->words[0];
		urcu_memb_read_unlock();
	}
	urcu_memb_unregister_thread();
}

static void start_readers(unsigned size, void *(*reader)(void *))
{
	reader_count = size < MOST_READERS ? size : MOST_READERS;
	pthread_barrier_init(&registered, NULL, reader_count + 1);
	pthread_barrier_init(&leaving, NULL, reader_count + 1);
	for (unsigned i = 0; i < reader_count; i++)
		if (pthread_create(&readers[i], NULL, reader, NULL) != 0)
			abort();
	pthread_barrier_wait(&registered);
}

static void stop_readers(void)
{
	pthread_barrier_wait(&leaving);
	for (unsigned i = 0; i < reader_count; i++)
		pthread_join(readers[i], NULL);
	pthread_barrier_destroy(&registered);
	pthread_barrier_destroy(&leaving);
}

static void *sleep_as_mb_reader(void *argument)
{
	urcu_mb_register_thread();
	pthread_barrier_wait(&registered);
	pthread_barrier_wait(&leaving);
	urcu_mb_unregister_thread();
	return argument;
}

static void *sleep_as_memb_reader(void *argument)
{
	urcu_memb_register_thread();
	pthread_barrier_wait(&registered);
	pthread_barrier_wait(&leaving);
	urcu_memb_unregister_thread();
	return argument;
}

static void start_mb_readers(unsigned size)
{
	start_readers(size, sleep_as_mb_reader);
}

static void start_memb_readers(unsigned size)
{
	start_readers(size, sleep_as_memb_reader);
}

static void synchronize_mb(const struct worker *worker)
{
	for (uint64_t round = 0; round < worker->rounds; round++)
		urcu_mb_synchronize_rcu();
}

static void synchronize_memb(const struct worker *worker)
{
	for (uint64_t round = 0; round < worker->rounds; round++)
		urcu_memb_synchronize_rcu();
}

const struct thing urcu_mb_pair = {
	.name = "urcu-mb",
	.prepare = prepare_nothing,
	.work = make_mb_pairs,
	.less_often = 4,
};

const struct thing urcu_memb_pair = {
	.name = "urcu-memb",
	.prepare = prepare_nothing,
	.work = make_memb_pairs,
	.less_often = 1,
};

const struct thing urcu_memb_box = {
	.name = "urcu-memb-box",
	.prepare = prepare_nothing,
	.work = follow_pointers,
	.less_often = 1,
};

const struct thing urcu_mb_synchronize = {
	.name = "urcu-mb-synchronize",
	.prepare = start_mb_readers,
	.clear = stop_readers,
	.work = synchronize_mb,
	.less_often = 64,
	.sizes = processor_sizes,
};

const struct thing urcu_mb_synchronize_at_once = {
	.name = "urcu-mb-synchronize-at-once",
	.prepare = start_mb_readers,
	.clear = stop_readers,
	.work = synchronize_mb,
	.less_often = 256,
	.sizes = eight_sizes,
	.workers = 8,
};

const struct thing urcu_memb_synchronize_at_once = {
	.name = "urcu-memb-synchronize-at-once",
	.prepare = start_memb_readers,
	.clear = stop_readers,
	.work = synchronize_memb,
	.less_often = 256,
	.sizes = eight_sizes,
	.workers = 8,
};

const struct thing urcu_memb_synchronize = {
	.name = "urcu-memb-synchronize",
	.prepare = start_memb_readers,
	.clear = stop_readers,
	.work = synchronize_memb,
	.less_often = 64,
	.sizes = processor_sizes,
};
