/*
 * How long it takes from the end of the last section of liburcu's flavour `memb` until its thread runs a callback that
 * waited for it.
 */
#define _LGPL_SOURCE
#include <urcu/urcu-memb.h>

#include "peers.h"

#include <stdatomic.h>
#include <stdlib.h>
#include <time.h>

#define DELAYS 100

/* The place of the one that 99 of 100 don't exceed, once they are in order. */
#define LATE (DELAYS - 1 - DELAYS / 100)

/* So long a section stays open behind its callback's queueing, in nanoseconds: liburcu's thread waits for it by then. */
#define NAP 15000000

/* How long it is between two looks whether the callback was run, in nanoseconds. */
#define LOOK 100000

/* When the callback was run, or 0. */
static _Atomic double ran_at;

static void note(struct rcu_head *head)
{
	(void)head;
	atomic_store(&ran_at, nanoseconds_now());
}

static void sleep_for(long nanoseconds)
{
	struct timespec length = { 0, nanoseconds };

	nanosleep(&length, NULL);
}

static double delay_once(void)
{
	static struct rcu_head head;
	double ended;
	double ran;

	atomic_store(&ran_at, 0.0);
	urcu_memb_read_lock();
	urcu_memb_call_rcu(&head, note);
	sleep_for(NAP);
	ended = nanoseconds_now();
	urcu_memb_read_unlock();
	while ((ran = atomic_load(&ran_at)) == 0.0)
		sleep_for(LOOK);
	return ran - ended;
}

void report_delays(void)
{
	double delays[DELAYS];

	if (urcu_memb_get_default_call_rcu_data() == NULL)
		abort();
	urcu_memb_register_thread();
	for (unsigned i = 0; i < DELAYS; i++)
		delays[i] = delay_once();
	urcu_memb_unregister_thread();
	sort_samples(delays, DELAYS);
	report_samples("urcu-memb-delay", 1, delays[DELAYS / 2], delays[DELAYS / 2], delays[DELAYS / 2]);
	report_samples("urcu-memb-delay-late", 1, delays[LATE], delays[LATE], delays[LATE]);
}
