/* liburcu's callbacks and their barrier, of the flavour `memb`. */
#define _LGPL_SOURCE
#include <urcu/urcu-memb.h>

#include "peers.h"

#include <stdlib.h>

#define JOBS 20000

/* A job has the place in which it is queued, so queueing takes no memory. */
struct queued_job {
	struct rcu_head head;
	uint64_t number;
};

static struct queued_job queued_jobs[JOBS];

/* How many ran: one thread of liburcu runs all of them. */
static uint64_t ran;

static void run_job(struct rcu_head *head)
{
	(void)head;
	ran++;
}

static void prepare_jobs(unsigned size)
{
	(void)size;
	ran = 0;
	/* The thread that runs the jobs is there before the clock is read. */
	if (urcu_memb_get_default_call_rcu_data() == NULL)
		abort();
}

static void finish_jobs(void)
{
	urcu_memb_barrier();
	if (ran != JOBS)
		abort();
}

static void queue_jobs(const struct worker *worker)
{
	struct queued_job *jobs = queued_jobs + worker->number * worker->rounds;

	urcu_memb_register_thread();
	for (uint64_t i = 0; i < worker->rounds; i++) {
		jobs[i].number = i;
		urcu_memb_call_rcu(&jobs[i].head, run_job);
	}
	urcu_memb_unregister_thread();
}

static void queue_and_wait(const struct worker *worker)
{
	queue_jobs(worker);
	urcu_memb_barrier();
}

const struct thing urcu_memb_call = {
	.name = "urcu-memb-call",
	.prepare = prepare_jobs,
	.clear = finish_jobs,
	.work = queue_jobs,
	.less_often = 1,
	.jobs = JOBS,
};

const struct thing urcu_memb_callbacks = {
	.name = "urcu-memb-callbacks",
	.prepare = prepare_jobs,
	.clear = finish_jobs,
	.work = queue_and_wait,
	.less_often = 1,
	.jobs = JOBS,
};
