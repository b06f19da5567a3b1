/* The work of a grace period, step by step. */
#include "harness.h"

/* The number of the domain, which begins at 0 here. */
unsigned long number_of(struct domain *domain)
{
	return USAGE(&domain->srcu)->srcu_gp_seq - domain->base;
}

static struct work_struct *work_of(struct domain *domain)
{
	return &USAGE(&domain->srcu)->work.work;
}

static void run_work(struct task *task)
{
	struct work_struct *work = work_of(task->domain);

	work->func(work);
}

/* Lets the engine go on to where it stops next. It is gone where the work is over then. */
static void carry_on(struct domain *domain)
{
	shim_cpu = domain->engine_processor;
	resume(domain->engine);
	if (domain->engine->over) {
		free(domain->engine);
		domain->engine = NULL;
	}
}

/* Begins the work that is queued, up to its first stop. */
static void begin_work(struct domain *domain, int processor)
{
	unsigned long before = number_of(domain);

	work_of(domain)->pending = false;
	domain->engine_processor = processor;
	domain->engine = make_task(domain, ENGINE, run_work);
	carry_on(domain);
	if (number_of(domain) != before)
		fail("the number changed without a lock");
}

/* What a change of the number means. */
static const char *changed(struct domain *domain, unsigned long before)
{
	static char reply[64];
	unsigned long number = number_of(domain);

	if (number == before + 1 && before % 4 == 0)
		sprintf(reply, "started %lu", number);
	else if (number == before + 1 && before % 4 == 1)
		sprintf(reply, "flipped %d", (int)(domain->srcu.srcu_idx & 1));
	else if (number == before + 2 && before % 4 == 2)
		sprintf(reply, "ended %lu", number);
	else
		sprintf(reply, "number from %lu to %lu", before, number);
	return reply;
}

/* What a load of a counter gives: it may be the last one of a scan that does not pass. */
static const char *loaded(struct domain *domain, int index)
{
	static char reply[64];

	if (!domain->missed)
		return "step";
	sprintf(reply, "waiting %d", index);
	return reply;
}

/*
 * One step: up to and with one load of a counter of one of the domain's processors, one store of the index, or one change
 * of the number, and then on to where the next one would be. A look under the lock that changes nothing is no step.
 */
const char *step(struct domain *domain, int processor)
{
	for (;;) {
		unsigned long before = number_of(domain);
		enum stop stop;
		int index;

		if (!domain->engine) {
			if (!work_of(domain)->pending)
				return "idle";
			begin_work(domain, processor);
			continue;
		}
		stop = domain->engine->stop;
		index = domain->engine->index;
		domain->missed = false;
		carry_on(domain);
		if (stop == AT_LOAD)
			return loaded(domain, index);
		if (stop == AT_FLIP)
			return "step";
		if (number_of(domain) != before)
			return changed(domain, before);
	}
}

static struct domain *domain_of_work(struct work_struct *work)
{
	for (int i = 0; i < domain_count; i++)
		if (*domains[i]->name && work == work_of(domains[i]))
			return domains[i];
	return NULL;
}

/* Linux waits here until the work is over, which it then is. */
void shim_flush(struct work_struct *work)
{
	struct domain *domain = domain_of_work(work);
	bool is_pending = work->pending;

	while (domain && domain->engine)
		carry_on(domain);
	if (!is_pending)
		return;
	work->pending = false;
	if (!domain) {
		work->func(work);
		return;
	}
	domain->engine = make_task(domain, ENGINE, run_work);
	while (domain->engine)
		carry_on(domain);
}
