/* Jobs on the lists of Linux's callbacks, their batches, and barriers. */
#include "harness.h"

#define MOST_RUNS 1000

struct job {
	struct rcu_head head;
	char name[NAME_SIZE];
};

static char ran[65536]; /* the names of the jobs that were run, each behind a space */

static void run_job(struct rcu_head *head)
{
	struct job *job = container_of(head, struct job, head);

	sprintf(ran + strlen(ran), " %s", job->name);
	free(job);
}

/* The number of the segment that a callback waits in; -1 where it has none. */
static long number_in(struct domain *domain, struct rcu_segcblist *list, struct rcu_head *wanted)
{
	struct rcu_head **at = &list->head;

	for (int segment = 0; segment < RCU_CBLIST_NSEGS; segment++)
		for (; at != list->tails[segment]; at = &(*at)->next)
			if (*at == wanted)
				return segment == RCU_WAIT_TAIL || segment == RCU_NEXT_READY_TAIL
					       ? (long)(list->gp_seq[segment] - domain->base)
					       : -1;
	return -2;
}

/* Likewise, on whichever list it is: a small domain has one for all processors. */
static long number_given(struct domain *domain, struct rcu_head *wanted)
{
	int processor;

	for_each_possible_cpu(processor) {
		struct rcu_segcblist *list = &per_cpu_ptr(domain->srcu.sda, processor)->srcu_cblist;
		long number = number_in(domain, list, wanted);

		if (number != -2)
			return number;
	}
	return -2;
}

void call(struct domain *domain, int processor, const char *name)
{
	struct job *job = calloc(1, sizeof(*job));

	snprintf(job->name, sizeof(job->name), "%s", name);
	call_srcu(&domain->srcu, &job->head, run_job);
	printf("queued %ld cookie %ld", domain->calls[processor]++, number_given(domain, &job->head));
}

/* Whether the work of a processor's callbacks is to run. A timer that is pending has run out then. */
static bool has_fired(struct srcu_data *data)
{
	bool is_pending;

	shim_cpu = data->cpu;
	if (data->delay_work.pending) {
		data->delay_work.pending = false;
		data->delay_work.function(&data->delay_work);
	}
	is_pending = data->work.pending;
	data->work.pending = false;
	return is_pending;
}

/* Runs what a processor has ready, also what becomes so meanwhile. */
void run_work_of(struct srcu_data *data)
{
	for (int runs = 0; has_fired(data); runs++) {
		if (runs == MOST_RUNS)
			fail("the work of a processor does not end");
		data->work.func(&data->work);
	}
}

/* Lets each barrier go on that waits, until none gets on. */
static void settle_barriers(struct domain *domain)
{
	int before;

	do {
		int left = 0;

		before = domain->barrier_count;
		for (int i = 0; i < before; i++) {
			resume(domain->barriers[i]);
			if (!domain->barriers[i]->over)
				domain->barriers[left++] = domain->barriers[i];
		}
		domain->barrier_count = left;
	} while (domain->barrier_count != before);
}

/* Runs what is ready on these processors, and returns the names of the jobs. */
const char *run_all(struct domain *domain, int first, int last)
{
	*ran = 0;
	for (int processor = first; processor <= last; processor++)
		run_work_of(per_cpu_ptr(domain->srcu.sda, processor));
	settle_barriers(domain);
	return ran;
}

/* The jobs on a processor's list, as text. */
static void list_jobs(struct srcu_data *data, char *text)
{
	*text = 0;
	for (struct rcu_head *head = data->srcu_cblist.head; head; head = head->next)
		if (head->func == run_job)
			sprintf(text + strlen(text), " %s", container_of(head, struct job, head)->name);
}

static void run_invoker(struct task *task)
{
	struct srcu_data *data = per_cpu_ptr(task->domain->srcu.sda, task->processor);

	data->work.func(&data->work);
}

/* Begins to run what is ready on a processor, and stops before the first callback. Returns the names of the jobs taken. */
const char *take_batch(struct domain *domain, int processor)
{
	static char taken[65536], left[65536];
	struct srcu_data *data = per_cpu_ptr(domain->srcu.sda, processor);
	struct task *invoker;

	if (!has_fired(data))
		return "";
	list_jobs(data, taken);
	invoker = make_task(domain, INVOKER, run_invoker);
	invoker->processor = processor;
	*ran = 0;
	resume(invoker);
	list_jobs(data, left);
	taken[strlen(taken) - strlen(left)] = 0;
	if (!invoker->over && !*taken) { /* the callback of a barrier alone is no batch of jobs */
		resume(invoker);
		settle_barriers(domain);
	}
	if (!invoker->over) {
		domain->batches[processor] = invoker;
		domain->batch_count++;
	}
	return taken;
}

/* Runs the batch of a processor that is out, and returns how many jobs it had. */
int finish_batch(struct domain *domain, int processor)
{
	int jobs = 0;

	*ran = 0;
	if (domain->batches[processor]) {
		resume(domain->batches[processor]);
		if (!domain->batches[processor]->over)
			fail("a batch does not end");
		domain->batches[processor] = NULL;
		domain->batch_count--;
	}
	settle_barriers(domain);
	for (const char *at = ran; *at; at++)
		jobs += *at == ' ';
	return jobs;
}

static void run_barrier(struct task *task)
{
	srcu_barrier(&task->domain->srcu);
}

struct task *begin_barrier(struct domain *domain)
{
	struct task *barrier = make_task(domain, BARRIER, run_barrier);

	if (domain->barrier_count == MOST_BARRIERS)
		fail("too many barriers");
	domain->barriers[domain->barrier_count++] = barrier;
	settle_barriers(domain);
	return barrier;
}
