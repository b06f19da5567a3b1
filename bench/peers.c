/*
 * Measures what a proved reader is put beside.
 *
 *     peers ROUNDS REPETITIONS MOST
 *     peers alone NAME ROUNDS
 *
 * prints a line for each thing and each size: its name, the size, and the median, the least and the most of the
 * repetitions in nanoseconds. A thing is measured in 1, 2, 4 threads up to MOST, or at the sizes that it gives. Each thread
 * reads the clock itself, and the slowest one counts; its time is divided by the rounds of one thread. Jobs that threads
 * share are timed from before the first thread's start until all have ended, and that is divided by the jobs of all. A
 * thing that would take longer than `ENOUGH` is done less often. Behind that come the times from the end of a section to
 * its callback (delays.c).
 *
 * With `alone` it does one thing so often, at its least size, and prints nothing: so a tool can count its instructions.
 */
#include "peers.h"

#include <pthread.h>
#include <stdio.h>
#include <stdlib.h>
#include <string.h>
#include <time.h>

#define MOST_THREADS 4
#define MOST_WORKERS 8
#define MOST_REPETITIONS 1000

/* How long a measurement takes where it may be cut short, in nanoseconds: enough that the threads' start doesn't count. */
#define ENOUGH 4e8

/* The part of the rounds by which it is found how many take so long. */
#define PROBE 64

struct job {
	const struct thing *thing;
	struct worker worker;
	/* What the worker took by its own clock, in nanoseconds. */
	double elapsed;
};

const unsigned one_size[] = { 1, 0 };
const unsigned processor_sizes[] = { 1, 2, 4, 64, 256, 0 };
const unsigned eight_sizes[] = { 8, 0 };

static const struct thing *const things[] = {
	&model_pair,
	&keeping_model_pair,
	&model_held_pair,
	&rwlock_pair,
	&counter_pair,
#ifdef WITH_LIBURCU
	&urcu_mb_pair,
	&urcu_memb_pair,
	&urcu_memb_box,
	&urcu_mb_synchronize,
	&urcu_memb_synchronize,
	&urcu_mb_synchronize_at_once,
	&urcu_memb_synchronize_at_once,
	&urcu_memb_call,
	&urcu_memb_callbacks,
#endif
	&model_quiet_period,
	&max_of_new_numbers,
	&max_of_one_number,
	&model_find_one,
	&pointer_one,
	&rwlock_one,
	&model_box,
	&model_find_all,
	&pointer_all,
	&rwlock_all,
	&model_put,
	&rwlock_put,
	&model_chain_call_four,
	&rwlock_chain_call_four,
	&model_chain_call_fifteen,
	&rwlock_chain_call_fifteen,
	&model_chain_change,
	&rwlock_chain_change,
	&model_lookup,
	&rwlock_lookup,
	&model_install,
	&rwlock_install,
};

static void fail(const char *what)
{
	fprintf(stderr, "peers: %s\n", what);
	exit(2);
}

double nanoseconds_now(void)
{
	struct timespec now;

	if (clock_gettime(CLOCK_MONOTONIC, &now) != 0)
		fail("the clock can't be read");
	return 1e9 * (double)now.tv_sec + (double)now.tv_nsec;
}

static void *run_job(void *argument)
{
	struct job *job = argument;
	double start = nanoseconds_now();

	job->thing->work(&job->worker);
	job->elapsed = nanoseconds_now() - start;
	return NULL;
}

/* What one round took in the slowest thread, or one of the jobs from the first thread's start, in nanoseconds. */
static double measure(const struct thing *thing, unsigned size, uint64_t rounds)
{
	pthread_t threads[MOST_WORKERS];
	struct job jobs[MOST_WORKERS];
	unsigned count = thing->workers ? thing->workers : thing->sizes ? 1 : size;
	uint64_t each = thing->jobs ? thing->jobs / count : rounds;
	double slowest = 0;
	double start;
	double end;

	thing->prepare(size);
	start = nanoseconds_now();
	for (unsigned i = 0; i < count; i++) {
		jobs[i] = (struct job){ thing, { i, each }, 0 };
		if (pthread_create(&threads[i], NULL, run_job, &jobs[i]) != 0)
			fail("a thread can't be started");
	}
	for (unsigned i = 0; i < count; i++) {
		if (pthread_join(threads[i], NULL) != 0)
			fail("a thread can't be joined");
		if (jobs[i].elapsed > slowest)
			slowest = jobs[i].elapsed;
	}
	end = nanoseconds_now();
	if (thing->clear)
		thing->clear();
	return thing->jobs ? (end - start) / (double)thing->jobs : slowest / (double)rounds;
}

static int compare(const void *left, const void *right)
{
	double a = *(const double *)left;
	double b = *(const double *)right;

	return (a > b) - (a < b);
}

void sort_samples(double *samples, unsigned count)
{
	qsort(samples, count, sizeof samples[0], compare);
}

void report_samples(const char *name, unsigned size, double median, double least, double most)
{
	printf("%s %u median %.2f least %.2f most %.2f\n", name, size, median, least, most);
}

/* So many rounds, or as many as take long enough. */
static uint64_t rounds_of(const struct thing *thing, unsigned size, uint64_t most)
{
	uint64_t few = most / PROBE + 1;
	double enough = thing->jobs ? most : ENOUGH / measure(thing, size, few);

	return enough >= (double)most ? most : enough <= (double)few ? few : (uint64_t)enough;
}

static void report(const struct thing *thing, unsigned size, uint64_t most_rounds, unsigned repetitions)
{
	double samples[MOST_REPETITIONS];
	uint64_t rounds = rounds_of(thing, size, most_rounds / thing->less_often + 1);

	for (unsigned i = 0; i < repetitions; i++)
		samples[i] = measure(thing, size, rounds);
	sort_samples(samples, repetitions);
	report_samples(thing->name, size, samples[repetitions / 2], samples[0], samples[repetitions - 1]);
}

static void report_sizes(const struct thing *thing, uint64_t rounds, unsigned repetitions, unsigned most)
{
	if (thing->sizes) {
		for (const unsigned *size = thing->sizes; *size != 0; size++)
			report(thing, *size, rounds, repetitions);
		return;
	}
	for (unsigned size = 1; size <= most; size *= 2)
		report(thing, size, rounds, repetitions);
}

static void misused(void)
{
	fail("usage: peers ROUNDS REPETITIONS MOST, or peers alone NAME ROUNDS");
}

static unsigned long long number_up_to(const char *word, unsigned long long most)
{
	char *end;
	unsigned long long number = strtoull(word, &end, 10);

	if (*word == '\0' || *end != '\0' || number < 1 || number > most)
		misused();
	return number;
}

static void run_alone(const char *name, uint64_t rounds)
{
	for (unsigned i = 0; i < sizeof things / sizeof things[0]; i++) {
		if (strcmp(things[i]->name, name) == 0) {
			measure(things[i], things[i]->sizes ? things[i]->sizes[0] : 1, rounds);
			return;
		}
	}
	misused();
}

int main(int count, char **words)
{
	uint64_t rounds;
	unsigned repetitions;
	unsigned most;

	if (count != 4)
		misused();
	if (strcmp(words[1], "alone") == 0) {
		run_alone(words[2], number_up_to(words[3], 1ull << 52));
		return 0;
	}
	rounds = number_up_to(words[1], 1ull << 52);
	repetitions = (unsigned)number_up_to(words[2], MOST_REPETITIONS);
	most = (unsigned)number_up_to(words[3], MOST_THREADS);
	for (unsigned i = 0; i < sizeof things / sizeof things[0]; i++)
		report_sizes(things[i], rounds, repetitions, most);
#ifdef WITH_LIBURCU
	report_delays();
#endif
	return 0;
}
