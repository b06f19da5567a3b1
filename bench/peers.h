/* What is measured, and how its numbers are printed. */
#ifndef PEERS_H
#define PEERS_H

#include <stdint.h>

/* Wider than a cache line of 64 bytes, wherever what it keeps apart begins. */
#define STRIDE 128

/* The words of a version. */
#define VERSION_WORDS 16

/* A thread of a measurement, from 0, and how often it does what is measured. */
struct worker {
	unsigned number;
	uint64_t rounds;
};

/*
 * A measured thing. It is measured at numbers of threads, each of which runs `work`; or, where `sizes` are given, at
 * those, by one thread, or by so many `workers` where these are given: they are numbers of processors, and end with 0. A thing that takes longer is done so many times
 * less often. Where `jobs` are given, so many are done each time, by all threads together, and the time is divided by all
 * of them. What `prepare` set up, `clear` takes down, where it is given.
 */
struct thing {
	const char *name;
	void (*prepare)(unsigned size);
	void (*clear)(void);
	void (*work)(const struct worker *worker);
	unsigned less_often;
	const unsigned *sizes;
	unsigned workers;
	uint64_t jobs;
};

extern const unsigned one_size[];
extern const unsigned processor_sizes[];
extern const unsigned eight_sizes[];

extern const struct thing model_pair;
extern const struct thing keeping_model_pair;
extern const struct thing model_held_pair;
extern const struct thing model_quiet_period;
extern const struct thing model_find_one;
extern const struct thing model_find_all;
extern const struct thing model_box;
extern const struct thing model_put;
extern const struct thing model_chain_call_four;
extern const struct thing model_chain_call_fifteen;
extern const struct thing model_chain_change;
extern const struct thing model_lookup;
extern const struct thing model_install;
extern const struct thing rwlock_pair;
extern const struct thing counter_pair;
extern const struct thing max_of_new_numbers;
extern const struct thing max_of_one_number;
extern const struct thing pointer_one;
extern const struct thing pointer_all;
extern const struct thing rwlock_one;
extern const struct thing rwlock_all;
extern const struct thing rwlock_put;
extern const struct thing rwlock_chain_call_four;
extern const struct thing rwlock_chain_call_fifteen;
extern const struct thing rwlock_chain_change;
extern const struct thing rwlock_lookup;
extern const struct thing rwlock_install;
/* The clock, in nanoseconds; how samples are put in order, and how a line of them is printed. */
double nanoseconds_now(void);
void sort_samples(double *samples, unsigned count);
void report_samples(const char *name, unsigned size, double median, double least, double most);

#ifdef WITH_LIBURCU
/* Measures and prints what takes the same time whatever the rounds are. */
void report_delays(void);
extern const struct thing urcu_mb_pair;
extern const struct thing urcu_memb_pair;
extern const struct thing urcu_memb_box;
extern const struct thing urcu_mb_synchronize;
extern const struct thing urcu_memb_synchronize;
extern const struct thing urcu_mb_synchronize_at_once;
extern const struct thing urcu_memb_synchronize_at_once;
extern const struct thing urcu_memb_call;
extern const struct thing urcu_memb_callbacks;
#endif

#endif
