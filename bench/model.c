/* The algorithm of the proved domain in C11, with the same words at the same distances and the same steps. */
#include "domain.h"

#include <stddef.h>

/* A cell whose versions have sixteen words: which slot is current, with the number of its version, and its slots. */
struct cell {
	_Alignas(STRIDE) _Atomic uint64_t current;
	_Alignas(STRIDE) _Atomic uint64_t slots[2][VERSION_WORDS];
};

/* What readers follow a pointer to. They load its first word. */
struct box {
	_Alignas(STRIDE) volatile uint64_t words[VERSION_WORDS];
};

struct table {
	struct processor *volatile processors;
};

/*
 * What a processor of the domain keeps in memory: where the words are, the sections that it began of each index, and
 * those that it ended.
 */
struct cpu {
	_Alignas(STRIDE) struct table *volatile table;
	volatile uint64_t begun[2];
	volatile uint64_t settled;
};

static struct processor holders[2];
static struct cell cell;
static struct box box;
static _Alignas(STRIDE) struct box *_Atomic current_box = &box;
static struct table table = { processors };
static struct cpu cpus[MOST_PROCESSORS];
static const uint64_t most_sections = (uint64_t)1 << 52;

/* As `read_lock` and `read_unlock`: the index is loaded, and two counters go up by one. */
static void make_pairs(const struct worker *worker)
{
	struct processor *own = processor_of(worker);

	for (uint64_t round = 0; round < worker->rounds; round++)
		end_section(own, begin_section(own));
}

/*
 * The same with what each processor of the domain keeps: counts, to refuse a section beyond the limit and to know how
 * many are open, and the address of the words, which is read anew for each step.
 */
static void make_kept_pairs(const struct worker *worker)
{
	unsigned number = worker->number % MOST_PROCESSORS;
	struct cpu *cpu = &cpus[number];

	cpu->table = &table;
	for (uint64_t round = 0; round < worker->rounds; round++) {
		unsigned index = atomic_load(&current_index.value) & 1;

		if (cpu->begun[index] == most_sections)
			return;
		atomic_fetch_add(&cpu->table->processors[number].locks[index], 1);
		cpu->begun[index]++;
		atomic_fetch_add(&cpu->table->processors[number].unlocks[index], 1);
		cpu->settled++;
	}
}

/*
 * As `down_read` on one processor and `up_read` on another: the lock counter of the one, the unlock counter of the other.
 * They are processors of another domain, since a scan of one alone would never find what ended on the other.
 */
static void make_held_pairs(const struct worker *worker)
{
	for (uint64_t round = 0; round < worker->rounds; round++)
		end_section(&holders[1], begin_section(&holders[0]));
}

/* In a section of its own the cell is loaded, and then so many words of the slot that is current. */
static void find_versions(const struct worker *worker, unsigned words)
{
	struct processor *own = processor_of(worker);

	for (uint64_t round = 0; round < worker->rounds; round++) {
		unsigned index = begin_section(own);
		unsigned slot = atomic_load(&cell.current) & 1;

		for (unsigned i = 0; i < words; i++)
			(void)atomic_load(&cell.slots[slot][i]);
		end_section(own, index);
	}
}

static void find_one_word(const struct worker *worker)
{
	find_versions(worker, 1);
}

static void find_all_words(const struct worker *worker)
{
	find_versions(worker, VERSION_WORDS);
}

/* In a section of its own a pointer is loaded, and then a word through it. */
static void follow_pointers(const struct worker *worker)
{
	struct processor *own = processor_of(worker);

	for (uint64_t round = 0; round < worker->rounds; round++) {
		unsigned index = begin_section(own);

		(void)atomic_load(&current_box)->words[0];
		end_section(own, index);
	}
}

static void run_quiet_periods(const struct worker *worker)
{
	for (uint64_t round = 0; round < worker->rounds; round++)
		run_quiet_period();
}

/* The number is loaded to see whether the other slot is free again. Its words are stored, and it is put into the cell. The
 * number is loaded for the cookie of the slot that was current, which is asked for, and then a grace period is driven. */
static void put_versions(const struct worker *worker)
{
	uint64_t cookie = 0;

	for (uint64_t round = 0; round < worker->rounds; round++) {
		unsigned slot = !(atomic_load(&cell.current) & 1);

		wait_until_done(cookie);
		for (unsigned i = 0; i < VERSION_WORDS; i++)
			atomic_store(&cell.slots[slot][i], round);
		atomic_store(&cell.current, 16 * (round + 1) + slot);
		cookie = ask_for_period();
		run_quiet_period();
	}
}

const struct thing model_pair = {
	.name = "model",
	.prepare = prepare_processors,
	.work = make_pairs,
	.less_often = 1,
};

const struct thing keeping_model_pair = {
	.name = "keeping-model",
	.prepare = prepare_processors,
	.work = make_kept_pairs,
	.less_often = 1,
};

const struct thing model_held_pair = {
	.name = "model-held",
	.prepare = prepare_processors,
	.work = make_held_pairs,
	.less_often = 1,
	.sizes = one_size,
};

const struct thing model_quiet_period = {
	.name = "model-quiet-period",
	.prepare = prepare_processors,
	.work = run_quiet_periods,
	.less_often = 4,
	.sizes = processor_sizes,
};

const struct thing model_find_one = {
	.name = "model-find-1",
	.prepare = prepare_processors,
	.work = find_one_word,
	.less_often = 1,
};

const struct thing model_find_all = {
	.name = "model-find-16",
	.prepare = prepare_processors,
	.work = find_all_words,
	.less_often = 1,
};

const struct thing model_box = {
	.name = "model-box",
	.prepare = prepare_processors,
	.work = follow_pointers,
	.less_often = 1,
};

const struct thing model_put = {
	.name = "model-put",
	.prepare = prepare_processors,
	.work = put_versions,
	.less_often = 4,
	.sizes = one_size,
};
