/*
 * A table of fifteen keys, each with a plug: as versions of a domain in C11, whose words are its rows, and as a plain
 * sorted array under a lock that readers share. The one in the middle is looked up, by going through the rows.
 */
#include "shelf.h"

#include <pthread.h>
#include <stdlib.h>

#define ROWS 15
#define KEY 7u
#define NO_PLUG UINT64_MAX

struct row {
	uint32_t key;
	uint32_t plug;
};

static _Alignas(STRIDE) pthread_rwlock_t lock = PTHREAD_RWLOCK_INITIALIZER;
static _Alignas(STRIDE) struct row rows[ROWS];
static unsigned row_count;

/* Ours looks at each answer, too. */
static void expect_plug(uint64_t plug)
{
	if (plug != KEY)
		abort();
}

/* The model */

/* Puts all rows: each key has itself as plug, but that in the middle this one. */
static void put_rows(uint32_t plug)
{
	uint64_t words[VERSION_WORDS] = { ROWS };

	for (uint64_t key = 0; key < ROWS; key++)
		words[1 + key] = key << 32 | (key == KEY ? plug : key);
	put_words(words);
}

static void prepare_model(unsigned size)
{
	prepare_processors(size);
	put_rows(KEY);
}

/* In a section the version is found, and its rows are gone through up to the key. */
static uint64_t look_up(struct processor *own, uint32_t key)
{
	uint64_t plug = NO_PLUG;
	unsigned index = begin_section(own);
	struct version *found = atomic_load(&current);
	uint64_t count = atomic_load(&found->words[0]);

	for (unsigned i = 1; i <= count; i++) {
		uint64_t word = atomic_load(&found->words[i]);

		if (word >> 32 == key) {
			plug = word & UINT32_MAX;
			break;
		}
	}
	end_section(own, index);
	return plug;
}

static void look_up_often(const struct worker *worker)
{
	struct processor *own = processor_of(worker);

	for (uint64_t round = 0; round < worker->rounds; round++)
		expect_plug(look_up(own, KEY));
}

static void install_versions(const struct worker *worker)
{
	for (uint64_t round = 0; round < worker->rounds; round++)
		put_rows((uint32_t)round);
}

/* The lock */

static void prepare_rows(unsigned size)
{
	(void)size;
	row_count = ROWS;
	for (uint32_t key = 0; key < ROWS; key++)
		rows[key] = (struct row){ key, key };
}

/* The place of the key, or that behind all rows. */
static unsigned place_of(uint32_t key)
{
	unsigned place = 0;

	while (place < row_count && rows[place].key != key)
		place++;
	return place;
}

static uint64_t look_up_row(uint32_t key)
{
	uint64_t plug = NO_PLUG;
	unsigned place;

	pthread_rwlock_rdlock(&lock);
	place = place_of(key);
	if (place < row_count)
		plug = rows[place].plug;
	pthread_rwlock_unlock(&lock);
	return plug;
}

static void look_up_locked(const struct worker *worker)
{
	for (uint64_t round = 0; round < worker->rounds; round++)
		expect_plug(look_up_row(KEY));
}

static void install_locked(const struct worker *worker)
{
	for (uint64_t round = 0; round < worker->rounds; round++) {
		pthread_rwlock_wrlock(&lock);
		rows[place_of(KEY) % ROWS].plug = (uint32_t)round;
		pthread_rwlock_unlock(&lock);
	}
}

const struct thing model_lookup = {
	.name = "model-lookup",
	.prepare = prepare_model,
	.work = look_up_often,
	.less_often = 1,
};

const struct thing rwlock_lookup = {
	.name = "rwlock-lookup",
	.prepare = prepare_rows,
	.work = look_up_locked,
	.less_often = 8,
};

const struct thing model_install = {
	.name = "model-install",
	.prepare = prepare_model,
	.work = install_versions,
	.less_often = 4,
	.sizes = one_size,
};

const struct thing rwlock_install = {
	.name = "rwlock-install",
	.prepare = prepare_rows,
	.work = install_locked,
	.less_often = 4,
	.sizes = one_size,
};
