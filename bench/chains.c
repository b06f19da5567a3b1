/*
 * A notifier chain of four handlers, or of fifteen, that do nothing but answer OK: as versions of a domain in C11, whose
 * words are the handlers, and as a plain array under a lock that readers share.
 */
#include "shelf.h"

#include <pthread.h>
#include <stdlib.h>
#include <string.h>

#define FOUR 4
#define MOST_BLOCKS 15
#define OK 1u
#define STOP_BIT 0x8000u

typedef unsigned handler(uint64_t action, uint64_t value);

/* What a call answers: the last result, and how many handlers were called. */
struct answer {
	unsigned last;
	unsigned count;
};

/* A block of the plain array. */
struct block {
	int32_t priority;
	handler *call;
};

static _Alignas(STRIDE) pthread_rwlock_t lock = PTHREAD_RWLOCK_INITIALIZER;
static _Alignas(STRIDE) struct block blocks[MOST_BLOCKS];
static unsigned block_count;

/* How many handlers a call has to call. */
static unsigned called;

static unsigned answer_ok(uint64_t action, uint64_t value)
{
	(void)action;
	(void)value;
	return OK;
}

/* Ours looks at each answer, too. */
static void expect_all(struct answer answer)
{
	if (answer.last != OK || answer.count != called)
		abort();
}

/* The model */

/* Puts so many handlers. */
static void put_handlers(unsigned count)
{
	uint64_t words[VERSION_WORDS] = { count };

	for (unsigned i = 0; i < count; i++)
		words[1 + i] = (uintptr_t)answer_ok;
	put_words(words);
}

static void prepare_model(unsigned size, unsigned count)
{
	prepare_processors(size);
	put_handlers(count);
	called = count;
}

static void prepare_model_of_four(unsigned size)
{
	prepare_model(size, FOUR);
}

static void prepare_model_of_fifteen(unsigned size)
{
	prepare_model(size, MOST_BLOCKS);
}

/* In a section the version is found, and the handlers that its words are get called. */
static struct answer call_version(struct processor *own)
{
	struct answer answer = { 0, 0 };
	unsigned index = begin_section(own);
	struct version *found = atomic_load(&current);
	uint64_t count = atomic_load(&found->words[0]);

	while (answer.count < count && !(answer.last & STOP_BIT)) {
		handler *call = (handler *)(uintptr_t)atomic_load(&found->words[1 + answer.count]);

		answer.last = call(0, 0);
		answer.count++;
	}
	end_section(own, index);
	return answer;
}

static void call_versions(const struct worker *worker)
{
	struct processor *own = processor_of(worker);

	for (uint64_t round = 0; round < worker->rounds; round++)
		expect_all(call_version(own));
}

/* The last block goes and comes, by turns. */
static void change_versions(const struct worker *worker)
{
	for (uint64_t round = 0; round < worker->rounds; round++)
		put_handlers(round % 2 == 0 ? FOUR - 1 : FOUR);
}

/* The lock */

/* Behind all blocks of higher priority and of its own. */
static void insert_block(struct block block)
{
	unsigned place = block_count;

	pthread_rwlock_wrlock(&lock);
	while (place > 0 && blocks[place - 1].priority < block.priority)
		place--;
	memmove(&blocks[place + 1], &blocks[place], (block_count - place) * sizeof block);
	blocks[place] = block;
	block_count++;
	pthread_rwlock_unlock(&lock);
}

static void remove_block(unsigned place)
{
	pthread_rwlock_wrlock(&lock);
	block_count--;
	memmove(&blocks[place], &blocks[place + 1], (block_count - place) * sizeof blocks[0]);
	pthread_rwlock_unlock(&lock);
}

static void prepare_blocks(unsigned count)
{
	block_count = 0;
	for (unsigned i = 0; i < count; i++)
		insert_block((struct block){ 0, answer_ok });
	called = count;
}

static void prepare_four_blocks(unsigned size)
{
	(void)size;
	prepare_blocks(FOUR);
}

static void prepare_fifteen_blocks(unsigned size)
{
	(void)size;
	prepare_blocks(MOST_BLOCKS);
}

static struct answer call_blocks(void)
{
	struct answer answer = { 0, 0 };

	pthread_rwlock_rdlock(&lock);
	while (answer.count < block_count && !(answer.last & STOP_BIT)) {
		answer.last = blocks[answer.count].call(0, 0);
		answer.count++;
	}
	pthread_rwlock_unlock(&lock);
	return answer;
}

static void call_locked(const struct worker *worker)
{
	for (uint64_t round = 0; round < worker->rounds; round++)
		expect_all(call_blocks());
}

static void change_locked(const struct worker *worker)
{
	for (uint64_t round = 0; round < worker->rounds; round++) {
		if (round % 2 == 0)
			remove_block(FOUR - 1);
		else
			insert_block((struct block){ 0, answer_ok });
	}
}

const struct thing model_chain_call_four = {
	.name = "model-chain-call-4",
	.prepare = prepare_model_of_four,
	.work = call_versions,
	.less_often = 1,
};

const struct thing rwlock_chain_call_four = {
	.name = "rwlock-chain-call-4",
	.prepare = prepare_four_blocks,
	.work = call_locked,
	.less_often = 8,
};

const struct thing model_chain_call_fifteen = {
	.name = "model-chain-call-15",
	.prepare = prepare_model_of_fifteen,
	.work = call_versions,
	.less_often = 1,
};

const struct thing rwlock_chain_call_fifteen = {
	.name = "rwlock-chain-call-15",
	.prepare = prepare_fifteen_blocks,
	.work = call_locked,
	.less_often = 8,
};

const struct thing model_chain_change = {
	.name = "model-chain-change",
	.prepare = prepare_model_of_four,
	.work = change_versions,
	.less_often = 4,
	.sizes = one_size,
};

const struct thing rwlock_chain_change = {
	.name = "rwlock-chain-change",
	.prepare = prepare_four_blocks,
	.work = change_locked,
	.less_often = 4,
	.sizes = one_size,
};
