/* Linux's notifier chains over SRCU: one for each domain of the script, which has an srcu_struct of its own. */
#include "harness.h"

#include <linux/notifier.h>

#define BLOCKS 16
#define MOST_DRIVES 100 /* a change that has not come back by then never does */

struct block {
	struct notifier_block block;
	int answer;
};

struct chain {
	struct srcu_notifier_head head;
	struct block blocks[BLOCKS];
};

static int answer(struct notifier_block *notifier, unsigned long action, void *calls)
{
	(void)action;
	++*(int *)calls;
	return container_of(notifier, struct block, block)->answer;
}

static struct chain *chain_of(struct domain *domain)
{
	if (!domain->chain) {
		domain->chain = calloc(1, sizeof(*domain->chain));
		srcu_init_notifier_head(&domain->chain->head);
	}
	return domain->chain;
}

static struct block *block_of(struct domain *domain, int id)
{
	if (id < 0 || id >= BLOCKS)
		fail("no handler %d", id);
	return &chain_of(domain)->blocks[id];
}

static bool is_on_chain(struct domain *domain, struct notifier_block *wanted)
{
	struct notifier_block *block = chain_of(domain)->head.head;

	while (block && block != wanted)
		block = block->next;
	return block;
}

/* A block that is on the chain already keeps its priority. */
int register_block(struct domain *domain, int id, int priority)
{
	struct block *block = block_of(domain, id);

	if (!is_on_chain(domain, &block->block)) {
		block->block.notifier_call = answer;
		block->block.priority = priority;
	}
	return srcu_notifier_chain_register(&chain_of(domain)->head, &block->block);
}

static void run_unregister(struct task *task)
{
	task->answer = srcu_notifier_chain_unregister(&chain_of(task->domain)->head, (struct notifier_block *)task->what);
}

/* Does the work that the chain's own srcu_struct has queued: its grace period, and the callback that wakes who waits. */
static void drive(struct srcu_struct *srcu)
{
	struct work_struct *work = &USAGE(srcu)->work.work;
	int processor;

	if (work->pending) {
		work->pending = false;
		work->func(work);
	}
	for_each_possible_cpu(processor) {
		struct srcu_data *data = per_cpu_ptr(srcu->sda, processor);

		run_work_of(data);
	}
}

/* Linux waits for a grace period of the chain here, whatever it found. */
int unregister_block(struct domain *domain, int id)
{
	struct task *changer = make_task(domain, CHANGER, run_unregister);
	int processor = shim_cpu;
	int drives = 0;
	int found;

	changer->what = &block_of(domain, id)->block;
	resume(changer);
	while (!changer->over) {
		if (drives++ == MOST_DRIVES)
			fail("a change of a chain does not come back");
		drive(&chain_of(domain)->head.srcu);
		shim_cpu = processor;
		resume(changer);
	}
	found = changer->answer;
	free(changer);
	return found;
}

void print_chain(struct domain *domain)
{
	printf("chain");
	for (struct notifier_block *block = chain_of(domain)->head.head; block; block = block->next)
		printf(" %d", (int)(container_of(block, struct block, block) - chain_of(domain)->blocks));
}

/* What a word of a pair means, and where no pair names a handler, it answers as for `done`. */
static int answer_of(const char *word)
{
	if (!strcmp(word, "ok"))
		return NOTIFY_OK;
	if (!strcmp(word, "stop"))
		return NOTIFY_STOP;
	if (!strcmp(word, "bad"))
		return NOTIFY_BAD;
	return NOTIFY_DONE;
}

int notify(struct domain *domain, int count, char **pairs, int *calls)
{
	for (int id = 0; id < BLOCKS; id++)
		block_of(domain, id)->answer = NOTIFY_DONE;
	for (int i = 0; i < count; i++) {
		const char *colon = strchr(pairs[i], ':');

		if (!colon)
			fail("no pair: %s", pairs[i]);
		block_of(domain, atoi(pairs[i]))->answer = answer_of(colon + 1);
	}
	*calls = 0;
	return srcu_notifier_call_chain(&chain_of(domain)->head, 0, calls);
}
