/*
 * What the parts of the harness share: tasks that can be stopped inside Linux's code, the domains of a script, and the
 * calls that its lines make.
 */
#ifndef HARNESS_H
#define HARNESS_H

#include "shim.h"

#include <linux/srcu.h>
#include <ucontext.h>

/* Linux 6.12 keeps what updaters use apart from what readers use, and 6.1 in one struct. */
#ifdef HAS_USAGE
#define USAGE(srcu) ((srcu)->srcu_sup)
#else
#define USAGE(srcu) (srcu)
#endif

#define MOST_DOMAINS 64
#define MOST_NAMES 4096
#define MOST_BARRIERS 256
#define NAME_SIZE 17
#define STACK_SIZE 65536

/* The harness can't go on: a line that can't be run, or a kernel that does what its locks forbid. */
#define fail(...)                                 \
	do {                                      \
		fflush(stdout);                   \
		fprintf(stderr, "harness: ");     \
		fprintf(stderr, __VA_ARGS__);     \
		fputc('\n', stderr);              \
		exit(2);                          \
	} while (0)

/* Linux's code runs in tasks with stacks of their own. A task stops before what `stop` names, until it is resumed. */
enum task_kind { READER, ENGINE, BARRIER, INVOKER, CHANGER };
enum stop { NOWHERE, AT_LOAD, AT_FLIP, AT_LOCK, AT_COUNT, AT_WAIT };

struct domain;

struct task {
	ucontext_t here;
	enum task_kind kind;
	struct domain *domain;
	void (*run)(struct task *task);
	enum stop stop;
	bool over;
	int index;        /* of a reader's section, or of the counter that the engine loads next */
	int processor;    /* of an invoker */
	int invoked;      /* callbacks that an invoker has come to */
	const void *what; /* of a changer: what it takes off its chain */
	int answer;       /* and what Linux answers */
	char stack[STACK_SIZE];
};

/* What a name of the script stands for. */
enum name_kind { LOOK = 1, SECTION = 2, HELD = 4, TICKET = 8 };

struct named {
	char name[NAME_SIZE];
	enum name_kind kind;
	int index, processor;
	struct task *task;
};

struct chain;

struct domain {
	char name[NAME_SIZE];
	int processors; /* the machine may have more */
	struct srcu_struct srcu;
	unsigned long base; /* Linux's number at the beginning */
	struct task *engine; /* the work of a grace period, where it is not over */
	int engine_processor;
	bool missed; /* a scan did not pass, since this was set to false */
	long calls[NR_CPUS];
	struct named names[MOST_NAMES];
	int name_count;
	struct task *barriers[MOST_BARRIERS];
	int barrier_count;
	struct task *batches[NR_CPUS]; /* invokers that stopped before their first callback */
	int batch_count;
	struct chain *chain;
};

/* tasks.c */
extern struct task *running; /* none: the harness itself */
struct task *make_task(struct domain *domain, enum task_kind kind, void (*run)(struct task *task));
void resume(struct task *task);
void stop_before(enum stop what);

/* hooks.c */
extern int failing_trylocks; /* each so many fail, as if another processor held the lock just now; 0: none */
const char *take_warnings(void);

/* kernel.c, which includes Linux's srcutree.c */
void use_big_size(void);
void use_growing_size(void);
void boot(void);
void start_period_now(struct srcu_struct *srcu);

/* engine.c */
unsigned long number_of(struct domain *domain);
const char *step(struct domain *domain, int processor);

/* callbacks.c */
void run_work_of(struct srcu_data *data);
void call(struct domain *domain, int processor, const char *name);
const char *run_all(struct domain *domain, int first, int last);
const char *take_batch(struct domain *domain, int processor);
int finish_batch(struct domain *domain, int processor);
struct task *begin_barrier(struct domain *domain);

/* chains.c */
int register_block(struct domain *domain, int id, int priority);
int unregister_block(struct domain *domain, int id);
void print_chain(struct domain *domain);
int notify(struct domain *domain, int count, char **pairs, int *calls);

/* script.c */
extern struct domain *domains[MOST_DOMAINS];
extern int domain_count;

#endif
