/* Tasks: Linux's code on stacks of its own, in one thread. */
#include "harness.h"

struct task *running;

static ucontext_t harness;

/* The address of the task comes in two halves, since `makecontext` passes nothing wider than an int. */
static void begin(unsigned high, unsigned low)
{
	struct task *task = (struct task *)((uintptr_t)high << 32 | low);

	task->run(task);
	task->over = true;
	task->stop = NOWHERE;
	swapcontext(&task->here, &harness);
}

struct task *make_task(struct domain *domain, enum task_kind kind, void (*run)(struct task *task))
{
	struct task *task = calloc(1, sizeof(*task));

	if (!task)
		fail("no memory");
	task->kind = kind;
	task->domain = domain;
	task->run = run;
	getcontext(&task->here);
	task->here.uc_stack.ss_sp = task->stack;
	task->here.uc_stack.ss_size = sizeof(task->stack);
	makecontext(&task->here, (void (*)(void))begin, 2, (unsigned)((uintptr_t)task >> 32), (unsigned)(uintptr_t)task);
	return task;
}

/* Lets a task go on until it stops or is over. */
void resume(struct task *task)
{
	if (running || task->over)
		fail("a task was resumed inside another one, or behind its end");
	running = task;
	swapcontext(&harness, &task->here);
	running = NULL;
}

/* Stops the running task. */
void stop_before(enum stop what)
{
	struct task *task = running;

	task->stop = what;
	swapcontext(&task->here, &harness);
}
