/* Where Linux's code is stopped: what shim.h calls before shared accesses, locks and waits. */
#include "harness.h"

int failing_trylocks;

static int trylocks;
static char warnings[4096];

bool shim_warn(bool is_so, const char *what, int line)
{
	size_t length = strlen(warnings);

	if (is_so)
		snprintf(warnings + length, sizeof(warnings) - length, " warned of %s in line %d", what, line);
	return is_so;
}

/* What Linux warned of since the last call, as text that stands behind a reply. */
const char *take_warnings(void)
{
	static char taken[sizeof(warnings)];

	strcpy(taken, warnings);
	*warnings = 0;
	return taken;
}

/* The index of the counter that stands there: one of the domain's processors, or -1. */
static int index_of_counter(struct domain *domain, const volatile void *at)
{
	const volatile char *first = (const volatile char *)domain->srcu.sda;
	const volatile char *place = at;
	size_t offset;

	if (place < first || place >= (const volatile char *)(domain->srcu.sda + domain->processors))
		return -1;
	offset = (place - first) % sizeof(struct srcu_data);
	for (int index = 0; index < 2; index++)
		if (offset == offsetof(struct srcu_data, srcu_lock_count[index]) ||
		    offset == offsetof(struct srcu_data, srcu_unlock_count[index]))
			return index;
	return -1;
}

void hook_load(const volatile void *at)
{
	int index;

	if (!running)
		return;
	if (running->kind == READER && at == &running->domain->srcu.srcu_idx)
		running->index = running->domain->srcu.srcu_idx & 1;
	if (running->kind != ENGINE)
		return;
	index = index_of_counter(running->domain, at);
	if (index >= 0) {
		running->index = index;
		stop_before(AT_LOAD);
	}
}

void hook_store(const volatile void *at)
{
	if (running && running->kind == ENGINE && at == &running->domain->srcu.srcu_idx)
		stop_before(AT_FLIP);
}

void hook_count(void)
{
	if (running && running->kind == READER)
		stop_before(AT_COUNT);
}

void hook_invoke(void)
{
	if (running && running->kind == INVOKER && !running->invoked++)
		stop_before(AT_WAIT);
}

void shim_udelay(void)
{
	if (running && running->kind == ENGINE)
		running->domain->missed = true;
}

void shim_lock(spinlock_t *lock)
{
	if (running && running->kind == ENGINE && lock == &USAGE(&running->domain->srcu)->lock)
		stop_before(AT_LOCK);
	if (lock->held)
		fail("a spinlock is held");
	lock->held = true;
}

bool shim_trylock(spinlock_t *lock)
{
	if (failing_trylocks && ++trylocks % failing_trylocks == 0)
		return false;
	shim_lock(lock);
	return true;
}

void shim_unlock(spinlock_t *lock)
{
	if (!lock->held)
		fail("a spinlock is not held");
	lock->held = false;
}

void mutex_lock(struct mutex *mutex)
{
	while (mutex->held) {
		if (!running)
			fail("a mutex is held");
		stop_before(AT_WAIT);
	}
	mutex->held = true;
}

/* The engine gives its mutex back where a scan has not passed, and where the period has ended: its number tells which. */
void mutex_unlock(struct mutex *mutex)
{
	if (!mutex->held)
		fail("a mutex is not held");
	mutex->held = false;
	if (running && running->kind == ENGINE && mutex == &USAGE(&running->domain->srcu)->srcu_gp_mutex)
		running->domain->missed = true;
}

void wait_for_completion(struct completion *completion)
{
	while (!completion->done) {
		if (!running)
			fail("the harness itself would wait");
		stop_before(AT_WAIT);
	}
}
