/* Linux's srcutree.c as it is, with what is reached only from inside it, and what it takes from the rest of the kernel. */
#include "shim.h"
#include "rcu/srcutree.c"
#include "cut_geometry.h"

#ifdef HAS_USAGE
#define USAGE(srcu) ((srcu)->srcu_sup)
#else
#define USAGE(srcu) (srcu)
#endif

unsigned nr_cpu_ids = 1;
int shim_cpu, shim_opener;
int rcu_scheduler_active = RCU_SCHEDULER_RUNNING;
int system_state = SYSTEM_RUNNING;
unsigned long jiffies = 1000;
unsigned long jiffies_till_first_fqs = ULONG_MAX, jiffies_till_next_fqs = ULONG_MAX;
struct workqueue_struct *rcu_gp_wq;

bool rcu_gp_is_normal(void)
{
	return false;
}

bool rcu_gp_is_expedited(void)
{
	return false;
}

/* The parameter of the command line of Linux: each domain has its tree from the beginning. */
void use_big_size(void)
{
	big_cpu_lim = 1;
}

/* Likewise: the first lock that is found held lets a domain grow. */
void use_growing_size(void)
{
	small_contention_lim = 0;
}

void boot(void)
{
	srcu_init();
}

/* Starts a period that is asked for, as the work would do next. */
void start_period_now(struct srcu_struct *srcu)
{
	shim_lock(&USAGE(srcu)->lock);
	srcu_gp_start(srcu);
	shim_unlock(&USAGE(srcu)->lock);
	queue_delayed_work(rcu_gp_wq, &USAGE(srcu)->work, 0);
}
