/*
 * What Linux's files need around them, for one thread in user space.
 *
 * All of this is our own text. Shared accesses of Linux's code pass through the macros below, so that the harness can stop
 * the code between two of them (`hook_load` and those beside it, in hooks.c). Locks are flags: one that is found held is an
 * error of the harness.
 */
#ifndef SHIM_H
#define SHIM_H

#include <errno.h>
#include <limits.h>
#include <stdbool.h>
#include <stddef.h>
#include <stdint.h>
#include <stdio.h>
#include <stdlib.h>
#include <string.h>
#include <sys/types.h>

typedef uint8_t u8;
typedef unsigned gfp_t;

#define GFP_KERNEL 0u
#define GFP_ATOMIC 0u
#define HZ 1000
#define USEC_PER_SEC 1000000L

/* Words that mean nothing in one thread. */
#define __init
#define __read_mostly
#define __private
#define __percpu
#define __rcu
#define notrace
#define __acquires(lock)
#define __releases(lock)
#define ____cacheline_internodealigned_in_smp
#define EXPORT_SYMBOL_GPL(name)
#define NOKPROBE_SYMBOL(name)
#define module_param(...)
#define early_initcall(function)
#define late_initcall(function)
#define DEFINE_LOCK_GUARD_1(...)
#define ACCESS_PRIVATE(pointer, field) ((pointer)->field)
#define IS_ENABLED(option) 0
#define IS_MODULE(option) 0
#define data_race(value) (value)
#define ASSERT_EXCLUSIVE_WRITER(value) ((void)0)
#define RCU_LOCKDEP_WARN(...) ((void)0)
#define BUILD_BUG_ON(condition) ((void)sizeof(char[1 - 2 * !!(condition)]))
#define likely(value) (value)
#define unlikely(value) (value)
#define pr_info(...) ((void)0)
#define pr_alert(...) ((void)0)
#define pr_cont(...) ((void)0)
#define pr_warn(...) ((void)0)
#define might_sleep() ((void)0)
#define rcu_lock_acquire(map) ((void)0)
#define rcu_try_lock_acquire(map) ((void)0)
#define rcu_lock_release(map) ((void)0)
#define local_bh_enable() ((void)0)
#define in_nmi() 0
#define rcu_inkernel_boot_has_ended() true
#define kmem_dump_obj(pointer) ((void)(pointer))
#define init_rcu_head_on_stack(head) ((void)(head))
#define destroy_rcu_head_on_stack(head) ((void)(head))
#define lockdep_assert_cpus_held() ((void)0)

#define BIT(n) (1ul << (n))
#define ARRAY_SIZE(array) (sizeof(array) / sizeof((array)[0]))
#define DIV_ROUND_UP(a, b) (((a) + (b) - 1) / (b))
#define container_of(pointer, type, field) ((type *)((char *)(pointer) - offsetof(type, field)))

/* A warning of Linux's code stands behind the reply to the line that it came in. */
bool shim_warn(bool is_so, const char *what, int line);
#define WARN_ON(condition) shim_warn(!!(condition), #condition, __LINE__)
#define WARN_ON_ONCE(condition) shim_warn(!!(condition), #condition, __LINE__)
#define WARN_ONCE(condition, ...) shim_warn(!!(condition), #condition, __LINE__)

/* Shared accesses: each hook is called just before the access. */
void hook_load(const volatile void *at);
void hook_store(const volatile void *at);
void hook_count(void);
void hook_invoke(void);

#define READ_ONCE(value)                                \
	({                                              \
		__typeof__(&(value)) at_ = &(value);    \
		hook_load(at_);                         \
		*(const volatile __typeof__(value) *)at_; \
	})
#define WRITE_ONCE(place, value)                             \
	do {                                                 \
		__typeof__(&(place)) at_ = &(place);         \
		__typeof__(place) value_ = (value);          \
		hook_store(at_);                             \
		*(volatile __typeof__(place) *)at_ = value_; \
	} while (0)
#define smp_load_acquire(pointer) READ_ONCE(*(pointer))
#define smp_store_release(pointer, value) WRITE_ONCE(*(pointer), value)
#define smp_mb() __atomic_thread_fence(__ATOMIC_SEQ_CST)
#define smp_rmb() smp_mb()
#define smp_mb__after_unlock_lock() smp_mb()
#define smp_mb__before_atomic() smp_mb()
#define smp_mb__after_atomic() smp_mb()
#define local_bh_disable() hook_invoke() /* what Linux calls just before each callback */

typedef struct {
	int counter;
} atomic_t;
typedef struct {
	long counter;
} atomic_long_t;

#define ATOMIC_INIT(n) { (n) }
#define atomic_set(pointer, n) ((void)((pointer)->counter = (n)))
#define atomic_inc(pointer) ((void)((pointer)->counter++))
#define atomic_dec(pointer) ((void)((pointer)->counter--))
#define atomic_dec_and_test(pointer) (--(pointer)->counter == 0)
#define atomic_long_read(pointer) READ_ONCE((pointer)->counter)
#define atomic_long_inc(pointer) ((void)((pointer)->counter++))

/* Data of each processor are arrays, and the harness sets which processor is at work. */
extern unsigned nr_cpu_ids;
extern int shim_cpu;    /* the processor at work */
extern int shim_opener; /* where the section was begun that ends now: what a wrong kernel takes for it */

#define for_each_possible_cpu(cpu) for ((cpu) = 0; (cpu) < (int)nr_cpu_ids; (cpu)++)
#define get_boot_cpu_id() 0
#define per_cpu_ptr(pointer, cpu) ((pointer) + (cpu))
#define this_cpu_ptr(pointer) ((pointer) + shim_cpu)
#define raw_cpu_ptr(pointer) ((pointer) + shim_cpu)
#define alloc_percpu(type) ((type *)calloc(NR_CPUS, sizeof(type)))
#define free_percpu(pointer) free(pointer)
#define this_cpu_inc(value)                                                                     \
	do {                                                                                    \
		hook_count();                                                                   \
		++*(__typeof__(&(value)))((char *)&(value) + shim_cpu * sizeof(struct srcu_data)); \
	} while (0)
#define kcalloc(n, size, flags) calloc(n, size)
#define kzalloc(size, flags) calloc(1, size)
#define kfree(pointer) free(pointer)

/* Time stands still but between two lines of a script. */
extern unsigned long jiffies;

static inline bool time_after(unsigned long a, unsigned long b)
{
	return (long)(b - a) < 0;
}

static inline bool time_in_range_open(unsigned long time, unsigned long from, unsigned long to)
{
	return (long)(time - from) >= 0 && (long)(time - to) < 0;
}

static inline uint64_t ktime_get_mono_fast_ns(void)
{
	return jiffies * 1000000ul;
}

void shim_udelay(void);
#define udelay(microseconds) shim_udelay()

/* Locks. */
typedef struct {
	bool held;
} spinlock_t;
struct mutex {
	bool held;
};
struct rw_semaphore {
	char none;
};
struct lockdep_map {
	char none;
};

void shim_lock(spinlock_t *lock);
bool shim_trylock(spinlock_t *lock);
void shim_unlock(spinlock_t *lock);
void mutex_lock(struct mutex *mutex);
void mutex_unlock(struct mutex *mutex);

#define __SPIN_LOCK_UNLOCKED(name) { false }
#define spin_lock_init(lock) ((void)((lock)->held = false))
#define spin_lock(lock) shim_lock(lock)
#define spin_lock_irq(lock) shim_lock(lock)
#define spin_lock_irqsave(lock, flags) ((void)((flags) = 0), shim_lock(lock))
#define spin_trylock_irqsave(lock, flags) ((flags) = 0, shim_trylock(lock))
#define spin_unlock(lock) shim_unlock(lock)
#define spin_unlock_irq(lock) shim_unlock(lock)
#define spin_unlock_irqrestore(lock, flags) ((void)(flags), shim_unlock(lock))
#define lockdep_assert_held(lock) ((void)WARN_ON(!(lock)->held))
#define mutex_init(mutex) ((void)((mutex)->held = false))

struct completion {
	bool done;
};

static inline void init_completion(struct completion *completion)
{
	completion->done = false;
}

static inline void complete(struct completion *completion)
{
	completion->done = true;
}

void wait_for_completion(struct completion *completion);

/* Lists, as far as the list of early boot needs them. */
struct list_head {
	struct list_head *next, *prev;
};

#define LIST_HEAD(name) struct list_head name = { &(name), &(name) }
#define list_first_entry(list, type, field) container_of((list)->next, type, field)

static inline bool list_empty(const struct list_head *list)
{
	return list->next == list;
}

static inline void list_add(struct list_head *entry, struct list_head *list)
{
	entry->next = list->next;
	entry->prev = list;
	list->next->prev = entry;
	list->next = entry;
}

static inline void list_del_init(struct list_head *entry)
{
	entry->prev->next = entry->next;
	entry->next->prev = entry->prev;
	entry->next = entry->prev = entry;
}

/* Work and timers are marked as pending here, and run by the harness. */
struct work_struct {
	void (*func)(struct work_struct *work);
	bool pending;
	struct list_head entry;
};
struct delayed_work {
	struct work_struct work;
};
struct timer_list {
	void (*function)(struct timer_list *timer);
	bool pending;
};
struct workqueue_struct;
struct task_struct;
struct kthread_worker;

#define INIT_WORK(work_, function_)                                             \
	do {                                                                    \
		(work_)->func = (function_);                                    \
		(work_)->pending = false;                                       \
		(work_)->entry.next = (work_)->entry.prev = &(work_)->entry;    \
	} while (0)
#define INIT_DELAYED_WORK(delayed, function_) INIT_WORK(&(delayed)->work, function_)

static inline bool queue_work_on(int cpu, struct workqueue_struct *queue, struct work_struct *work)
{
	bool was_pending = work->pending;

	(void)cpu;
	(void)queue;
	work->pending = true;
	return !was_pending;
}

#define queue_work(queue, work) queue_work_on(0, queue, work)
#define queue_delayed_work(queue, delayed, delay) ((void)(delay), queue_work_on(0, queue, &(delayed)->work))
#define timer_setup(timer, function_, flags) ((void)((timer)->function = (function_), (timer)->pending = false))
#define timer_reduce(timer, when) ((void)(when), (void)((timer)->pending = true))
#define del_timer_sync(timer) ((void)((timer)->pending = false))

void shim_flush(struct work_struct *work);
#define flush_work(work) shim_flush(work)
#define flush_delayed_work(delayed) shim_flush(&(delayed)->work)

/* Callbacks. */
struct rcu_head {
	struct rcu_head *next;
	void (*func)(struct rcu_head *head);
};
typedef void (*rcu_callback_t)(struct rcu_head *head);
struct rcu_synchronize {
	struct rcu_head head;
	struct completion completion;
};
extern int rcu_scheduler_active;

static inline void wakeme_after_rcu(struct rcu_head *head)
{
	complete(&container_of(head, struct rcu_synchronize, head)->completion);
}

/* The geometry of the tree, which the build cuts out of tree.c, also sets the delays of classic RCU. */
extern unsigned long jiffies_till_first_fqs, jiffies_till_next_fqs;
#define RCU_JIFFIES_TILL_FORCE_QS 1
#define RCU_JIFFIES_FQS_DIV 256
#define adjust_jiffies_till_sched_qs() ((void)0)

/* What notifier.c has beside the chains of SRCU, and rcu.h of notifiers: never called here. */
#define NOTIFY_DONE 0x0000
#define __RWSEM_INITIALIZER(name) { 0 }
#define init_rwsem(semaphore) ((void)(semaphore))
#define down_read(semaphore) ((void)(semaphore))
#define up_read(semaphore) ((void)(semaphore))
#define down_write(semaphore) ((void)(semaphore))
#define up_write(semaphore) ((void)(semaphore))
#define rcu_read_lock() ((void)0)
#define rcu_read_unlock() ((void)0)
#define rcu_is_watching() true
#define synchronize_rcu() ((void)0)
#define rcu_dereference_raw(pointer) (pointer)
#define rcu_access_pointer(pointer) (pointer)
#define rcu_assign_pointer(place, value) ((void)((place) = (value)))
#define trace_notifier_register(call) ((void)(call))
#define trace_notifier_unregister(call) ((void)(call))
#define trace_notifier_run(call) ((void)(call))
#define WARN(condition, ...) (!!(condition)) /* of a block that is there: the reply says so */
#define BUG() abort()

enum { SYSTEM_BOOTING, SYSTEM_RUNNING };
extern int system_state;
enum die_val { DIE_NOTHING };
struct pt_regs;
struct die_args {
	struct pt_regs *regs;
	const char *str;
	long err;
	int trapnr, signr;
};

#endif
