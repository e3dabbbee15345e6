// SPDX-License-Identifier: GPL-2.0
/*
 * Two events that show each acquisition of a lock with its lockdep class.
 *
 * The kernel's own event lock:lock_acquire shows a lock's address and name. Many classes share one
 * name, and a subclass doesn't show at all, so orders between them can't be told. The events here,
 * lockcheck:acquire and lockcheck:release, hang on the same tracepoints and show what lockdep goes by.
 */
#include <linux/lockdep.h>
#include <linux/module.h>
#include <linux/percpu.h>
#include <linux/sched.h>
#include <linux/tracepoint.h>

#define CREATE_TRACE_POINTS
#include "lockcheck_events.h"

static struct tracepoint *acquire_point;
static struct tracepoint *release_point;

/*
 * A variable that there is once for each processor: the kernel's own come before it, and behind it
 * modules have no more than PERCPU_MODULE_RESERVE bytes. `unit` is how far one processor's variables
 * are from another's, at least.
 */
static DEFINE_PER_CPU(char, of_processor);
static unsigned long unit;

static void find_unit(void)
{
	unsigned int one, other;

	unit = ULONG_MAX;
	for_each_possible_cpu(one)
		for_each_possible_cpu(other)
			if (per_cpu_ptr(&of_processor, one) > per_cpu_ptr(&of_processor, other))
				unit = min_t(unsigned long, unit,
					     per_cpu_ptr(&of_processor, one) -
						 per_cpu_ptr(&of_processor, other));
}

/*
 * The key that lockdep gives a static lock at its first acquisition: its own address, or where there
 * is one for each processor, the address of the first processor's. The functions by which lockdep
 * tells them aren't exported.
 */
static const void *static_key(const struct lockdep_map *lock)
{
	unsigned long address = (unsigned long)lock, end;
	unsigned int cpu;

	if (num_possible_cpus() == 1)
		return lock;
	for_each_possible_cpu(cpu) {
		end = (unsigned long)per_cpu_ptr(&of_processor, cpu) + PERCPU_MODULE_RESERVE;
		if (address < end && end - address <= unit)
			return (const void *)(address - (unsigned long)per_cpu_ptr(&of_processor, cpu) +
					      (unsigned long)per_cpu_ptr(&of_processor,
									 cpumask_first(cpu_possible_mask)));
	}
	return lock;
}

/*
 * The address that stands for the lock's class in /proc/lockdep. The class cache comes first: after
 * lockdep_set_subclass() the class shows there alone. What it has may be old: lockdep passes over a
 * class whose key isn't one of the lock's.
 */
static const void *class_key(const struct lockdep_map *lock, unsigned int subclass)
{
	const struct lock_class *class = NULL;
	const char *base = (const char *)READ_ONCE(lock->key);

	if (!base)
		return (const char *)static_key(lock) + subclass;
	if (subclass < NR_LOCKDEP_CACHING_CLASSES)
		class = READ_ONCE(lock->class_cache[subclass]);
	if (class && READ_ONCE(class->key) == (const void *)(base + (subclass ?: class->subclass)))
		return base + (subclass ?: class->subclass);
	return base + subclass;
}

/* Headers declare it with CONFIG_PROVE_LOCKING alone; it is there with lockdep. */
DECLARE_PER_CPU(unsigned int, lockdep_recursion);

/*
 * Whether lockdep passes over what is acquired here: while it works itself, where code says so by
 * lockdep_off(), and locks that it doesn't follow at all.
 */
static bool is_passed_over(const struct lockdep_map *lock)
{
#ifdef lockdep_set_notrack_class
	if (lock->key == &__lockdep_no_track__)
		return true;
#endif
	return this_cpu_read(lockdep_recursion) || current->lockdep_recursion;
}

/*
 * Where a class has a function that orders its locks (lock_set_cmp_fn, from 6.5 on), a lock of it that the
 * task holds, if that function has all that it holds before this one. Then lockdep passes over their order.
 */
static struct lockdep_map *ordered_under(struct lockdep_map *lock, unsigned int subclass)
{
	struct lockdep_map *last = NULL;
#if defined(CONFIG_PROVE_LOCKING) && defined(lock_set_cmp_fn)
	const struct lock_class *class = subclass ? NULL : READ_ONCE(lock->class_cache[0]);
	int i;

	if (!class || !class->cmp_fn || READ_ONCE(class->key) != (const void *)lock->key)
		return NULL;
	for (i = 0; i < current->lockdep_depth; i++) {
		struct lockdep_map *held = current->held_locks[i].instance;

		if (held->key != lock->key)
			continue;
		if (class->cmp_fn(held, lock) >= 0)
			return NULL;
		last = held;
	}
#endif
	return last;
}

static void on_acquire(void *data, struct lockdep_map *lock, unsigned int subclass, int trylock, int read,
		       int check, struct lockdep_map *nest, unsigned long caller)
{
	if (!trace_acquire_enabled())
		return;
	/* Locks of the class that isn't validated are kept by lockdep, but get no dependency. */
	if (lock->key == &__lockdep_no_validate__ || is_passed_over(lock))
		check = 0;
	trace_acquire(lock, class_key(lock, subclass), subclass, trylock, read, check,
		      nest ?: ordered_under(lock, subclass), caller);
}

static void on_release(void *data, struct lockdep_map *lock, unsigned long caller)
{
	trace_release(lock);
}

/* The kernel doesn't export these two tracepoints, so they are looked up by name. */
static void find_point(struct tracepoint *point, void *unused)
{
	if (!strcmp(point->name, "lock_acquire"))
		acquire_point = point;
	else if (!strcmp(point->name, "lock_release"))
		release_point = point;
}

static int __init lockcheck_events_init(void)
{
	int error;

	find_unit();
	for_each_kernel_tracepoint(find_point, NULL);
	if (!acquire_point || !release_point) {
		pr_err("lockcheck_events: this kernel has no lock events (CONFIG_LOCKDEP)\n");
		return -ENODEV;
	}
	error = tracepoint_probe_register(acquire_point, on_acquire, NULL);
	if (error)
		return error;
	error = tracepoint_probe_register(release_point, on_release, NULL);
	if (error) {
		tracepoint_probe_unregister(acquire_point, on_acquire, NULL);
		tracepoint_synchronize_unregister();
	}
	return error;
}

static void __exit lockcheck_events_exit(void)
{
	tracepoint_probe_unregister(release_point, on_release, NULL);
	tracepoint_probe_unregister(acquire_point, on_acquire, NULL);
	tracepoint_synchronize_unregister();
}

module_init(lockcheck_events_init);
module_exit(lockcheck_events_exit);
MODULE_DESCRIPTION("Trace events that show lock acquisitions with their lockdep class");
MODULE_LICENSE("GPL");
