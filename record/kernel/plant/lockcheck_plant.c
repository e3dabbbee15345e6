// SPDX-License-Identifier: GPL-2.0
/*
 * Does one fault of locking on purpose, without a deadlock: whatever could meet comes one after the
 * other. It is for test machines: lockdep reports the fault and then stops until the next boot.
 *
 *     insmod lockcheck_plant.ko fault=NAME
 *
 * The names are those of the table at the end. The lock classes are plant_* and &object->lock.
 */
#include <linux/completion.h>
#include <linux/hrtimer.h>
#include <linux/kthread.h>
#include <linux/module.h>
#include <linux/mutex.h>
#include <linux/slab.h>
#include <linux/spinlock.h>
#include <linux/timer.h>
#include <linux/version.h>

static char *fault = "clean";
module_param(fault, charp, 0444);
MODULE_PARM_DESC(fault, "inversion, hard, soft, walk, recursion, nested, clean or all");

static DEFINE_MUTEX(plant_a);
static DEFINE_MUTEX(plant_b);
static DEFINE_MUTEX(plant_c);
static DEFINE_MUTEX(plant_d);
static DEFINE_SPINLOCK(plant_h);
static DEFINE_SPINLOCK(plant_s);
static DEFINE_SPINLOCK(plant_w);
static DEFINE_SPINLOCK(plant_x);

struct object {
	spinlock_t lock;
};

/* Two locks of one class. */
static void init_pair(struct object *pair)
{
	int i;

	for (i = 0; i < 2; i++) {
		struct object *object = &pair[i];

		spin_lock_init(&object->lock);
	}
}

static void take_both(struct mutex *outer, struct mutex *inner)
{
	mutex_lock(outer);
	mutex_lock(inner);
	mutex_unlock(inner);
	mutex_unlock(outer);
}

static DECLARE_COMPLETION(thread_is_done);

static int thread_takes_a_b(void *unused)
{
	take_both(&plant_a, &plant_b);
	complete(&thread_is_done);
	return 0;
}

/* A thread takes plant_a and then plant_b; once it has ended, this task takes them the other way. */
static int plant_inversion(void)
{
	struct task_struct *thread = kthread_run(thread_takes_a_b, NULL, "plant_a_b");

	if (IS_ERR(thread))
		return PTR_ERR(thread);
	wait_for_completion(&thread_is_done);
	take_both(&plant_b, &plant_a);
	return 0;
}

/* Runs a function once in a handler of hardware interrupts. */
static DECLARE_COMPLETION(hard_is_done);
static spinlock_t *hard_lock;

static enum hrtimer_restart in_hard_handler(struct hrtimer *timer)
{
	spin_lock(hard_lock);
	spin_unlock(hard_lock);
	complete(&hard_is_done);
	return HRTIMER_NORESTART;
}

static void take_in_hard_handler(spinlock_t *lock)
{
	static struct hrtimer timer;

	hard_lock = lock;
	reinit_completion(&hard_is_done);
#if LINUX_VERSION_CODE >= KERNEL_VERSION(6, 13, 0)
	hrtimer_setup(&timer, in_hard_handler, CLOCK_MONOTONIC, HRTIMER_MODE_REL_HARD);
#else
	hrtimer_init(&timer, CLOCK_MONOTONIC, HRTIMER_MODE_REL_HARD);
	timer.function = in_hard_handler;
#endif
	hrtimer_start(&timer, ms_to_ktime(10), HRTIMER_MODE_REL_HARD);
	wait_for_completion(&hard_is_done);
	hrtimer_cancel(&timer);
}

/* A hard handler takes plant_h; then this task holds it while such handlers can come. */
static int plant_hard(void)
{
	take_in_hard_handler(&plant_h);
	spin_lock(&plant_h);
	spin_unlock(&plant_h);
	return 0;
}

static DECLARE_COMPLETION(soft_is_done);

static void in_soft_handler(struct timer_list *unused)
{
	spin_lock(&plant_s);
	spin_unlock(&plant_s);
	complete(&soft_is_done);
}

static DEFINE_TIMER(soft_timer, in_soft_handler);

/* A softirq takes plant_s; then this task holds it while softirqs can come. */
static int plant_soft(void)
{
	mod_timer(&soft_timer, jiffies + 1);
	wait_for_completion(&soft_is_done);
	spin_lock(&plant_s);
	spin_unlock(&plant_s);
	return 0;
}

/*
 * A hard handler takes plant_w; plant_x is held while such handlers can come; and plant_x is taken
 * under plant_w. Neither of the two is in conflict with itself.
 */
static int plant_walk(void)
{
	unsigned long flags;

	take_in_hard_handler(&plant_w);
	spin_lock(&plant_x);
	spin_unlock(&plant_x);
	spin_lock_irqsave(&plant_w, flags);
	spin_lock(&plant_x);
	spin_unlock(&plant_x);
	spin_unlock_irqrestore(&plant_w, flags);
	return 0;
}

static int take_pair(unsigned int subclass)
{
	struct object *pair = kcalloc(2, sizeof(*pair), GFP_KERNEL);

	if (!pair)
		return -ENOMEM;
	init_pair(pair);
	spin_lock(&pair[0].lock);
	spin_lock_nested(&pair[1].lock, subclass);
	spin_unlock(&pair[1].lock);
	spin_unlock(&pair[0].lock);
	kfree(pair);
	return 0;
}

/* Two locks of one class, the one under the other. */
static int plant_recursion(void)
{
	return take_pair(0);
}

/* The same in the way that lockdep is told of: no fault. */
static int plant_nested(void)
{
	return take_pair(SINGLE_DEPTH_NESTING);
}

/* The order plant_c, plant_d twice: no fault. */
static int plant_clean(void)
{
	take_both(&plant_c, &plant_d);
	take_both(&plant_c, &plant_d);
	return 0;
}

/* Each once. lockdep stops at the first; a recording goes on. */
/* clang-format off */
static const struct {
	const char *name;
	int (*plant)(void);
} faults[] = {
	{ "clean", plant_clean },
	{ "nested", plant_nested },
	{ "inversion", plant_inversion },
	{ "hard", plant_hard },
	{ "soft", plant_soft },
	{ "walk", plant_walk },
	{ "recursion", plant_recursion },
};
/* clang-format on */

static int __init plant_init(void)
{
	bool all = !strcmp(fault, "all");
	bool known = all;
	int i, error;

	for (i = 0; i < ARRAY_SIZE(faults); i++) {
		if (!all && strcmp(fault, faults[i].name))
			continue;
		known = true;
		pr_info("lockcheck_plant: %s\n", faults[i].name);
		error = faults[i].plant();
		if (error)
			return error;
	}
	return known ? 0 : -EINVAL;
}

static void __exit plant_exit(void)
{
#if LINUX_VERSION_CODE >= KERNEL_VERSION(6, 2, 0)
	timer_delete_sync(&soft_timer);
#else
	del_timer_sync(&soft_timer);
#endif
}

module_init(plant_init);
module_exit(plant_exit);
MODULE_DESCRIPTION("Faults of locking on purpose, to test a recording");
MODULE_LICENSE("GPL");
