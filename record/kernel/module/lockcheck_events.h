/* SPDX-License-Identifier: GPL-2.0 */
#undef TRACE_SYSTEM
#define TRACE_SYSTEM lockcheck

#if !defined(LOCKCHECK_EVENTS_H) || defined(TRACE_HEADER_MULTI_READ)
#define LOCKCHECK_EVENTS_H

#include <linux/lockdep.h>
#include <linux/sched.h>
#include <linux/string.h>
#include <linux/tracepoint.h>

/* The macros of tracepoints are laid out as in the kernel. */
/* clang-format off */

/*
 * `how` is 1 for a trylock, and 2 where lockdep checks. `held` is how many locks lockdep has of the task
 * before this one, since it takes a lock up after the event, and the task may be preempted before that;
 * or 255 where lockdep has stopped. `y=` is the symbol that the key lies in, which, unlike lockdep's number
 * of a class, is the same in another boot; it is looked up when the text is read. The name is copied here and not by __assign_str(), whose arguments
 * are others from 6.10 on.
 */
TRACE_EVENT(acquire,

	TP_PROTO(struct lockdep_map *lock, const void *key, unsigned int subclass, int trylock,
		 int read, int check, struct lockdep_map *nest, unsigned long caller),

	TP_ARGS(lock, key, subclass, trylock, read, check, nest, caller),

	TP_STRUCT__entry(
		__field(const void *, lock)
		__field(const void *, key)
		__field(const void *, nest)
		__field(const void *, caller)
		__field(u8, subclass)
		__field(u8, how)
		__field(u8, read)
		__field(u8, held)
		__string(name, lock->name ? lock->name : "NULL")
	),

	TP_fast_assign(
		__entry->lock = lock;
		__entry->key = key;
		__entry->nest = nest;
		__entry->caller = (void *)caller;
		__entry->subclass = subclass;
		__entry->how = (trylock ? 1 : 0) | (check ? 2 : 0);
		__entry->read = read;
		__entry->held = debug_locks ? current->lockdep_depth : 255;
		strscpy(__get_str(name), lock->name ? lock->name : "NULL",
			__get_dynamic_array_len(name));
	),

	TP_printk("%p k=%p s=%u t=%u r=%u c=%u n=%p h=%u y=%ps i=%pS %s",
		  __entry->lock, __entry->key, __entry->subclass, __entry->how & 1,
		  __entry->read, __entry->how >> 1, __entry->nest, __entry->held,
		  __entry->key, __entry->caller, __get_str(name))
);

TRACE_EVENT(release,

	TP_PROTO(struct lockdep_map *lock),

	TP_ARGS(lock),

	TP_STRUCT__entry(
		__field(const void *, lock)
	),

	TP_fast_assign(
		__entry->lock = lock;
	),

	TP_printk("%p", __entry->lock)
);

/* clang-format on */

#endif /* LOCKCHECK_EVENTS_H */

#undef TRACE_INCLUDE_PATH
#define TRACE_INCLUDE_PATH .
#undef TRACE_INCLUDE_FILE
#define TRACE_INCLUDE_FILE lockcheck_events
#include <trace/define_trace.h>
