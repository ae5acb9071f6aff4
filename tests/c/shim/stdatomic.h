/* What the example firmware uses of <stdatomic.h>, in clang's own words. */
#ifndef SHIM_STDATOMIC_H
#define SHIM_STDATOMIC_H
#define memory_order_relaxed __ATOMIC_RELAXED
#define memory_order_acquire __ATOMIC_ACQUIRE
#define memory_order_release __ATOMIC_RELEASE
#define memory_order_acq_rel __ATOMIC_ACQ_REL
#define memory_order_seq_cst __ATOMIC_SEQ_CST
typedef _Atomic(unsigned int) atomic_uint;
#define atomic_load_explicit(object, order) __c11_atomic_load(object, order)
#define atomic_store_explicit(object, value, order) __c11_atomic_store(object, value, order)
#define atomic_exchange_explicit(object, value, order) __c11_atomic_exchange(object, value, order)
#define atomic_fetch_or_explicit(object, bits, order) __c11_atomic_fetch_or(object, bits, order)
#endif
