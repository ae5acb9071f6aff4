/* What the tests use of the C library's <pthread.h>. */
#ifndef SHIM_PTHREAD_H
#define SHIM_PTHREAD_H
typedef unsigned long pthread_t;
typedef union { char room[56]; long alignment; } pthread_attr_t;
int pthread_create(pthread_t *thread, const pthread_attr_t *attributes, void *(*start)(void *), void *argument);
int pthread_join(pthread_t thread, void **result);
pthread_t pthread_self(void);
#endif
