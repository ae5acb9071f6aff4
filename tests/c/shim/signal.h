/* What the tests use of the C library's <signal.h>, with Linux's numbers. */
#ifndef SHIM_SIGNAL_H
#define SHIM_SIGNAL_H
#include <pthread.h>
enum { SIGUSR1 = 10, SIGUSR2 = 12 };
void (*signal(int number, void (*handler)(int)))(int);
int pthread_kill(pthread_t thread, int number);
#endif
