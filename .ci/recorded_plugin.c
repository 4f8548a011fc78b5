/* A library that recorded_faults.c loads with RTLD_DEEPBIND: its calls come to the C library itself. */
#include <pthread.h>
void plugin_locks(pthread_mutex_t *m) { pthread_mutex_lock(m); }
