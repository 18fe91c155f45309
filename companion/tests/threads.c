/* The part of libgomp that an export calls, on plain POSIX threads: for runs under the thread sanitizer.

   libgomp isn't compiled for the sanitizer. Its threads wait for each other in ways that the sanitizer doesn't see, so
   it would report races that aren't there. Here a parallel region starts its threads and joins them, which it sees. */

#include <pthread.h>
#include <stdlib.h>

static _Thread_local unsigned number = 0, team = 1;
static pthread_mutex_t atomic = PTHREAD_MUTEX_INITIALIZER;

struct start {
    void (*region)(void *);
    void *data;
    unsigned number, team;
};

static unsigned wished(void)
{
    const char *words = getenv("OMP_NUM_THREADS");
    int count = words ? atoi(words) : 1;
    return count > 0 ? (unsigned)count : 1;
}

static void *run(void *argument)
{
    struct start *start = argument;
    number = start->number;
    team = start->team;
    start->region(start->data);
    return NULL;
}

/* A region in a region has one thread, as with libgomp. */
void GOMP_parallel(void (*region)(void *), void *data, unsigned threads, unsigned flags)
{
    unsigned outer_number = number, outer_team = team, count = team > 1 ? 1 : threads ? threads : wished();
    pthread_t *handles = calloc(count, sizeof *handles);
    struct start *starts = calloc(count, sizeof *starts);
    (void)flags;
    for (unsigned i = 0; i < count; i++)
        starts[i] = (struct start){region, data, i, count};
    for (unsigned i = 1; i < count; i++)
        if (pthread_create(&handles[i], NULL, run, &starts[i]))
            abort();
    run(&starts[0]);
    for (unsigned i = 1; i < count; i++)
        pthread_join(handles[i], NULL);
    number = outer_number;
    team = outer_team;
    free(starts);
    free(handles);
}

int omp_get_thread_num(void) { return (int)number; }
int omp_get_num_threads(void) { return (int)team; }
void GOMP_atomic_start(void) { pthread_mutex_lock(&atomic); }
void GOMP_atomic_end(void) { pthread_mutex_unlock(&atomic); }
