/* Runs the parts of one call in threads. The threads end with the call. */
#define _GNU_SOURCE
#include <pthread.h>
#include <stdatomic.h>
#include <stddef.h>

#include "inside.h"

struct job {
    void (*run)(void *work, int task);
    void *work;
    int tasks;
    atomic_int next;
};

/* Takes tasks until none is left. */
static void *take_tasks(void *given)
{
    struct job *job = given;
    int task;
    while ((task = atomic_fetch_add(&job->next, 1)) < job->tasks)
        job->run(job->work, task);
    return NULL;
}

/* If a thread can't be started, those that were do the work. The calling thread is one of them. */
void run_tasks(int tasks, void (*run)(void *work, int task), void *work)
{
    struct job job = {.run = run, .work = work, .tasks = tasks};
    pthread_t threads[MOST_TASKS];
    int count = thread_count(), started = 0;
    if (count > tasks)
        count = tasks;
    while (started < count - 1 && pthread_create(&threads[started], NULL, take_tasks, &job) == 0)
        started++;
    take_tasks(&job);
    for (int i = 0; i < started; i++)
        pthread_join(threads[i], NULL);
}

int first_fault(const int *codes, int count)
{
    for (int i = 0; i < count; i++)
        if (codes[i] != RETURN_NO_FAULT)
            return codes[i];
    return RETURN_NO_FAULT;
}
