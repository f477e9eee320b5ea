/* The number of threads, what the library says of itself, and the texts of codes. */
#define _GNU_SOURCE
#include <sched.h>
#include <stdatomic.h>
#include <stdio.h>
#include <string.h>
#include <unistd.h>

#include "inside.h"

/* How many threads a call may use. 0 until it is asked for or set. */
static atomic_int threads;

static int processor_count(void)
{
    long count = sysconf(_SC_NPROCESSORS_ONLN);
    return count < 1 ? 1 : (int)count;
}

/* The processors that this process may run on. */
static int usable_processor_count(void)
{
    cpu_set_t set;
    return sched_getaffinity(0, sizeof set, &set) == 0 ? CPU_COUNT(&set) : processor_count();
}

/* Counting processors takes longer than an easy position, so it is done once. */
int thread_count(void)
{
    int count = atomic_load(&threads), unset = 0;
    if (count > 0)
        return count;
    count = usable_processor_count();
    return atomic_compare_exchange_strong(&threads, &unset, count) ? count : unset;
}

/* DDS has the same limit, so its range of thread indices is ours. */
void SetMaxThreads(int userThreads)
{
    int most = processor_count();
    atomic_store(&threads, userThreads < 1 ? usable_processor_count() : userThreads < most ? userThreads : most);
}

void SetResources(int maxMemoryMB, int maxThreads)
{
    (void)maxMemoryMB;
    SetMaxThreads(maxThreads);
}

/* None, OpenMP, Boost and STL are what DDS can have on Linux. */
int SetThreading(int code)
{
    return code == 0 || code == 2 || code == 4 || code == 5 ? RETURN_NO_FAULT : RETURN_THREAD_MISSING;
}

void FreeMemory(void)
{
}

#if defined(__clang__)
enum { COMPILER = 4 };
#else
enum { COMPILER = 3 };
#endif

void GetDDSInfo(struct DDSInfo *info)
{
    if (!info)
        return;
    memset(info, 0, sizeof *info);
    info->major = DDS_VERSION / 10000;
    info->minor = DDS_VERSION / 100 % 100;
    info->patch = DDS_VERSION % 100;
    snprintf(info->versionString, sizeof info->versionString, "%d.%d.%d", info->major, info->minor, info->patch);
    info->system = 3;
    info->numBits = (int)(8 * sizeof(void *));
    info->compiler = COMPILER;
    info->numCores = processor_count();
    info->threading = 5;
    info->noOfThreads = thread_count();
    snprintf(info->threadSizes, sizeof info->threadSizes, "0 S, 0 L");
    snprintf(info->systemString, sizeof info->systemString,
             "ddfarm, with the functions of DDS %s\nNumber of cores   %d\nNumber of threads %d\n", info->versionString,
             info->numCores, info->noOfThreads);
}

static const struct {
    int code;
    const char *text;
} TEXTS[] = {
    {RETURN_NO_FAULT, TEXT_NO_FAULT},
    {RETURN_UNKNOWN_FAULT, TEXT_UNKNOWN_FAULT},
    {RETURN_ZERO_CARDS, TEXT_ZERO_CARDS},
    {RETURN_TARGET_TOO_HIGH, TEXT_TARGET_TOO_HIGH},
    {RETURN_DUPLICATE_CARDS, TEXT_DUPLICATE_CARDS},
    {RETURN_TARGET_WRONG_LO, TEXT_TARGET_WRONG_LO},
    {RETURN_TARGET_WRONG_HI, TEXT_TARGET_WRONG_HI},
    {RETURN_SOLNS_WRONG_LO, TEXT_SOLNS_WRONG_LO},
    {RETURN_SOLNS_WRONG_HI, TEXT_SOLNS_WRONG_HI},
    {RETURN_TOO_MANY_CARDS, TEXT_TOO_MANY_CARDS},
    {RETURN_SUIT_OR_RANK, TEXT_SUIT_OR_RANK},
    {RETURN_PLAYED_CARD, TEXT_PLAYED_CARD},
    {RETURN_CARD_COUNT, TEXT_CARD_COUNT},
    {RETURN_THREAD_INDEX, TEXT_THREAD_INDEX},
    {RETURN_MODE_WRONG_LO, TEXT_MODE_WRONG_LO},
    {RETURN_MODE_WRONG_HI, TEXT_MODE_WRONG_HI},
    {RETURN_TRUMP_WRONG, TEXT_TRUMP_WRONG},
    {RETURN_FIRST_WRONG, TEXT_FIRST_WRONG},
    {RETURN_PLAY_FAULT, TEXT_PLAY_FAULT},
    {RETURN_PBN_FAULT, TEXT_PBN_FAULT},
    {RETURN_TOO_MANY_BOARDS, TEXT_TOO_MANY_BOARDS},
    {RETURN_THREAD_CREATE, TEXT_THREAD_CREATE},
    {RETURN_THREAD_WAIT, TEXT_THREAD_WAIT},
    {RETURN_THREAD_MISSING, TEXT_THREAD_MISSING},
    {RETURN_NO_SUIT, TEXT_NO_SUIT},
    {RETURN_TOO_MANY_TABLES, TEXT_TOO_MANY_TABLES},
    {RETURN_CHUNK_SIZE, TEXT_CHUNK_SIZE},
};

void ErrorMessage(int code, char line[80])
{
    const char *text = "Not a DDS error code";
    if (!line)
        return;
    for (size_t i = 0; i < sizeof TEXTS / sizeof TEXTS[0]; i++)
        if (TEXTS[i].code == code)
            text = TEXTS[i].text;
    strcpy(line, text);
}
