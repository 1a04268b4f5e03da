/* What Linux says of the clock under a daemon, for a program that is started with this in LD_PRELOAD. The daemon sets the bound
   of the error to SETS_US microseconds every POLL seconds. It did so for the last time AGO seconds before the start. The kernel
   adds 500 microseconds each second. */
#define _GNU_SOURCE
#include <stdlib.h>
#include <string.h>
#include <sys/timex.h>
#include <time.h>

static long number(const char *name) {
    const char *text = getenv(name);
    return text ? atol(text) : 0;
}

static long seconds(void) {
    struct timespec now;
    clock_gettime(CLOCK_MONOTONIC, &now);
    return now.tv_sec;
}

static long begun;

__attribute__((constructor)) static void begin(void) { begun = seconds() - number("AGO"); }

int adjtimex(struct timex *told) {
    memset(told, 0, sizeof *told);
    told->status = STA_PLL | STA_NANO;
    told->tick = 10000;
    told->esterror = number("SETS_US");
    told->maxerror = number("SETS_US") + 500 * ((seconds() - begun) % number("POLL"));
    return TIME_OK;
}
