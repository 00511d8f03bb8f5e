/* A clock that a test sets, loaded before C's own: it tells the milliseconds that stand in the file CLOCK, and where there are none it fails. */
#include <stdio.h>
#include <stdlib.h>
#include <time.h>

int clock_gettime(clockid_t clock, struct timespec *time)
{
    const char *name = getenv("CLOCK");
    FILE *file = name ? fopen(name, "r") : NULL;
    unsigned long long milliseconds;
    int told = file && fscanf(file, "%llu", &milliseconds) == 1;

    (void)clock;
    if (file)
        fclose(file);
    if (!told)
        return -1;
    time->tv_sec = milliseconds / 1000;
    time->tv_nsec = milliseconds % 1000 * 1000000;
    return 0;
}
