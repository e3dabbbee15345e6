/*
 * Each run is clean; two runs together are not.
 *
 * Run: forth
 * Run: back
 *
 * Report:
 * traces 2 refused 0 events 8 classes 2 dependencies 2
 * inversion two-runs:A -> two-runs:B at two-runs-1:4 via two-runs:B -> two-runs:A
 * inversion two-runs:B -> two-runs:A at two-runs.2-1:12 via two-runs:A -> two-runs:B
 * violations 2
 */
#include <string.h>

#include "planted.h"

static pthread_mutex_t A = PTHREAD_MUTEX_INITIALIZER;
static pthread_mutex_t B = PTHREAD_MUTEX_INITIALIZER;

int main(int count, char **arguments)
{
    must(count == 2);
    if (strcmp(arguments[1], "forth") == 0)
        take_both(&A, &B);
    else
        take_both(&B, &A);
    return 0;
}
