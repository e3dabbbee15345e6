/* What the user wants of the stream, besides the functions and files. */
#include <getopt.h>
#include <stdlib.h>

#include "merger.h"

struct settings settings = {.callers = MOST_CALLERS};

/* Takes the words that begin with `--`, and gives the number of the first that doesn't, or 0 where one isn't known. */
int read_settings(int count, char **words)
{
    static const struct option options[] = {
        {"callers", required_argument, NULL, 'n'},
        {"cut", required_argument, NULL, 'c'},
        {"instances", no_argument, NULL, 'i'},
        {NULL, 0, NULL, 0},
    };
    int option;
    while ((option = getopt_long(count, words, "+", options, NULL)) != -1) {
        if (option == 'c')
            settings.cut = strtoull(optarg, NULL, 10);
        else if (option == 'n')
            settings.callers = strtoull(optarg, NULL, 10);
        else if (option == 'i')
            settings.has_instances = true;
        else
            return 0;
    }
    if (settings.callers > MOST_CALLERS)
        settings.callers = MOST_CALLERS;
    return optind;
}
