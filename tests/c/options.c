#include "options.h"

#include <stddef.h>
#include <stdlib.h>
#include <string.h>

bool read_options(struct options *options, int count, char **words) {
    *options = (struct options){.size = NULL, .seed = 1, .broken = ""};
    for (int i = 1; i < count; i++) {
        bool one_more = i + 1 < count;
        if (strcmp(words[i], "--seed") == 0 && one_more) options->seed = strtoull(words[++i], NULL, 0);
        else if (strcmp(words[i], "--broken") == 0 && one_more) options->broken = words[++i];
        else if (strcmp(words[i], "--short") == 0 || strcmp(words[i], "--long") == 0) options->size = words[i];
        else return false;
    }
    options->is_long = options->size != NULL && strcmp(options->size, "--long") == 0;
    return options->size != NULL;
}
