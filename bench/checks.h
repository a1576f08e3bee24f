/* A benchmark of a wrong cipher is worthless: these end the program if any two results differ that should be equal. */
#ifndef CHECKS_H
#define CHECKS_H

#include "peers.h"

/* Call after prepare(). */
void check_library(void);

void check_peer(const struct peer *peer);

void check_tag_peer(const struct tag_peer *peer);

#endif
