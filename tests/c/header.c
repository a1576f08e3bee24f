/* The headers by themselves, as C. The other order stands in header.cpp, so neither leans on the other. */
#include "semivrakh.h"
#include "semivrakh_words.h"
