/*
 * The lines of JSON that `tree` writes, made from a tree of the library.
 */
#ifndef LINES_H
#define LINES_H

#include "first_pass.h"

#include <stdio.h>

void write_lines(FILE *out, const struct first_pass_tree *tree);

#endif
