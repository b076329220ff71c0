/* Plays a script on one machine. */
#ifndef PLAY_H
#define PLAY_H

#include <stdio.h>

enum purpose {
    LINES,         /* prints REPLAY.md's lines */
    CHECKED_LINES, /* the same, and the run is held against the third condition as it goes; see check.h */
    TAPE           /* prints the tape of the slots from the first accepted configuration on, up to a second one */
};

void play(FILE *file, enum purpose purpose);

#endif
