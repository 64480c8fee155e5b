// Before anything is timed, all implementations have to give the same results, refusals too; where they do not, this
// says so and ends the program.
#ifndef AGREE_H
#define AGREE_H

void agree_on_all(void);

#endif
