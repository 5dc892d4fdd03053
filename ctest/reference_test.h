/* Checks the reference against test values and the bitwise cipher. */
#ifndef REFERENCE_TEST_H
#define REFERENCE_TEST_H

/* Answers 1 if all agree; otherwise prints what differs and answers 0. */
int reference_agrees(void);

#endif
