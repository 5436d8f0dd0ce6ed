/* Checks that are counted and printed, one line each. */
#ifndef CHECK_H
#define CHECK_H

/* A line above a group of checks. */
void heading(const char *text);

/* Counts a check and prints what it was about. Gives back whether it held. */
int check(int holds, const char *format, ...);

/* Counts a check and prints it only where it fails, for checks by the hundred. */
int check_quietly(int holds, const char *format, ...);

/* Prints how many checks there were and how many failed; the exit status of the program. */
int checks_done(void);

#endif
