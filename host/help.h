/* What aral says of itself: help, its version, and words that are none of its own (help.c). */
#ifndef HELP_H
#define HELP_H

/* Answers what needs no calculator: help, the version, and words that no command takes. Answers what aral ends with, or
   -1 where the first word is a command and the others may be its words. */
int answer_front(int count, char **word);

/* Says a misuse of a command on standard error, and answers what aral ends with. */
int misused(const char *command, const char *what, const char *word);

#endif
