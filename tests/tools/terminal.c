/* Loaded before a program (LD_PRELOAD): its outputs are taken for terminals, so that it shows its progress. */

int isatty(int output);

int isatty(int output) { return output > 0; }
