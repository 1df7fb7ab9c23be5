/* What recheck --help prints. */

#ifndef HELP_H
#define HELP_H

static const char usage[] = "usage: recheck --estimate 7|8 [OPTION]... TABLE [RECORDS]...; recheck --help says more\n";

static const char *const help[] = {
    "usage: recheck --estimate 7|8 [OPTION]... TABLE [RECORDS]...\n"
    "\n"
    "Lists the wrong records of monitors that divide through a table of quotient digits.\n"
    "docs/RECHECK.md says exactly what is right, wrong and unreadable.\n"
    "\n"
    "TABLE    the 2,048 bytes that were read back from the monitor\n"
    "RECORDS  files, or standard input if there are none or for -. Each line is\n"
    "           TIME,CURRENT,SENSITIVITY   or   TIME,CURRENT,SENSITIVITY,FILED\n"
    "         or what a header with the names time, current, sensitivity, filed and monitor says. A\n"
    "         reading is CURRENT / SENSITIVITY, and FILED is what the monitor made of it. Fields are\n"
    "         parted by the first of ; tab comma space that the first line has, and every line has as\n"
    "         many. Numbers are decimal, or the 16 hexadecimal digits of binary64 numbers if all are.\n"
    "\n"
    "What is wrong\n"
    "  With FILED, a record is wrong if FILED is not the right value, rounded as FILED is. This assumes\n"
    "  nothing about the monitor. Without FILED, it is wrong if it is marked: if the monitor's own steps\n"
    "  through this table give a wrong quotient, or read a byte that is no digit. This assumes that the\n"
    "  monitor takes 28 digits, by the steps in docs/SPECIFICATION.md and the estimate that you name.\n"
    "\n",
    "  --estimate 7|8   how many bits of each remainder word the divider adds to find a digit. There is\n"
    "                   no default. The monitor's maker knows it. If records have FILED, the summary\n"
    "                   says whether they fit the other number better.\n"
    "  --direction D    how right values are rounded to binary64: nearest (the default), zero, up, down\n"
    "  --decimals N     FILED is rounded to N decimals, 0 to 17, or for full not at all; without this\n"
    "                   option that is found in the file\n"
    "  --comma          numbers have a decimal comma, and fields are not parted by commas\n"
    "  --patterns       currents and sensitivities are 16 hexadecimal digits; --numbers: they are decimal\n"
    "  --monitor COLUMN the column with the monitor's name, by its number from 1 or its name in the header\n"
    "  --joined         files without such a column are of one monitor, one after another\n"
    "\n",
    "  --window W       tell which windows of W readings, 1 to 4096, hold a wrong record, with their right\n"
    "                   averages: 900 for fifteen minutes of a reading a second. Of a longer span take\n"
    "                   parts: for an eight-hour average of seconds, --window 3600. Eight hours one after\n"
    "                   another have the sum of their sums; an hour that is not listed is as it was filed.\n"
    "  --step S         readings stand S seconds apart, 1 to 86400 (1). TIME is in whole seconds or by\n"
    "                   ISO 8601. Windows with a gap have no average, and are told.\n"
    "  --unit U         averages are in units of U: 1, 0.1, .. 0.000000001 (0.001). A reading is the right\n"
    "                   value in whole units; one below zero counts as 0.\n"
    "  --limit X        tell which windows have a right average above X and a filed one that is not, and\n"
    "                   the other way round\n"
    "  --averages FILE  write a line for each whole window with a wrong record: from, to, mean (rounded\n"
    "                   down), remainder (mean * W + remainder, in units, is the sum), the same of what was\n"
    "                   filed, and how many wrong records it holds\n"
    "  --picture FILE   draw readings and wrong records over time, as SVG\n"
    "  --json           write one JSON document in place of lines, with the summary\n"
    "\n"
    "Standard output has a line for each wrong record: time,current,sensitivity,right,filed,marked,other,\n"
    "where other is the mark by the other number of bits. Standard error has a line for each line that\n"
    "cannot be read, and the summary. Status: 0 none is wrong, 1 some are wrong, 2 less was done than was\n"
    "asked, 130 it was interrupted.\n"};

#endif
