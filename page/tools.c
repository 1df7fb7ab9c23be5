/* The tools of the page as one program: the first word says which of them it is. page/make compiles each tool with
   another name for its main. */

#include <stdio.h>
#include <string.h>

int check_main(int, char **);
int recheck_main(int, char **);
int rom_main(int, char **);

int main(int count, char **words) {
  static const struct {
    const char *name;
    int (*main)(int, char **);
  } tools[] = {{"check", check_main}, {"recheck", recheck_main}, {"rom", rom_main}};
  for (size_t i = 0; count > 0 && i < sizeof tools / sizeof *tools; i++)
    if (strcmp(words[0], tools[i].name) == 0)
      return tools[i].main(count, words);
  fprintf(stderr, "there is no such tool\n");
  return 127;
}
