/* The texts that the header has of refusals and of numbers that are none, a line each; and the version, which has to be one in both its forms. */
#include <stdio.h>
#include <string.h>

#include "foldflake.h"

static void tell(uint32_t number) { printf("%lu %s\n", (unsigned long)number, foldflake_refusal(number)); }

int main(void) {
  char version[32];
  uint32_t number;
  for (number = 0; number < 20; number++) tell(number);
  for (number = 254; number < 257; number++) tell(number);
  tell(UINT32_MAX);
  snprintf(version, sizeof version, "%d.%d.%d", FOLDFLAKE_VERSION_MAJOR, FOLDFLAKE_VERSION_MINOR, FOLDFLAKE_VERSION_PATCH);
  return strcmp(version, FOLDFLAKE_VERSION) != 0;
}
