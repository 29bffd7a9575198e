/* Prints the sheet of the text on standard input, or why there is none: the program again, from C. */
#include "irwystl.h"

#include <stdio.h>

int main(void) {
  static uint8_t text[8192], out[IRWYSTL_SHEET_ROOM];
  size_t length = fread(text, 1, sizeof text, stdin);
  size_t count = irwystl_print_text(text, length, out);
  return fwrite(out, 1, count, stdout) == count ? 0 : 1;
}
