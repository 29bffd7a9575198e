/* Prints the sheet of the block of the README, whose rows it has as records. */
#include "irwystl.h"

#include <stdio.h>

int main(void) {
  static const irwystl_row rows[] = {{6, 0, 1}, {6, 6, 1}, {6, 2, 2}, {6, 4, 2}}; /* 00- 01, 11- 01, 01- 10, 10- 10 */
  static uint8_t out[IRWYSTL_SHEET_ROOM];
  irwystl_text_answer r = irwystl_records_sheet(3, 2, IRWYSTL_FD, 3, rows, 4, out, sizeof out);
  if (r.number == IRWYSTL_SHARED) fprintf(stderr, "rows %zu and %zu share a point\n", r.a, r.b);
  return r.number == IRWYSTL_ANSWERED && fwrite(out, 1, r.count, stdout) == r.count ? 0 : 1;
}
