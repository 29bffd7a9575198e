/*
 * The operations on texts, called through irwystl.h, on the texts that are named, NAME.txt or NAME.pla, each beside what the program prints
 * for it, NAME.sheet: printed and imported; read, written again and made a sheet of, with records and with flat arrays; printed with its
 * rows joined, and made disjoint, beside what reading, joining or disjoining, and writing give. Lent storage holds a pattern before each call
 * and is looked at in full after it. The status is 0 where every text has what is due.
 */
#include "irwystl.h"

#include <stdio.h>
#include <stdlib.h>
#include <string.h>

#define MOST 32768
#define HELD 0xAB
#define NAME "fan.pla"

typedef struct bytes {
  uint8_t at[MOST];
  size_t length;
} bytes;

static bytes text, due, out, line, due_line, joined, disjoint;
static irwystl_row rows[IRWYSTL_MOST_ROWS], disjoint_rows[IRWYSTL_MOST_ROWS];
static uint32_t flat[3][IRWYSTL_MOST_ROWS], disjoint_flat[3][IRWYSTL_MOST_ROWS];
static const char *file;
static unsigned long texts, wrong;

/* what is due: a refusal, or else a sheet */
static int refused;
static unsigned long long number, a, b;

static void differs(const char *what) {
  printf("%s: %s\n", file, what);
  wrong++;
}

/* ---- bytes */

static void load(const char *name, bytes *into) {
  FILE *in = fopen(name, "rb");
  if (in == NULL) {
    printf("%s can't be read\n", name);
    exit(1);
  }
  into->length = fread(into->at, 1, sizeof into->at, in);
  if (into->length == sizeof into->at) {
    printf("%s is longer than this program takes\n", name);
    exit(1);
  }
  into->at[into->length] = 0;
  fclose(in);
}

static void lend(bytes *room) { memset(room->at, HELD, sizeof room->at); }

/* The bytes due stand at the front, and beyond them the pattern. */
static int holds(const bytes *room, const uint8_t *front, size_t length) {
  for (size_t i = length; i < MOST; i++)
    if (room->at[i] != HELD) return 0;
  return memcmp(room->at, front, length) == 0;
}

/* The number after a line of the sheet that is due. */
static unsigned long long after(const char *words) {
  const char *found = strstr((const char *)due.at, words);
  return found == NULL ? 0 : strtoull(found + strlen(words), NULL, 10);
}

/* The second of the two measures of the sheet that is due. */
static unsigned long long second_measure(void) {
  const char *found = strstr((const char *)due.at, "measure 2\n");
  char *end = NULL;
  if (found == NULL) return 0;
  strtoull(found + strlen("measure 2\n"), &end, 10);
  return strtoull(end, NULL, 10);
}

/* What is due of the text, off what the program prints for it. */
static void expect(void) {
  char *line_at = (char *)due_line.at;
  int length;
  refused = sscanf((const char *)due.at, "refused %llu %llu %llu", &number, &a, &b) == 3;
  if (refused) {
    length = snprintf(line_at, MOST, NAME " refused %llu %llu %llu", number, a, b);
  } else {
    number = a = b = 0;
    length = snprintf(line_at, MOST, NAME " sheet %llu %llu %llu", after("\ntable "), after("measure 2\n"), second_measure());
  }
  due_line.length = (size_t)length;
}

/* ---- what came back, beside what is due */

static void is_refusal(const char *what, uint32_t got, size_t got_a, size_t got_b) {
  if (got != number || got_a != a || got_b != b) differs(what);
}

static void is_sheet(const char *what, irwystl_text_answer r) {
  is_refusal(what, r.number, r.a, r.b);
  size_t length = refused ? 0 : due.length;
  if (r.count != length || !holds(&out, due.at, length)) differs(what);
}

static void is_text(const char *what, irwystl_text_answer r) {
  if (r.number != 0 || r.a != 0 || r.b != 0 || r.count != text.length || !holds(&out, text.at, text.length)) differs(what);
}

/* ---- the operations */

static void print(void) {
  lend(&out);
  size_t count = irwystl_print_text(text.at, text.length, out.at);
  if (count != due.length || !holds(&out, due.at, due.length)) differs("irwystl_print_text");
}

static void import(void) {
  lend(&out);
  lend(&line);
  irwystl_import_answer r =
      irwystl_import_text((const uint8_t *)NAME, strlen(NAME), text.at, text.length, out.at, line.at);
  irwystl_text_answer sheet = {r.number, r.a, r.b, r.count};
  is_sheet("irwystl_import_text", sheet);
  if (r.length != due_line.length || !holds(&line, due_line.at, due_line.length)) differs("the line of irwystl_import_text");
}

static size_t limit_of(size_t n) { return n < 3 ? n : 3; }

#define FLAT flat[0], r.count, flat[1], r.count, flat[2], r.count

/* A text that can be read is written again, and made a sheet of. */
static void with_records(void) {
  irwystl_read_answer r = irwystl_records_read_text(text.at, text.length, rows, IRWYSTL_MOST_ROWS);
  if (r.number != 0) {
    is_refusal("irwystl_records_read_text", r.number, r.a, r.b);
    if (r.n != 0 || r.k != 0 || r.type != 0 || r.type_line != 0 || r.count != 0) differs("irwystl_records_read_text");
    return;
  }
  lend(&out);
  is_text("irwystl_records_write_text",
          irwystl_records_write_text(r.n, r.k, r.type, r.type_line, rows, r.count, out.at, IRWYSTL_TEXT_ROOM));
  lend(&out);
  is_sheet("irwystl_records_sheet",
           irwystl_records_sheet(r.n, r.k, r.type, limit_of(r.n), rows, r.count, out.at, IRWYSTL_SHEET_ROOM));
}

static void with_flat_arrays(void) {
  irwystl_read_answer r = irwystl_read_text(text.at, text.length, flat[0], IRWYSTL_MOST_ROWS, flat[1], IRWYSTL_MOST_ROWS, flat[2],
                                            IRWYSTL_MOST_ROWS);
  if (r.number != 0) {
    is_refusal("irwystl_read_text", r.number, r.a, r.b);
    if (r.n != 0 || r.k != 0 || r.type != 0 || r.type_line != 0 || r.count != 0) differs("irwystl_read_text");
    return;
  }
  lend(&out);
  is_text("irwystl_write_text", irwystl_write_text(r.n, r.k, r.type, r.type_line, FLAT, out.at, IRWYSTL_TEXT_ROOM));
  lend(&out);
  is_sheet("irwystl_sheet", irwystl_sheet(r.n, r.k, r.type, limit_of(r.n), FLAT, out.at, IRWYSTL_SHEET_ROOM));
}

static void is_joined(const char *what, const uint8_t *front, size_t length) {
  lend(&out);
  size_t count = irwystl_print_joined(text.at, text.length, out.at);
  if (count != length || !holds(&out, front, length)) differs(what);
}

/*
 * The row text due has the rows that are left of a list that was read and joined. Where the text can't be read, or rows share a point, the
 * line due is that of the sheet; 9 and 11 are no refusals here.
 */
static void join_records(void) {
  irwystl_read_answer r = irwystl_records_read_text(text.at, text.length, rows, IRWYSTL_MOST_ROWS);
  irwystl_join_answer left = irwystl_records_join_rows(r.n, r.k, rows, r.count);
  if (r.number != 0 || left.number != 0) {
    if (r.number == 0) is_refusal("irwystl_records_join_rows", left.number, left.a, left.b);
    is_joined("irwystl_print_joined", due.at, due.length);
    return;
  }
  lend(&joined);
  irwystl_text_answer w =
      irwystl_records_write_text(r.n, r.k, r.type, r.type_line, rows, left.count, joined.at, IRWYSTL_TEXT_ROOM);
  if (w.number != 0) differs("irwystl_records_write_text of joined rows");
  is_joined("irwystl_print_joined", joined.at, w.count);
}

/* The same with flat arrays. */
static void join_flat_arrays(void) {
  irwystl_read_answer r = irwystl_read_text(text.at, text.length, flat[0], IRWYSTL_MOST_ROWS, flat[1], IRWYSTL_MOST_ROWS, flat[2],
                                            IRWYSTL_MOST_ROWS);
  irwystl_join_answer left = irwystl_join_rows(r.n, r.k, FLAT);
  if (r.number != 0 || left.number != 0) {
    if (r.number == 0) is_refusal("irwystl_join_rows", left.number, left.a, left.b);
    return;
  }
  lend(&joined);
  r.count = left.count;
  irwystl_text_answer w = irwystl_write_text(r.n, r.k, r.type, r.type_line, FLAT, joined.at, IRWYSTL_TEXT_ROOM);
  if (w.number != 0) differs("irwystl_write_text of joined rows");
  is_joined("irwystl_print_joined beside flat arrays", joined.at, w.count);
}

static void is_disjoint(const char *what, const uint8_t *front, size_t length) {
  lend(&out);
  size_t count = irwystl_print_disjoint(text.at, text.length, out.at);
  if (count != length || !holds(&out, front, length)) differs(what);
}

static void is_disjoint_refusal(const char *what, const char *said) { is_disjoint(what, (const uint8_t *)said, strlen(said)); }

/*
 * Where a text that was read has no row text due, its line: a text of type fr is refused with 3, and 14 is the one refusal of a list that
 * was read.
 */
static int no_disjoint(size_t type, irwystl_disjoin_answer r) {
  if (type == IRWYSTL_FR) {
    is_disjoint_refusal("irwystl_print_disjoint of type fr", "refused 3 0 0\n");
    return 1;
  }
  if (r.number == 0) return 0;
  if (r.number != IRWYSTL_MANY || r.a != 0 || r.b != 0 || r.count != 0) differs("the refusal of disjoining");
  is_disjoint_refusal("irwystl_print_disjoint of many rows", "refused 14 0 0\n");
  return 1;
}

/* The row text due has the disjoint list of a list that was read. Where the text can't be read, the line due is that of the sheet. */
static void disjoin_records(void) {
  irwystl_read_answer r = irwystl_records_read_text(text.at, text.length, rows, IRWYSTL_MOST_ROWS);
  if (r.number != 0) {
    is_disjoint("irwystl_print_disjoint", due.at, due.length);
    return;
  }
  irwystl_disjoin_answer d = irwystl_records_disjoin_rows(r.n, r.k, rows, r.count, disjoint_rows, IRWYSTL_MOST_ROWS);
  if (no_disjoint(r.type, d)) return;
  lend(&disjoint);
  irwystl_text_answer w =
      irwystl_records_write_text(r.n, r.k, IRWYSTL_FD, 1, disjoint_rows, d.count, disjoint.at, IRWYSTL_TEXT_ROOM);
  if (w.number != 0) differs("irwystl_records_write_text of a disjoint list");
  is_disjoint("irwystl_print_disjoint", disjoint.at, w.count);
}

/* The same with flat arrays. */
static void disjoin_flat_arrays(void) {
  irwystl_read_answer r = irwystl_read_text(text.at, text.length, flat[0], IRWYSTL_MOST_ROWS, flat[1], IRWYSTL_MOST_ROWS, flat[2],
                                            IRWYSTL_MOST_ROWS);
  if (r.number != 0) return;
  irwystl_disjoin_answer d = irwystl_disjoin_rows(r.n, r.k, FLAT, disjoint_flat[0], IRWYSTL_MOST_ROWS, disjoint_flat[1],
                                                  IRWYSTL_MOST_ROWS, disjoint_flat[2], IRWYSTL_MOST_ROWS);
  if (no_disjoint(r.type, d)) return;
  lend(&disjoint);
  irwystl_text_answer w = irwystl_write_text(r.n, r.k, IRWYSTL_FD, 1, disjoint_flat[0], d.count, disjoint_flat[1], d.count,
                                             disjoint_flat[2], d.count, disjoint.at, IRWYSTL_TEXT_ROOM);
  if (w.number != 0) differs("irwystl_write_text of a disjoint list");
  is_disjoint("irwystl_print_disjoint beside flat arrays", disjoint.at, w.count);
}

/* NAME.sheet for NAME.txt or NAME.pla */
static void load_due(void) {
  static char name[4096];
  size_t length = strlen(file);
  const char *end = length < 4 ? "" : file + length - 4;
  if (length > sizeof name - 4 || (strcmp(end, ".txt") != 0 && strcmp(end, ".pla") != 0)) {
    printf("%s is no .txt or .pla\n", file);
    exit(1);
  }
  memcpy(name, file, length - 4);
  strcpy(name + length - 4, ".sheet");
  load(name, &due);
}

int main(int count, char **names) {
  for (int i = 1; i < count; i++) {
    file = names[i];
    load(file, &text);
    load_due();
    expect();
    print();
    import();
    with_records();
    with_flat_arrays();
    join_records();
    join_flat_arrays();
    disjoin_records();
    disjoin_flat_arrays();
    texts++;
  }
  printf("C: %lu texts, %lu answers that are not those due\n", texts, wrong);
  return texts > 0 && wrong == 0 ? 0 : 1;
}
