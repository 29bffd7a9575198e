/*
 * The operations on tables, lists and matrices, and on row texts, called through irwystl.h, on the cases of the files that are named: one a
 * line, in the form of outside/CASES.md. An operation on rows is called with records and with flat arrays. Lent storage holds a pattern
 * before each call and is looked at in full after it. Says which cases have another answer than the one due; the status is 0 where all
 * have theirs.
 */
#include "irwystl.h"

#include <stdio.h>
#include <stdlib.h>
#include <string.h>

#define MOST 8192
#define MOST_BYTES 32768
#define LONGEST_LINE 65536
#define HELD 0xABCD1234u
#define HELD_ENTRY 0xABCD
#define HELD_BYTE 0xAB
#define HELD_SIGNED (-1412623820) /* the bits of HELD */

/* A list of a line: numbers in the first field, or the three fields of rows. */
typedef struct list {
  uint32_t fields[3][MOST];
  size_t length;
} list;

/* A text of a line. */
typedef struct text {
  uint8_t bytes[MOST_BYTES];
  size_t length;
} text;

static const char *file;
static unsigned long line_number, cases, wrong;
static const char *at;  /* where the line is read */
static const char *due; /* where the answer due begins */
static int differs;     /* the case at hand has another answer */

/* ---- a line */

static void fail(const char *why) {
  printf("%s, line %lu: %s\n", file, line_number, why);
  exit(1);
}

static uint64_t number(void) {
  char *end;
  uint64_t value = strtoull(at, &end, 10);
  if (end == at) fail("no number where one is due");
  at = end;
  return value;
}

/* The next number, after a gap. */
static uint64_t next(void) {
  at += strspn(at, " ");
  return number();
}

/* Passes over a word, after a gap, where it stands there. */
static int is_word(const char *word) {
  size_t length = strlen(word);
  at += strspn(at, " ");
  if (strncmp(at, word, length) != 0 || strchr(" \n", at[length]) == NULL) return 0;
  at += length;
  return 1;
}

/* The next type, after a gap: a word, or its number. */
static size_t next_type(void) {
  if (is_word("fr")) return IRWYSTL_FR;
  if (is_word("fd")) return IRWYSTL_FD;
  if (is_word("other")) return 3;
  return next();
}

/* One item of a list, so many times as it says. */
static void item(list *l) {
  uint32_t parts[3] = {0, 0, 0};
  size_t count = 1, part = 0;
  parts[part++] = (uint32_t)number();
  while (*at == ':' && part < 3) {
    at++;
    parts[part++] = (uint32_t)number();
  }
  if (*at == '*') {
    at++;
    count = number();
  }
  if (count > MOST - l->length) fail("a list is longer than this program takes");
  for (; count > 0; count--, l->length++)
    for (part = 0; part < 3; part++) l->fields[part][l->length] = parts[part];
}

/* The next list, after a gap. */
static void next_list(list *l) {
  at += strspn(at, " ");
  l->length = 0;
  if (*at == '-') {
    at++;
    return;
  }
  item(l);
  while (*at == ',') {
    at++;
    item(l);
  }
}

/* The byte that a text of a line has next: / is LF, _ a space, %HH the byte HH. */
static uint8_t next_byte(void) {
  char digits[3] = {0, 0, 0};
  char first = *at++;
  if (first == '/') return '\n';
  if (first == '_') return ' ';
  if (first != '%') return (uint8_t)first;
  for (size_t i = 0; i < 2 && *at != '\0'; i++) digits[i] = *at++;
  return (uint8_t)strtoul(digits, NULL, 16);
}

/* The next text, after a gap; - alone is the empty one. */
static void next_text(text *t) {
  t->length = 0;
  if (is_word("-")) return;
  while (strchr(" \n", *at) == NULL) {
    if (t->length == MOST_BYTES) fail("a text is longer than this program takes");
    t->bytes[t->length++] = next_byte();
  }
}

static void arrow(void) {
  at += strspn(at, " ");
  if (strncmp(at, "=> ", 3) != 0) fail("no => where it is due");
  at += 3;
  due = at;
}

/* ---- what is given and lent */

static list given, second, expected;
static irwystl_row rows[MOST], smaller_rows[MOST];
static uint16_t table[MOST], other_table[MOST], smaller_table[MOST];
static uint32_t basis[MOST], sigma[MOST], smaller[3][MOST], shifts[MOST];
static int32_t working[MOST];
static text given_text, expected_text;
static uint8_t out[MOST_BYTES];

static void as_table(const list *l, uint16_t *entries) {
  for (size_t i = 0; i < l->length; i++) entries[i] = (uint16_t)l->fields[0][i];
}

static void as_rows(const list *l) {
  for (size_t i = 0; i < l->length; i++) {
    rows[i].mask = l->fields[0][i];
    rows[i].values = l->fields[1][i];
    rows[i].word = l->fields[2][i];
  }
}

static size_t room_within(size_t most) {
  uint64_t length = next();
  if (length > most) fail("a room is longer than this program takes");
  return (size_t)length;
}

static size_t room(void) { return room_within(MOST); }

/* Puts the pattern into everything that is lent, and goes back to the answer due. */
static void lend(void) {
  for (size_t i = 0; i < MOST; i++) {
    irwystl_row held = {HELD, HELD, HELD};
    basis[i] = sigma[i] = shifts[i] = HELD;
    working[i] = HELD_SIGNED;
    smaller[0][i] = smaller[1][i] = smaller[2][i] = HELD;
    smaller_rows[i] = held;
    other_table[i] = smaller_table[i] = HELD_ENTRY;
  }
  memset(out, HELD_BYTE, sizeof out);
  at = due;
}

/* ---- what came back, beside what is due */

static void is(uint64_t got) {
  if (got != next()) differs = 1;
}

static void answered(uint32_t number, size_t a, size_t b) {
  is(number);
  is(a);
  is(b);
}

/* The numbers due stand at the front, and beyond them the pattern. */
static void are(const uint32_t *lent, size_t field) {
  for (size_t i = 0; i < MOST; i++)
    if (lent[i] != (i < expected.length ? expected.fields[field][i] : HELD)) differs = 1;
}

static void is_list(const uint32_t *lent) {
  next_list(&expected);
  are(lent, 0);
}

/* As many zeros stand at the front as the list due has numbers, and beyond them the pattern. */
static void are_zeros(void) {
  for (size_t i = 0; i < MOST; i++)
    if (working[i] != (i < expected.length ? 0 : HELD_SIGNED)) differs = 1;
}

static void is_table(const uint16_t *lent) {
  next_list(&expected);
  for (size_t i = 0; i < MOST; i++)
    if (lent[i] != (i < expected.length ? expected.fields[0][i] : HELD_ENTRY)) differs = 1;
}

/* Puts what the records hold into the flat arrays. */
static void from_records(void) {
  for (size_t i = 0; i < MOST; i++) {
    smaller[0][i] = smaller_rows[i].mask;
    smaller[1][i] = smaller_rows[i].values;
    smaller[2][i] = smaller_rows[i].word;
  }
}

static void are_records(void) {
  next_list(&expected);
  from_records();
  for (size_t field = 0; field < 3; field++) are(smaller[field], field);
}

static void are_flat(void) {
  next_list(&expected);
  for (size_t field = 0; field < 3; field++) are(smaller[field], field);
}

/* The word due is yes for 1 and no for 0. */
static void is_yes(uint64_t got) {
  uint64_t yes = (uint64_t)is_word("yes");
  if (!yes && !is_word("no")) fail("neither yes nor no where one is due");
  if (got != yes) differs = 1;
}

/* The reason due is a word, or - with a refusal. */
static void is_reason(uint32_t got) {
  uint32_t reason = 0;
  if (is_word("zero")) reason = IRWYSTL_ZERO;
  else if (is_word("over")) reason = IRWYSTL_OVER;
  else if (is_word("taken")) reason = IRWYSTL_TAKEN;
  else if (is_word("xor")) reason = IRWYSTL_XOR;
  else if (!is_word("-")) fail("no reason where one is due");
  if (got != reason) differs = 1;
}

static void is_type(size_t got) {
  if (got != next_type()) differs = 1;
}

/* The text due stands at the front, and beyond it the pattern. */
static void is_text(void) {
  next_text(&expected_text);
  for (size_t i = 0; i < MOST_BYTES; i++)
    if (out[i] != (i < expected_text.length ? expected_text.bytes[i] : HELD_BYTE)) differs = 1;
}

static void ended(void) {
  at += strspn(at, " \r\n");
  if (*at != '\0') fail("more in the line than the case has");
}

/* ---- the operations */

#define FLAT given.fields[0], given.length, given.fields[1], given.length, given.fields[2], given.length

static void table_value(void) {
  size_t n = next(), k = next(), type = next_type(), t = next();
  next_list(&given);
  as_table(&given, table);
  arrow();
  irwystl_value_answer r = irwystl_table_value(n, k, type, t, table, given.length);
  answered(r.number, r.a, r.b);
  is(r.value);
}

static void is_value(irwystl_value_answer r) {
  at = due;
  answered(r.number, r.a, r.b);
  is(r.value);
}

static void row_value(void) {
  size_t n = next(), k = next(), type = next_type(), t = next();
  next_list(&given);
  as_rows(&given);
  arrow();
  is_value(irwystl_records_row_value(n, k, type, t, rows, given.length));
  is_value(irwystl_row_value(n, k, type, t, FLAT));
}

static void spectrum(void) {
  size_t n = next(), k = next(), type = next_type(), shifts_room = room(), working_room = room();
  next_list(&given);
  as_table(&given, table);
  arrow();
  lend();
  irwystl_answer r = irwystl_table_spectrum(n, k, type, table, given.length, shifts, shifts_room, working, working_room);
  answered(r.number, r.a, r.b);
  is_list(shifts);
  are_zeros();
}

static void table_method(void) {
  size_t n = next(), k = next(), type = next_type(), w = next();
  size_t table_room = room(), basis_room = room(), sigma_room = room();
  next_list(&given);
  as_table(&given, table);
  arrow();
  lend();
  irwystl_table_method_answer r =
      irwystl_table_method(n, k, type, w, table, given.length, basis, basis_room, sigma, sigma_room, other_table, table_room);
  answered(r.number, r.a, r.b);
  is(r.before);
  is(r.after);
  is_list(basis);
  is_list(sigma);
  is_table(other_table);
}

static void is_method(irwystl_row_method_answer r) {
  answered(r.number, r.a, r.b);
  is(r.before);
  is(r.after);
  is(r.count);
  is_list(basis);
  is_list(sigma);
}

static void row_method(void) {
  size_t n = next(), k = next(), type = next_type(), w = next();
  size_t rows_room = room(), basis_room = room(), sigma_room = room();
  next_list(&given);
  as_rows(&given);
  arrow();
  lend();
  is_method(irwystl_records_row_method(n, k, type, w, rows, given.length, basis, basis_room, sigma, sigma_room, smaller_rows, rows_room));
  are_records();
  lend();
  is_method(irwystl_row_method(n, k, type, w, FLAT, basis, basis_room, sigma, sigma_room, smaller[0], rows_room, smaller[1], rows_room,
                               smaller[2], rows_room));
  are_flat();
}

/* The numbers due are those of the set; beyond the n that were taken, and with a refusal from the first on, the pattern stands. */
static void is_why(irwystl_why_answer r, size_t n) {
  size_t taken = r.number == 0 && n <= IRWYSTL_MOST_LIST_INPUTS ? n : 0, in_set = 0;
  answered(r.number, r.a, r.b);
  is_reason(r.reason);
  is(r.step);
  is(r.set);
  next_list(&expected);
  for (size_t i = 0; i < MOST; i++)
    if (i >= taken) {
      if (basis[i] != HELD) differs = 1;
    } else if (r.set >> i & 1) {
      if (in_set >= expected.length || basis[i] != expected.fields[0][in_set]) differs = 1;
      in_set++;
    }
  if (in_set != expected.length) differs = 1;
}

static void why(void) {
  size_t n = next(), k = next(), type = next_type(), w = next(), t = next();
  next_list(&given);
  as_rows(&given);
  arrow();
  lend();
  is_why(irwystl_records_why_not(n, k, type, w, t, rows, given.length, basis), n);
  lend();
  is_why(irwystl_why_not(n, k, type, w, t, FLAT, basis), n);
}

/* The whole list is due, with the freed rows; with a refusal the list that was given. Beyond it the pattern stands. */
static void is_joined(irwystl_join_answer r) {
  answered(r.number, r.a, r.b);
  is(r.count);
  next_list(&expected);
  if (expected.length == 0) expected = given;
  for (size_t field = 0; field < 3; field++) are(smaller[field], field);
}

static void join(void) {
  size_t n = next(), k = next();
  next_list(&given);
  as_rows(&given);
  arrow();
  lend();
  memcpy(smaller_rows, rows, given.length * sizeof *rows);
  irwystl_join_answer r = irwystl_records_join_rows(n, k, smaller_rows, given.length);
  from_records();
  is_joined(r);
  lend();
  for (size_t field = 0; field < 3; field++) memcpy(smaller[field], given.fields[field], given.length * sizeof *smaller[field]);
  is_joined(irwystl_join_rows(n, k, smaller[0], given.length, smaller[1], given.length, smaller[2], given.length));
}

static void is_disjoint(irwystl_disjoin_answer r) {
  answered(r.number, r.a, r.b);
  is(r.count);
}

static void disjoin(void) {
  size_t n = next(), k = next(), rows_room = room();
  next_list(&given);
  as_rows(&given);
  arrow();
  lend();
  is_disjoint(irwystl_records_disjoin_rows(n, k, rows, given.length, smaller_rows, rows_room));
  are_records();
  lend();
  is_disjoint(irwystl_disjoin_rows(n, k, FLAT, smaller[0], rows_room, smaller[1], rows_room, smaller[2], rows_room));
  are_flat();
}

static void is_filled(irwystl_answer r) {
  answered(r.number, r.a, r.b);
  is_table(other_table);
}

static void fill(void) {
  size_t n = next(), k = next(), type = next_type(), table_room = room();
  next_list(&given);
  as_rows(&given);
  arrow();
  lend();
  is_filled(irwystl_records_fill_table(n, k, type, rows, given.length, other_table, table_room));
  lend();
  is_filled(irwystl_fill_table(n, k, type, FLAT, other_table, table_room));
}

static void restore(void) {
  size_t n = next(), k = next(), type = next_type(), table_room = room();
  next_list(&given);
  next_list(&second);
  as_table(&second, table);
  arrow();
  lend();
  is_filled(irwystl_restore_table(n, k, type, given.fields[0], given.length, table, second.length, other_table, table_room));
}

static void gray(void) {
  size_t n = next(), k = next(), type = next_type(), table_room = room(), smaller_room = room();
  next_list(&given);
  as_table(&given, table);
  arrow();
  lend();
  irwystl_table_method_answer r =
      irwystl_symmetric_block(n, k, type, table, given.length, other_table, table_room, smaller_table, smaller_room);
  answered(r.number, r.a, r.b);
  is(r.before);
  is(r.after);
  is_table(other_table);
  is_table(smaller_table);
}

static void symmetric(void) {
  size_t n = next(), k = next(), type = next_type();
  next_list(&given);
  as_table(&given, table);
  arrow();
  irwystl_value_answer r = irwystl_table_symmetric(n, k, type, table, given.length);
  answered(r.number, r.a, r.b);
  is_yes(r.value);
}

static void is_head(irwystl_read_answer r) {
  answered(r.number, r.a, r.b);
  is(r.n);
  is(r.k);
  is_type(r.type);
  is(r.type_line);
  is(r.count);
}

static void read_text(void) {
  size_t rows_room = room();
  next_text(&given_text);
  arrow();
  lend();
  is_head(irwystl_records_read_text(given_text.bytes, given_text.length, smaller_rows, rows_room));
  are_records();
  lend();
  is_head(irwystl_read_text(given_text.bytes, given_text.length, smaller[0], rows_room, smaller[1], rows_room, smaller[2], rows_room));
  are_flat();
}

static void is_written(irwystl_text_answer r) {
  answered(r.number, r.a, r.b);
  is(r.count);
  is_text();
}

static void write_text(void) {
  size_t n = next(), k = next(), type = next_type(), line = next(), bytes_room = room_within(MOST_BYTES);
  next_list(&given);
  as_rows(&given);
  arrow();
  lend();
  is_written(irwystl_records_write_text(n, k, type, line, rows, given.length, out, bytes_room));
  lend();
  is_written(irwystl_write_text(n, k, type, line, FLAT, out, bytes_room));
}

static void sheet(void) {
  size_t n = next(), k = next(), type = next_type(), w = next(), bytes_room = room_within(MOST_BYTES);
  next_list(&given);
  as_rows(&given);
  arrow();
  lend();
  is_written(irwystl_records_sheet(n, k, type, w, rows, given.length, out, bytes_room));
  lend();
  is_written(irwystl_sheet(n, k, type, w, FLAT, out, bytes_room));
}

/* ---- the files */

static const struct {
  const char *name;
  void (*run)(void);
} operations[] = {{"table_value", table_value}, {"row_value", row_value}, {"table_method", table_method},
                  {"row_method", row_method},   {"fill", fill},           {"restore", restore},
                  {"read", read_text},          {"write", write_text},    {"sheet", sheet},
                  {"spectrum", spectrum},       {"gray", gray},           {"symmetric", symmetric},
                  {"why", why},                 {"join", join},           {"disjoin", disjoin}};

static void run_line(const char *line) {
  size_t length = strcspn(line, " ");
  differs = 0;
  for (size_t i = 0; i < sizeof operations / sizeof operations[0]; i++)
    if (strlen(operations[i].name) == length && strncmp(operations[i].name, line, length) == 0) {
      at = line + length;
      operations[i].run();
      ended();
      cases++;
      wrong += (unsigned long)differs;
      if (differs) printf("%s, line %lu: not the answer due: %.100s\n", file, line_number, line);
      return;
    }
  fail("no operation of that name");
}

static void run_file(void) {
  static char line[LONGEST_LINE];
  FILE *in = fopen(file, "r");
  line_number = 0;
  if (in == NULL) fail("can't be read");
  while (fgets(line, sizeof line, in) != NULL) {
    line_number++;
    if (strchr(line, '\n') == NULL) fail("the line is longer than this program takes, or has no end");
    run_line(line);
  }
  fclose(in);
}

int main(int count, char **names) {
  for (int i = 1; i < count; i++) {
    file = names[i];
    run_file();
  }
  printf("C: %lu cases of operations, %lu with another answer than the one due\n", cases, wrong);
  return cases > 0 && wrong == 0 ? 0 : 1;
}
