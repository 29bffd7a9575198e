/*
 * The operations on models, called through irwystl.h, on the cases of the files that are named: one a line, in the form of
 * outside/CASES.md, which names the files of models beside it. A model is written from records and from flat arrays. What is named NAME.list
 * is a row text beside its model, NAME.blif, or its refusal, NAME.answer; NAME.bad is no model, beside NAME.answer. Lent storage holds a
 * pattern before each call and is looked at in full after it. The status is 0 where all have what is due.
 */
#include "irwystl.h"

#include <stdio.h>
#include <stdlib.h>
#include <string.h>

#define MOST 8192
#define MOST_BYTES 524288
#define LONGEST_LINE 65536
#define HELD 0xABCD1234u
#define HELD_COUNT ((size_t)0xABCD1234ABCD)
#define HELD_BYTE 0xAB

/* A list of a line: numbers in the first field, or the fields of patterns or rows. */
typedef struct list {
  uint32_t fields[3][MOST];
  size_t length;
} list;

typedef struct bytes {
  uint8_t at[MOST_BYTES];
  size_t length;
} bytes;

static const char *file;
static unsigned long line_number, cases, files, wrong;
static const char *at;  /* where the line is read */
static const char *due; /* where the answer due begins */
static int differs;     /* the case at hand has another answer */

static list given, expected;
static irwystl_row rows[MOST];
static uint32_t matrix[MOST], masks[MOST], values[MOST];
static size_t counts[MOST];
static bytes model, expected_bytes, out;

static void fail(const char *why) {
  printf("%s, line %lu: %s\n", file, line_number, why);
  exit(1);
}

/* ---- files */

static void load(const char *name, bytes *into) {
  FILE *in = fopen(name, "rb");
  if (in == NULL) {
    printf("%s can't be read\n", name);
    exit(1);
  }
  into->length = fread(into->at, 1, sizeof into->at, in);
  if (into->length == sizeof into->at) {
    printf("%s is longer than this program takes\n", name);
    exit(1);
  }
  into->at[into->length] = 0;
  fclose(in);
}

static int ends_in(const char *name, const char *end) {
  size_t length = strlen(name), tail = strlen(end);
  return length >= tail && strcmp(name + length - tail, end) == 0;
}

/* The name of the file at hand up to its last `sign`, with so many bytes behind it. */
static const char *beside(char sign, const char *behind, size_t length) {
  static char name[4096];
  const char *last = strrchr(file, sign);
  size_t front = last == NULL ? 0 : (size_t)(last - file) + 1;
  if (front + length >= sizeof name) fail("a name is longer than this program takes");
  memcpy(name, file, front);
  memcpy(name + front, behind, length);
  name[front + length] = 0;
  return name;
}

static const char *with_end(const char *end) { return beside('.', end, strlen(end)); }

static int is_there(const char *name) {
  FILE *in = fopen(name, "rb");
  if (in != NULL) fclose(in);
  return in != NULL;
}

/* ---- a line */

static uint64_t number(void) {
  char *end;
  uint64_t value = strtoull(at, &end, 10);
  if (end == at) fail("no number where one is due");
  at = end;
  return value;
}

/* The next number, after a gap. */
static uint64_t next(void) {
  at += strspn(at, " ");
  return number();
}

static size_t room(size_t most) {
  uint64_t length = next();
  if (length > most) fail("a room is longer than this program takes");
  return (size_t)length;
}

/* Passes over a word, after a gap, where it stands there. */
static int is_word(const char *word) {
  size_t length = strlen(word);
  at += strspn(at, " ");
  if (strncmp(at, word, length) != 0 || strchr(" \n", at[length]) == NULL) return 0;
  at += length;
  return 1;
}

/* The next type, after a gap: a word, or its number. */
static size_t next_type(void) {
  if (is_word("fr")) return IRWYSTL_FR;
  if (is_word("fd")) return IRWYSTL_FD;
  if (is_word("other")) return 3;
  return next();
}

/* The next list, after a gap. */
static void next_list(list *l) {
  l->length = 0;
  if (is_word("-")) return;
  for (at += strspn(at, " "); l->length < MOST; at++) {
    size_t part = 0;
    l->fields[part++][l->length] = (uint32_t)number();
    for (; *at == ':' && part < 3; part++) {
      at++;
      l->fields[part][l->length] = (uint32_t)number();
    }
    l->length++;
    if (*at != ',') return;
  }
  fail("a list is longer than this program takes");
}

/* The next model, after a gap: a file beside that of the line; - is none. */
static void next_model(bytes *into) {
  into->length = 0;
  if (is_word("-")) return;
  at += strspn(at, " ");
  size_t length = strcspn(at, " \n");
  load(beside('/', at, length), into);
  at += length;
}

static void arrow(void) {
  at += strspn(at, " ");
  if (strncmp(at, "=> ", 3) != 0) fail("no => where it is due");
  at += 3;
  due = at;
}

/* Puts the pattern into everything that is lent, and goes back to the answer due. */
static void lend(void) {
  for (size_t i = 0; i < MOST; i++) {
    matrix[i] = masks[i] = values[i] = HELD;
    counts[i] = HELD_COUNT;
  }
  memset(out.at, HELD_BYTE, sizeof out.at);
  at = due;
}

/* ---- what came back, beside what is due */

static void is(uint64_t got) {
  if (got != next()) differs = 1;
}

static void answered(uint32_t number, size_t a, size_t b) {
  is(number);
  is(a);
  is(b);
}

/* The numbers due stand at the front, and beyond them the pattern. */
static void are(const uint32_t *lent, size_t field) {
  for (size_t i = 0; i < MOST; i++)
    if (lent[i] != (i < expected.length ? expected.fields[field][i] : HELD)) differs = 1;
}

static void are_counts(void) {
  next_list(&expected);
  for (size_t i = 0; i < MOST; i++)
    if (counts[i] != (i < expected.length ? expected.fields[0][i] : HELD_COUNT)) differs = 1;
}

/* The bytes due stand at the front, and beyond them the pattern. */
static int are_bytes(const bytes *front) {
  for (size_t i = front->length; i < MOST_BYTES; i++)
    if (out.at[i] != HELD_BYTE) return 0;
  return memcmp(out.at, front->at, front->length) == 0;
}

/* ---- the operations */

#define FLAT given.fields[0], given.length, given.fields[1], given.length, given.fields[2], given.length

static void is_written(irwystl_text_answer r) {
  answered(r.number, r.a, r.b);
  is(r.count);
  next_model(&expected_bytes);
  if (!are_bytes(&expected_bytes)) differs = 1;
}

static void write_model(void) {
  size_t n = next(), k = next(), type = next_type(), w = next(), bytes_room = room(MOST_BYTES);
  next_list(&given);
  for (size_t i = 0; i < given.length; i++) {
    irwystl_row row = {given.fields[0][i], given.fields[1][i], given.fields[2][i]};
    rows[i] = row;
  }
  arrow();
  lend();
  is_written(irwystl_records_write_model(n, k, type, w, rows, given.length, out.at, bytes_room));
  lend();
  is_written(irwystl_write_model(n, k, type, w, FLAT, out.at, bytes_room));
}

static irwystl_model_answer read_in(size_t numbers, size_t outputs, size_t patterns) {
  return irwystl_read_model(model.at, model.length, matrix, numbers, counts, outputs, masks, patterns, values, patterns);
}

static void read_model(void) {
  size_t numbers = room(MOST), outputs = room(MOST), patterns = room(MOST);
  next_model(&model);
  arrow();
  lend();
  irwystl_model_answer r = read_in(numbers, outputs, patterns);
  answered(r.number, r.a, r.b);
  is(r.n);
  is(r.k);
  is(r.patterns);
  next_list(&expected);
  are(matrix, 0);
  are_counts();
  next_list(&expected);
  are(masks, 0);
  are(values, 1);
}

static void model_value(void) {
  size_t x = next();
  next_model(&model);
  arrow();
  lend();
  irwystl_model_answer r = read_in(MOST, MOST, MOST);
  if (r.number != 0) fail("the model can't be read");
  irwystl_value_answer word = irwystl_model_value(r.n, r.k, x, matrix, r.n, counts, r.k, masks, r.patterns, values, r.patterns);
  answered(word.number, word.a, word.b);
  is(word.value);
}

/* ---- the files */

static const struct {
  const char *name;
  void (*run)(void);
} operations[] = {{"blif_write", write_model}, {"blif_read", read_model}, {"blif_value", model_value}};

static void run_line(const char *line) {
  size_t length = strcspn(line, " ");
  differs = 0;
  for (size_t i = 0; i < sizeof operations / sizeof operations[0]; i++)
    if (strlen(operations[i].name) == length && strncmp(operations[i].name, line, length) == 0) {
      at = line + length;
      operations[i].run();
      at += strspn(at, " \r\n");
      if (*at != '\0') fail("more in the line than the case has");
      cases++;
      wrong += (unsigned long)differs;
      if (differs) printf("%s, line %lu: not the answer due: %.100s\n", file, line_number, line);
      return;
    }
  fail("no operation of that name");
}

static void run_lines(void) {
  static char line[LONGEST_LINE];
  FILE *in = fopen(file, "r");
  line_number = 0;
  if (in == NULL) fail("can't be read");
  while (fgets(line, sizeof line, in) != NULL) {
    line_number++;
    if (strchr(line, '\n') == NULL) fail("the line is longer than this program takes, or has no end");
    run_line(line);
  }
  fclose(in);
}

/* The model of a row text, or the refusal, as the program prints it. */
static void run_list(void) {
  load(file, &model);
  load(is_there(with_end("answer")) ? with_end("answer") : with_end("blif"), &expected_bytes);
  lend();
  size_t count = irwystl_print_model(model.at, model.length, out.at);
  differs = count != expected_bytes.length || !are_bytes(&expected_bytes);
}

/* The refusal of a text that is no model; what was lent holds the pattern. */
static void run_bad(void) {
  unsigned long long due_number, a, b;
  load(file, &model);
  load(with_end("answer"), &expected_bytes);
  if (sscanf((const char *)expected_bytes.at, "refused %llu %llu %llu", &due_number, &a, &b) != 3) fail("no refusal beside it");
  lend();
  irwystl_model_answer r = read_in(MOST, MOST, MOST);
  differs = r.number != due_number || r.a != a || r.b != b || r.n != 0 || r.k != 0 || r.patterns != 0;
  for (size_t i = 0; i < MOST; i++)
    if (matrix[i] != HELD || counts[i] != HELD_COUNT || masks[i] != HELD || values[i] != HELD) differs = 1;
}

static void run_file(void) {
  if (ends_in(file, ".txt")) {
    run_lines();
    return;
  }
  due = at = "";
  if (ends_in(file, ".list"))
    run_list();
  else if (ends_in(file, ".bad"))
    run_bad();
  else
    fail("no file of cases");
  files++;
  wrong += (unsigned long)differs;
  if (differs) printf("%s: not what is due\n", file);
}

int main(int count, char **names) {
  for (int i = 1; i < count; i++) {
    file = names[i];
    run_file();
  }
  printf("C: %lu cases of models, %lu lists and texts that are no models, %lu with another answer than the one due\n", cases, files, wrong);
  return cases > 0 && files > 0 && wrong == 0 ? 0 : 1;
}
