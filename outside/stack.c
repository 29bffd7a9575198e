/*
 * How much stack each operation takes: called in a thread whose stack was filled with one byte, and counted down to the lowest byte that
 * changed. Arrays have fixed lengths and one function alone calls itself, that of disjoining, as deep as rows fix inputs, so what a call takes
 * goes by the functions that it reaches; disjoining has points of 16 inputs. Each operation is called on a list, table or model that it answers,
 * of either type, but for a text that is to be printed disjoint, which is refused under fr. Prints a line an operation and type, and ends with 1
 * where one takes more than MOST or is refused otherwise.
 */
#define _GNU_SOURCE
#include <pthread.h>
#include <stdio.h>
#include <string.h>
#include <sys/mman.h>

#include "irwystl.h"

#define MOST ((size_t)1 << 20)
#define STACK (4 * MOST)
#define FILL 0xA5
#define ROWS 128
#define POINTS 4096
#define JOINED IRWYSTL_SMALLER_ROWS /* rows that join to one: all points of nine inputs */
#define PATTERNS (IRWYSTL_MOST_OUTPUTS * IRWYSTL_SMALLER_ROWS)

static irwystl_row rows[ROWS], smaller[IRWYSTL_SMALLER_ROWS], points[ROWS];
static uint32_t masks[ROWS], values[ROWS], words[ROWS], basis[16], sigma[16], point_masks[ROWS], point_values[ROWS];
static uint32_t smaller_masks[IRWYSTL_SMALLER_ROWS], smaller_values[IRWYSTL_SMALLER_ROWS], smaller_words[IRWYSTL_SMALLER_ROWS];
static uint16_t table[POINTS], made[POINTS], made_smaller[POINTS];
static uint32_t shifts[POINTS];
static int32_t working[POINTS];
static uint8_t text[8192], points_text[8192], out[IRWYSTL_SHEET_ROOM], line[IRWYSTL_LINE_ROOM], model[IRWYSTL_MODEL_ROOM];
static uint32_t model_masks[PATTERNS], model_values[PATTERNS], model_matrix[16];
static size_t text_length, points_length, model_length, counts[IRWYSTL_MOST_OUTPUTS], patterns, type;

#define FLAT masks, ROWS, values, ROWS, words, ROWS
#define FLAT_POINTS point_masks, ROWS, point_values, ROWS, words, ROWS

static uint32_t nothing(void) { return 0; }
static uint32_t table_value(void) { return irwystl_table_value(12, 7, type, 5, table, POINTS).number; }
static uint32_t table_spectrum(void) { return irwystl_table_spectrum(12, 7, type, table, POINTS, shifts, POINTS, working, POINTS).number; }
static uint32_t table_method(void) { return irwystl_table_method(12, 7, type, 12, table, POINTS, basis, 16, sigma, 16, made, POINTS).number; }
static uint32_t restore_table(void) { return irwystl_restore_table(12, 7, type, sigma, 12, table, POINTS, made, POINTS).number; }
static uint32_t symmetric_block(void) {
  return irwystl_symmetric_block(12, 7, type, table, 13, made, POINTS, made_smaller, POINTS).number;
}
static uint32_t table_symmetric(void) { return irwystl_table_symmetric(12, 7, type, table, POINTS).number; }
static uint32_t row_value(void) { return irwystl_row_value(16, 7, type, 5, FLAT).number; }
static uint32_t row_method(void) {
  return irwystl_row_method(16, 7, type, 16, FLAT, basis, 16, sigma, 16, smaller_masks, IRWYSTL_SMALLER_ROWS, smaller_values,
                            IRWYSTL_SMALLER_ROWS, smaller_words, IRWYSTL_SMALLER_ROWS).number;
}
static uint32_t why_not(void) { return irwystl_why_not(16, 7, type, 16, 3, FLAT, basis).number; }
static uint32_t join(void) {
  for (uint32_t i = 0; i < JOINED; i++) smaller_masks[i] = JOINED - 1, smaller_values[i] = i, smaller_words[i] = 1;
  return irwystl_join_rows(16, 7, smaller_masks, JOINED, smaller_values, JOINED, smaller_words, JOINED).count != 1;
}
static uint32_t disjoin(void) {
  return irwystl_disjoin_rows(16, 7, FLAT_POINTS, smaller_masks, ROWS, smaller_values, ROWS, smaller_words, ROWS).count != ROWS;
}
static uint32_t fill_table(void) { return irwystl_fill_table(12, 7, type, FLAT, made, POINTS).number; }
static uint32_t write_text(void) {
  irwystl_text_answer r = irwystl_write_text(16, 7, type, 1, FLAT, text, sizeof text);
  text_length = r.count;
  return r.number;
}
static uint32_t read_text(void) {
  return irwystl_read_text(text, text_length, smaller_masks, ROWS, smaller_values, ROWS, smaller_words, ROWS).number;
}
static uint32_t sheet(void) { return irwystl_sheet(16, 7, type, 16, FLAT, out, sizeof out).number; }
static uint32_t records_row_value(void) { return irwystl_records_row_value(16, 7, type, 5, rows, ROWS).number; }
static uint32_t records_row_method(void) {
  return irwystl_records_row_method(16, 7, type, 16, rows, ROWS, basis, 16, sigma, 16, smaller, IRWYSTL_SMALLER_ROWS).number;
}
static uint32_t records_why_not(void) { return irwystl_records_why_not(16, 7, type, 16, 3, rows, ROWS, basis).number; }
static uint32_t records_join(void) {
  for (uint32_t i = 0; i < JOINED; i++) smaller[i].mask = JOINED - 1, smaller[i].values = i, smaller[i].word = 1;
  return irwystl_records_join_rows(16, 7, smaller, JOINED).count != 1;
}
static uint32_t records_disjoin(void) { return irwystl_records_disjoin_rows(16, 7, points, ROWS, smaller, ROWS).count != ROWS; }
static uint32_t records_fill_table(void) { return irwystl_records_fill_table(12, 7, type, rows, ROWS, made, POINTS).number; }
static uint32_t records_write_text(void) { return irwystl_records_write_text(16, 7, type, 1, rows, ROWS, out, sizeof out).number; }
static uint32_t records_read_text(void) { return irwystl_records_read_text(text, text_length, smaller, ROWS).number; }
static uint32_t records_sheet(void) { return irwystl_records_sheet(16, 7, type, 16, rows, ROWS, out, sizeof out).number; }
static uint32_t print_text(void) { return irwystl_print_text(text, text_length, out) == 0 || out[0] != 's'; }
static uint32_t print_model(void) { return irwystl_print_model(text, text_length, model) == 0 || model[0] != '.'; }
static uint32_t print_joined(void) { return irwystl_print_joined(text, text_length, out) == 0 || out[0] != '.'; }
static uint32_t print_disjoint(void) {
  if (type == IRWYSTL_FR) return irwystl_print_disjoint(text, text_length, out) == 0 || out[0] != 'r';
  return irwystl_print_disjoint(points_text, points_length, out) == 0 || out[0] != '.';
}
static uint32_t records_write_model(void) { return irwystl_records_write_model(16, 7, type, 16, rows, ROWS, model, sizeof model).number; }
static uint32_t write_model(void) {
  irwystl_text_answer r = irwystl_write_model(16, 7, type, 16, FLAT, model, sizeof model);
  model_length = r.count;
  return r.number;
}
static uint32_t read_model(void) {
  irwystl_model_answer r = irwystl_read_model(model, model_length, model_matrix, 16, counts, IRWYSTL_MOST_OUTPUTS, model_masks, PATTERNS,
                                              model_values, PATTERNS);
  patterns = r.patterns;
  return r.number;
}
static uint32_t model_value(void) {
  return irwystl_model_value(16, 7, 65535, model_matrix, 16, counts, 7, model_masks, patterns, model_values, patterns).number;
}
static uint32_t import_text(void) { return irwystl_import_text((const uint8_t *)"name", 4, text, text_length, out, line).number; }

struct call {
  const char *name;
  uint32_t (*operation)(void);
  uint32_t number;
};

static void *make(void *p) {
  struct call *call = p;
  call->number = call->operation();
  return NULL;
}

/* what a call takes, with the thread's own start; 0 where the thread can't be had */
static size_t taken(struct call *call) {
  uint8_t *stack = mmap(NULL, STACK, PROT_READ | PROT_WRITE, MAP_PRIVATE | MAP_ANONYMOUS | MAP_STACK, -1, 0);
  pthread_attr_t attributes;
  pthread_t thread;
  size_t low = 0;
  if (stack == MAP_FAILED) return 0;
  memset(stack, FILL, STACK);
  pthread_attr_init(&attributes);
  if (pthread_attr_setstack(&attributes, stack, STACK) != 0 || pthread_create(&thread, &attributes, make, call) != 0) return 0;
  pthread_join(thread, NULL);
  while (low < STACK && stack[low] == FILL) low++;
  munmap(stack, STACK);
  return STACK - low;
}

int main(void) {
  struct call none = {"nothing", nothing, 0};
  struct call calls[] = {
      {"table_value", table_value, 0},
      {"table_spectrum", table_spectrum, 0},
      {"table_method", table_method, 0},
      {"restore_table", restore_table, 0},
      {"symmetric_block", symmetric_block, 0},
      {"table_symmetric", table_symmetric, 0},
      {"row_value", row_value, 0},
      {"row_method", row_method, 0},
      {"why_not", why_not, 0},
      {"join", join, 0},
      {"disjoin", disjoin, 0},
      {"fill_table", fill_table, 0},
      {"write_text", write_text, 0},
      {"read_text", read_text, 0},
      {"sheet", sheet, 0},
      {"records_row_value", records_row_value, 0},
      {"records_row_method", records_row_method, 0},
      {"records_why_not", records_why_not, 0},
      {"records_join", records_join, 0},
      {"records_disjoin", records_disjoin, 0},
      {"records_fill_table", records_fill_table, 0},
      {"records_write_text", records_write_text, 0},
      {"records_read_text", records_read_text, 0},
      {"records_sheet", records_sheet, 0},
      {"print_text", print_text, 0},
      {"import_text", import_text, 0},
      {"print_model", print_model, 0},
      {"print_joined", print_joined, 0},
      {"print_disjoint", print_disjoint, 0},
      {"records_write_model", records_write_model, 0},
      {"write_model", write_model, 0},
      {"read_model", read_model, 0},
      {"model_value", model_value, 0},
  };
  size_t i, start;
  int failed = 0;
  for (i = 0; i < ROWS; i++) {
    masks[i] = ROWS - 1;
    values[i] = (uint32_t)i;
    words[i] = (uint32_t)(i * 37 + 11) % 128;
    rows[i].mask = masks[i];
    rows[i].values = values[i];
    rows[i].word = words[i];
    /* each has seven inputs of its own, the highest, so that regions are halved at all 16 */
    point_masks[i] = 65535;
    point_values[i] = (uint32_t)i << 9;
    points[i].mask = point_masks[i];
    points[i].values = point_values[i];
    points[i].word = words[i];
  }
  points_length = irwystl_write_text(16, 7, IRWYSTL_FD, 1, FLAT_POINTS, points_text, sizeof points_text).count;
  for (i = 0; i < POINTS; i++) table[i] = (uint16_t)((i * 37 + 11) % 128);
  taken(&none);
  start = taken(&none);
  for (type = IRWYSTL_FR; type <= IRWYSTL_FD; type++)
    for (i = 0; i < sizeof calls / sizeof *calls; i++) {
      size_t bytes = taken(&calls[i]);
      if (bytes == 0 || bytes > MOST || calls[i].number != 0) failed = 1;
      printf("%-20s %s %7zu bytes%s\n", calls[i].name, type == IRWYSTL_FR ? "fr" : "fd", bytes < start ? 0 : bytes - start,
             calls[i].number != 0 ? ", refused" : "");
    }
  return failed;
}
