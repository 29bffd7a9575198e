/*
 * Irwystl from C: the sheet of a logic block, its model in BLIF, and every operation behind them.
 *
 * Link target/staticlib/libexports.a, which outside/programs makes for x86-64; it asks for nothing but memcpy and memset. The
 * shortest uses are irwystl_print_text, irwystl_print_model, irwystl_print_joined and irwystl_print_disjoint, at the end: row text in, and
 * out its sheet, its model, or row text with its rows joined or made disjoint.
 *
 * Words. A block has n inputs and k outputs. A point is a number below 2^n, input x0 its lowest bit. A row fixes some inputs and gives one
 * word, a number below 2^k. What a point under no row means goes by the block's type: under IRWYSTL_FR it has no output, under IRWYSTL_FD
 * it has word 0. A full table has 2^n entries, the word at each point, or, under IRWYSTL_FR alone, IRWYSTL_NO_OUTPUT. R(t) counts the
 * points x such that x and x XOR t both have an output and the words are equal; the measure of a block is the sum of R at 1, 2, 4, ..
 * 2^(n-1). The smaller block at z is the block at T z, and the block at x is the smaller block at sigma x; it has the block's type. T comes
 * as n numbers, its columns, and sigma as n numbers, its rows: bit j of sigma x is the parity of (row j AND x).
 *
 * A model is the block in BLIF: the inputs x0, x1, .., for each row of sigma the copy of an input or a chain of XORs, z0, z1, .., and for
 * each output y0, y1, .. its patterns over all of the z: the smaller rows that have a 1 there. A pattern is a mask and values, as in a row.
 *
 * Every call. Any numbers and any contents may come in: each call answers, or refuses with a number (enum irwystl_number) and two places.
 * Each pointer must be valid for its length in elements, and not null even where that is 0; what is written must not overlap anything else
 * that is passed. With a refusal every count and value of the answer is 0 and all lent storage holds what it held. With an answer, what
 * lies beyond the result holds what it held; in a list that is joined the rows that are freed are zeros. A call keeps nothing, takes no
 * memory but at most 1 MiB of stack, and may be made from several threads at once, each with its own rooms.
 *
 * Each function has the promise of the operation that its comment names, in docs/PROMISES.md: the answer and the contents of all lent
 * storage at the end, proved for all inputs. "Refuses" lists the numbers that it can give, in the order in which they are looked for;
 * docs/REFUSALS.md has each in words.
 */
#ifndef IRWYSTL_H
#define IRWYSTL_H

#include <stddef.h>
#include <stdint.h>

#ifdef __cplusplus
extern "C" {
#endif

/* ---- limits and rooms */

#define IRWYSTL_MOST_LIST_INPUTS 16  /* inputs of a list of rows, of row text, of a sheet and of a model */
#define IRWYSTL_MOST_TABLE_INPUTS 12 /* inputs of a full table, and of a list that is filled into one */
#define IRWYSTL_MOST_OUTPUTS 15
#define IRWYSTL_MOST_ROWS 128     /* rows given; for irwystl_fill_table and irwystl_join_rows 512; and the room for a disjoint list */
#define IRWYSTL_SMALLER_ROWS 512  /* the room for smaller rows, however few they are */
#define IRWYSTL_TEXT_ROOM 4255    /* the bytes of the longest row text: the room for any */
#define IRWYSTL_SHEET_ROOM 17518  /* the bytes of the longest sheet: the room for any */
#define IRWYSTL_MODEL_ROOM 156420 /* room for any model; one asks for no more than its own length */
#define IRWYSTL_LINE_ROOM 4176    /* the bytes of the longest line of an import: the room for any */
#define IRWYSTL_NO_OUTPUT 65535   /* the table entry of a point without an output */

/* ---- types: what a point under no row means */

#define IRWYSTL_FR 1 /* it has no output */
#define IRWYSTL_FD 2 /* it has word 0; the type of a row text without a type line */

/* ---- numbers that come back */

enum irwystl_number {
  IRWYSTL_ANSWERED = 0,
  IRWYSTL_INPUTS = 1,    /* n is out of range */
  IRWYSTL_OUTPUTS = 2,   /* k is out of range */
  IRWYSTL_LIMIT = 3,     /* w is not 1 to n, t or x not below 2^n, the type no type; or the line of IRWYSTL_FR is left out in writing; or
                            a text of type IRWYSTL_FR is to be printed disjoint */
  IRWYSTL_COUNT = 4,     /* no row or too many, flat rows of unequal length, a table without 2^n entries, a matrix without n rows, a
                            symmetric block without n + 1 words; not as many counts as outputs, or not as many patterns as they say */
  IRWYSTL_ROOM = 5,      /* the room lent for a result, or to work in, is too short */
  IRWYSTL_RECORD = 6,    /* row, entry, pattern, matrix row or word b, counted from 0, is malformed; a is 1 for a matrix row, else 0 */
  IRWYSTL_SHARED = 7,    /* rows a and b, counted from 0, share a point */
  IRWYSTL_DEPENDENT = 8, /* matrix row a, counted from 0, is the XOR of some rows before it, or 0 */
  IRWYSTL_PASSED = 9,    /* at step a, counted from 1, the smaller rows pass 512 */
  IRWYSTL_FORM = 10,     /* line a of the text, counted from 1, is not of the form due there */
  IRWYSTL_UNDRIVEN = 11, /* output bit a, counted from 0, is 0 in every row's word; looked for after 7 and before 9 */
  IRWYSTL_MANY = 14      /* more than 128 rows would come out of the list that is made disjoint */
};

/* ---- why a number t was not taken; the first of these that holds is answered */

enum irwystl_reason {
  IRWYSTL_ZERO = 1,  /* t is 0 */
  IRWYSTL_OVER = 2,  /* t has more one-bits than the weight limit */
  IRWYSTL_TAKEN = 3, /* t was taken, at the step that is named */
  IRWYSTL_XOR = 4    /* t is the XOR of the numbers taken at the steps of the set that is named, each of which stands before t */
};

/* ---- rows and answers: number is an irwystl_number, a and b are its places, 0 where it names none */

/* A row: the mask of its fixed inputs, their values (0 outside the mask), and its word. */
typedef struct irwystl_row {
  uint32_t mask;
  uint32_t values;
  uint32_t word;
} irwystl_row;

typedef struct irwystl_answer {
  uint32_t number;
  size_t a;
  size_t b;
} irwystl_answer;

typedef struct irwystl_value_answer {
  uint32_t number;
  size_t a;
  size_t b;
  uint64_t value; /* R(t), the word of a model, or 1 for yes and 0 for no */
} irwystl_value_answer;

typedef struct irwystl_table_method_answer {
  uint32_t number;
  size_t a;
  size_t b;
  uint64_t before; /* the measure of the block */
  uint64_t after;  /* the measure of the smaller block */
} irwystl_table_method_answer;

typedef struct irwystl_row_method_answer {
  uint32_t number;
  size_t a;
  size_t b;
  uint64_t before; /* the measure of the block */
  uint64_t after;  /* the measure of the smaller block */
  size_t count;    /* how many smaller rows there are */
} irwystl_row_method_answer;

typedef struct irwystl_why_answer {
  uint32_t number;
  size_t a;
  size_t b;
  uint32_t reason; /* an irwystl_reason; 0 with a refusal */
  size_t step;     /* with IRWYSTL_TAKEN the step, counted from 1; else 0 */
  uint32_t set;    /* with IRWYSTL_XOR the steps, bit j - 1 for step j; else 0 */
} irwystl_why_answer;

typedef struct irwystl_join_answer {
  uint32_t number;
  size_t a;
  size_t b;
  size_t count; /* how many rows are left */
} irwystl_join_answer;

typedef struct irwystl_disjoin_answer {
  uint32_t number;
  size_t a;
  size_t b;
  size_t count; /* how many rows the disjoint list has */
} irwystl_disjoin_answer;

typedef struct irwystl_text_answer {
  uint32_t number;
  size_t a;
  size_t b;
  size_t count; /* how many bytes were written */
} irwystl_text_answer;

typedef struct irwystl_read_answer {
  uint32_t number;
  size_t a;
  size_t b;
  size_t n;         /* the inputs that the text tells */
  size_t k;         /* its outputs */
  size_t type;      /* its type: IRWYSTL_FD where there is no type line */
  size_t type_line; /* whether the type line stands in it: 1 or 0 */
  size_t count;     /* how many rows it has */
} irwystl_read_answer;

typedef struct irwystl_model_answer {
  uint32_t number;
  size_t a;
  size_t b;
  size_t n;        /* the inputs of the model */
  size_t k;        /* its outputs */
  size_t patterns; /* how many patterns its outputs have together */
} irwystl_model_answer;

typedef struct irwystl_import_answer {
  uint32_t number;
  size_t a;
  size_t b;
  size_t count;  /* the bytes of the sheet */
  size_t length; /* the bytes of the line, with a refusal too */
} irwystl_import_answer;

/* ---- full tables, of 1 to 12 inputs; type is IRWYSTL_FR or IRWYSTL_FD, here and below */

/* R(t) of a table of 2^n entries. Refuses with 1, 2, 3 (type, t), 4, 6. Promise: tables::table_value. */
irwystl_value_answer irwystl_table_value(size_t n, size_t k, size_t type, size_t t, const uint16_t *table, size_t table_length);

/*
 * R at every t of a table of 2^n entries, as the Wiener-Khinchin theorem has it: for each word a signed Walsh transform, squares, the
 * transform again, and that divided by 2^n; R is the sum over the words. It is what irwystl_table_value counts at each t. values gets R at 0,
 * 1, .. 2^n - 1, and the first 2^n entries of working, in which the transforms are made, end at 0: each is room for at least that many, and
 * may hold any numbers before. Refuses with 1, 2, 3 (type), 4, 5 (either room), 6. Promise: spectrum::table_spectrum.
 */
irwystl_answer irwystl_table_spectrum(size_t n, size_t k, size_t type, const uint16_t *table, size_t table_length, uint32_t *values,
                                      size_t values_length, int32_t *working, size_t working_length);

/*
 * T, sigma, the smaller table and both measures of a table of 2^n entries, with weight limit w: the numbers chosen for T have at most w
 * one-bits. The greatest R is taken first, at equal R the number with the fewest one-bits, then the smallest. basis gets T's n columns, sigma
 * its n rows, smaller 2^n entries: each is room for at least that many. Refuses with 1, 2, 3 (type, w), 4, 5, 6. Promise:
 * tables::table_method.
 */
irwystl_table_method_answer irwystl_table_method(size_t n, size_t k, size_t type, size_t w, const uint16_t *table, size_t table_length,
                                                 uint32_t *basis, size_t basis_length, uint32_t *sigma, size_t sigma_length,
                                                 uint16_t *smaller, size_t smaller_length);

/*
 * The original table from sigma, n numbers, and the smaller table, 2^n entries. table is room for at least 2^n. Refuses with 1, 2,
 * 3 (type), 4, 5, 6 (the matrix, then the table), 8. Promise: tables::restore_table.
 */
irwystl_answer irwystl_restore_table(size_t n, size_t k, size_t type, const uint32_t *sigma, size_t sigma_length, const uint16_t *smaller,
                                     size_t smaller_length, uint16_t *table, size_t table_length);

/*
 * A symmetric block, whose word depends only on how many inputs are 1: words has n + 1 of them, the word for a count of 0 ones, of 1, .. of
 * n, and under IRWYSTL_FR any of them may be IRWYSTL_NO_OUTPUT. table gets the block's 2^n entries, and smaller those of the smaller block
 * for the T with the columns 1, 3, 6, 12, 24, .., by which z decodes x as a Gray code: its entry z is the table's at z XOR (z >> 1). Each is
 * room for at least 2^n. The second measure is never below the first. With sigma's row j = 2^n - 2^j irwystl_restore_table gives the table
 * back from the smaller one. Refuses with 1, 2, 3 (type), 4, 5 (either room), 6 (b is the least count whose word is malformed). Promise:
 * symmetric::symmetric_block.
 */
irwystl_table_method_answer irwystl_symmetric_block(size_t n, size_t k, size_t type, const uint16_t *words, size_t words_length,
                                                    uint16_t *table, size_t table_length, uint16_t *smaller, size_t smaller_length);

/*
 * Whether a table of 2^n entries is one of a symmetric block: value is 1 where the entries at all points with as many ones are equal,
 * IRWYSTL_NO_OUTPUT among them, and else 0. Refuses with 1, 2, 3 (type), 4, 6. Promise: symmetric::table_symmetric.
 */
irwystl_value_answer irwystl_table_symmetric(size_t n, size_t k, size_t type, const uint16_t *table, size_t table_length);

/* ---- lists of rows as records, of 1 to 16 inputs; rows_length counts records */

/* R(t) of a list of 1 to 128 rows. Refuses with 1, 2, 3 (type, t), 4, 6, 7, 11. Promise: records::row_value. */
irwystl_value_answer irwystl_records_row_value(size_t n, size_t k, size_t type, size_t t, const irwystl_row *rows, size_t rows_length);

/*
 * T, sigma, the smaller rows and both measures of a list of 1 to 128 rows, with weight limit w; T is chosen as for a table. basis and sigma
 * are room for at least n numbers each, smaller for at least IRWYSTL_SMALLER_ROWS rows, of which the first `count` are written. Refuses
 * with 1, 2, 3 (type, w), 4, 5, 6, 7, 11, 9. Promise: records::row_method.
 */
irwystl_row_method_answer irwystl_records_row_method(size_t n, size_t k, size_t type, size_t w, const irwystl_row *rows,
                                                     size_t rows_length, uint32_t *basis, size_t basis_length, uint32_t *sigma,
                                                     size_t sigma_length, irwystl_row *smaller, size_t smaller_length);

/*
 * Why t was not taken for T, of a list of 1 to 128 rows with weight limit w: the first irwystl_reason that holds. Numbers stand in the order
 * of greater R, at equal R of fewer one-bits, then of the smaller number, and no other set of taken numbers has the XOR t. taken is room for
 * exactly IRWYSTL_MOST_LIST_INPUTS numbers: T's n columns come to its front, the number of step 1 first, whatever the reason. No row is moved,
 * so that a list which irwystl_records_row_method refuses with 9 has its answer here. Refuses with 1, 2, 3 (type, w, t), 4, 6, 7, 11.
 * Promise: records::why_not, its answer in numbers.
 */
irwystl_why_answer irwystl_records_why_not(size_t n, size_t k, size_t type, size_t w, size_t t, const irwystl_row *rows, size_t rows_length,
                                           uint32_t *taken);

/*
 * Joins rows of a list of 1 to 512, in place: while two rows have equal words, the same mask and values that differ in exactly one input, the
 * pair with the smallest first and then the smallest second row is taken. The joined row, free at that input, stands in the first place, and
 * the rows behind the second close up; then the next pair is looked for, from the first row on. The first `count` rows are left, no two of
 * which join; each one behind them, to the end of the list, has mask 0, values 0 and word 0, and is room for further rows. The block is the
 * same at each point under either type, so that no type is asked for. Whether the rows drive every column is not looked at. Refuses with 1,
 * 2, 4, 6, 7. Promise: records::join_rows.
 */
irwystl_join_answer irwystl_records_join_rows(size_t n, size_t k, irwystl_row *rows, size_t rows_length);

/*
 * The disjoint list of a list of 1 to 128 rows that overlap on purpose, where a point's word is the OR of all rows over it: a list of type
 * IRWYSTL_FD with that word at each point, 0 where there is no row, and no two of its rows share a point. The whole space is halved, and
 * each region again: one that no row meets gives nothing; one that lies inside every row meeting it gives one row with their OR, which may
 * be 0; any other is halved at its highest free input that is fixed in some row meeting it, 0 half first. disjoint is room for at least
 * IRWYSTL_MOST_ROWS rows, however few come out, of which the first `count` are written. Whether the rows drive every column is not looked
 * at. Refuses with 1, 2, 4, 5, 6, 14. Promise: records::disjoin_rows.
 */
irwystl_disjoin_answer irwystl_records_disjoin_rows(size_t n, size_t k, const irwystl_row *rows, size_t rows_length, irwystl_row *disjoint,
                                                    size_t disjoint_length);

/*
 * The full table of a list of 1 to 512 rows and at most 12 inputs; at points under no row it has IRWYSTL_NO_OUTPUT or 0, by the type.
 * table is room for at least 2^n entries. Refuses with 1, 2, 3 (type), 4, 5, 6, 7, 11. Promise: records::fill_table.
 */
irwystl_answer irwystl_records_fill_table(size_t n, size_t k, size_t type, const irwystl_row *rows, size_t rows_length, uint16_t *table,
                                          size_t table_length);

/*
 * A list of 1 to 128 rows as row text, without the type line where type_line is 0, else with it; what irwystl_records_read_text answers
 * gives the text that was read. Under IRWYSTL_FR the line has to stand, for a text without it is of the other type. out is room for at
 * least IRWYSTL_TEXT_ROOM bytes. Whether rows share a point or drive every column is not looked at. Refuses with 1, 2, 3 (type, or
 * IRWYSTL_FR with type_line 0), 4, 5, 6. Promise: records::write_text.
 */
irwystl_text_answer irwystl_records_write_text(size_t n, size_t k, size_t type, size_t type_line, const irwystl_row *rows,
                                               size_t rows_length, uint8_t *out, size_t out_length);

/*
 * The rows of a row text: any bytes. rows is room for as many as the text tells, at most IRWYSTL_MOST_ROWS. Whether rows share a point or
 * drive every column is not looked at. Refuses with 10 (a heading, the type line among them), 1, 2, 4, 5, 10 (any other line). Promise:
 * records::read_numbers.
 */
irwystl_read_answer irwystl_records_read_text(const uint8_t *text, size_t text_length, irwystl_row *rows, size_t rows_length);

/*
 * The sheet of a list of 1 to 128 rows with weight limit w; the type does not stand on it. out is room for at least IRWYSTL_SHEET_ROOM
 * bytes. Refuses with 1, 2, 3 (type, w), 4, 5, 6, 7, 11, 9. Promise: records::sheet.
 */
irwystl_text_answer irwystl_records_sheet(size_t n, size_t k, size_t type, size_t w, const irwystl_row *rows, size_t rows_length,
                                          uint8_t *out, size_t out_length);

/*
 * The model of a list of 1 to 128 rows with weight limit w, for the T that the sheet has. Evaluated at x it gives the block's word, wherever
 * the block has an output. out is room for at least as many bytes as this model has, and IRWYSTL_MODEL_ROOM is enough for any. Refuses with
 * 1, 2, 3 (type, w), 4, 6, 7, 11, 9, 5. Promise: records::write_model.
 */
irwystl_text_answer irwystl_records_write_model(size_t n, size_t k, size_t type, size_t w, const irwystl_row *rows, size_t rows_length,
                                                uint8_t *out, size_t out_length);

/*
 * ---- the same on rows in three flat arrays: row i is masks[i], values[i] and words[i]. Given arrays of unequal length are refused with 4.
 * Of arrays that are room the shortest is the room.
 */

/* Promise: lists::row_value. */
irwystl_value_answer irwystl_row_value(size_t n, size_t k, size_t type, size_t t, const uint32_t *masks, size_t masks_length,
                                       const uint32_t *values, size_t values_length, const uint32_t *words, size_t words_length);

/* Promise: lists::row_method. */
irwystl_row_method_answer irwystl_row_method(size_t n, size_t k, size_t type, size_t w, const uint32_t *masks, size_t masks_length,
                                             const uint32_t *values, size_t values_length, const uint32_t *words, size_t words_length,
                                             uint32_t *basis, size_t basis_length, uint32_t *sigma, size_t sigma_length,
                                             uint32_t *smaller_masks, size_t smaller_masks_length, uint32_t *smaller_values,
                                             size_t smaller_values_length, uint32_t *smaller_words, size_t smaller_words_length);

/* Promise: reasons::why_not, its answer in numbers. */
irwystl_why_answer irwystl_why_not(size_t n, size_t k, size_t type, size_t w, size_t t, const uint32_t *masks, size_t masks_length,
                                   const uint32_t *values, size_t values_length, const uint32_t *words, size_t words_length,
                                   uint32_t *taken);

/* The arrays are the list and not room: of unequal length they are refused with 4. Promise: joining::join_rows. */
irwystl_join_answer irwystl_join_rows(size_t n, size_t k, uint32_t *masks, size_t masks_length, uint32_t *values, size_t values_length,
                                      uint32_t *words, size_t words_length);

/* Promise: disjoining::disjoin_rows. */
irwystl_disjoin_answer irwystl_disjoin_rows(size_t n, size_t k, const uint32_t *masks, size_t masks_length, const uint32_t *values,
                                            size_t values_length, const uint32_t *words, size_t words_length, uint32_t *disjoint_masks,
                                            size_t disjoint_masks_length, uint32_t *disjoint_values, size_t disjoint_values_length,
                                            uint32_t *disjoint_words, size_t disjoint_words_length);

/* Promise: lists::fill_table. */
irwystl_answer irwystl_fill_table(size_t n, size_t k, size_t type, const uint32_t *masks, size_t masks_length, const uint32_t *values,
                                  size_t values_length, const uint32_t *words, size_t words_length, uint16_t *table,
                                  size_t table_length);

/* Promise: writing::write_text. */
irwystl_text_answer irwystl_write_text(size_t n, size_t k, size_t type, size_t type_line, const uint32_t *masks, size_t masks_length,
                                       const uint32_t *values, size_t values_length, const uint32_t *words, size_t words_length,
                                       uint8_t *out, size_t out_length);

/* Promise: reading::read_text, its answer in numbers. */
irwystl_read_answer irwystl_read_text(const uint8_t *text, size_t text_length, uint32_t *masks, size_t masks_length, uint32_t *values,
                                      size_t values_length, uint32_t *words, size_t words_length);

/* Promise: sheets::sheet. */
irwystl_text_answer irwystl_sheet(size_t n, size_t k, size_t type, size_t w, const uint32_t *masks, size_t masks_length,
                                  const uint32_t *values, size_t values_length, const uint32_t *words, size_t words_length, uint8_t *out,
                                  size_t out_length);

/* Promise: models::write_model. */
irwystl_text_answer irwystl_write_model(size_t n, size_t k, size_t type, size_t w, const uint32_t *masks, size_t masks_length,
                                        const uint32_t *values, size_t values_length, const uint32_t *words, size_t words_length,
                                        uint8_t *out, size_t out_length);

/* ---- models, of 1 to 16 inputs */

/*
 * What a model says, from its text: any bytes. Read is the form that the writer prints, and no other BLIF; the patterns may be any, and an
 * output may have none. matrix gets sigma's n rows, counts for each output, lowest first, how many patterns it has, masks and values the
 * patterns of all outputs one after the other. Each is room for at least that many; a pattern's line has at least 4 bytes, so that
 * text_length / 4 patterns are enough for any text. Refuses with 10 (the first line outside the subset), 5 (of masks and values the shorter
 * is the room), 8. Promise: models::read_model.
 */
irwystl_model_answer irwystl_read_model(const uint8_t *text, size_t text_length, uint32_t *matrix, size_t matrix_length, size_t *counts,
                                        size_t counts_length, uint32_t *masks, size_t masks_length, uint32_t *values,
                                        size_t values_length);

/*
 * The word at x of a model that was read: its n rows of sigma, its k counts and its patterns, each with exactly the length that was answered.
 * Bit j of the word is 1 where one of output j's patterns has sigma x. masks and values of unequal length hold no pattern. Refuses with 1,
 * 2, 3 (x), 4, 6 (the matrix, then the patterns), 8. Promise: models::model_value.
 */
irwystl_value_answer irwystl_model_value(size_t n, size_t k, size_t x, const uint32_t *matrix, size_t matrix_length, const size_t *counts,
                                         size_t counts_length, const uint32_t *masks, size_t masks_length, const uint32_t *values,
                                         size_t values_length);

/* ---- from row text to its sheet or model, with weight limit 3, or n where the block has n < 3 inputs, and the type that the text tells:
 * IRWYSTL_FD without a type line; and to its joined rows or its disjoint list. Any bytes may come in; at most 8,192 of them are looked at,
 * and no longer text is accepted. */

/*
 * Writes to the front of out what the program prints, and returns how many bytes that is: the sheet, which begins with the word sheet, or
 * one line "refused N A B", where N is 1, 2, 4, 7, 9, 10 or 11. out is room for IRWYSTL_SHEET_ROOM bytes. Promise: printing::print_text.
 */
size_t irwystl_print_text(const uint8_t *text, size_t text_length, uint8_t *out);

/*
 * Writes the model to the front of out in place of the sheet, or that line, and returns how many bytes it is. A model begins with the line
 * .model block. out is room for IRWYSTL_MODEL_ROOM bytes. Promise: printing::print_model.
 */
size_t irwystl_print_model(const uint8_t *text, size_t text_length, uint8_t *out);

/*
 * Writes row text with the rows joined, as irwystl_records_join_rows has them, to the front of out, or one line "refused N A B", where N is
 * 1, 2, 4, 7 or 10, and returns how many bytes it is. The type line stands where it stood in the text. Row text begins with .i, and a refusal
 * with the word refused. out is room for IRWYSTL_TEXT_ROOM bytes. Promise: printing::print_joined.
 */
size_t irwystl_print_joined(const uint8_t *text, size_t text_length, uint8_t *out);

/*
 * Writes row text with the disjoint list, as irwystl_records_disjoin_rows has it, to the front of out, or one line "refused N A B", where N
 * is 1, 2, 3, 4, 10 or 14, and returns how many bytes it is. The line .type fd stands in it always. A text of type IRWYSTL_FR is refused with
 * 3 once it is read: its missing points have no output, and those of the disjoint list have word 0. out is room for IRWYSTL_TEXT_ROOM bytes.
 * Promise: printing::print_disjoint.
 */
size_t irwystl_print_disjoint(const uint8_t *text, size_t text_length, uint8_t *out);

/*
 * One list of a bulk import: the sheet of the text, and the line that says what came of it, without its end: the name, and then
 * "sheet ROWS BEFORE AFTER" or "refused N A B". Of a longer name the line has the first 4,096 bytes, and a control byte in it is shown as
 * "?". sheet is room for IRWYSTL_SHEET_ROOM bytes, line for IRWYSTL_LINE_ROOM. With a refusal the sheet's room holds what it held, and the
 * line is written. Refuses with 10, 1, 2, 4, 7, 11, 9. Promise: importing::import_text.
 */
irwystl_import_answer irwystl_import_text(const uint8_t *name, size_t name_length, const uint8_t *text, size_t text_length, uint8_t *sheet,
                                          uint8_t *line);

#ifdef __cplusplus
}
#endif

#endif
