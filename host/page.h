/* What the pages share: their head with its style, and cells of numbers (page.c). A page is one file, with no script
   and nothing to fetch, fit to print on A4. */
#ifndef PAGE_H
#define PAGE_H

/* The page up to its first heading, and its end. `wide` is whether it is printed across. */
void begin_page(const char *before, const char *name, int wide);
void end_page(void);

/* A number, with a true minus sign; of one with many decimals the zeros at their end are pale. */
void print_number(const char *number);
void print_long_number(const char *number);

/* A cell of a table: of such a number, or of a text that is escaped. */
void number_cell(const char *number);
void long_number_cell(const char *number);
void text_cell(const char *text);

#endif
