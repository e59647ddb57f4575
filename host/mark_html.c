/* Prints the marks of a folder as one page. */
#include "decimal.h"
#include "edit.h"
#include "mark.h"
#include "page.h"
#include "signs.h"
#include "words.h"
#include <stdio.h>

static void print_mark(const mark *e)
{
    char room[DECIMAL_ROOM];
    printf("<tr%s>", e->status == ACCEPTED ? "" : " class=\"bad\"");
    text_cell(e->name);
    if (e->status != ACCEPTED) printf("<td colspan=\"7\">");
    else printf("<td>");
    print_html(e->verdict);
    printf("</td>");
    for (int line = 1; line <= 6 && e->status == ACCEPTED; line++)
        long_number_cell(newtons(e->total[line - 1], room));
    printf("</tr>\n");
}

void print_marks_page(const marks *m)
{
    char summary[SUMMARY_ROOM];
    begin_page("Sheets of ", m->folder, 1);
    printf("<p class=\"lead\">%s. Totals are in newtons, with every digit.</p>\n", summary_of(m, summary));
    printf("<table>\n<thead>\n<tr><th>file</th><th>verdict</th>");
    for (int line = 1; line <= 6; line++) printf("<th class=\"n\">%s<small>N</small></th>", line_name(line));
    printf("</tr>\n</thead>\n<tbody>\n");
    for (size_t i = 0; i < m->count; i++) print_mark(&m->entry[i]);
    printf("</tbody>\n</table>\n");
    end_page();
}
