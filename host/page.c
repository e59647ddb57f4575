/* The head of a page and its style, for the screen and for A4. The head of a table repeats on each sheet of paper; its
   foot does not, since it is a sum. */
#include "page.h"
#include "decimal.h"
#include "signs.h"
#include <stdio.h>

static const char style[] =
    "*{box-sizing:border-box}\n"
    "body{font:9.5pt/1.45 \"Helvetica Neue\",Helvetica,Arial,\"Liberation Sans\",\"DejaVu Sans Condensed\","
    "\"DejaVu Sans\",sans-serif;"
    "color:#1f2328;background:#fff;margin:10mm auto;padding:0 4mm}\n"
    "h1{font-size:16pt;line-height:1.2;margin:0 0 1mm;font-weight:600;overflow-wrap:anywhere}\n"
    "h2{font-size:11pt;margin:7mm 0 2mm;font-weight:600}\n"
    "p{margin:0 0 2mm}\n"
    ".lead,figcaption,.note{color:#57606a}\n"
    "figure{margin:4mm 0 0}\n"
    "figcaption,.note{font-size:8pt}\n"
    "svg{display:block;width:100%;height:auto;overflow:visible}\n"
    "pre{font:9pt/1.4 \"DejaVu Sans Mono\",\"Liberation Mono\",Menlo,Consolas,monospace;white-space:pre-wrap;"
    "overflow-wrap:anywhere;border-left:.8mm solid #d0d7de;margin:3mm 0;padding:1mm 0 1mm 4mm}\n"
    "table{border-collapse:collapse;width:100%;font-size:7.4pt;line-height:1.35;font-variant-numeric:tabular-nums}\n"
    "caption{text-align:left;font-size:9.5pt;padding:0 0 1.5mm}\n"
    "caption b{font-size:11pt}\n"
    "th{font-weight:600;text-align:left;vertical-align:bottom;padding:.6mm .9mm}\n"
    "th small{font-weight:400;font-size:inherit;color:#57606a;display:block}\n"
    "thead tr:last-child th{border-bottom:.35mm solid #1f2328}\n"
    "td{padding:.55mm .9mm;vertical-align:top;border-bottom:.15mm solid #e2e6ea}\n"
    "th:first-child,td:first-child{padding-left:0}\n"
    "th:last-child,td:last-child{padding-right:0}\n"
    "th.n,td.n{text-align:right;white-space:nowrap}\n"
    "tfoot td{border-bottom:0;font-weight:600}\n"
    "tfoot tr:first-child td{border-top:.35mm solid #1f2328}\n"
    "i{font-style:normal;color:#a2aab3}\n"
    ".idle td{color:#8c959f}\n"
    ".tight{font-size:7pt}\n"
    ".tight td,.tight th{padding-left:.65mm;padding-right:.65mm}\n"
    ".loose{width:auto;font-size:8pt}\n"
    ".loose td,.loose th{padding:.35mm 5mm .35mm .9mm}\n"
    ".loose td:first-child,.loose th:first-child,.tight td:first-child,.tight th:first-child{padding-left:0}\n"
    ".facts{width:auto;font-size:9pt}\n"
    ".facts th{vertical-align:top;white-space:nowrap;padding-right:5mm;color:#57606a;font-weight:400}\n"
    ".facts td,.facts th{border:0;padding-top:.2mm;padding-bottom:.2mm}\n"
    "section{margin-top:6mm}\n"
    ".bad td{background:#fff6f5}\n"
    "@media print{body{margin:0;padding:0;max-width:none}section,figure,.facts,pre{break-inside:avoid}"
    "section.flow{break-inside:auto}"
    "h2,caption{break-after:avoid}thead{display:table-header-group}tfoot{display:table-row-group}"
    "tr{break-inside:avoid}}\n";

void begin_page(const char *before, const char *name, int wide)
{
    printf("<!DOCTYPE html>\n<html lang=\"en\">\n<head>\n<meta charset=\"utf-8\">\n"
           "<meta name=\"viewport\" content=\"width=device-width, initial-scale=1\">\n<title>%s", before);
    print_html(name);
    printf("</title>\n<style>\n%s", style);
    printf("body{max-width:%dmm}\n", wide ? 281 : 194);
    printf("@page{size:A4%s;margin:12mm 12mm 15mm;@bottom-right{content:counter(page) \" / \" counter(pages);"
           "font:8pt Helvetica,Arial,\"DejaVu Sans\",sans-serif;color:#57606a}}\n",
           wide ? " landscape" : "");
    printf("</style>\n</head>\n<body>\n<h1>%s", before);
    print_html(name);
    printf("</h1>\n");
}

void end_page(void) { printf("</body>\n</html>\n"); }

void print_number(const char *number)
{
    printf("%s%s", *number == '-' ? "&minus;" : "", number + (*number == '-'));
}

void print_long_number(const char *number)
{
    size_t kept = without_zeros(number);
    const char *digits = number + (*number == '-');
    printf("%s%.*s", *number == '-' ? "&minus;" : "", (int)(number + kept - digits), digits);
    if (number[kept]) printf("<i>%s</i>", number + kept);
}

void number_cell(const char *number)
{
    printf("<td class=\"n\">");
    print_number(number);
    printf("</td>");
}

void long_number_cell(const char *number)
{
    printf("<td class=\"n\">");
    print_long_number(number);
    printf("</td>");
}

void text_cell(const char *text)
{
    printf("<td>");
    print_html(text);
    printf("</td>");
}
