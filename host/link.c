/* The smallest host program: one sheet, its report. */
#include "aralimogga.h"
#include <stdio.h>

int main(void)
{
    static const uint8_t sheet[] = "B 1\n500 1200 1000 1250 2 0\nW 1\n0 400\nI 2\n20\n-30\n"
                                   "F 3\nA 0 1000 0 0\nB - -1000 0 0\nF 0 0 0 -2000\n";
    uint8_t out[ARAL_REPORT_MOST];
    aral_text report = aral_report(sheet, sizeof sheet - 1, out, sizeof out);
    if (report.number) printf("refused %u %u\n", report.number, report.line);
    else fwrite(out, 1, report.length, stdout);
    return 0;
}
