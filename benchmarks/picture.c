/* The picture speed.svg, printed from the files of a run's passes: bars for parity and recovery by this library and its peers.
     picture FILE..  */
#include "results.h"

#include <math.h>
#include <stdio.h>

enum { WIDTH = 880, MARGIN = 20, HEAD = 84, FOOT = 34 };
enum { PANELS = 4, PANEL_WIDTH = 410, PANEL_HEAD = 26, PANEL_FOOT = 34, LABEL = 40, VALUE = 46 };
enum { BAR = 15, BAR_STEP = 18, GROUPS = 2, GROUP_GAP = 10, SHOWN_B = 4096 };

/* A bar's maker: this library, or a peer. Its colour can be told from the others' by those who see no red or green. */
static const struct {
    const char *name, *colour;
} series[PEERS + 1] = {
    {"this library (SSE2)", "#0072b2"},
    {"ISA-L for SSE", "#e69f00"},
    {"ISA-L's choice", "#f5d04c"},
    {"plain C (gcc -O3)", "#9a9a9a"},
};

static const struct {
    enum work work;
    unsigned mib;
} panels[PANELS] = {{PARITY, 0}, {ALL_STRIPES, DATA_MIB}, {ONE_BLOCK, 0}, {TWO_BLOCKS, 0}};

static const uint32_t widths[GROUPS] = {5, 16};

/* Whether a maker was measured. */
static bool is_shown(unsigned k)
{
    return k == 0 || k - 1 == C_PEER || has_isal();
}

/* How many were. */
static unsigned shown_count(void)
{
    unsigned n = 0;
    for (unsigned k = 0; k <= PEERS; k++)
        n += is_shown(k);
    return n;
}

/* The result that a bar shows. */
static const struct result *bar_of(unsigned panel, unsigned group, unsigned k)
{
    const struct result *row = row_of(panels[panel].work, panels[panel].mib, widths[group], SHOWN_B);
    return k == 0 ? row : peer_of(row, (enum peer)(k - 1));
}

/* The height of a panel's bars. */
static unsigned bars_height(void)
{
    return GROUPS * (shown_count() * BAR_STEP + GROUP_GAP);
}

/* The height of a panel. */
static unsigned panel_height(void)
{
    return PANEL_HEAD + bars_height() + PANEL_FOOT;
}

/* The highest speed of all bars. */
static double highest(void)
{
    double most = 0;
    for (unsigned n = 0; n < PANELS * GROUPS * (PEERS + 1); n++) {
        unsigned k = n % (PEERS + 1);
        if (!is_shown(k))
            continue;
        double speed = speed_of(bar_of(n / (PEERS + 1) / GROUPS, n / (PEERS + 1) % GROUPS, k)).high;
        most = speed > most ? speed : most;
    }
    return most;
}

/* Prints the title and the legend, whose entries take some seven columns a letter. */
static void print_head(void)
{
    double x = MARGIN;
    printf("<text x=\"%d\" y=\"32\" font-size=\"17\" font-weight=\"bold\">Speed in GB/s of data blocks, blocks of %d bytes</text>\n",
           MARGIN, SHOWN_B);
    for (unsigned k = 0; k <= PEERS; k++) {
        char name[64];
        if (!is_shown(k))
            continue;
        int len = snprintf(name, sizeof name, k == CHOICE_PEER + 1 ? "%s (%s)" : "%s", series[k].name, run.vectors);
        printf("<rect x=\"%.0f\" y=\"48\" width=\"14\" height=\"14\" fill=\"%s\"/>\n", x, series[k].colour);
        printf("<text x=\"%.0f\" y=\"60\" font-size=\"13\">%s</text>\n", x + 20, name);
        x += 7 * len + 50;
    }
}

/* Prints a bar, a line from the lowest to the highest pass, and the median in figures. */
static void print_bar(const struct result *r, unsigned k, double x, double y, double scale)
{
    struct spread s = speed_of(r);
    printf("<rect x=\"%.1f\" y=\"%.1f\" width=\"%.1f\" height=\"%d\" fill=\"%s\"/>\n", x, y, s.middle * scale, BAR, series[k].colour);
    printf("<path d=\"M%.1f %.1fH%.1f\" stroke=\"#222\" stroke-width=\"1.5\"/>\n", x + s.low * scale, y + BAR / 2.0, x + s.high * scale);
    printf("<text x=\"%.1f\" y=\"%.1f\" font-size=\"12\"%s>%.1f</text>\n", x + s.high * scale + 5, y + BAR - 3,
           k == 0 ? " font-weight=\"bold\"" : "", s.middle);
}

/* Prints the scale of a panel: a line for each step, with its number below. */
static void print_scale(double x, double y, double scale, double most)
{
    double step = most > 100 ? 50 : most > 40 ? 20 : 10;
    for (double at = 0; at <= most; at += step) {
        printf("<path d=\"M%.1f %.1fv%u\" stroke=\"%s\"/>\n", x + at * scale, y, bars_height(), at == 0 ? "#222" : "#ddd");
        printf("<text x=\"%.1f\" y=\"%.1f\" font-size=\"11\" fill=\"#555\" text-anchor=\"middle\">%.0f</text>\n", x + at * scale,
               y + bars_height() + 14, at);
    }
}

/* Prints the bars of a panel for one d. Answers where the next begin. */
static double print_group(unsigned panel, unsigned group, double x, double y, double scale)
{
    double from = y;
    for (unsigned k = 0; k <= PEERS; k++)
        if (is_shown(k)) {
            print_bar(bar_of(panel, group, k), k, x, y, scale);
            y += BAR_STEP;
        }
    printf("<text x=\"%.1f\" y=\"%.1f\" font-size=\"13\" text-anchor=\"end\">d %u</text>\n", x - 8, (from + y) / 2 + 3, widths[group]);
    return y + GROUP_GAP;
}

/* Prints a panel: a work, with bars for each d. */
static void print_panel(unsigned panel, double most)
{
    double x = MARGIN + panel % 2 * (PANEL_WIDTH + MARGIN), y = HEAD + panel / 2 * panel_height();
    double scale = (PANEL_WIDTH - LABEL - VALUE) / most;
    printf("<text x=\"%.1f\" y=\"%.1f\" font-size=\"14\" font-weight=\"bold\">%s", x, y + 14, work_names[panels[panel].work]);
    if (panels[panel].mib > 0)
        printf(", %u MiB", panels[panel].mib);
    printf("</text>\n");
    x += LABEL;
    y += PANEL_HEAD;
    print_scale(x, y, scale, most);
    y += GROUP_GAP / 2;
    for (unsigned group = 0; group < GROUPS; group++)
        y = print_group(panel, group, x, y, scale);
}

/* Reads the passes and prints the picture. */
int main(int argc, char **argv)
{
    read_passes(argc - 1, argv + 1);
    unsigned height = HEAD + PANELS / 2 * panel_height() + FOOT;
    double most = highest();
    if (!isfinite(most)) {
        fprintf(stderr, "picture: a pass has a time of 0\n");
        return 1;
    }
    printf("<svg xmlns=\"http://www.w3.org/2000/svg\" width=\"%d\" height=\"%u\" viewBox=\"0 0 %d %u\" font-family=\"sans-serif\""
           " fill=\"#222\">\n<rect width=\"%d\" height=\"%u\" rx=\"6\" fill=\"#fff\"/>\n", WIDTH, height, WIDTH, height, WIDTH, height);
    print_head();
    for (unsigned panel = 0; panel < PANELS; panel++)
        print_panel(panel, most);
    printf("<text x=\"%d\" y=\"%u\" font-size=\"12\" fill=\"#555\">Median of %u passes; the thin line goes from the lowest to the highest"
           ". A stripe is in cache. d: data blocks in a stripe.</text>\n</svg>\n", MARGIN, height - 16, run.passes);
    return 0;
}
