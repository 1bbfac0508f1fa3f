/* The trend screen's chart: each furnace's marks as bars over the shift, the second furnace's under the first's on the same hours. A furnace has a
 * lane for each symbol that ever had a mark. */
#include "trend.h"

#include <stdio.h>

enum {
    WIDTH = 1240, LEFT = 172, PER_MINUTE = 2, RIGHT = LEFT + PER_MINUTE * SHIFT_ENDS,
    TOP = 148, LANE = 21, BAR = 13, GROUP_GAP = 26, FURNACE_GAP = 106, FOOT = 150,
    TOLD = 76, SHOWN = 84, LINE = 16, LINE_LENGTH = 170 /* of the text at the foot: what marks need, and what a click shows */
};

/* A furnace's part of the chart: where it begins and ends, where its conclusions begin, and the middle of each symbol's lane, 0 where it has none. */
typedef struct panel {
    const furnace *of;
    int top, conclusions, bottom;
    int lane[SYMBOLS + 1];
} panel;

/* Where a minute stands across the chart. */
static int x_at(int minute) {
    return LEFT + PER_MINUTE * minute;
}

/* Lays a furnace's lanes out from a line on. Conclusions stand a gap below the readings. */
static panel lay_out(const furnace *f, int top) {
    panel p = {.of = f, .top = top, .bottom = top};
    bool marked[SYMBOLS + 1] = {false};
    for (int i = 0; i < f->bar_count; i++) {
        marked[f->bars[i].symbol] = true;
    }
    for (int symbol = 1; symbol <= SYMBOLS; symbol++) {
        if (symbol == FIRST_CONCLUSION) {
            p.bottom += GROUP_GAP;
            p.conclusions = p.bottom;
        }
        if (marked[symbol]) {
            p.bottom += LANE;
            p.lane[symbol] = p.bottom - LANE / 2;
        }
    }
    p.bottom += 4;
    return p;
}

/* ---- Pieces ---- */

/* Writes text into the picture, so that a name may have any character. */
static void put_escaped(FILE *out, const char *text) {
    for (; *text != '\0'; text++) {
        switch (*text) {
        case '&': fputs("&amp;", out); break;
        case '<': fputs("&lt;", out); break;
        case '>': fputs("&gt;", out); break;
        default: fputc(*text, out); break;
        }
    }
}

/* Writes a line of text in one of the picture's styles. */
static void put_text(FILE *out, const char *style, int x, int y, const char *text) {
    fprintf(out, "<text class=\"%s\" x=\"%d\" y=\"%d\">", style, x, y);
    put_escaped(out, text);
    fputs("</text>\n", out);
}

/* Writes a straight line in one of the picture's styles. */
static void put_line(FILE *out, const char *style, int x1, int y1, int x2, int y2) {
    fprintf(out, "<line class=\"%s\" x1=\"%d\" y1=\"%d\" x2=\"%d\" y2=\"%d\"/>\n", style, x1, y1, x2, y2);
}

/* Writes a filled box in one of the picture's styles. */
static void put_box(FILE *out, const char *style, int x, int y, int width, int height) {
    fprintf(out, "<rect class=\"%s\" x=\"%d\" y=\"%d\" width=\"%d\" height=\"%d\"/>\n", style, x, y, width, height);
}

/* The picture's styles by name. Readings are darker than what is concluded from them. */
static const char styles[] =
    "<style>\n"
    "text { font-family: 'DejaVu Sans', Verdana, Arial, sans-serif; font-size: 12px; fill: #22303c }\n"
    ".title { font-size: 20px; font-weight: bold }\n"
    ".furnace { font-size: 15px; font-weight: bold }\n"
    ".small, .hour { fill: #566573 }\n"
    ".group { font-size: 11px; font-weight: bold; fill: #566573; letter-spacing: 1px }\n"
    ".name, .group, .strike-note, .stay-note { text-anchor: end }\n"
    ".hour, .conflict-note { text-anchor: middle }\n"
    ".strike-note { font-weight: bold; fill: #b45309 }\n"
    ".stay-note { fill: #b45309 }\n"
    ".conflict-note { font-weight: bold; fill: #c62828 }\n"
    ".gone { font-size: 11px; fill: #b45309 }\n"
    ".strike { stroke: #b45309; stroke-width: 2; stroke-dasharray: 6 4 }\n"
    ".stay { stroke: #b45309; stroke-width: 1.5; stroke-dasharray: 3 4 }\n"
    ".grid { stroke: #dde3e9 }\n"
    ".lane { stroke: #eef1f4 }\n"
    ".bracket { stroke: #22303c; stroke-width: 1.5; stroke-linecap: square }\n"
    ".paper { fill: #ffffff }\n"
    ".pair { fill: #fff6e0 }\n"
    ".band { fill: #c62828; fill-opacity: 0.14 }\n"
    ".reading { fill: #1d3f66 }\n"
    ".reading-not { fill: url(#dark-hatch); stroke: #1d3f66; stroke-width: 0.5 }\n"
    ".conclusion { fill: #5b9bd5 }\n"
    ".conclusion-not { fill: url(#pale-hatch); stroke: #c3ccd5; stroke-width: 0.5 }\n"
    ".conflict, .on-blame { fill: #c62828 }\n"
    ".shown { display: none }\n"
    ".shown:target { display: inline }\n"
    "a { cursor: pointer }\n"
    "</style>\n";

/* Defines a hatching. */
static void put_hatch(FILE *out, const char *id, const char *paper, const char *stripe) {
    fprintf(out, "<defs><pattern id=\"%s\" width=\"6\" height=\"6\" patternUnits=\"userSpaceOnUse\" "
                 "patternTransform=\"rotate(45)\"><rect width=\"6\" height=\"6\" fill=\"%s\"/>"
                 "<rect width=\"2\" height=\"6\" fill=\"%s\"/></pattern></defs>\n", id, paper, stripe);
}

/* Opens the picture. */
static void put_head(FILE *out, int height) {
    fprintf(out, "<svg xmlns=\"http://www.w3.org/2000/svg\" width=\"%d\" height=\"%d\" viewBox=\"0 0 %d %d\" "
                 "role=\"img\" aria-label=\"Marks of a night shift on two furnaces\">\n", WIDTH, height, WIDTH, height);
    put_hatch(out, "pale-hatch", "#f3f5f7", "#c3ccd5");
    put_hatch(out, "dark-hatch", "#e3e9f0", "#1d3f66");
    fputs(styles, out);
    put_box(out, "paper", 0, 0, WIDTH, height);
    put_text(out, "title", 24, 36, "Night shift on two furnaces, 22:00 to 06:00: nothing stands without its ground");
    put_text(out, "small", 24, 58, "Each bar is a mark on the board. Click on a bar for the rule behind it, its row, its rank and the "
                                   "readings it stands on. A hair across a bar: another ground took over.");
    put_text(out, "small", 24, 74, "One rule table serves both furnaces; each has readings of its own. In a red band only the red marks are in "
                                   "conflict; the others go on standing.");
}

/* ---- A furnace ---- */

/* Draws what lies behind the bars: hours, and lanes with their names. */
static void put_grid(FILE *out, const panel *p) {
    words title = {0};
    say(&title, "Furnace %d", p->of->number);
    put_text(out, "furnace", 24, p->top - 26, title.text);
    for (int minute = 0; minute <= SHIFT_ENDS; minute += 60) {
        put_line(out, "grid", x_at(minute), p->top - 4, x_at(minute), p->bottom);
        put_text(out, "hour", x_at(minute), p->bottom + 18, clock_at(minute).text);
    }
    put_text(out, "group", LEFT - 10, p->top - 6, "READINGS");
    put_text(out, "group", LEFT - 10, p->conclusions - 5, "CONCLUSIONS");
    for (int symbol = 1; symbol <= SYMBOLS; symbol++) {
        if (p->lane[symbol] != 0) {
            put_line(out, "lane", LEFT, p->lane[symbol], RIGHT, p->lane[symbol]);
            put_text(out, "name", LEFT - 10, p->lane[symbol] + 4, names[symbol]);
        }
    }
}

/* Tints the two lanes of the pair that leans on itself, and joins them at the right. */
static void put_pair(FILE *out, const panel *p) {
    if (p->lane[CROWN_HOT] == 0 || p->lane[OVERFIRED] == 0) {
        return;
    }
    int x = RIGHT + 10, top = p->lane[CROWN_HOT] - 6, bottom = p->lane[OVERFIRED] + 6;
    put_box(out, "pair", LEFT, p->lane[CROWN_HOT] - LANE / 2, RIGHT - LEFT, 2 * LANE);
    put_line(out, "bracket", x, top, x, bottom);
    put_line(out, "bracket", x - 5, top, x, top);
    put_line(out, "bracket", x - 5, bottom, x, bottom);
    put_text(out, "plain", x + 8, (top + bottom) / 2 - 4, "lean on");
    put_text(out, "plain", x + 8, (top + bottom) / 2 + 11, "each other");
}

/* Draws the line under a bar, whose middle is given, that says: this stands on a reading to blame. */
static void put_underline(FILE *out, int left, int middle, int width) {
    put_box(out, "on-blame", left, middle + BAR / 2 + 2, width, 3);
}

/* Draws a conflict, or a stage of one, as a band over all lanes of the furnace. What stands keeps its bar, with a line under it in the band where it
 * stands on a reading to blame. */
static void put_band(FILE *out, const panel *p, const conflict *c) {
    int left = x_at(c->from), width = x_at(c->to) - left;
    put_box(out, "band", left, p->top - 12, width, p->bottom - p->top + 12);
    put_box(out, "conflict", left, p->top - 14, width, 3);
    for (int symbol = 1; symbol <= SYMBOLS; symbol++) {
        if (c->on_blame[symbol]) {
            put_underline(out, left, p->lane[symbol], width);
        }
    }
}

/* Notes over the band of a conflict how many marks are in conflict, how many stand, the readings to blame, and the least to withdraw. */
static void put_conflict_note(FILE *out, const panel *p, const conflict *c) {
    words note = {0}, blame = {0}, least = {0};
    int middle = (x_at(c->began) + x_at(c->to)) / 2, count[TUP_CONFLICT + 1] = {0};
    for (int symbol = 1; symbol <= SYMBOLS; symbol++) {
        count[c->answers[symbol]]++;
    }
    say(&note, "%s to %s: %d in conflict, %d standing", clock_at(c->began).text, clock_at(c->to).text, count[TUP_CONFLICT],
        count[TUP_STANDS] + count[TUP_RULED_OUT]);
    say(&blame, "to blame: %s", c->blame.text);
    say(&least, "least to withdraw: %s", c->least.text);
    put_text(out, "conflict-note", middle, p->top - 48, note.text);
    put_text(out, "conflict-note", middle, p->top - 34, blame.text);
    put_text(out, "conflict-note", middle, p->top - 20, least.text);
}

/* Draws each conflict of the furnace. One that other readings changed has several stages, and a note on the last. */
static void put_conflicts(FILE *out, const panel *p) {
    for (int i = 0; i < p->of->conflict_count; i++) {
        const conflict *c = &p->of->conflicts[i];
        put_band(out, p, c);
        if (i + 1 == p->of->conflict_count || c[1].began != c->began) {
            put_conflict_note(out, p, c);
        }
    }
}

/* The style of a bar: what its label says, and whether a reading says it. */
static const char *bar_style(const mark *bar) {
    switch (bar->label) {
    case 1: return bar->held ? "reading" : "conclusion";
    case 2: return bar->held ? "reading-not" : "conclusion-not";
    default: return "conflict";
    }
}

/* What a bar says: whose mark it is and when it stood, and why. */
static words bar_words(const panel *p, const mark *bar) {
    static const char *const state[] = {"open", "up", "ruled out", "in conflict"};
    words line = {0};
    say(&line, "furnace %d, %s, %s %s to %s: %s", p->of->number, names[bar->symbol], state[bar->label], clock_at(bar->from).text,
        clock_at(bar->to).text, bar->why.text);
    return line;
}

/* Draws bar i, a link to its words, which are the bar's title too for whoever points at it. */
static void put_bar(FILE *out, const panel *p, int i) {
    const mark *bar = &p->of->bars[i];
    int end = x_at(bar->to) - (bar->to < SHIFT_ENDS ? 1 : 0); /* a hair between two bars that meet */
    fprintf(out, "<a href=\"#mark-%d-%d\"><rect class=\"%s\" x=\"%d\" y=\"%d\" width=\"%d\" height=\"%d\"><title>", p->of->number, i,
            bar_style(bar), x_at(bar->from), p->lane[bar->symbol] - BAR / 2, end - x_at(bar->from), BAR);
    put_escaped(out, bar_words(p, bar).text);
    fputs("</title></rect></a>\n", out);
}

/* How many characters of a text make its next line: as many words as fit, or all that is left. */
static int line_length(const char *text) {
    int fits = 0;
    for (int i = 0; i <= LINE_LENGTH; i++) {
        if (text[i] == '\0') {
            return i;
        }
        fits = text[i] == ' ' ? i : fits;
    }
    return fits > 0 ? fits : LINE_LENGTH;
}

/* Where the line after the next one begins. */
static const char *past_line(const char *text) {
    const char *rest = text + line_length(text);
    return *rest == ' ' ? rest + 1 : rest;
}

/* Writes a text at the foot of the picture, over as many lines as it takes; where the next text may stand. */
static int put_lines(FILE *out, int y, const char *text) {
    for (; *text != '\0'; text = past_line(text), y += LINE) {
        words line = {0};
        say(&line, "%.*s", line_length(text), text);
        put_text(out, "plain", 24, y, line.text);
    }
    return y;
}

/* Writes the words of bar i. They show once the bar is clicked on. */
static void put_shown(FILE *out, const panel *p, int i, int top) {
    fprintf(out, "<g class=\"shown\" id=\"mark-%d-%d\">\n", p->of->number, i);
    put_lines(out, top, bar_words(p, &p->of->bars[i]).text);
    fputs("</g>\n", out);
}

/* Draws the minute at which the thermocouple was struck off, and notes what went with it. */
static void put_strike(FILE *out, const panel *p) {
    words note = {0}, gone = {0};
    say(&note, "TC-3 struck off %s", clock_at(STRUCK_OFF).text);
    say(&gone, "down %s", clock_at(STRUCK_OFF).text);
    put_line(out, "strike", x_at(STRUCK_OFF), p->top - 14, x_at(STRUCK_OFF), p->bottom);
    put_text(out, "strike-note", x_at(STRUCK_OFF) + 4, p->top - 20, note.text);
    for (int i = 0; i < p->of->bar_count; i++) {
        const mark *bar = &p->of->bars[i];
        if (went_down_at(p->of, bar, STRUCK_OFF)) {
            put_text(out, "gone", x_at(STRUCK_OFF) + 7, p->lane[bar->symbol] + 4, gone.text);
        }
    }
}

/* Draws the same minute at a furnace that kept its own thermocouple, and notes whether its marks moved. */
static void put_stay(FILE *out, const panel *p) {
    words note = {0};
    say(&note, "TC-3 of furnace %d struck off: %s here", STRUCK_FURNACE, moved_at(p->of, STRUCK_OFF) ? "marks move" : "nothing moves");
    put_line(out, "stay", x_at(STRUCK_OFF), p->top - 14, x_at(STRUCK_OFF), p->bottom);
    put_text(out, "stay-note", x_at(STRUCK_OFF) + 4, p->top - 20, note.text);
}

/* Draws a furnace's part of the shift. */
static void put_panel(FILE *out, const panel *p) {
    put_pair(out, p);
    put_grid(out, p);
    put_conflicts(out, p);
    for (int i = 0; i < p->of->bar_count; i++) {
        put_bar(out, p, i);
    }
    if (p->of->number == STRUCK_FURNACE) {
        put_strike(out, p);
    } else {
        put_stay(out, p);
    }
}

/* ---- The picture ---- */

/* Writes what the bars mean, below the chart. */
static void put_legend(FILE *out, int bottom) {
    enum { BOX = 28, ENTRIES = 6 };
    static const struct { int x; const char *style, *meaning; } entries[ENTRIES] = {
        {0, "reading", "held reading"},
        {130, "reading-not", "held reading: not so"},
        {310, "conclusion", "conclusion"},
        {430, "conclusion-not", "ruled out"},
        {540, "conflict", "in conflict: both true and false"},
        {775, "conclusion", "stands on a reading to blame"},
    };
    for (int i = 0; i < ENTRIES; i++) {
        put_box(out, entries[i].style, LEFT + entries[i].x, bottom + 38, BOX, BAR);
        put_text(out, "plain", LEFT + entries[i].x + BOX + 8, bottom + 49, entries[i].meaning);
    }
    put_underline(out, LEFT + entries[ENTRIES - 1].x, bottom + 38 + BAR / 2, BOX);
}

/* Writes what marks need, as the shift desk was told, below the legend: it is of the rules, so it stands in neither furnace's part. */
static void put_needs(FILE *out, const screen *s, int top) {
    for (int i = 0; i < s->need_count; i++) {
        top = put_lines(out, top, s->needs[i].text);
    }
}

/* How much room those lines take. The picture's height is written before them. */
static int needs_height(const screen *s) {
    int height = 0;
    for (int i = 0; i < s->need_count; i++) {
        for (const char *rest = s->needs[i].text; *rest != '\0'; rest = past_line(rest)) {
            height += LINE;
        }
    }
    return height;
}

/* Draws the shift, one furnace under the other. */
static void put_chart(FILE *out, const screen *s) {
    panel panels[TUP_FURNACES];
    int next = TOP;
    for (int i = 0; i < TUP_FURNACES; i++) {
        panels[i] = lay_out(&s->furnaces[i], next);
        next = panels[i].bottom + FURNACE_GAP;
    }
    int bottom = panels[TUP_FURNACES - 1].bottom, needs = needs_height(s);
    put_head(out, bottom + FOOT + needs);
    for (int i = 0; i < TUP_FURNACES; i++) {
        put_panel(out, &panels[i]);
    }
    put_legend(out, bottom);
    put_needs(out, s, bottom + TOLD);
    for (int i = 0; i < TUP_FURNACES; i++) {
        for (int k = 0; k < panels[i].of->bar_count; k++) {
            put_shown(out, &panels[i], k, bottom + SHOWN + needs);
        }
    }
    fputs("</svg>\n", out);
}

/* A chart that is only half on the disk is a failure too. */
bool write_chart(const char *path, const screen *s) {
    FILE *out = fopen(path, "w");
    if (out == NULL) {
        return false;
    }
    put_chart(out, s);
    bool written = ferror(out) == 0;
    return fclose(out) == 0 && written;
}
