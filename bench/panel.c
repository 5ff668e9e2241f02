/* The panel in plain C, for bench/run to measure the proved one by: reads site.csv and steps.csv of the current folder, works
   out what `panel` prints as many times over as its argument says (once without one), and writes the last text. Compiled with LIVE it
   reads site.csv and answers the rows of standard input as they come; a broken row it answers only where the input ends, and for a
   refused site it prints nothing, of which bench/run gives it neither. */
#include <stdbool.h>
#include <stdint.h>
#include <stdio.h>
#include <stdlib.h>
#include <string.h>
#ifdef LIVE
#include <unistd.h>
#endif

enum { LONGEST_SHEET = 49152, MOST_TEXT = 93184 };
enum { MOST_PEOPLE = 64, MOST_LOCATIONS = 32, MOST_DOORS = 64 };
enum { GREEN_TICKS = 300, RED_TICKS = 20 };
enum { DONE = 0, TOO_LONG = 1, BAD_FORM = 2, OUT_OF_RANGE = 3, TWICE = 4, NO_SITE_ROW = 5, NO_EXIT = 6, NO_WAY_OUT = 7,
       NO_DOOR = 8, LOCKED_IN = 9, LOCKED_OUT = 10, NO_SUCH = 11, NOT_ALLOWED = 12 };
enum { FREE, READ, GRANTED, GREEN, WALKED, EXPIRED, DENIED, RED, DIMMED, CLOSED };
enum step { CARD, DECIDE, GREEN_ON, RED_ON, WALK, TICK, PASSED, LAPSED, DARK, ACK, NO_STEP };

/* ---- sheets, by RFC 4180 */

struct field {
    const char *text;
    size_t length;
    bool doubled; /* a quote in it is doubled, so that it is neither a word nor a number */
};

struct row {
    struct field field[3];
    int count; /* how many fields there are, also beyond three */
};

struct reader {
    const char *at, *end;
};

enum cut { CUT, SHEET_ENDS, BROKEN };

static bool cut_quoted(struct reader *r, struct field *f)
{
    f->text = ++r->at;
    f->doubled = false;
    for (;;) {
        const char *quote = memchr(r->at, '"', r->end - r->at);
        if (!quote)
            return false;
        r->at = quote + 1;
        if (r->at == r->end || *r->at != '"') {
            f->length = quote - f->text;
            return true;
        }
        f->doubled = true;
        r->at++;
    }
}

static void cut_bare(struct reader *r, struct field *f)
{
    f->text = r->at;
    f->doubled = false;
    while (r->at < r->end && *r->at != ',' && *r->at != '"' && *r->at != '\r' && *r->at != '\n')
        r->at++;
    f->length = r->at - f->text;
}

static enum cut cut_row(struct reader *r, struct row *row)
{
    if (r->at == r->end)
        return SHEET_ENDS;
    for (row->count = 0;;) {
        struct field f;
        if (r->at < r->end && *r->at == '"') {
            if (!cut_quoted(r, &f))
                return BROKEN;
        } else {
            cut_bare(r, &f);
        }
        if (row->count < 3)
            row->field[row->count] = f;
        row->count++;
        if (r->at == r->end)
            return CUT;
        if (*r->at == ',') {
            r->at++;
        } else if (r->end - r->at >= 2 && r->at[0] == '\r' && r->at[1] == '\n') {
            r->at += 2;
            return CUT;
        } else {
            return BROKEN;
        }
    }
}

static bool is_word(struct field f, const char *word, size_t length)
{
    return f.length == length && memcmp(f.text, word, length) == 0 && !f.doubled;
}

#define IS_WORD(f, literal) is_word(f, literal, sizeof literal - 1)

/* The number that a field says, -1 for none: 1 to 3 digits with no needless leading zero. */
static int number_of(struct field f)
{
    if (f.doubled || f.length < 1 || f.length > 3 || (f.length > 1 && f.text[0] == '0'))
        return -1;
    int n = 0;
    for (size_t i = 0; i < f.length; i++) {
        if (f.text[i] < '0' || f.text[i] > '9')
            return -1;
        n = 10 * n + (f.text[i] - '0');
    }
    return n;
}

/* ---- the site */

struct site {
    int people, locations, doors;
    uint8_t origin[MOST_DOORS], destination[MOST_DOORS];
    int8_t exit[MOST_LOCATIONS];    /* -1: none */
    uint32_t rights[MOST_PEOPLE];   /* a bit for each location; everybody has that of 0 */
};

static bool may_be(const struct site *s, int person, int location)
{
    return s->rights[person] >> location & 1;
}

static bool counts_fit(int people, int locations)
{
    return 1 <= people && people <= MOST_PEOPLE && 2 <= locations && locations <= MOST_LOCATIONS;
}

static void begin_site(struct site *s, int people, int locations)
{
    s->people = people;
    s->locations = locations;
    s->doors = 0;
    memset(s->exit, -1, sizeof s->exit);
    for (int p = 0; p < MOST_PEOPLE; p++)
        s->rights[p] = 1;
}

static int take_door(struct site *s, int o, int t)
{
    if (o >= s->locations || t >= s->locations || o == t || s->doors == MOST_DOORS)
        return OUT_OF_RANGE;
    s->origin[s->doors] = o;
    s->destination[s->doors++] = t;
    return DONE;
}

static int take_exit(struct site *s, int l, int m)
{
    if (l < 1 || l >= s->locations || m >= s->locations)
        return OUT_OF_RANGE;
    if (s->exit[l] >= 0)
        return TWICE;
    s->exit[l] = m;
    return DONE;
}

static int take_right(struct site *s, int p, int l)
{
    if (p >= s->people || l < 1 || l >= s->locations)
        return OUT_OF_RANGE;
    if (may_be(s, p, l))
        return TWICE;
    s->rights[p] |= UINT32_C(1) << l;
    return DONE;
}

/* A data row; the first one is the site's counts. */
static int take_row(struct site *s, const struct row *row, bool first)
{
    if (row->count != 3)
        return BAD_FORM;
    struct field kind = row->field[0];
    int a = number_of(row->field[1]), b = number_of(row->field[2]);
    bool is_site = IS_WORD(kind, "site"), is_door = IS_WORD(kind, "door"), is_exit = IS_WORD(kind, "exit");
    if (a < 0 || b < 0 || !(is_site || is_door || is_exit || IS_WORD(kind, "right")))
        return BAD_FORM;
    if (first && !is_site)
        return NO_SITE_ROW;
    if (is_site) {
        if (!counts_fit(a, b))
            return OUT_OF_RANGE;
        if (!first)
            return TWICE;
        begin_site(s, a, b);
        return DONE;
    }
    return is_door ? take_door(s, a, b) : is_exit ? take_exit(s, a, b) : take_right(s, a, b);
}

static bool reaches_outside(const struct site *s, int l)
{
    for (int left = s->locations; l != 0 && left > 0; left--)
        l = s->exit[l];
    return l == 0;
}

static bool has_door(const struct site *s, int o, int t)
{
    for (int d = 0; d < s->doors; d++)
        if (s->origin[d] == o && s->destination[d] == t)
            return true;
    return false;
}

static bool can_enter(const struct site *s, int person)
{
    for (int d = 0; d < s->doors; d++)
        if (s->origin[d] == 0 && may_be(s, person, s->destination[d]))
            return true;
    return false;
}

static int whole_sheet_rules(const struct site *s)
{
    for (int l = 1; l < s->locations; l++)
        if (s->exit[l] < 0)
            return NO_EXIT;
    for (int l = 1; l < s->locations; l++)
        if (!reaches_outside(s, l))
            return NO_WAY_OUT;
    for (int l = 1; l < s->locations; l++)
        if (!has_door(s, l, s->exit[l]))
            return NO_DOOR;
    for (int p = 0; p < s->people; p++)
        for (int l = 1; l < s->locations; l++)
            if (may_be(s, p, l) && !may_be(s, p, s->exit[l]))
                return LOCKED_IN;
    for (int p = 0; p < s->people; p++)
        if (!can_enter(s, p))
            return LOCKED_OUT;
    return DONE;
}

static int read_site(const char *sheet, size_t length, struct site *s)
{
    if (length > LONGEST_SHEET)
        return TOO_LONG;
    struct reader r = {sheet, sheet + length};
    struct row row;
    if (cut_row(&r, &row) != CUT || row.count != 3 || !IS_WORD(row.field[0], "kind") || !IS_WORD(row.field[1], "a") ||
        !IS_WORD(row.field[2], "b"))
        return BAD_FORM;
    bool first = true;
    for (;; first = false) {
        enum cut cut = cut_row(&r, &row);
        if (cut == SHEET_ENDS)
            break;
        int number = cut == BROKEN ? BAD_FORM : take_row(s, &row, first);
        if (number != DONE)
            return number;
    }
    return first ? NO_SITE_ROW : whole_sheet_rules(s);
}

/* ---- the record and its steps */

struct door {
    uint8_t phase, person;
    uint16_t countdown;
};

struct panel {
    uint8_t place[MOST_PEOPLE];
    uint8_t granted[MOST_PEOPLE]; /* the door that is granted to a person, counted from 1; 0: none */
    struct door door[MOST_DOORS];
};

/* Why a card is denied, 0 if it isn't; and with reason 3 the door that is granted to the person, else 0. */
struct denial {
    int reason, held;
};

static const struct denial NONE = {0, 0};

static struct denial denial_of(const struct site *s, const struct panel *p, int door, int person)
{
    if (p->place[person] != s->origin[door])
        return (struct denial){1, 0};
    if (!may_be(s, person, s->destination[door]))
        return (struct denial){2, 0};
    return p->granted[person] ? (struct denial){3, p->granted[person] - 1} : NONE;
}

static void put(struct door *d, int phase, int person, int countdown)
{
    d->phase = phase;
    d->person = person;
    d->countdown = countdown;
}

static void tick(struct door *d)
{
    if ((d->phase == GREEN || d->phase == RED) && --d->countdown == 0)
        d->phase = d->phase == GREEN ? EXPIRED : DIMMED;
}

static struct denial decide(const struct site *s, struct panel *p, int door)
{
    struct door *d = &p->door[door];
    struct denial denial = denial_of(s, p, door, d->person);
    if (denial.reason) {
        put(d, DENIED, 0, 0);
    } else {
        p->granted[d->person] = door + 1;
        d->phase = GRANTED;
    }
    return denial;
}

/* Whether a door in this phase takes the step. */
static bool is_allowed(enum step step, int phase)
{
    switch (step) {
    case CARD: return phase == FREE;
    case DECIDE: return phase == READ;
    case GREEN_ON: return phase == GRANTED;
    case RED_ON: return phase == DENIED;
    case WALK: return phase == GREEN;
    case TICK: return true;
    case PASSED: return phase == WALKED;
    case LAPSED: return phase == EXPIRED;
    case DARK: return phase == DIMMED;
    default: return phase == CLOSED;
    }
}

/* Does a step that is allowed, and tells a denial. */
static struct denial act(const struct site *s, struct panel *p, enum step step, int door, int person)
{
    struct door *d = &p->door[door];
    switch (step) {
    case CARD: put(d, READ, person, 0); break;
    case DECIDE: return decide(s, p, door);
    case GREEN_ON: put(d, GREEN, d->person, GREEN_TICKS); break;
    case RED_ON: put(d, RED, 0, RED_TICKS); break;
    case WALK: put(d, WALKED, d->person, 0); break;
    case TICK: tick(d); break;
    case PASSED: p->place[d->person] = s->destination[door]; /* fall through */
    case LAPSED: p->granted[d->person] = 0; /* fall through */
    case DARK: put(d, CLOSED, 0, 0); break;
    default: put(d, FREE, 0, 0); break;
    }
    return NONE;
}

/* ---- the text */

struct text {
    char *at;
};

static void put_number(struct text *t, unsigned n, char mark)
{
    char digits[10];
    int k = 0;
    do
        digits[k++] = '0' + n % 10;
    while ((n /= 10) != 0);
    while (k > 0)
        *t->at++ = digits[--k];
    *t->at++ = mark;
}

static void put_row(struct text *t, int row, int answer, int phase, struct denial denial)
{
    put_number(t, row, ',');
    put_number(t, answer, ',');
    put_number(t, phase, ',');
    put_number(t, denial.reason, ',');
    put_number(t, denial.held, '\r');
    *t->at++ = '\n';
}

static enum step step_of(struct field f)
{
    static const struct {
        const char *name;
        size_t length;
    } steps[] = {{"card", 4}, {"decide", 6}, {"green", 5}, {"red", 3}, {"walk", 4}, {"tick", 4}, {"passed", 6}, {"lapsed", 6},
                 {"dark", 4}, {"ack", 3}};
    int step = CARD;
    while (step < NO_STEP && !is_word(f, steps[step].name, steps[step].length))
        step++;
    return step;
}

/* Runs a data row and prints its answer; whether it is of good form. */
static bool run_row(const struct site *s, struct panel *p, const struct row *row, int n, struct text *t)
{
    if (row->count != 3)
        return false;
    enum step step = step_of(row->field[0]);
    int door = number_of(row->field[1]);
    int person = step == CARD ? number_of(row->field[2]) : row->field[2].length == 0 ? 0 : -1;
    if (step == NO_STEP || door < 0 || person < 0)
        return false;
    if (door >= s->doors || (step == CARD && person >= s->people)) {
        put_row(t, n, NO_SUCH, 0, NONE);
    } else if (!is_allowed(step, p->door[door].phase)) {
        put_row(t, n, NOT_ALLOWED, p->door[door].phase, NONE);
    } else {
        struct denial denial = act(s, p, step, door, person);
        put_row(t, n, DONE, p->door[door].phase, denial);
    }
    return true;
}

#ifndef LIVE
static void run_steps(const struct site *s, const char *sheet, size_t length, struct text *t)
{
    struct reader r = {sheet, sheet + length};
    struct row row;
    if (length > LONGEST_SHEET) {
        put_row(t, 0, TOO_LONG, 0, NONE);
        return;
    }
    if (cut_row(&r, &row) != CUT || row.count != 3 || !IS_WORD(row.field[0], "step") || !IS_WORD(row.field[1], "door") ||
        !IS_WORD(row.field[2], "person")) {
        put_row(t, 0, BAD_FORM, 0, NONE);
        return;
    }
    struct panel p = {0};
    for (int n = 1;; n++) {
        enum cut cut = cut_row(&r, &row);
        if (cut == SHEET_ENDS)
            return;
        if (cut == BROKEN || !run_row(s, &p, &row, n, t)) {
            put_row(t, n, BAD_FORM, 0, NONE);
            return;
        }
    }
}

static size_t panel_text(const char *site, size_t site_length, const char *steps, size_t steps_length, char *out)
{
    static const char header[] = "row,answer,phase,reason,held\r\n";
    struct text t = {out};
    struct site s;
    memcpy(t.at, header, sizeof header - 1);
    t.at += sizeof header - 1;
    int number = read_site(site, site_length, &s);
    if (number != DONE)
        put_row(&t, 0, number, 0, NONE);
    else
        run_steps(&s, steps, steps_length, &t);
    return t.at - out;
}
#endif

static size_t read_sheet(const char *name, char *sheet)
{
    FILE *file = fopen(name, "rb");
    if (!file)
        return 0;
    size_t length = fread(sheet, 1, LONGEST_SHEET + 1, file);
    fclose(file);
    return length;
}

#ifdef LIVE
/* ---- the panel's own loop: rows from standard input, each answered before more is read */

enum { LONGEST_ROW = 4096 };

/* Whether a row stands at the front of what is held with its end, so that nothing behind can alter it; at the end of the input any row. */
static bool is_whole(enum cut cut, const struct reader *r, bool ended)
{
    return cut == CUT && (ended || r->at < r->end || r->at[-1] == '\n');
}

/* Prints what is answered to the row at the front of what is held; whether another row may follow. */
static bool answer_row(const struct site *s, struct panel *p, enum cut cut, const struct row *row, int n)
{
    char out[64];
    struct text t = {out};
    bool good = cut == CUT && (n == 0 ? row->count == 3 && IS_WORD(row->field[0], "step") && IS_WORD(row->field[1], "door") && IS_WORD(row->field[2], "person") : run_row(s, p, row, n, &t));
    if (!good)
        put_row(&t, n, BAD_FORM, 0, NONE);
    size_t length = t.at - out;
    return write(STDOUT_FILENO, out, length) == (ssize_t)length && good;
}

static int answer_rows(const struct site *s)
{
    static char held[LONGEST_ROW];
    static const char header[] = "row,answer,phase,reason,held\r\n";
    struct panel p = {0};
    size_t length = 0;
    bool ended = false;
    if (write(STDOUT_FILENO, header, sizeof header - 1) != sizeof header - 1)
        return 1;
    for (int n = 0;;) {
        struct reader r = {held, held + length};
        struct row row;
        enum cut cut = cut_row(&r, &row);
        if (ended && n > 0 && length == 0)
            return 0;
        if (is_whole(cut, &r, ended) || ended || length == LONGEST_ROW) {
            if (!answer_row(s, &p, cut, &row, n++))
                return 0;
            length = r.end - r.at;
            memmove(held, r.at, length);
            continue;
        }
        ssize_t got = read(STDIN_FILENO, held + length, LONGEST_ROW - length);
        if (got < 0)
            return 1;
        ended = got == 0;
        length += got;
    }
}

int main(void)
{
    static char site[LONGEST_SHEET + 1];
    size_t length = read_sheet("site.csv", site);
    struct site s;
    return read_site(site, length, &s) == DONE ? answer_rows(&s) : 1;
}
#else
int main(int argc, char **argv)
{
    static char site[LONGEST_SHEET + 1], steps[LONGEST_SHEET + 1], out[MOST_TEXT];
    size_t site_length = read_sheet("site.csv", site), steps_length = read_sheet("steps.csv", steps), length = 0;
    int rounds = argc > 1 ? atoi(argv[1]) : 1;
    for (int i = 0; i < rounds; i++) {
        length = panel_text(site, site_length, steps, steps_length, out);
        /* as if somebody had read the text and altered the sheets, so that each round is worked out */
        __asm__ volatile("" : : "r"(site), "r"(steps), "r"(out) : "memory");
    }
    return fwrite(out, 1, length, stdout) == length ? 0 : 1;
}
#endif
