/* The texts of pars. */
#include <stdarg.h>
#include <stdio.h>
#include <string.h>

#include "inside.h"

static const char *const SEATS[6] = {"N", "E", "S", "W", "NS", "EW"};
static const char DENOMINATIONS[DDS_STRAINS + 1] = "NSHDC";

/* A text of at most 127 bytes, to which others are added. What does not fit is left out. */
struct par_text {
    char *text;
    size_t length;
};

enum { TEXT_SIZE = 128 };

static void add(struct par_text *to, const char *format, ...)
{
    va_list values;
    va_start(values, format);
    int count = vsnprintf(to->text + to->length, TEXT_SIZE - to->length, format, values);
    va_end(values);
    to->length += count < 0 ? 0 : (size_t)count;
    if (to->length > TEXT_SIZE - 1)
        to->length = TEXT_SIZE - 1;
}

void write_dealer_contract(const struct contractType *contract, char text[10])
{
    int under = contract->underTricks, over = contract->overTricks;
    int length = snprintf(text, 10, "%d%c%s-%s", contract->level, DENOMINATIONS[contract->denom], under > 0 ? "*" : "",
                          SEATS[contract->seats]);
    if (under > 0 || over > 0)
        snprintf(text + length, 10 - (size_t)length, "%+d", under > 0 ? -under : over);
}

/* Every level from the lowest to the tricks taken reaches par. */
static void add_levels(struct par_text *to, const struct contractType *contract)
{
    for (int over = 0; over <= contract->overTricks; over++)
        add(to, "%d", contract->level + over);
}

void write_par_contracts(const struct parResultsMaster *par, const char *side, char text[128])
{
    struct par_text to = {.text = text};
    add(&to, "%s:", side);
    for (int i = 0; par->score != 0 && i < par->number; i++) {
        const struct contractType *contract = &par->contracts[i];
        add(&to, "%s%s ", i == 0 ? "" : ",", SEATS[contract->seats]);
        add_levels(&to, contract);
        add(&to, "%c%s", DENOMINATIONS[contract->denom], contract->underTricks > 0 ? "x" : "");
    }
}

static bool is_between(int number, int least, int most)
{
    return least <= number && number <= most;
}

/* Whether the text of a par has room. A negative number of tricks is none, as DDS has it. */
static bool is_par(const struct parResultsMaster *par)
{
    if (!is_between(par->number, 0, 10) || !is_between(par->score, -9999, 9999))
        return false;
    for (int i = 0; i < par->number; i++) {
        const struct contractType *contract = &par->contracts[i];
        if (!is_between(contract->level, 0, 7) || !is_between(contract->denom, 0, 4) ||
            !is_between(contract->seats, 0, 5) || contract->underTricks > 13 || contract->overTricks > 13)
            return false;
    }
    return true;
}

/* Writes a par as "Par -110: EW 2S EW 2D+1". `no_trump` is the word for it. */
static void write_par(const struct parResultsMaster *par, const char *no_trump, char text[128])
{
    struct par_text to = {.text = text};
    add(&to, "Par %d: ", par->score);
    for (int i = 0; i < par->number; i++) {
        const struct contractType *contract = &par->contracts[i];
        add(&to, "%s%s %d", i == 0 ? "" : " ", SEATS[contract->seats], contract->level);
        if (contract->denom == 0)
            add(&to, "%s", no_trump);
        else
            add(&to, "%c", DENOMINATIONS[contract->denom]);
        if (contract->underTricks > 0)
            add(&to, "x-%d", contract->underTricks);
        else if (contract->overTricks > 0)
            add(&to, "+%d", contract->overTricks);
    }
}

int ConvertToDealerTextFormat(struct parResultsMaster *pres, char *resp)
{
    if (!resp)
        return RETURN_UNKNOWN_FAULT;
    resp[0] = '\0';
    if (!pres || !is_par(pres))
        return RETURN_UNKNOWN_FAULT;
    write_par(pres, "N", resp);
    return RETURN_NO_FAULT;
}

static bool are_same(const struct parResultsMaster *one, const struct parResultsMaster *other)
{
    if (one->score != -other->score || one->number != other->number)
        return false;
    for (int i = 0; i < one->number; i++) {
        const struct contractType *left = &one->contracts[i], *right = &other->contracts[i];
        if (left->denom != right->denom || left->level != right->level || left->seats != right->seats ||
            left->overTricks != right->overTricks || left->underTricks != right->underTricks)
            return false;
    }
    return true;
}

int ConvertToSidesTextFormat(struct parResultsMaster *pres, struct parTextResults *resp)
{
    if (!resp)
        return RETURN_UNKNOWN_FAULT;
    memset(resp, 0, sizeof *resp);
    if (!pres || !is_par(&pres[0]) || (pres[0].score != 0 && !is_par(&pres[1])))
        return RETURN_UNKNOWN_FAULT;
    resp->equal = pres[0].score == 0 || are_same(&pres[0], &pres[1]);
    if (pres[0].score == 0) {
        strcpy(resp->parText[0], "Par 0");
        return RETURN_NO_FAULT;
    }
    write_par(&pres[0], "NT", resp->parText[0]);
    write_par(&pres[1], "NT", resp->parText[1]);
    return RETURN_NO_FAULT;
}
