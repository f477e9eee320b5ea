/* Tables: the tricks of each declarer in each denomination. */
#include <string.h>

#include "inside.h"

/* A call's work. A task is one denomination of one deal. */
struct table_work {
    const struct ddTableDeal *deals;
    struct ddTableResults *results;
    int strains[DDS_STRAINS];
    int strain_count;
    int codes[MOST_TASKS];
};

static void solve_row(void *given, int task)
{
    struct table_work *work = given;
    int table = task / work->strain_count, strain = work->strains[task % work->strain_count];
    struct ddfarm_row row = {{0}};
    work->codes[task] = ddfarm_table_row(&work->deals[table], strain, &row);
    memcpy(work->results[table].resTable[strain], row.tricks, sizeof row.tricks);
}

/* No-trump takes longest on average, so it is searched first. */
static void choose_strains(struct table_work *work, const int filter[DDS_STRAINS])
{
    for (int strain = DDS_STRAINS - 1; strain >= 0; strain--)
        if (!filter[strain])
            work->strains[work->strain_count++] = strain;
}

static int solve_tables(struct table_work *work, int count)
{
    run_tasks(count * work->strain_count, solve_row, work);
    return first_fault(work->codes, count * work->strain_count);
}

int CalcDDtable(struct ddTableDeal tableDeal, struct ddTableResults *tablep)
{
    static const int ALL[DDS_STRAINS];
    if (!tablep)
        return RETURN_UNKNOWN_FAULT;
    struct table_work work = {.deals = &tableDeal, .results = tablep};
    choose_strains(&work, ALL);
    return solve_tables(&work, 1);
}

static int read_table_deal(const char cards[80], struct ddTableDeal *deal)
{
    struct ddfarm_text text;
    memcpy(text.text, cards, sizeof text.text);
    return ddfarm_read_hands(&text, deal);
}

int CalcDDtablePBN(struct ddTableDealPBN tableDealPBN, struct ddTableResults *tablep)
{
    struct ddTableDeal deal;
    if (!tablep)
        return RETURN_UNKNOWN_FAULT;
    memset(tablep, 0, sizeof *tablep);
    int code = read_table_deal(tableDealPBN.cards, &deal);
    return code == RETURN_NO_FAULT ? CalcDDtable(deal, tablep) : code;
}

static int fill_pars(const struct ddTablesRes *tables, int count, int vulnerable, struct allParResults *pars)
{
    int codes[MAXNOOFTABLES];
    for (int table = 0; table < count; table++) {
        struct ddTableResults results = tables->results[table];
        codes[table] = Par(&results, &pars->presults[table], vulnerable);
    }
    return first_fault(codes, count);
}

/* If all five denominations are asked, there are at most MAXNOOFTABLES tables, so each has a place for its par. */
int CalcAllTables(struct ddTableDeals *dealsp, int mode, int trumpFilter[DDS_STRAINS], struct ddTablesRes *resp,
                  struct allParResults *presp)
{
    if (!dealsp || !trumpFilter || !resp)
        return RETURN_UNKNOWN_FAULT;
    struct table_work work = {.deals = dealsp->deals, .results = resp->results};
    int count = dealsp->noOfTables < 0 ? 0 : dealsp->noOfTables;
    resp->noOfBoards = 0;
    choose_strains(&work, trumpFilter);
    if (work.strain_count == 0)
        return RETURN_NO_SUIT;
    if (count > MOST_TASKS / work.strain_count)
        return RETURN_TOO_MANY_TABLES;
    int with_pars = mode >= 0 && mode <= 3 && work.strain_count == DDS_STRAINS;
    if (with_pars && !presp)
        return RETURN_UNKNOWN_FAULT;
    if (with_pars)
        memset(presp->presults, 0, (size_t)count * sizeof presp->presults[0]);
    int code = solve_tables(&work, count);
    if (code != RETURN_NO_FAULT)
        return code;
    resp->noOfBoards = DDS_HANDS * work.strain_count * count;
    return with_pars ? fill_pars(resp, count, mode, presp) : RETURN_NO_FAULT;
}

/* What a call has to leave when no deal is solved: zeros, except in denominations that are left out. */
static void clear_tables(struct ddTablesRes *tables, int count, const int filter[DDS_STRAINS])
{
    tables->noOfBoards = 0;
    for (int table = 0; table < count; table++)
        for (int strain = 0; strain < DDS_STRAINS; strain++)
            if (!filter[strain])
                memset(tables->results[table].resTable[strain], 0, sizeof tables->results[table].resTable[strain]);
}

int CalcAllTablesPBN(struct ddTableDealsPBN *dealsp, int mode, int trumpFilter[DDS_STRAINS], struct ddTablesRes *resp,
                     struct allParResults *presp)
{
    struct ddTableDeals deals;
    if (!dealsp || !trumpFilter || !resp)
        return RETURN_UNKNOWN_FAULT;
    deals.noOfTables = dealsp->noOfTables;
    resp->noOfBoards = 0;
    if (deals.noOfTables > MOST_TASKS)
        return RETURN_TOO_MANY_TABLES;
    for (int table = 0; table < deals.noOfTables; table++) {
        int code = read_table_deal(dealsp->deals[table].cards, &deals.deals[table]);
        if (code == RETURN_NO_FAULT)
            continue;
        clear_tables(resp, deals.noOfTables, trumpFilter);
        return code;
    }
    return CalcAllTables(&deals, mode, trumpFilter, resp, presp);
}
