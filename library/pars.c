/* Pars, in the orders and shapes of DDS's functions. The scores and contracts are those of ddfarm_par. */
#include <stdio.h>
#include <string.h>

#include "inside.h"

/* A place in an order of contracts: a lower one comes first. */
typedef int contract_place(const struct contractType *contract);

/* From no-trump down, as DealerParBin and SidesParBin have them. */
static int place_by_denomination(const struct contractType *contract)
{
    return contract->denom;
}

/* As DealerPar has them: contracts that are made from the one of most tricks down, sacrifices from clubs up. */
static int place_by_tricks(const struct contractType *contract)
{
    if (contract->underTricks > 0)
        return -contract->denom;
    return contract->denom - DDS_STRAINS * (contract->level + contract->overTricks);
}

static void sort_contracts(struct parResultsMaster *par, contract_place *place)
{
    for (int i = 1; i < par->number; i++) {
        struct contractType contract = par->contracts[i];
        int to = i;
        for (; to > 0 && place(&par->contracts[to - 1]) > place(&contract); to--)
            par->contracts[to] = par->contracts[to - 1];
        par->contracts[to] = contract;
    }
}

int DealerParBin(struct ddTableResults *tablep, struct parResultsMaster *presp, int dealer, int vulnerable)
{
    if (!presp)
        return RETURN_UNKNOWN_FAULT;
    memset(presp, 0, sizeof *presp);
    if (!tablep)
        return RETURN_UNKNOWN_FAULT;
    int code = ddfarm_par(tablep, dealer, vulnerable, presp);
    sort_contracts(presp, place_by_denomination);
    return code;
}

/* The texts of contracts in their order, or "pass" if nobody bids. */
static void write_dealer_texts(const struct parResultsMaster *par, const char *pass, struct parResultsDealer *texts)
{
    texts->score = par->score;
    texts->number = par->number;
    for (int i = 0; i < par->number; i++)
        write_dealer_contract(&par->contracts[i], texts->contracts[i]);
    if (par->score == 0)
        strcpy(texts->contracts[0], pass);
}

int DealerPar(struct ddTableResults *tablep, struct parResultsDealer *presp, int dealer, int vulnerable)
{
    struct parResultsMaster par;
    if (!presp)
        return RETURN_UNKNOWN_FAULT;
    memset(presp, 0, sizeof *presp);
    int code = DealerParBin(tablep, &par, dealer, vulnerable);
    if (code != RETURN_NO_FAULT)
        return code;
    sort_contracts(&par, place_by_tricks);
    write_dealer_texts(&par, "pass", presp);
    return RETURN_NO_FAULT;
}

/* North stands for the first side, East for the second. */
int SidesParBin(struct ddTableResults *tablep, struct parResultsMaster sidesRes[2], int vulnerable)
{
    if (!sidesRes)
        return RETURN_UNKNOWN_FAULT;
    memset(sidesRes, 0, 2 * sizeof sidesRes[0]);
    for (int side = 0; side < 2; side++) {
        int code = DealerParBin(tablep, &sidesRes[side], side, vulnerable);
        if (code != RETURN_NO_FAULT) {
            memset(sidesRes, 0, 2 * sizeof sidesRes[0]);
            return code;
        }
    }
    sidesRes[1].score = -sidesRes[1].score;
    return RETURN_NO_FAULT;
}

int SidesPar(struct ddTableResults *tablep, struct parResultsDealer sidesRes[2], int vulnerable)
{
    struct parResultsMaster pars[2];
    if (!sidesRes)
        return RETURN_UNKNOWN_FAULT;
    memset(sidesRes, 0, 2 * sizeof sidesRes[0]);
    int code = SidesParBin(tablep, pars, vulnerable);
    if (code != RETURN_NO_FAULT)
        return code;
    for (int side = 0; side < 2; side++)
        write_dealer_texts(&pars[side], "0N-N", &sidesRes[side]);
    return RETURN_NO_FAULT;
}

int Par(struct ddTableResults *tablep, struct parResults *presp, int vulnerable)
{
    static const char *const SIDES[2] = {"NS", "EW"};
    struct parResultsMaster pars[2];
    if (!presp)
        return RETURN_UNKNOWN_FAULT;
    memset(presp, 0, sizeof *presp);
    int code = SidesParBin(tablep, pars, vulnerable);
    if (code != RETURN_NO_FAULT)
        return code;
    for (int side = 0; side < 2; side++) {
        snprintf(presp->parScore[side], sizeof presp->parScore[side], "%s %d", SIDES[side], pars[side].score);
        write_par_contracts(&pars[side], SIDES[side], presp->parContractsString[side]);
    }
    return RETURN_NO_FAULT;
}

int CalcPar(struct ddTableDeal tableDeal, int vulnerable, struct ddTableResults *tablep, struct parResults *presp)
{
    if (!tablep || !presp)
        return RETURN_UNKNOWN_FAULT;
    memset(presp, 0, sizeof *presp);
    int code = CalcDDtable(tableDeal, tablep);
    return code == RETURN_NO_FAULT ? Par(tablep, presp, vulnerable) : code;
}

int CalcParPBN(struct ddTableDealPBN tableDealPBN, struct ddTableResults *tablep, int vulnerable,
               struct parResults *presp)
{
    if (!tablep || !presp)
        return RETURN_UNKNOWN_FAULT;
    memset(presp, 0, sizeof *presp);
    int code = CalcDDtablePBN(tableDealPBN, tablep);
    return code == RETURN_NO_FAULT ? Par(tablep, presp, vulnerable) : code;
}
