#include "rulecases.h"

#include <inttypes.h>
#include <stdbool.h>
#include <stdint.h>
#include <stdio.h>
#include <stdlib.h>
#include <string.h>

#include "casefile.h"
#include "command.h"
#include "tape.h"
#include "words.h"

/*
 * A row's text is commands. Before each of them may stand how many slots it comes after the one before: a number,
 * a distance, sums and differences of these; FAR where nothing is said. The first command is in slot 1, or in the
 * slot said.
 *
 * A bank is named by a digit or by a letter: b, o and p stand for different banks, and the row for every choice of
 * them; x is the first number outside the geometry. `MRS!` has a wrong word.
 *
 * The bank reported is named likewise; m is the lowest that b, o and p stand for.
 */
struct row {
    enum { LAST_LEGAL, LAST_ILLEGAL, LAST_EARLY } last;
    unsigned rule; /* that the last command breaks; LAST_EARLY: one slot before the one said */
    char bank;
    const char *text;
    unsigned then_rule; /* LAST_EARLY: that it breaks in the slot said; 0: none */
    char then_bank;
};

#define LEGAL(text) {LAST_LEGAL, 0, '0', text, 0, '0'}
#define BREAKS(rule, bank, text) {LAST_ILLEGAL, rule, bank, text, 0, '0'}
#define EARLY(rule, bank, text) {LAST_EARLY, rule, bank, text, 0, '0'}
#define EARLY_THEN(rule, bank, text, then_rule, then_bank) \
    {LAST_EARLY, rule, bank, text, then_rule, then_bank}

enum { FAR = 40 }; /* longer than any distance */

/* ---- One rule at a time. For distances with tRC above tRAS + tRP, and tRP above 2 ---- */

static const struct row rows[] = {
    /* Nothing sent yet. */
    LEGAL("DEAC"),
    LEGAL("REFR"),
    LEGAL("MRS"),
    LEGAL("DEAC 1 DEAC"),
    LEGAL("MRS 2 REFR"),
    LEGAL("MRS 2 ACTb"),
    LEGAL("65537 DEAC"),

    /* R2, by REFR and by MRS, before each command. */
    EARLY(2, '0', "MRS REFR tRFC ACTb"),
    EARLY_THEN(2, '0', "MRS REFR tRFC READb", 8, 'b'),
    EARLY_THEN(2, '0', "MRS REFR tRFC WRTb", 8, 'b'),
    EARLY_THEN(2, '0', "MRS REFR tRFC PREb", 11, 'b'),
    EARLY(2, '0', "REFR tRFC DEAC"),
    EARLY(2, '0', "REFR tRFC REFR"),
    EARLY(2, '0', "REFR tRFC MRS"),
    EARLY(2, '0', "MRS 2 REFR tRFC MRS"),
    EARLY(2, '0', "MRS 2 ACTb"),
    EARLY_THEN(2, '0', "MRS 2 READb", 8, 'b'),
    EARLY_THEN(2, '0', "MRS 2 WRTb", 8, 'b'),
    EARLY_THEN(2, '0', "MRS 2 PREb", 11, 'b'),
    EARLY(2, '0', "MRS 2 DEAC"),
    EARLY(2, '0', "MRS 2 REFR"),
    EARLY(2, '0', "MRS 2 MRS"),
    EARLY(2, '0', "REFR tRFC MRS 2 ACTb"),
    EARLY(2, '0', "MRS ACTb PREb MRS 2 ACTb"),
    BREAKS(2, '0', "MRS REFR 1 ACTb"),
    LEGAL("MRS REFR 65537 ACTb"),
    LEGAL("MRS 65537 ACTb"),

    /* R3 */
    BREAKS(3, '0', "ACTb"),
    BREAKS(3, '0', "65540 ACTb"),
    BREAKS(3, '0', "DEAC REFR ACTb"),

    /* R4 */
    BREAKS(4, 'b', "MRS ACTb ACTb"),
    BREAKS(4, 'b', "MRS ACTo ACTb ACTb"),
    BREAKS(4, 'b', "MRS ACTb ACTo ACTb"),
    BREAKS(4, 'b', "MRS ACTo ACTb PREo ACTb"),
    BREAKS(4, 'b', "MRS ACTb PREb ACTb ACTb"),
    BREAKS(4, 'b', "MRS ACTb DEAC ACTb ACTb"),
    BREAKS(4, 'b', "MRS ACTb READb ACTb"),
    BREAKS(4, 'b', "MRS ACTb WRTb ACTb"),
    BREAKS(4, 'b', "MRS ACTb 65537 ACTb"),
    LEGAL("MRS ACTb PREb ACTb"),
    LEGAL("MRS ACTb DEAC ACTb"),
    LEGAL("MRS ACTo ACTb DEAC ACTb ACTo"),

    /* R5, by PRE of its bank and by any DEAC; PRE of another bank does not count. */
    EARLY(5, 'b', "MRS ACTb PREb tRP ACTb"),
    EARLY(5, 'b', "MRS ACTb DEAC tRP ACTb"),
    EARLY(5, 'b', "MRS ACTo DEAC tRP ACTb"),
    EARLY(5, 'b', "MRS DEAC tRP ACTb"),
    EARLY(5, 'b', "MRS ACTb PREb DEAC tRP ACTb"),
    EARLY(5, 'b', "MRS ACTb ACTo PREb 1 PREo tRP-1 ACTb"),
    EARLY(5, 'b', "MRS ACTb PREb 1 DEAC tRP ACTb"),
    LEGAL("MRS ACTo PREo 1 ACTb"),
    LEGAL("MRS ACTb ACTo PREb PREo 1 ACTb"),
    LEGAL("MRS ACTb PREb 65537 ACTb"),
    LEGAL("MRS ACTb DEAC 65537 ACTb"),

    /* R6 */
    EARLY(6, 'b', "MRS ACTb tRAS PREb tRC-tRAS ACTb"),
    EARLY(6, 'b', "MRS ACTb tRAS DEAC tRC-tRAS ACTb"),
    EARLY(6, 'b', "MRS ACTo ACTb tRAS PREb tRC-tRAS ACTb"),
    EARLY(6, 'b', "MRS ACTb PREb ACTb tRAS PREb tRC-tRAS ACTb"),
    LEGAL("MRS ACTb PREb 65536-FAR+1 ACTb"),

    /* R7, by each other bank. */
    EARLY(7, 'b', "MRS ACTo tRRD ACTb"),
    EARLY(7, 'b', "MRS ACTo ACTp tRRD ACTb"),
    EARLY(7, 'b', "MRS ACTo tRRD ACTp tRRD ACTb"),
    EARLY(7, 'b', "MRS ACTb PREb ACTo tRRD ACTb"),
    LEGAL("MRS ACTo 65537 ACTb"),

    /* R8 */
    BREAKS(8, 'b', "READb"),
    BREAKS(8, 'b', "WRTb"),
    BREAKS(8, 'b', "MRS READb"),
    BREAKS(8, 'b', "MRS WRTb"),
    BREAKS(8, 'b', "MRS ACTo READb"),
    BREAKS(8, 'b', "MRS ACTo WRTb"),
    BREAKS(8, 'b', "MRS ACTb PREb READb"),
    BREAKS(8, 'b', "MRS ACTb PREb WRTb"),
    BREAKS(8, 'b', "MRS ACTb DEAC READb"),
    BREAKS(8, 'b', "MRS ACTb DEAC WRTb"),
    BREAKS(8, 'b', "MRS ACTb ACTo PREb READb"),
    BREAKS(8, 'b', "MRS ACTb ACTo PREb WRTb"),
    LEGAL("MRS ACTb ACTo PREo READb"),
    LEGAL("MRS ACTb ACTo PREo WRTb"),

    /* R9 */
    EARLY(9, 'b', "MRS ACTb tRCD READb"),
    EARLY(9, 'b', "MRS ACTb tRCD WRTb"),
    EARLY(9, 'b', "MRS ACTo ACTb tRCD READb"),
    EARLY(9, 'b', "MRS ACTo ACTb tRCD WRTb"),
    EARLY(9, 'b', "MRS ACTb PREb ACTb tRCD READb"),
    EARLY(9, 'b', "MRS ACTb PREb ACTb tRCD WRTb"),
    LEGAL("MRS ACTb ACTo 1 READb"),
    LEGAL("MRS ACTb ACTo 1 WRTb"),
    LEGAL("MRS ACTb 65537 READb"),
    LEGAL("MRS ACTb 65537 WRTb"),

    /* R10, by a READ of any bank. */
    EARLY(10, '0', "MRS ACTb READb CL+2 WRTb"),
    EARLY(10, '0', "MRS ACTo ACTb READo CL+2 WRTb"),
    EARLY(10, '0', "MRS ACTo ACTb READo 1 PREo CL+1 WRTb"),
    EARLY(10, '0', "MRS ACTb READb 1 READb CL+2 WRTb"),
    EARLY(10, '0', "MRS ACTo ACTb READo 1 READb CL+2 WRTb"),
    EARLY(10, '0', "MRS ACTo ACTb READb 1 READo CL+2 WRTb"),
    LEGAL("MRS ACTb READb 1 READb"),
    LEGAL("MRS ACTb WRTb 1 READb"),
    LEGAL("MRS ACTb WRTb 1 WRTb"),
    LEGAL("MRS ACTb READb 1 PREb"),
    LEGAL("MRS ACTb READb 1 DEAC"),
    LEGAL("MRS ACTb READb 65537 WRTb"),

    /* R11 */
    BREAKS(11, 'b', "PREb"),
    BREAKS(11, 'b', "MRS PREb"),
    BREAKS(11, 'b', "MRS ACTo PREb"),
    BREAKS(11, 'b', "MRS ACTb PREb PREb"),
    BREAKS(11, 'b', "MRS ACTb DEAC PREb"),
    BREAKS(11, 'b', "MRS ACTb PREb 1 PREb"),
    LEGAL("MRS ACTb PREb 1 DEAC"),

    /* R12, for PRE in its bank alone, for DEAC in every open one. */
    EARLY(12, 'b', "MRS ACTb tRAS PREb"),
    EARLY(12, 'b', "MRS ACTb tRAS DEAC"),
    EARLY(12, 'b', "MRS ACTo ACTb tRAS PREb"),
    EARLY(12, 'b', "MRS ACTo ACTb tRAS DEAC"),
    EARLY(12, 'b', "MRS ACTb PREb ACTb tRAS PREb"),
    EARLY(12, 'b', "MRS ACTb DEAC ACTb tRAS DEAC"),
    EARLY(12, 'b', "MRS ACTo PREo ACTb tRAS DEAC"),
    EARLY(12, 'b', "MRS ACTo ACTp ACTb tRAS DEAC"),
    LEGAL("MRS ACTb ACTo 1 PREb"),
    LEGAL("MRS ACTb 65537 PREb"),
    LEGAL("MRS ACTb 65537 DEAC"),

    /* R13 likewise; the bank written need not be the last one used. */
    EARLY(13, 'b', "MRS ACTb WRTb tWR PREb"),
    EARLY(13, 'b', "MRS ACTb WRTb tWR DEAC"),
    EARLY(13, 'b', "MRS ACTo ACTb WRTb tWR DEAC"),
    EARLY(13, 'b', "MRS ACTo ACTb WRTb 1 READo tWR-1 DEAC"),
    EARLY(13, 'b', "MRS ACTo ACTb WRTb 1 READo tWR-1 PREb"),
    EARLY(13, 'b', "MRS ACTo ACTb WRTo WRTb tWR DEAC"),
    EARLY(13, 'b', "MRS ACTb WRTb 1 WRTb tWR PREb"),
    EARLY(13, 'b', "MRS ACTb WRTb PREb ACTb WRTb tWR DEAC"),
    LEGAL("MRS ACTb ACTo WRTo 1 PREb"),
    LEGAL("MRS ACTb WRTb 65537 PREb"),
    LEGAL("MRS ACTb WRTb 65537 DEAC"),

    /* R14 */
    BREAKS(14, 'b', "MRS ACTb REFR"),
    BREAKS(14, 'b', "MRS ACTb MRS"),
    BREAKS(14, 'b', "MRS ACTo ACTb PREo REFR"),
    BREAKS(14, 'b', "MRS ACTo ACTb PREo MRS"),
    BREAKS(14, 'b', "MRS ACTb DEAC ACTb REFR"),
    BREAKS(14, 'b', "MRS ACTb PREb ACTb MRS"),
    BREAKS(14, 'b', "MRS ACTb 65537 REFR"),
    LEGAL("MRS ACTb PREb REFR"),
    LEGAL("MRS ACTb DEAC MRS"),
    LEGAL("MRS ACTo ACTb DEAC REFR"),

    /* R15, by PRE of any bank and by DEAC. */
    EARLY(15, '0', "MRS ACTb PREb tRP REFR"),
    EARLY(15, '0', "MRS ACTb PREb tRP MRS"),
    EARLY(15, '0', "MRS ACTb DEAC tRP REFR"),
    EARLY(15, '0', "MRS ACTb DEAC tRP MRS"),
    EARLY(15, '0', "DEAC tRP REFR"),
    EARLY(15, '0', "DEAC tRP MRS"),
    EARLY(15, '0', "MRS ACTb ACTo PREb 1 PREo tRP REFR"),
    EARLY(15, '0', "MRS ACTb ACTo PREb 1 PREo tRP MRS"),
    EARLY(15, '0', "MRS ACTb PREb DEAC tRP REFR"),
    EARLY(15, '0', "MRS ACTb ACTo DEAC tRP MRS"),
    LEGAL("MRS ACTb PREb 65537 REFR"),
    LEGAL("MRS ACTb DEAC 65537 MRS"),

    /* R16, for REFR alone, in every bank. */
    EARLY(16, 'b', "MRS ACTb tRAS PREb tRC-tRAS REFR"),
    EARLY(16, 'b', "MRS ACTb tRAS DEAC tRC-tRAS REFR"),
    EARLY(16, 'b', "MRS ACTo PREo ACTb tRAS PREb tRC-tRAS REFR"),
    EARLY(16, 'b', "MRS ACTo ACTb tRAS DEAC tRC-tRAS REFR"),
    EARLY(16, 'b', "MRS ACTb PREb ACTb tRAS DEAC tRC-tRAS REFR"),
    LEGAL("MRS ACTb tRAS PREb tRP MRS"),
    LEGAL("MRS ACTb tRAS DEAC tRP MRS"),
    LEGAL("MRS ACTb PREb 65536-FAR+1 REFR"),

    /* R1; more of it below. */
    BREAKS(1, '0', "MRS!"),
    BREAKS(1, '0', "MRS ACTx"),
    BREAKS(1, '0', "MRS ACTb READx"),
    BREAKS(1, '0', "MRS ACTb WRTx"),
    BREAKS(1, '0', "MRS ACTb PREx"),
};

/* ---- Several rules or banks at once: the lowest rule, and in it the lowest bank. For unlike distances ---- */

static const struct row orders[] = {
    /* R1 before R2, R3, R8, R10, R11, R14 */
    BREAKS(1, '0', "REFR 1 MRS!"),
    BREAKS(1, '0', "MRS 1 ACTx"),
    BREAKS(1, '0', "ACTx"),
    BREAKS(1, '0', "MRS READx"),
    BREAKS(1, '0', "MRS ACTb READb 1 WRTx"),
    BREAKS(1, '0', "MRS PREx"),
    BREAKS(1, '0', "MRS ACTb MRS!"),
    /* R2 before R3, R8, R11 */
    BREAKS(2, '0', "REFR 1 ACTb"),
    BREAKS(2, '0', "REFR 1 READb"),
    BREAKS(2, '0', "REFR 1 PREb"),
    /* R3 before R5 */
    BREAKS(3, '0', "DEAC 1 ACTb"),
    /* R4 before R6, R7, both */
    BREAKS(4, 'b', "MRS ACTb 1 ACTb"),
    BREAKS(4, 'b', "MRS ACTb ACTo 1 ACTb"),
    BREAKS(4, 'b', "MRS ACTb tRRD ACTo 1 ACTb"),
    /* R5 before R6, R7 */
    BREAKS(5, 'b', "MRS ACTb tRAS PREb 1 ACTb"),
    BREAKS(5, 'b', "MRS ACTb PREb 1 ACTo 1 ACTb"),
    /* R6 before R7 */
    BREAKS(6, 'b', "MRS ACTb tRAS PREb 1 ACTo tRP-1 ACTb"),
    /* R8 before R10; R9 before R10 */
    BREAKS(8, 'b', "MRS ACTo READo 1 WRTb"),
    BREAKS(9, 'b', "MRS ACTo ACTb 1 READo 1 WRTb"),
    /* R12 before R13, in one bank and in two, whichever is lower */
    BREAKS(12, 'b', "MRS ACTb tRCD WRTb 1 PREb"),
    BREAKS(12, 'b', "MRS ACTb tRCD WRTb 1 DEAC"),
    BREAKS(12, 'o', "MRS ACTb ACTo 1 WRTb 1 DEAC"),
    BREAKS(13, 'b', "MRS ACTb ACTo tRAS-1 WRTb 1 DEAC"),
    BREAKS(12, 'p', "MRS ACTb ACTo ACTp 1 WRTb 1 WRTo 1 DEAC"),
    BREAKS(12, 'm', "MRS ACTb tRRD ACTo 1 DEAC"),
    BREAKS(13, 'm', "MRS ACTb ACTo WRTb 1 WRTo 1 DEAC"),
    BREAKS(13, 'm', "MRS ACTb ACTo ACTp WRTb 1 WRTo 1 WRTp 1 DEAC"),
    EARLY(13, 'o', "MRS ACTb ACTo WRTb 1 WRTo tWR DEAC"),
    EARLY(12, 'o', "MRS ACTb tRRD ACTo tRAS DEAC"),
    /* R14 of two banks and of three; before R15, R16, both */
    BREAKS(14, 'm', "MRS ACTb ACTo REFR"),
    BREAKS(14, 'm', "MRS ACTb ACTo MRS"),
    BREAKS(14, 'm', "MRS ACTb ACTo ACTp REFR"),
    BREAKS(14, 'm', "MRS ACTb ACTo ACTp MRS"),
    BREAKS(14, 'b', "MRS ACTb ACTo PREo 1 REFR"),
    BREAKS(14, 'b', "MRS ACTb ACTo PREo 1 MRS"),
    BREAKS(14, 'b', "MRS ACTb 1 REFR"),
    BREAKS(14, 'b', "MRS ACTb ACTo tRAS PREo 1 REFR"),
    BREAKS(14, 'b', "MRS ACTb ACTo tRAS PREo tRP REFR"),
    /* R15 before R16 */
    BREAKS(15, '0', "MRS ACTb tRAS PREb 1 REFR"),
    BREAKS(15, '0', "MRS ACTb tRAS DEAC 1 REFR"),
};

/* ---- A row cycle far longer than opening and closing: tRP 2, tRCD 8, tRAS 2, tRC 16, tRRD 2 ---- */

static const struct row long_cycle_rows[] = {
    /* R8 before R9: the bank is closed, and its ACT is near. */
    BREAKS(8, 'b', "MRS ACTb tRAS PREb 1 READb"),
    BREAKS(8, 'b', "MRS ACTb tRAS DEAC 1 WRTb"),
    /* R16 of several banks, and then of the last one alone. */
    BREAKS(16, 'm', "MRS ACTb tRRD ACTo tRAS DEAC tRP REFR"),
    EARLY(16, 'o', "MRS ACTb tRRD ACTo tRAS DEAC tRC-tRAS REFR"),
    BREAKS(16, 'm', "MRS ACTb tRRD ACTo tRRD ACTp tRAS DEAC tRP REFR"),
    BREAKS(14, 'b', "MRS ACTb ACTo tRAS PREo tRP REFR"),
    BREAKS(16, '0', "MRS ACT0 2 ACT1 2 ACT2 2 ACT3 2 DEAC 2 REFR"),
    BREAKS(16, '0', "MRS ACT0 2 ACT1 2 ACT2 2 ACT3 2 DEAC 7 REFR"),
    BREAKS(16, '1', "MRS ACT0 2 ACT1 2 ACT2 2 ACT3 2 DEAC 8 REFR"),
    BREAKS(16, '1', "MRS ACT0 2 ACT1 2 ACT2 2 ACT3 2 DEAC 9 REFR"),
    BREAKS(16, '2', "MRS ACT0 2 ACT1 2 ACT2 2 ACT3 2 DEAC 10 REFR"),
    BREAKS(16, '3', "MRS ACT0 2 ACT1 2 ACT2 2 ACT3 2 DEAC 12 REFR"),
    EARLY(16, '3', "MRS ACT0 2 ACT1 2 ACT2 2 ACT3 2 DEAC 14 REFR"),
    EARLY(16, '0', "MRS ACT3 2 ACT2 2 ACT1 2 ACT0 2 DEAC 14 REFR"),
    BREAKS(16, '1', "MRS ACT0 ACT1 2 ACT2 2 DEAC 2 REFR"),
    BREAKS(16, '1', "MRS ACT3 ACT2 2 ACT1 2 DEAC 2 REFR"),
    LEGAL("MRS ACT0 2 ACT1 2 ACT2 2 ACT3 2 DEAC 2 MRS"),
};

/* ---- Banks that stay open long and are opened soon after each other: tWR 8, tRAS 16, tRRD 1 ---- */

static const struct row many_open_rows[] = {
    BREAKS(12, '0', "MRS ACT0 1 ACT1 1 ACT2 1 ACT3 1 DEAC"),
    BREAKS(12, '0', "MRS ACT3 1 ACT2 1 ACT1 1 ACT0 1 DEAC"),
    BREAKS(12, '0', "MRS ACT0 1 ACT1 1 ACT2 1 ACT3 12 DEAC"),
    BREAKS(12, '1', "MRS ACT0 1 ACT1 1 ACT2 1 ACT3 13 DEAC"),
    BREAKS(12, '2', "MRS ACT0 1 ACT1 1 ACT2 1 ACT3 14 DEAC"),
    EARLY(12, '3', "MRS ACT0 1 ACT1 1 ACT2 1 ACT3 16 DEAC"),
    BREAKS(13, '0', "MRS ACT0 ACT1 ACT2 ACT3 WRT0 1 WRT1 1 WRT2 1 WRT3 4 DEAC"),
    BREAKS(13, '1', "MRS ACT0 ACT1 ACT2 ACT3 WRT0 1 WRT1 1 WRT2 1 WRT3 5 DEAC"),
    BREAKS(13, '2', "MRS ACT0 ACT1 ACT2 ACT3 WRT0 1 WRT1 1 WRT2 1 WRT3 6 DEAC"),
    EARLY(13, '3', "MRS ACT0 ACT1 ACT2 ACT3 WRT0 1 WRT1 1 WRT2 1 WRT3 8 DEAC"),
    BREAKS(13, '0', "MRS ACT0 ACT1 ACT2 ACT3 WRT3 1 WRT2 1 WRT1 1 WRT0 7 DEAC"),
    BREAKS(12, '3', "MRS ACT0 ACT3 1 WRT0 1 DEAC"),
    BREAKS(12, '1', "MRS ACT0 ACT1 1 ACT3 1 WRT0 1 DEAC"),
    BREAKS(12, '2', "MRS ACT0 ACT1 ACT3 ACT2 tRCD WRT0 1 WRT1 1 WRT3 1 DEAC"),
    BREAKS(14, '0', "MRS ACT3 1 ACT2 1 ACT1 1 ACT0 REFR"),
    BREAKS(14, '1', "MRS ACT0 ACT3 1 ACT2 1 ACT1 PRE0 MRS"),
    BREAKS(14, '2', "MRS ACT0 ACT3 ACT2 ACT1 PRE0 PRE1 REFR"),
    BREAKS(14, '3', "MRS ACT0 ACT3 ACT2 ACT1 PRE0 PRE2 PRE1 MRS"),
};

/* ---- A row cycle shorter than tRRD: tRP, tRCD, tWR and tRAS 1, tRC 2, tRRD 8 ---- */

static const struct row short_cycle_rows[] = {
    /* The other bank is closed again. The bank's own ACT is nearer than tRRD, which is no matter of R7's. */
    EARLY(7, 'b', "MRS ACTo 1 PREo tRRD-1 ACTb"),
    EARLY(7, 'b', "MRS ACTo 1 DEAC tRRD-1 ACTb"),
    LEGAL("MRS ACTb 1 PREb 1 ACTb"),
    EARLY(7, 'b', "MRS ACTb 1 PREb ACTo 1 PREo tRRD-1 ACTb"),
    LEGAL("MRS ACTb 1 WRTb 1 PREb 1 ACTb 1 READb 1 DEAC 1 REFR 2 MRS"),
    /* Distances of 1 are kept by the very next slot. */
    LEGAL("DEAC 1 REFR 2 REFR 2 MRS 2 ACTb 1 WRTb 1 WRTb 1 READb 1 PREb 1 DEAC 1 REFR"),
    LEGAL("MRS ACTb 1 WRTb 1 DEAC 1 MRS 2 ACTb 1 DEAC"),
};

/* ---- R1 at the edges of every geometry ---- */

struct edge {
    enum command_kind kind;
    enum { BANK, ROW, COLUMN } part;
};

static const struct edge edges[] = {
    {ACT, BANK}, {READ, BANK}, {WRT, BANK}, {PRE, BANK}, {ACT, ROW}, {READ, COLUMN}, {WRT, COLUMN},
};

/* ---- Putting a tape together ---- */

enum product { CASES, LINES };

struct sheet {
    enum product product;
    uint64_t made; /* cases so far */
    struct words words;
    struct configuration c;
    unsigned bank[3]; /* of b, o and p */

    /* The tape so far. */
    struct tape_case tape;
    struct tape_writer writer;
    uint64_t slot; /* of its last command */
};

static void begin_tape(struct sheet *s)
{
    s->tape.words = s->words;
    s->tape.tape.length = 0;
    tape_write_bytes(&s->writer, &s->tape.tape);
    s->slot = 0;
}

/* The command so many slots after the last one. */
static void put_command(struct sheet *s, unsigned slots, struct command x)
{
    struct record nops = {{NOP, 0, 0, 0, 0}, slots - 1};
    struct record r = {x, 1};

    if (slots > 1)
        tape_put(&s->writer, nops);
    tape_put(&s->writer, r);
    s->slot += slots;
}

/*
 * The tape's last command breaks this rule in this bank; 0: all are legal. On every other tape something illegal
 * follows: the first is asked for.
 */
static void give(struct sheet *s, unsigned rule, unsigned bank)
{
    struct command far_outside = {PRE, 255, 0, 0, 0};
    uint64_t slot = s->slot;

    s->made++;
    if (s->product == LINES) {
        printf("judge 0 %" PRIu64 " %u %u\n", rule == 0 ? 0 : slot, rule, rule == 0 ? 0 : bank);
        return;
    }
    if (rule != 0 && s->made % 2 == 0)
        put_command(s, 3, far_outside);
    tape_write_end(&s->writer);
    case_put(&s->tape, stdout);
}

/* ---- A row's text ---- */

/* The text is wrong: no case can be made of it. */
static void mistake(const char *text)
{
    fprintf(stderr, "reference: rulecases.c: '%s'\n", text);
    exit(2);
}

static bool begins(const char *text, const char *with)
{
    return strncmp(text, with, strlen(with)) == 0;
}

/* A number or a distance; *at is moved behind it. */
static unsigned read_term(const struct sheet *s, const char **at)
{
    const struct {
        const char *name;
        unsigned value;
    } terms[] = {
        {"tRFC", s->c.tRFC}, {"tRCD", s->c.tRCD}, {"tRAS", s->c.tRAS}, {"tRRD", s->c.tRRD}, {"tRC", s->c.tRC},
        {"tRP", s->c.tRP},   {"tWR", s->c.tWR},   {"CL", s->c.CL},     {"FAR", FAR},
    };
    unsigned value = 0;
    size_t n;

    for (n = 0; n < sizeof terms / sizeof terms[0]; n++) {
        if (begins(*at, terms[n].name)) {
            *at += strlen(terms[n].name);
            return terms[n].value;
        }
    }
    if (**at < '0' || **at > '9')
        mistake(*at);
    while (**at >= '0' && **at <= '9')
        value = 10 * value + (unsigned)(*(*at)++ - '0');
    return value;
}

/* Slots, such as `tRC-tRAS`. */
static unsigned read_slots(const struct sheet *s, const char **at)
{
    unsigned slots = read_term(s, at);

    while (**at == '+' || **at == '-') {
        bool more = *(*at)++ == '+';
        unsigned term = read_term(s, at);

        slots = more ? slots + term : slots - term;
    }
    return slots;
}

static unsigned bank_named(const struct sheet *s, char name)
{
    switch (name) {
    case 'b':
        return s->bank[0];
    case 'o':
        return s->bank[1];
    case 'p':
        return s->bank[2];
    case 'x':
        return 1u << s->c.geometry.bank_bits;
    default:
        return (unsigned)(name - '0');
    }
}

/* Row, column and halfword are any of the smallest geometry. */
static struct command read_command(const struct sheet *s, const char **at)
{
    static const char *const names[] = {"NOP", "ACT", "READ", "WRT", "PRE", "DEAC", "REFR", "MRS"};
    struct command x = {ACT, 0, 0, 0, 0};

    while (x.kind <= MRS && !begins(*at, names[x.kind]))
        x.kind++;
    if (x.kind > MRS)
        mistake(*at);
    *at += strlen(names[x.kind]);
    if (x.kind <= PRE)
        x.bank = bank_named(s, *(*at)++);
    if (x.kind == ACT)
        x.row = (s->made * 37 + x.bank) % 512;
    if (x.kind == READ || x.kind == WRT)
        x.column = (s->made * 11 + x.bank) % 256;
    if (x.kind == WRT)
        x.word = (uint16_t)(s->made * 257);
    if (x.kind == MRS)
        x.word = (uint16_t)(16 * s->c.CL);
    if (**at == '!') {
        x.word = (uint16_t)(16 * (5 - s->c.CL)); /* the other CL's */
        ++*at;
    }
    return x;
}

/* The tape that the text describes, with its last command one slot earlier if it shall be. */
static void put_text(struct sheet *s, const char *text, bool early)
{
    const char *at = text;

    begin_tape(s);
    while (*at != '\0') {
        unsigned slots = s->slot == 0 ? 1 : FAR;
        struct command x;

        if (*at < 'A' || *at > 'Z' || begins(at, "FAR") || begins(at, "CL")) {
            slots = read_slots(s, &at);
            at++; /* the space */
        }
        x = read_command(s, &at);
        put_command(s, *at == '\0' && early ? slots - 1 : slots, x);
        if (*at == ' ')
            at++;
        else if (*at != '\0')
            mistake(text);
    }
}

/* ---- The cases of a row ---- */

static bool uses(const struct row *row, char letter)
{
    return strchr(row->text, letter) != NULL;
}

static unsigned bank_to_report(const struct sheet *s, const struct row *row, char name)
{
    unsigned lowest = s->bank[0];

    if (name != 'm')
        return bank_named(s, name);
    if (s->bank[1] < lowest)
        lowest = s->bank[1];
    return uses(row, 'p') && s->bank[2] < lowest ? s->bank[2] : lowest;
}

/* For one choice of b, o and p. */
static void make_row(struct sheet *s, const struct row *row)
{
    if (row->last == LAST_EARLY) {
        put_text(s, row->text, true);
        give(s, row->rule, bank_to_report(s, row, row->bank));
        put_text(s, row->text, false);
        give(s, row->then_rule, bank_to_report(s, row, row->then_bank));
    } else {
        put_text(s, row->text, false);
        give(s, row->rule, bank_to_report(s, row, row->bank));
    }
}

/* For every choice of the banks that the row names. */
static void make_choices(struct sheet *s, const struct row *row)
{
    unsigned banks = 1u << s->c.geometry.bank_bits;
    unsigned *b = &s->bank[0], *o = &s->bank[1], *p = &s->bank[2];

    for (*b = 0; *b < (uses(row, 'b') ? banks : 1); ++*b)
        for (*o = 0; *o < (uses(row, 'o') ? banks : 1); ++*o)
            for (*p = 0; *p < (uses(row, 'p') ? banks : 1); ++*p)
                if (!(uses(row, 'o') && *o == *b) && !(uses(row, 'p') && (*p == *b || *p == *o)))
                    make_row(s, row);
}

static bool names_by_digit(const struct row *row)
{
    return strstr(row->text, "ACT0") != NULL || strstr(row->text, "ACT3") != NULL;
}

/* ---- Configurations ---- */

/* Distances in slots. */
#define TIM(rfc, rp, rcd, wr, ras, rc, rrd)                                                                        \
    ((rfc - UINT32_C(1)) << 27 | (rp - UINT32_C(1)) << 24 | (rcd - UINT32_C(1)) << 20 | (wr - UINT32_C(1)) << 16 | \
     (ras - UINT32_C(1)) << 12 | (rc - UINT32_C(1)) << 8 | (rrd - UINT32_C(1)) << 4)

/* RR 400 is accepted with every TIM. */
static void set_words(struct sheet *s, unsigned CL, unsigned bank_bits, unsigned column_bits, unsigned row_bits,
                      uint32_t tim)
{
    struct words w = {0x4000 | CL << 9 | bank_bits << 4 | (column_bits - 8), row_bits - 9, 400, tim};

    s->words = w;
    if (configure(w, &s->c) != ACCEPTED)
        mistake("refused words");
}

static void make_rows(struct sheet *s, unsigned CL, uint32_t tim, const struct row *row, size_t count)
{
    unsigned bank_bits;
    size_t n;

    for (bank_bits = 0; bank_bits <= 2; bank_bits++) {
        set_words(s, CL, bank_bits, 8 + (bank_bits + CL) % 4, 9 + (2 * bank_bits + CL) % 5, tim);
        for (n = 0; n < count; n++)
            if (bank_bits == 2 || !names_by_digit(&row[n]))
                make_choices(s, &row[n]);
    }
}

#define MAKE(s, CL, tim, rows) make_rows(s, CL, tim, rows, sizeof(rows) / sizeof((rows)[0]))

/* ---- R1 at the edges ---- */

/* MRS, an ACT of the last bank and row, and the command, which has a number outside or none. */
static void make_edge(struct sheet *s, struct edge edge, unsigned outside, bool breaks)
{
    struct geometry g = s->c.geometry;
    struct command mrs = {MRS, 0, 0, 0, (uint16_t)(16 * s->c.CL)};
    struct command act = {ACT, (1u << g.bank_bits) - 1, (1u << g.row_bits) - 1, 0, 0};
    struct command x = {edge.kind, act.bank, 0, 0, 0};

    if (edge.kind == ACT)
        x.row = act.row;
    if (edge.kind == READ || edge.kind == WRT)
        x.column = (1u << g.column_bits) - 1;
    if (edge.kind == WRT)
        x.word = 65535;
    if (breaks)
        *(edge.part == BANK ? &x.bank : edge.part == ROW ? &x.row : &x.column) = outside;
    begin_tape(s);
    put_command(s, 1, mrs);
    if (edge.kind != ACT)
        put_command(s, FAR, act);
    put_command(s, FAR, x);
    give(s, breaks ? 1 : 0, 0);
}

/* The first number outside, and the last that a tape can hold. */
static void make_edges(struct sheet *s, struct edge edge)
{
    struct geometry g = s->c.geometry;
    unsigned bits = edge.part == BANK ? g.bank_bits : edge.part == ROW ? g.row_bits : g.column_bits;

    make_edge(s, edge, 0, false);
    make_edge(s, edge, 1u << bits, true);
    make_edge(s, edge, edge.part == BANK ? 255 : 65535, true);
}

static void make_geometries(struct sheet *s, uint32_t tim)
{
    unsigned columns, banks, rows_, n;

    for (columns = 8; columns <= 11; columns++)
        for (banks = 0; banks <= 2; banks++)
            for (rows_ = 9; rows_ <= 13; rows_++)
                for (n = 0; n < sizeof edges / sizeof edges[0]; n++) {
                    set_words(s, 2 + (columns + banks + rows_) % 2, banks, columns, rows_, tim);
                    make_edges(s, edges[n]);
                }
}

/* MRS with one bit of its word changed, or with all bits the same, in slot 1. */
static void make_mrs_words(struct sheet *s, unsigned CL, uint32_t tim)
{
    unsigned n;

    set_words(s, CL, 1, 8, 9, tim);
    for (n = 0; n < 16 + 3; n++) {
        static const uint16_t words[] = {0, 65535};
        struct command mrs = {MRS, 0, 0, 0, (uint16_t)(16 * CL)};

        if (n < 16)
            mrs.word ^= (uint16_t)(1u << n);
        else if (n < 18)
            mrs.word = words[n - 16];
        begin_tape(s);
        put_command(s, 1, mrs);
        give(s, n < 18 ? 1 : 0, 0);
    }
}

/* ---- All ---- */

static void make_all(enum product product)
{
    static struct sheet s; /* zero at first */
    uint32_t unlike = TIM(20, 3, 6, 8, 9, 15, 7); /* no two are equal, nor to CL + 2, nor 2 */
    uint32_t longest = TIM(32, 8, 8, 8, 7, 16, 8);
    unsigned CL;

    s.product = product;
    MAKE(&s, 2, unlike, rows);
    MAKE(&s, 3, longest, rows);
    for (CL = 2; CL <= 3; CL++) {
        MAKE(&s, CL, unlike, orders);
        MAKE(&s, CL, TIM(5, 2, 8, 3, 2, 16, 2), long_cycle_rows);
        MAKE(&s, CL, TIM(3, 8, 2, 8, 16, 4, 1), many_open_rows);
        MAKE(&s, CL, TIM(2, 1, 1, 1, 1, 2, 8), short_cycle_rows);
        make_mrs_words(&s, CL, unlike);
    }
    make_geometries(&s, unlike);
    bytes_end(&s.tape.tape);
}

void write_rule_cases(void)
{
    make_all(CASES);
}

void write_rule_lines(void)
{
    make_all(LINES);
}
