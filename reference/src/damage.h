/*
 * Damaged builds. `-DDAMAGE=NAME` builds the program with one thing wrong in its machine, in its
 * register words, in its tapes or in its judge; the plain SDRAM, the flat memory and the claims stay as they are. The
 * self-test wants each of them found. An ordinary build is SOUND, and every line below then has no effect.
 *
 * damages.sh takes the names from the enum, one a line.
 */
#ifndef DAMAGE_H
#define DAMAGE_H

enum damage {
    SOUND,

    /* A rule forgotten. Where the machine never comes near the rule, it also takes the step named. */
    FORGET_R1, /* and the MRS word is CL */
    FORGET_R2,
    FORGET_R3, /* and no MRS is sent */
    FORGET_R4, /* and no PRE before ACT */
    FORGET_R5,
    FORGET_R6,
    FORGET_R7,
    FORGET_R8, /* and no ACT */
    FORGET_R9,
    FORGET_R10, /* and a read is free in slot t + CL + 1 */
    FORGET_R11, /* and PRE to a closed bank */
    FORGET_R12,
    FORGET_R13,
    FORGET_R14, /* and REFR without DEAC */
    FORGET_R15,
    FORGET_R16,

    /* Half a rule forgotten. */
    PRE_WITHOUT_TRAS,
    PRE_WITHOUT_TWR,
    DEAC_WITHOUT_TRAS,
    DEAC_WITHOUT_TWR,
    R16_OF_BANK_0_ONLY,
    R16_OF_LAST_BANK_ONLY, /* the one of the last READ or WRT */
    R16_OF_OPEN_BANKS_ONLY,

    /* A rule for commands that do not have it. */
    R16_FOR_MRS_TOO, /* no machine shows it: MRS comes before the first ACT */
    R16_FOR_DEAC_TOO,

    /* A distance one slot short, or one slot long. */
    SHORT_TRFC,
    SHORT_TRP,
    SHORT_TRCD,
    SHORT_TWR,
    SHORT_TRAS,
    SHORT_TRC,
    SHORT_TRRD,
    SHORT_AFTER_MRS, /* and the start leaves out its last NOP */
    LONG_TRFC,
    LONG_TRP,
    LONG_TRCD,
    LONG_TWR,
    LONG_TRAS,
    LONG_TRC,
    LONG_TRRD,

    /* The slips of document 01. */
    READS_ALWAYS_FIRST,
    MUST_STOPS_AT_11,
    MAY_WITH_OPEN_BANK,
    TWR_OF_LAST_BANK_ONLY,
    BLOCKED_READ_HIDES_NEED,

    /* The useless builds of document 01. */
    REFUSE_EVERYTHING,
    NOP_FOR_EVER,
    LATER_WRITES_ONLY_REPORTED,
    INVENTED_BACKLOG,

    /* Words, numbers, map. */
    BITS_NOT_TESTED,
    FIELDS_BEFORE_BITS,
    RR_FIVE_SPANS,
    RR_ABOVE_LEAST,
    SPAN_WITHOUT_TWR,
    REFRESH_SPAN_WITHOUT_TRC,
    REFRESH_SPAN_BY_SMALLER,
    REFRESH_SPAN_BY_SUM,
    REFRESH_SPAN_TRFC_WITHIN, /* the larger of M + tRP and tRC + tRFC */
    ACCESS_SPAN_BY_LARGER,    /* of M + tRP and tRC, in place of their sum */
    CAPACITY_TWO_MORE,
    CAPACITY_TWO_LESS,
    CAPACITY_BEFORE_ODD,
    BANK_ABOVE_ROW,
    QUEUE_OF_NINE,
    FULL_BEFORE_ADDRESS,
    USED_UP_BEFORE_FULL,
    REFUSED_TAKES_NUMBER,

    /* Start and counters. */
    SEVEN_START_REFRESHES,
    START_ONE_SHORT,
    INTERVAL_RUNS_IN_START,
    INTERVAL_ONE_LONG,
    COUNT_AFTER_CHOICE,
    BACKLOG_FALLS_AT_DEAC,

    /* The choice. */
    MUST_OUTSIDE_CHOICE,
    MUST_FROM_11,
    READS_BEFORE_MUST,
    NEED_FROM_9,
    NEED_AFTER_WRITES,
    RELEASE_FROM_5,
    RELEASE_BEFORE_WRITES,
    MAY_FORGOTTEN,
    BLOCK_OF_1024,
    BLOCK_OF_4096,
    NEWEST_READ,
    NEWEST_WRITE,

    /* The action. */
    ROW_NOT_COMPARED,
    DEAC_ONLY_IF_OPEN,
    CL_ALWAYS_2,
    READ_REPORTED_EARLY,
    READ_FREE_EARLY,
    READ_LEAVES_LATE,
    WRITE_REPORTED_AGAIN,
    WRITE_REPORTED_AS_READ,

    /* Many slots in one call. */
    LONGEST_ROW_COUNTS,
    HALFWORDS_IGNORED, /* the shorter of the other two rows decides */
    COMMAND_PLACES_IGNORED,
    REPORT_PLACES_IGNORED,
    COUNT_OF_HALFWORDS, /* given back, whatever was run */
    ONE_SLOT_AT_LEAST,
    REFUSED_RUNS_SLOTS,
    BUS_OF_SLOT_BEFORE, /* from the second slot of the row on */
    REPORTS_ONE_LATE,   /* within the row */
    FIRST_SLOT_TWICE,
    LAST_SLOT_LEFT_OUT, /* but counted, as NOP */
    PLACE_BEYOND_WRITTEN,

    /* A script's tape. */
    REFUSED_SLOT_RECORDED,
    SLOTS_OF_ROWS_LEFT_OUT,
    RUN_ENDS_WITH_ROW,          /* a run is not carried on over `slots` calls */
    SECOND_CONFIG_GOES_ON,      /* its slots follow those of the first */
    REFUSED_CONFIG_COUNTS,      /* as the first one */
    REFUSED_CONFIG_PASSED_OVER, /* the machine goes on */
    ERROR_LINE_ENDS_TAPE,

    /* Writing tapes. The three with WITH read the same form that they write. */
    HIGH_BYTE_FIRST,
    PRE_WITHOUT_BANK,
    WRT_WITHOUT_HALFWORD,
    HALFWORD_BEFORE_COLUMN,
    MRS_WITH_BANK,
    RUN_OF_65536,
    RUN_OF_65534,
    LAST_RUN_LOST,

    /* Reading tapes. */
    HIGH_BYTE_READ_FIRST,
    BANK_OF_TWO_BITS, /* of ACT */
    ROW_OF_13_BITS,
    KIND_8_LET_THROUGH,   /* as NOP */
    CUT_BODY_LET_THROUGH, /* the rest is 0 */
    CUT_BODY_IS_END,
    COUNT_0_LET_THROUGH,
    RUN_AFTER_SHORTER_LET_THROUGH,
    RUN_AFTER_65534_LET_THROUGH,
    RUN_AFTER_FULL_REFUSED,
    RUN_KEPT_OVER_COMMANDS, /* a run after a command counts as a run after a run */
    CUT_BEFORE_KIND,        /* 12 before 11 */
    RUN_BEFORE_CUT,         /* 13 before 12 */
    PLACE_AFTER_KIND,
    RUN_COUNTS_ONE_SLOT,
    SLOT_FROM_0,
    SLOT_OF_RUNS_END,
    SLOTS_OF_32_BITS,

    /* The judge: a rule forgotten, altogether or by one of its commands. */
    JUDGE_FORGET_R1,
    JUDGE_FORGET_R2,
    JUDGE_FORGET_R3,
    JUDGE_FORGET_R4,
    JUDGE_FORGET_R5,
    JUDGE_FORGET_R6,
    JUDGE_FORGET_R7,
    JUDGE_FORGET_R8,
    JUDGE_FORGET_R9,
    JUDGE_FORGET_R10,
    JUDGE_FORGET_R11,
    JUDGE_FORGET_R12,
    JUDGE_FORGET_R13,
    JUDGE_FORGET_R14,
    JUDGE_FORGET_R15,
    JUDGE_FORGET_R16,
    JUDGE_ACT_WITHOUT_R1,
    JUDGE_READ_WITHOUT_R1,
    JUDGE_WRT_WITHOUT_R1,
    JUDGE_PRE_WITHOUT_R1,
    JUDGE_ACT_WITHOUT_R2,
    JUDGE_READ_WITHOUT_R2,
    JUDGE_WRT_WITHOUT_R2,
    JUDGE_PRE_WITHOUT_R2,
    JUDGE_DEAC_WITHOUT_R2,
    JUDGE_REFR_WITHOUT_R2,
    JUDGE_MRS_WITHOUT_R2,
    JUDGE_READ_WITHOUT_R8,
    JUDGE_WRT_WITHOUT_R8,
    JUDGE_READ_WITHOUT_R9,
    JUDGE_WRT_WITHOUT_R9,
    JUDGE_PRE_WITHOUT_R12,
    JUDGE_DEAC_WITHOUT_R12,
    JUDGE_PRE_WITHOUT_R13,
    JUDGE_DEAC_WITHOUT_R13,
    JUDGE_REFR_WITHOUT_R14,
    JUDGE_MRS_WITHOUT_R14,
    JUDGE_REFR_WITHOUT_R15,
    JUDGE_MRS_WITHOUT_R15,

    /* Part of a rule forgotten, or more than the rule. */
    JUDGE_R1_WITHOUT_BANK,
    JUDGE_R1_WITHOUT_ROW,
    JUDGE_R1_WITHOUT_COLUMN,
    JUDGE_R1_WITHOUT_WORD,
    JUDGE_R2_WITHOUT_REFR,
    JUDGE_R2_WITHOUT_MRS,
    JUDGE_R5_WITHOUT_PRE,
    JUDGE_R5_WITHOUT_DEAC,
    JUDGE_R5_BY_ANY_PRE,
    JUDGE_R7_BY_ITS_BANK_TOO,
    JUDGE_R10_BY_ITS_BANK,
    JUDGE_R15_WITHOUT_PRE,
    JUDGE_R15_WITHOUT_DEAC,
    JUDGE_MRS_WITH_R16,

    /* A rule's distance one slot short, or one slot long. */
    JUDGE_SHORT_R2_REFR,
    JUDGE_SHORT_R2_MRS,
    JUDGE_SHORT_R5,
    JUDGE_SHORT_R6,
    JUDGE_SHORT_R7,
    JUDGE_SHORT_R9,
    JUDGE_SHORT_R10,
    JUDGE_SHORT_R12,
    JUDGE_SHORT_R13,
    JUDGE_SHORT_R15,
    JUDGE_SHORT_R16,
    JUDGE_LONG_R2_REFR,
    JUDGE_LONG_R2_MRS,
    JUDGE_LONG_R5,
    JUDGE_LONG_R6,
    JUDGE_LONG_R7,
    JUDGE_LONG_R9,
    JUDGE_LONG_R10,
    JUDGE_LONG_R12,
    JUDGE_LONG_R13,
    JUDGE_LONG_R15,
    JUDGE_LONG_R16,

    /* Which rule, and which bank. */
    JUDGE_RULES_FALLING,
    JUDGE_BANKS_FALLING,
    JUDGE_BANKS_BEFORE_RULES,
    JUDGE_R12_NAMES_COMMANDS_BANK, /* that is bank 0, as for the next three */
    JUDGE_R13_NAMES_COMMANDS_BANK,
    JUDGE_R14_NAMES_COMMANDS_BANK,
    JUDGE_R16_NAMES_COMMANDS_BANK,
    JUDGE_R7_NAMES_BANK_FOUND,
    JUDGE_COMMANDS_BANK_IS_0, /* R4 to R9, and PRE's */
    JUDGE_R1_NAMES_BANK, /* the command's, as for the next three */
    JUDGE_R2_NAMES_BANK,
    JUDGE_R3_NAMES_BANK,
    JUDGE_R10_NAMES_BANK,
    JUDGE_R15_NAMES_BANK, /* that of the PRE */

    /* Which slot, and which number. */
    JUDGE_SLOT_FROM_0,
    JUDGE_SLOT_OF_32_BITS,
    JUDGE_RUN_COUNTS_ONE_SLOT,
    JUDGE_RUN_AGES_BY_ONE,
    JUDGE_AGES_OF_16_BITS,
    JUDGE_AGES_OF_32_BITS,
    JUDGE_NOT_SENT_IS_SLOT_0,
    JUDGE_LAST_ILLEGAL_SLOT,
    JUDGE_RULE_OF_SLOT_AFTER,
    JUDGE_REFUSAL_BEHIND_IGNORED, /* behind an illegal slot */
    JUDGE_REFUSED_NAMES_SLOT,
    JUDGE_REFUSAL_BEFORE_WORDS,
    JUDGE_19_AT_LIMIT,
    JUDGE_19_ONE_LATE,
    JUDGE_19_BEFORE_WORDS,
    JUDGE_19_AFTER_REFUSAL
};

#ifndef DAMAGE
#define DAMAGE SOUND
#endif

#define DAMAGED(name) (DAMAGE == (name))
#define SLIP(name, sound, damaged) (DAMAGED(name) ? (damaged) : (sound))

#endif
