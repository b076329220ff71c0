/* The judge for bus tapes, for a host in C99 or C++. Link with the archive that `rt lib` in crates/judge_c writes, crates/judge_c/out/libjudge_c.a (x86-64);
   host/Makefile shows how. docs/TAPES.md has the format of tapes.

       uint64_t answer = girmutsab_judge(cfg, row, ref, tim, tape, length);
       if (answer == 0)                                    every command on the tape is legal
       else if (girmutsab_number(answer) != 0)             words or tape are refused
       else                                                girmutsab_slot(answer) is the first illegal slot
*/
#ifndef GIRMUTSAB_H
#define GIRMUTSAB_H

#include <stddef.h>
#include <stdint.h>

#ifdef __cplusplus
extern "C" {
#endif

/* The longest tape that is judged, in bytes. */
#define GIRMUTSAB_TAPE_LIMIT 16777216u

/* The numbers of an answer, and what to do about each. Given is the first of 1, 2, 3 and 19 that applies; else what is wrong with the first record that cannot be
   read, 11, 12 or 13, even where an earlier slot is illegal; else 0. */
enum {
    GIRMUTSAB_JUDGED = 0,          /* words and tape are well formed: rule 0 says that all is legal, any other rule is broken in the slot given */
    GIRMUTSAB_UNNAMED_BIT = 1,     /* a word has a bit set that no field names: clear it */
    GIRMUTSAB_NOT_OFFERED = 2,     /* a field holds a value that is not offered: NM 1, CL 2 or 3, IBANK 0 to 2, PAGESIZE 0 to 3, ROWSIZE 0 to 4 */
    GIRMUTSAB_SHORT_INTERVAL = 3,  /* RR is too short for the distances: at least A + 6F */
    GIRMUTSAB_TOO_LONG = 19,       /* the tape has more than GIRMUTSAB_TAPE_LIMIT bytes: judge a shorter one that begins at the device's first slot */
    GIRMUTSAB_UNKNOWN_KIND = 11,   /* a record's kind is above 7: the tape was damaged there or before */
    GIRMUTSAB_CUT = 12,            /* the tape ends within a record: its end is missing, or it was damaged before */
    GIRMUTSAB_WRONG_RUN = 13       /* a run counts no NOPs, or follows a run of fewer than 65,535: the tape was damaged, or is not spelled as tapes are */
};

/* Judges a tape: is every command on it legal for the device that the four register words describe?

   cfg     NM, CL, the number of banks (IBANK) and of column bits (PAGESIZE)
   row     the number of row bits (ROWSIZE)
   ref     the refresh interval RR in slots. It decides about number 3 alone, and no command's legality
   tim     the distances, each as slots minus one
   tape    the tape's bytes, from the device's first slot on: at first all banks are closed and no command has been sent. They are only read, and nobody
           may change them meanwhile. May be null where length is 0: the empty tape, which is legal. Of a tape above the limit no byte is read
   length  how many bytes the tape has

   The answer is one word: from the low end a byte each for number, rule and bank, then the slot in the 40 bits above (the functions below take it apart).
   Where the number is not 0, or all is legal, slot, rule and bank are 0; so an accepted tape is answered with 0. Otherwise `slot` is the first
   illegal slot, counted from 1; `rule` is the first rule that its command breaks, 1 to 16 for R1 to R16; and `bank` is, for R4 to R9 and for R11 to R13 of
   a PRE, the command's bank, for R12 to R14 and R16 of other commands the first bank in which the rule is broken, and else 0.

   Every call ends, for any words and bytes. It keeps nothing, allocates nothing and writes nothing, so several threads may call it at once. */
uint64_t girmutsab_judge(uint32_t cfg, uint32_t row, uint32_t ref, uint32_t tim, const uint8_t *tape, size_t length);

/* The parts of an answer. */
static inline unsigned girmutsab_number(uint64_t answer) { return (unsigned)(answer & 255); }
static inline unsigned girmutsab_rule(uint64_t answer) { return (unsigned)(answer >> 8 & 255); }
static inline unsigned girmutsab_bank(uint64_t answer) { return (unsigned)(answer >> 16 & 255); }
static inline uint64_t girmutsab_slot(uint64_t answer) { return answer >> 24; }

#ifdef __cplusplus
}
#endif

#endif
