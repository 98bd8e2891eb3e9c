/* The host library: a start, a step and a run of the context save area machine, and
 * the version of this interface.
 *
 * docs/REFERENCE.md says what every number here means: the bits of the registers, the
 * image byte by byte, what each operation does, and each answer. This file names them.
 *
 * Link crates/deqbaryn/out/libdeqbaryn.a, which `rt lib` there writes (x86-64),
 * to C99 or later, or to C++. It needs memset and nothing else from outside.
 *
 * Before its first call a host asks whether the library is of this header's version:
 *
 *   if (deqbaryn_version() != DEQBARYN_VERSION)
 *       abort();
 *
 * The host lends each call four slices: a core record, two data windows and a code
 * image. The first byte of the first window has the address `base`, that of the
 * second one `second_base`. No pointer is kept after a call, and nothing is held
 * between calls. Any bytes, addresses and lengths may be passed. A slice of length 0
 * may have any pointer, NULL too; a second window of length 0 may have any address
 * too. None of the four lent slices of a step or a run may overlap another in the
 * host's memory. Windows that overlap by their addresses are refused, with 13.
 *
 * The core record is 616 bytes, 154 little-endian words:
 *
 *   byte   words  what
 *      0      16  D0 to D15
 *     64      16  A0 to A15
 *    128      10  PC, PSW, PCXI, FCX, LCX, ICR, ISP, BIV, BTV, SYSCON
 *    168      16  the request words of the interrupt sources 0 to 15:
 *                 priority 7:0, enable bit 9, request bit 10
 *    232      96  32 ranges of three words, lower, upper, mode: for set 0 to 3
 *                 its four data ranges, then its four code ranges;
 *                 mode WE 7 and RE 6 of a data range, XE 7 of a code range
 *
 * Other bits of request words and modes are kept and have no effect. Ranges are
 * read and never written.
 *
 * The answer:
 *
 *   bits    what
 *    7:0    the kind, below
 *   15:8    the source of an interrupt, the class of a trap,
 *           the number of a stop (11, 12) or of a refusal (1 to 6, 13)
 *   23:16   the TIN of a trap
 *   26:24   of a step: the lowest range that permits the fetch
 *   29:27   of a step: the lowest range that permits the data access
 *   31:30   0
 *   63:32   the place of a refusal; of a run, the steps made
 *
 * What does not apply is 0. A permitting range is the lowest that permits the
 * access, told as 4 + k, where k is 0 to 3, its number among the four code ranges
 * (for a fetch) or data ranges of set PSW.PRS. It is 0 where protection asked no
 * range, or none permitted the access. A step that stops tells it too.
 */
#ifndef DEQBARYN_H
#define DEQBARYN_H

#include <stddef.h>
#include <stdint.h>

#ifdef __cplusplus
extern "C" {
#endif

/* The version of this interface. It goes up with every change of it, and with what an
 * image may hold; the interface without deqbaryn_version, which had one window, counts
 * as 1, and that without short forms is 2. */
#define DEQBARYN_VERSION 3

#define DEQBARYN_CORE_BYTES 616

enum deqbaryn_kind {
    DEQBARYN_INSTRUCTION = 0,
    DEQBARYN_INTERRUPT = 1,
    DEQBARYN_TRAP = 2,
    DEQBARYN_STOP = 3,
    DEQBARYN_REFUSED = 4,
    DEQBARYN_WRONG_LENGTH = 5, /* a core record of another length; nothing changed */
    DEQBARYN_ACCEPTED = 6      /* of a start alone */
};

/* The number of a refusal: the first rule that is broken. The rules stand here in the
 * order in which they are tried: 1 on the first window, 1 on the second, 13, 2, 3, 4,
 * then 5 and 6 on each link in turn, of the free list and then of the used one. A start
 * is tried with all seven, a step and a run with the first five. */
enum deqbaryn_refusal {
    DEQBARYN_BAD_WINDOW = 1,       /* either window; a second one of length 0 passes */
    DEQBARYN_WINDOWS_OVERLAP = 13, /* the windows have an address in common; tried
                                      after 1 and before 2 */
    DEQBARYN_BAD_TABLE = 2,        /* place: the entry, from 1; 0: the count, or the
                                      table itself cut short */
    DEQBARYN_BAD_RECORD = 3,       /* place: the record, from 0 over all bodies */
    DEQBARYN_ODD_PC = 4,
    DEQBARYN_LINK_OUTSIDE = 5,     /* a list's link names an area in neither window */
    DEQBARYN_AREA_TWICE = 6        /* an area met a second time on the lists */
};

/* The number of a stop. */
enum deqbaryn_stop {
    DEQBARYN_NO_FREE_AREA = 11, /* a save with FCX link 0 */
    DEQBARYN_AREA_OUTSIDE = 12  /* the area of a save or return is in neither window */
};

/* A trap as deqbaryn_answer_trap has it: 256 * class + TIN. */
enum deqbaryn_trap {
    DEQBARYN_TRAP_PRIV = 0x0101, /* privileged instruction */
    DEQBARYN_TRAP_MPR = 0x0102,  /* memory protection: read */
    DEQBARYN_TRAP_MPW = 0x0103,  /* write */
    DEQBARYN_TRAP_MPX = 0x0104,  /* fetch */
    DEQBARYN_TRAP_MPP = 0x0105,  /* segment E or F from User-0 */
    DEQBARYN_TRAP_GRWP = 0x0107, /* global register write protection */
    DEQBARYN_TRAP_ALN = 0x0204,  /* data address alignment */
    DEQBARYN_TRAP_FCD = 0x0301,  /* free context list depleted */
    DEQBARYN_TRAP_CDO = 0x0302,  /* call depth overflow */
    DEQBARYN_TRAP_CDU = 0x0303,  /* call depth underflow */
    DEQBARYN_TRAP_CSU = 0x0305,  /* context list underflow: a return with link 0 */
    DEQBARYN_TRAP_CTYP = 0x0306, /* context type: PCXI.UL is the other half's */
    DEQBARYN_TRAP_NEST = 0x0307, /* RFE with a call depth above 0 */
    DEQBARYN_TRAP_CODE = 0x0401, /* no record begins at PC */
    DEQBARYN_TRAP_DATA = 0x0402, /* data not wholly in one window */
    DEQBARYN_TRAP_OVF = 0x0501,  /* TRAPV with V 1 */
    DEQBARYN_TRAP_SOVF = 0x0502, /* TRAPSV with SV 1 */
    DEQBARYN_TRAP_SYS = 0x0600   /* SYSCALL: to 0x06FF, with its TIN */
};

/* Byte offsets in the core record. */
enum deqbaryn_at {
    DEQBARYN_AT_D = 0,  /* D[k] at + 4 * k */
    DEQBARYN_AT_A = 64, /* A[k] at + 4 * k */
    DEQBARYN_AT_PC = 128,
    DEQBARYN_AT_PSW = 132,
    DEQBARYN_AT_PCXI = 136,
    DEQBARYN_AT_FCX = 140,
    DEQBARYN_AT_LCX = 144,
    DEQBARYN_AT_ICR = 148,
    DEQBARYN_AT_ISP = 152,
    DEQBARYN_AT_BIV = 156,
    DEQBARYN_AT_BTV = 160,
    DEQBARYN_AT_SYSCON = 164,
    DEQBARYN_AT_REQUESTS = 168, /* source k at + 4 * k */
    DEQBARYN_AT_RANGES = 232
};

/* Range k of a set, both 0 to 3: its lower bound; upper bound and mode follow. */
#define DEQBARYN_AT_DATA_RANGE(set, k) (DEQBARYN_AT_RANGES + 96 * (set) + 12 * (k))
#define DEQBARYN_AT_CODE_RANGE(set, k) (DEQBARYN_AT_RANGES + 96 * (set) + 48 + 12 * (k))

/* Fields as masks over their words. */
#define DEQBARYN_PSW_C 0x80000000u
#define DEQBARYN_PSW_V 0x40000000u
#define DEQBARYN_PSW_SV 0x20000000u
#define DEQBARYN_PSW_AV 0x10000000u
#define DEQBARYN_PSW_SAV 0x08000000u
#define DEQBARYN_PSW_PRS 0x00003000u
#define DEQBARYN_PSW_IO 0x00000C00u /* 0 User-0, 0x400 User-1, else Supervisor */
#define DEQBARYN_PSW_IS 0x00000200u
#define DEQBARYN_PSW_GW 0x00000100u
#define DEQBARYN_PSW_CDE 0x00000080u
#define DEQBARYN_PSW_CDC 0x0000007Fu
#define DEQBARYN_PSW_ENTRY 0x00000A80u /* after the entry of a trap or an interrupt */
#define DEQBARYN_PCXI_PCPN 0xFF000000u
#define DEQBARYN_PCXI_PIE 0x00800000u
#define DEQBARYN_PCXI_UL 0x00400000u
#define DEQBARYN_LINK 0x000FFFFFu /* of PCXI, FCX, LCX and an area's first word */
#define DEQBARYN_ICR_IE 0x00000100u
#define DEQBARYN_ICR_CCPN 0x000000FFu
#define DEQBARYN_SYSCON_PROTEN 0x00000002u
#define DEQBARYN_REQUEST_SR 0x00000400u  /* requesting */
#define DEQBARYN_REQUEST_SRE 0x00000200u /* enabled */
#define DEQBARYN_REQUEST_SRPN 0x000000FFu
#define DEQBARYN_MODE_RE 0x00000040u
#define DEQBARYN_MODE_WE 0x00000080u
#define DEQBARYN_MODE_XE 0x00000080u

/* The operation byte of a record: operation, c, a, b, immediate word. A record covers 4
 * addresses. Its short form, with DEQBARYN_SHORT added to the operation byte, covers 2;
 * it has 8 bytes in the image too, and does the same. */
#define DEQBARYN_SHORT 128

enum deqbaryn_operation {
    DEQBARYN_OP_NOP = 0, DEQBARYN_OP_ADD = 1, DEQBARYN_OP_SUB = 2, DEQBARYN_OP_RSUB = 3,
    DEQBARYN_OP_ADDX = 4, DEQBARYN_OP_ADDC = 5, DEQBARYN_OP_SUBX = 6,
    DEQBARYN_OP_SUBC = 7, DEQBARYN_OP_ADDS = 8, DEQBARYN_OP_ADDS_U = 9,
    DEQBARYN_OP_SUBS = 10, DEQBARYN_OP_SUBS_U = 11, DEQBARYN_OP_MUL = 12,
    DEQBARYN_OP_AND = 13, DEQBARYN_OP_OR = 14, DEQBARYN_OP_XOR = 15,
    DEQBARYN_OP_NAND = 16, DEQBARYN_OP_NOR = 17, DEQBARYN_OP_XNOR = 18,
    DEQBARYN_OP_ANDN = 19, DEQBARYN_OP_ORN = 20, DEQBARYN_OP_SH = 21,
    DEQBARYN_OP_SHA = 22, DEQBARYN_OP_MIN = 23, DEQBARYN_OP_MIN_U = 24,
    DEQBARYN_OP_MAX = 25, DEQBARYN_OP_MAX_U = 26, DEQBARYN_OP_ABS = 27,
    DEQBARYN_OP_ABSDIF = 28, DEQBARYN_OP_EQ = 29, DEQBARYN_OP_NE = 30,
    DEQBARYN_OP_LT = 31, DEQBARYN_OP_LT_U = 32, DEQBARYN_OP_GE = 33,
    DEQBARYN_OP_GE_U = 34, DEQBARYN_OP_CLZ = 35, DEQBARYN_OP_CLO = 36,
    DEQBARYN_OP_CLS = 37, DEQBARYN_OP_MOV = 38, DEQBARYN_OP_MOV_A = 39,
    DEQBARYN_OP_MOV_D = 40, DEQBARYN_OP_MOV_AA = 41, DEQBARYN_OP_ADD_A = 42,
    DEQBARYN_OP_SUB_A = 43, DEQBARYN_OP_LD_B = 44, DEQBARYN_OP_LD_BU = 45,
    DEQBARYN_OP_LD_H = 46, DEQBARYN_OP_LD_HU = 47, DEQBARYN_OP_LD_W = 48,
    DEQBARYN_OP_LD_A = 49, DEQBARYN_OP_ST_B = 50, DEQBARYN_OP_ST_H = 51,
    DEQBARYN_OP_ST_W = 52, DEQBARYN_OP_ST_A = 53, DEQBARYN_OP_J = 54,
    DEQBARYN_OP_JL = 55, DEQBARYN_OP_JI = 56, DEQBARYN_OP_JEQ = 57,
    DEQBARYN_OP_JNE = 58, DEQBARYN_OP_JLT = 59, DEQBARYN_OP_JLT_U = 60,
    DEQBARYN_OP_JGE = 61, DEQBARYN_OP_JGE_U = 62, DEQBARYN_OP_LOOP = 63,
    DEQBARYN_OP_CALL = 64, DEQBARYN_OP_CALLI = 65, DEQBARYN_OP_RET = 66,
    DEQBARYN_OP_RFE = 67, DEQBARYN_OP_SVLCX = 68, DEQBARYN_OP_RSLCX = 69,
    DEQBARYN_OP_BISR = 70, DEQBARYN_OP_SYSCALL = 71, DEQBARYN_OP_ENABLE = 72,
    DEQBARYN_OP_DISABLE = 73, DEQBARYN_OP_MFCR = 74, DEQBARYN_OP_MTCR = 75,
    DEQBARYN_OP_TRAPV = 76, DEQBARYN_OP_TRAPSV = 77, DEQBARYN_OP_RSTV = 78
};

#define DEQBARYN_IMMEDIATE 16 /* as b: the immediate is the second operand */

/* The immediate of MFCR and MTCR: the offset of a core register. */
enum deqbaryn_offset {
    DEQBARYN_OFFSET_PCXI = 0xFE00,
    DEQBARYN_OFFSET_PSW = 0xFE04,
    DEQBARYN_OFFSET_PC = 0xFE08,
    DEQBARYN_OFFSET_SYSCON = 0xFE14,
    DEQBARYN_OFFSET_BIV = 0xFE20,
    DEQBARYN_OFFSET_BTV = 0xFE24,
    DEQBARYN_OFFSET_ISP = 0xFE28,
    DEQBARYN_OFFSET_ICR = 0xFE2C,
    DEQBARYN_OFFSET_FCX = 0xFE38,
    DEQBARYN_OFFSET_LCX = 0xFE3C
};

/* The version of the library: DEQBARYN_VERSION of the header it was built with. */
uint32_t deqbaryn_version(void);

/* Tries the seven rules of a start, with PC, FCX and PCXI of the record: accepted, or
 * refused. Nothing changes. What holds of the lists over any steps and runs from an
 * accepted start: docs/REFERENCE.md, "Series of calls", proved as docs/CLAIMS.md has
 * it under demand 3. */
uint64_t deqbaryn_start(const uint8_t *core, size_t core_len,
                        uint32_t base, const uint8_t *window, size_t window_len,
                        uint32_t second_base, const uint8_t *second, size_t second_len,
                        const uint8_t *image, size_t image_len);

/* Makes one step. Registers, request words and windows are then as it left them; a
 * stop or a refusal (rules 1, 13, 2, 3, 4) leaves all as it was. */
uint64_t deqbaryn_step(uint8_t *core, size_t core_len,
                       uint32_t base, uint8_t *window, size_t window_len,
                       uint32_t second_base, uint8_t *second, size_t second_len,
                       const uint8_t *image, size_t image_len);

/* Makes n steps, or those up to the first stop. The kind is that of the last step, or
 * of the stop; earlier traps and interrupts are not told. n = 0 answers an instruction,
 * or the refusal. A stop leaves all as the last step made left it; a refusal leaves
 * all as it was. */
uint64_t deqbaryn_run(uint8_t *core, size_t core_len,
                      uint32_t base, uint8_t *window, size_t window_len,
                      uint32_t second_base, uint8_t *second, size_t second_len,
                      const uint8_t *image, size_t image_len, uint32_t n);

/* The parts of an answer. */
static inline unsigned deqbaryn_answer_kind(uint64_t answer) {
    return (unsigned)(answer & 0xFF);
}

/* the source of an interrupt, the class of a trap, the number of a stop or a refusal */
static inline unsigned deqbaryn_answer_number(uint64_t answer) {
    return (unsigned)(answer >> 8 & 0xFF);
}

static inline unsigned deqbaryn_answer_tin(uint64_t answer) {
    return (unsigned)(answer >> 16 & 0xFF);
}

/* of a trap: 256 * class + TIN, as enum deqbaryn_trap has it */
static inline unsigned deqbaryn_answer_trap(uint64_t answer) {
    return deqbaryn_answer_number(answer) << 8 | deqbaryn_answer_tin(answer);
}

/* of a step: 0, or 4 + the number of the lowest code range that permits the fetch */
static inline unsigned deqbaryn_answer_fetch_range(uint64_t answer) {
    return (unsigned)(answer >> 24 & 7);
}

/* of a step: 0, or 4 + the number of the lowest data range that permits the access */
static inline unsigned deqbaryn_answer_data_range(uint64_t answer) {
    return (unsigned)(answer >> 27 & 7);
}

/* of a refusal */
static inline uint32_t deqbaryn_answer_place(uint64_t answer) {
    return (uint32_t)(answer >> 32);
}

/* of a run that is not refused */
static inline uint32_t deqbaryn_answer_steps(uint64_t answer) {
    return (uint32_t)(answer >> 32);
}

#ifdef __cplusplus
}
#endif

#endif
