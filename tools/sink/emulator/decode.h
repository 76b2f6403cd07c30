/* Instructions as they are run: decoded once, when a firmware is loaded. */
#ifndef DECODE_H
#define DECODE_H

#include <stdbool.h>
#include <stdint.h>

enum kind {
    NONE, /* no instruction, or none that this core has */
    AND, BIC, ORR, ORN, EOR, ADD, ADC, SBC, SUB, RSB, MOV, MVN, TST, TEQ, CMP, CMN,
    SHIFT, MOVT, ADR, EXTEND, EXTRACT, INSERT, SATURATE, CLZ, RBIT, REV, REV16, REVSH,
    MUL, MLA, MLS, UMULL, SMULL, UMLAL, SMLAL, UDIV, SDIV,
    LDR, STR, LDRD, STRD, LDM, STM, TABLE,
    B, BL, BX, BLX, CBZ, IT, NOP, CPS, BARRIER,
    KINDS
};

enum { LSL, LSR, ASR, ROR, RRX };
enum { FLAGS_NO, FLAGS_YES, FLAGS_OUTSIDE_IT };
enum { CARRY_STAYS = 2 };
enum { PRE = 4, UP = 2, WRITE_BACK = 1 };
enum { ALWAYS = 14 };

struct op {
    uint8_t kind;
    uint8_t size;        /* of the instruction in bytes */
    uint8_t flags;       /* whether it sets them */
    uint8_t d, n, m, a;  /* registers */
    uint8_t shift, amount;
    uint8_t width;       /* bytes of a load, store or extension; of a bit field its bits */
    uint8_t how;         /* PRE, UP, WRITE_BACK */
    uint8_t carry;       /* of an immediate */
    uint8_t condition;   /* of a branch */
    bool is_register;    /* the second operand is a register that is shifted */
    bool is_signed;
    uint32_t imm;
};

/* An instruction of one kind, with an immediate or with a register. */
struct op decode_immediate(enum kind kind, uint32_t flags, uint32_t d, uint32_t n, uint32_t imm);
struct op decode_register(enum kind kind, uint32_t flags, uint32_t d, uint32_t n, uint32_t m);

/* Sets a shift by an immediate, of which 0 stands for 32, or for RRX. */
void decode_shift(struct op *op, uint32_t type, uint32_t amount);

/* The instruction of 16 bits, or of two halves of 16 bits. */
struct op decode16(uint32_t half);
struct op decode32(uint32_t one, uint32_t two);

/* Does an instruction of its kind. */
typedef void deed(const struct op *op);
extern deed *const deeds[KINDS];

/* Parts of deeds that several files need: a shift, which changes the carry; the flags of a value; whether an
 * instruction sets them; puts a value into the register `d`, which may be the program counter. */
uint32_t deed_shifted(uint32_t value, uint32_t type, uint32_t amount, uint32_t *carry);
void deed_set_nz(uint32_t value);
bool deed_sets(const struct op *op);
void deed_keep(const struct op *op, uint32_t value);

/* Goes on at an address that a register or the memory had: back from an exception too. */
void deed_go_to(uint32_t to);

/* Whether the instruction that comes is one that an IT before it leaves out. */
bool deed_is_left_out(void);

deed deed_logic, deed_sum, deed_shift, deed_movt, deed_adr, deed_extend, deed_extract, deed_insert, deed_saturate;
deed deed_bits, deed_multiply, deed_multiply_add, deed_multiply_long, deed_divide;
deed deed_load, deed_store, deed_two, deed_several, deed_table;
deed deed_branch, deed_branch_by_register, deed_compare_branch, deed_it, deed_nothing, deed_masks, deed_barrier;
deed deed_unknown;

#endif
