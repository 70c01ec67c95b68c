/* The constraint values of pairs of CPU rows, their signed forms, folds, verdicts and reports, and
 * the consumer that takes values one by one.
 *
 * The functions are in target/staticlib/libffi.a, which `tools/build ffi` makes.
 *
 * p is FELMUGO_P, 2^64 - 2^32 + 1. A row is 94 values, a list of masks 25, and the values of a pair
 * are 226, all below p. A pointer to values is followed by their number; where that is 0 it may be
 * NULL. The buffer that a call writes to must not overlap another of the same call, and
 * nobody else may write to a lent buffer meanwhile; buffers that are only read may overlap. The
 * same holds of a lent consumer: while a call has it, it must not be lent to another, nor overlap a
 * buffer of the same call. Its pointer may not be NULL.
 *
 * A number is 0, or that of a refusal. Of the reasons that apply, the lowest number is answered; a
 * refused call leaves lent memory as it was, and the other numbers of its answer are 0. */
#ifndef FELMUGO_H
#define FELMUGO_H

#include <stdbool.h>
#include <stddef.h>
#include <stdint.h>

#ifdef __cplusplus
extern "C" {
#endif

#define FELMUGO_P UINT64_C(18446744069414584321)

/* The greatest signed number, half of p - 1; the least is its negative. */
#define FELMUGO_GREATEST INT64_C(9223372034707292160)

/* The greatest count of folded values that a consumer reaches. */
#define FELMUGO_MAX_FOLDED UINT64_C(4294967295)

enum {
    FELMUGO_ROW = 94,
    FELMUGO_MASKS = 25,
    FELMUGO_VALUES = 226,
    FELMUGO_MAX_ROWS = 65536,
    FELMUGO_MAX_ALPHAS = 8
};

/* The numbers of the refusals. */
enum {
    FELMUGO_ROW_LENGTH = 1,      /* rows: a row not 94 values; a run not 1 to 65,536 whole rows */
    FELMUGO_MASK_COUNT = 2,      /* masks: not 25 values */
    FELMUGO_VALUE_BUFFER = 3,    /* value buffer: under 226 values */
    FELMUGO_ALPHA_COUNT = 4,     /* alphas: not 1 to 8, or accumulators differ in count */
    FELMUGO_MASK_CONTENTS = 5,   /* masks: one not below p, or two of the first five equal */
    FELMUGO_ROW_CONTENTS = 6,    /* row contents: one not below p */
    FELMUGO_NOT_BELOW_P = 7,     /* weights, alphas, accumulators, a lone operand or folded value:
                                    one not below p; a signed number outside the range */
    FELMUGO_FLAGS_NOT_PLAIN = 8, /* judge: flags not plain */
    FELMUGO_FOLD_COUNT = 9       /* consumer: a fold that would pass a count of 4,294,967,295 */
};

/* A residue, or the number of the refusal with the value 0. */
typedef struct {
    uint64_t number;
    uint64_t value;
} FelmugoResidue;

/* A signed number, or the number of the refusal with the value 0. */
typedef struct {
    uint64_t number;
    int64_t value;
} FelmugoSigned;

/* A verdict, or the number of the refusal. */
typedef struct {
    uint64_t number;
    uint64_t keeps; /* 1 for "keeps", else 0 */
} FelmugoVerdict;

/* A run's report, or the number of the refusal with a zero report. */
typedef struct {
    uint64_t number;
    uint64_t pairs;   /* the pairs of the run, as many as its rows */
    uint64_t failing; /* the pairs of which a value is not 0 */
    uint64_t found;   /* 1 if there is a first failing spot, else 0 */
    uint64_t pair;    /* the lowest failing pair, counted from 0 */
    uint64_t value;   /* the number of its lowest nonzero value, 1 to 226 (docs/ROWS.md) */
} FelmugoReport;

/* A consumer: each accumulator in use folds, under its alpha, the values that are yielded. It is
 * the caller's to keep: it may be stored, copied and handed in again, and every call tests what it
 * is handed. Places past the count are neither tested nor altered. */
typedef struct {
    uint64_t alphas[FELMUGO_MAX_ALPHAS];
    uint64_t constraint_accs[FELMUGO_MAX_ALPHAS];
    size_t count;                  /* how many places of both are in use */
    uint64_t z_last;               /* the weight of a transition value */
    uint64_t lagrange_basis_first; /* the weight of a first-row value */
    uint64_t lagrange_basis_last;  /* the weight of a last-row value */
    uint64_t folded;               /* the values folded since the accumulators were lent */
} FelmugoConsumer;

/* A consumer, or the number of the refusal with a consumer of zeros, which no call accepts: its
 * count is 0. */
typedef struct {
    uint64_t number;
    FelmugoConsumer consumer;
} FelmugoOutcome;

/* a + b, a - b and a * b modulo p, below p.
 * Refuses: 7 an operand not below p. */
FelmugoResidue felmugo_add(uint64_t a, uint64_t b);
FelmugoResidue felmugo_sub(uint64_t a, uint64_t b);
FelmugoResidue felmugo_mul(uint64_t a, uint64_t b);

/* The signed form of a residue: itself up to FELMUGO_GREATEST, a larger one minus p.
 * Refuses: 7 a residue not below p. */
FelmugoSigned felmugo_signed(uint64_t residue);

/* The residue of a signed number: itself, a negative one plus p. The two maps undo each other.
 * Refuses: 7 a number outside -FELMUGO_GREATEST to FELMUGO_GREATEST. */
FelmugoResidue felmugo_unsigned(int64_t value);

/* Writes the 226 values of the pair of rows lv (current) and nv (next) to the first places of out,
 * each with its weight applied: a transition value times z_last, a first-row value times
 * lagrange_basis_first. Further places of out stay as they were.
 * Refuses, in this order: 1 a row not 94 values; 2 masks not 25; 3 out under 226 values; 5 a mask
 * not below p, or two of the first five equal; 6 a value of a row not below p; 7 a weight not below
 * p. A refused call leaves out as it was. */
uint64_t felmugo_pair_values(const uint64_t *masks, size_t masks_len,
                             const uint64_t *lv, size_t lv_len,
                             const uint64_t *nv, size_t nv_len,
                             uint64_t z_last, uint64_t lagrange_basis_first,
                             uint64_t *out, size_t out_len);

/* Folds the same 226 values into each accumulator accs[i] under alphas[i]: value after value, the
 * accumulator a becomes a * alpha + value.
 * Refuses, in this order: 1 a row not 94 values; 2 masks not 25; 4 alphas not 1 to 8, or
 * accumulators that differ in count; 5 a mask not below p, or two of the first five equal; 6 a value
 * of a row not below p; 7 a weight, an alpha or an accumulator not below p. A refused call leaves
 * accs as it was. */
uint64_t felmugo_pair_fold(const uint64_t *masks, size_t masks_len,
                           const uint64_t *lv, size_t lv_len,
                           const uint64_t *nv, size_t nv_len,
                           uint64_t z_last, uint64_t lagrange_basis_first,
                           const uint64_t *alphas, size_t alphas_len,
                           uint64_t *accs, size_t accs_len);

/* Judges the pair by the rules, for a current row that is the run's first or not, its last or not:
 * exactly the pairs whose values are all 0 keep every rule.
 * Refuses, in this order: 1 a row not 94 values; 2 masks not 25; 5 a mask not below p, or two of the
 * first five equal; 6 a value of a row not below p; 8 flags that are not plain: of lv IS_EXT_LINE,
 * IS_ENTRY_SC, IS_NEXT_LINE_DIFF_INST and IS_NEXT_LINE_SAME_TX are 0 or 1, of nv IS_EXT_LINE and
 * IS_PADDING, and exactly one of its 19 instruction selectors is 1, the others 0. */
FelmugoVerdict felmugo_pair_judge(const uint64_t *masks, size_t masks_len,
                                  const uint64_t *lv, size_t lv_len,
                                  const uint64_t *nv, size_t nv_len,
                                  bool first, bool last);

/* Reports on a run of rows, one after the other in run: pair i is rows i and i + 1, and the last
 * pair returns to row 0. z_last is 0 on the last pair, else 1; lagrange_basis_first is 1 on pair 0,
 * else 0. A pair fails when one of its values is not 0.
 * Refuses, in this order: 1 a run not 1 to 65,536 whole rows; 2 masks not 25; 5 a mask not below p,
 * or two of the first five equal; 6 a value of a row not below p. */
FelmugoReport felmugo_run_report(const uint64_t *run, size_t run_len,
                                 const uint64_t *masks, size_t masks_len);

/* A consumer of the lent alphas and accumulators, which stand in its first places with zeros behind
 * them, and of the weights. Its folded is 0.
 * Refuses, in this order: 4 alphas not 1 to 8, or accumulators that differ in count; 7 a weight, an
 * alpha or an accumulator not below p. */
FelmugoOutcome felmugo_consumer_new(const uint64_t *alphas, size_t alphas_len,
                                    const uint64_t *accs, size_t accs_len,
                                    uint64_t z_last, uint64_t lagrange_basis_first,
                                    uint64_t lagrange_basis_last);

/* Fold one value with its weight applied: each accumulator a in use becomes a * alpha + value *
 * weight, and folded grows by 1. The weight is 1, z_last, lagrange_basis_first and
 * lagrange_basis_last, in turn.
 * Refuse, in this order: 4 a count not 1 to 8; 7 the value, a weight, or an alpha or accumulator in
 * use not below p; 9 a folded above 4,294,967,294. A refused call leaves the consumer as it was. */
uint64_t felmugo_consumer_constraint(FelmugoConsumer *consumer, uint64_t value);
uint64_t felmugo_consumer_constraint_transition(FelmugoConsumer *consumer, uint64_t value);
uint64_t felmugo_consumer_constraint_first_row(FelmugoConsumer *consumer, uint64_t value);
uint64_t felmugo_consumer_constraint_last_row(FelmugoConsumer *consumer, uint64_t value);

/* Folds the 226 values of the pair of rows lv (current) and nv (next), each with its weight of the
 * consumer applied, all or none; folded grows by 226.
 * Refuses, in this order: 1 a row not 94 values; 2 masks not 25; 4 a count not 1 to 8; 5 a mask not
 * below p, or two of the first five equal; 6 a value of a row not below p; 7 a weight, or an alpha
 * or accumulator in use not below p; 9 a folded above 4,294,967,069. A refused call leaves the
 * consumer as it was. */
uint64_t felmugo_consumer_pair(FelmugoConsumer *consumer,
                               const uint64_t *masks, size_t masks_len,
                               const uint64_t *lv, size_t lv_len,
                               const uint64_t *nv, size_t nv_len);

/* Writes the accumulators in use to out, whatever folded is.
 * Refuses, in this order: 4 a count not 1 to 8, or an out that differs in count; 7 a weight, or an
 * alpha or accumulator in use not below p. A refused call leaves out as it was. */
uint64_t felmugo_consumer_accumulators(const FelmugoConsumer *consumer,
                                       uint64_t *out, size_t out_len);

#ifdef __cplusplus
}
#endif

#endif
