/* The pair of zero rows that document 01 works out: its values, folds, verdict and report, and a
 * consumer that takes it. */
#include <inttypes.h>
#include <stdio.h>

#include "felmugo.h"

static const uint64_t row[FELMUGO_ROW];
static uint64_t masks[FELMUGO_MASKS];

/* The row is the first and the last of its run. */
static const uint64_t z_last = 0, lagrange_basis_first = 1;

static uint64_t print_values(void) {
    uint64_t values[FELMUGO_VALUES];
    uint64_t number = felmugo_pair_values(masks, FELMUGO_MASKS, row, FELMUGO_ROW, row, FELMUGO_ROW,
                                          z_last, lagrange_basis_first, values, FELMUGO_VALUES);
    for (int i = 0; number == 0 && i < FELMUGO_VALUES; i++) {
        FelmugoSigned form = felmugo_signed(values[i]);
        if (form.number != 0)
            number = form.number;
        else if (values[i] != 0)
            printf("value %d is %" PRIu64 ", signed %" PRId64 "\n", i + 1, values[i], form.value);
    }
    return number;
}

static uint64_t print_folds(void) {
    const uint64_t alphas[3] = {0, 1, 2};
    uint64_t accs[3] = {0, 0, 0};
    uint64_t number = felmugo_pair_fold(masks, FELMUGO_MASKS, row, FELMUGO_ROW, row, FELMUGO_ROW,
                                        z_last, lagrange_basis_first, alphas, 3, accs, 3);
    for (int i = 0; number == 0 && i < 3; i++)
        printf("under alpha %" PRIu64 " it folds from 0 to %" PRIu64 "\n", alphas[i], accs[i]);
    return number;
}

/* No selector of a zero row is 1, so its flags are not plain. */
static void print_verdict(void) {
    FelmugoVerdict verdict = felmugo_pair_judge(masks, FELMUGO_MASKS, row, FELMUGO_ROW, row,
                                                FELMUGO_ROW, true, true);
    if (verdict.number != 0)
        printf("the judge refuses with %" PRIu64 "\n", verdict.number);
    else
        printf("the judge says %s\n", verdict.keeps ? "keeps" : "breaks");
}

static uint64_t print_report(void) {
    FelmugoReport report = felmugo_run_report(row, FELMUGO_ROW, masks, FELMUGO_MASKS);
    if (report.number == 0)
        printf("of %" PRIu64 " pairs %" PRIu64 " fail\n", report.pairs, report.failing);
    if (report.found)
        printf("the first at pair %" PRIu64 ", value %" PRIu64 "\n", report.pair, report.value);
    return report.number;
}

static uint64_t print_accumulators(const FelmugoConsumer *consumer) {
    uint64_t accs[3];
    uint64_t number = felmugo_consumer_accumulators(consumer, accs, 3);
    if (number == 0)
        printf("after %" PRIu64 " values: [%" PRIu64 ", %" PRIu64 ", %" PRIu64 "]\n",
               consumer->folded, accs[0], accs[1], accs[2]);
    return number;
}

/* The consumer takes the 226 values, and one of a later table that holds on the last row. */
static uint64_t print_consumer(void) {
    const uint64_t alphas[3] = {0, 1, 2}, accs[3] = {0, 0, 0}, lagrange_basis_last = 1;
    FelmugoOutcome made = felmugo_consumer_new(alphas, 3, accs, 3, z_last, lagrange_basis_first,
                                               lagrange_basis_last);
    uint64_t number = made.number;
    if (number == 0)
        number = felmugo_consumer_pair(&made.consumer, masks, FELMUGO_MASKS, row, FELMUGO_ROW, row,
                                       FELMUGO_ROW);
    if (number == 0)
        number = print_accumulators(&made.consumer);
    if (number == 0)
        number = felmugo_consumer_constraint_last_row(&made.consumer, 5);
    if (number == 0)
        number = print_accumulators(&made.consumer);
    return number;
}

int main(void) {
    for (int i = 0; i < FELMUGO_MASKS; i++)
        masks[i] = UINT64_C(1) << i;
    uint64_t number = print_values();
    if (number == 0)
        number = print_folds();
    print_verdict();
    if (number == 0)
        number = print_report();
    if (number == 0)
        number = print_consumer();
    if (number != 0)
        printf("refused %" PRIu64 "\n", number);
    return number != 0;
}
