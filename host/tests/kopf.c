/* Puts questions to the calls as the header declares them, for kopf.rs: from standard input to standard output. It is C
 * and C++. */
#include "mako_fristen.h"

#include <stdio.h>
#include <string.h>

enum { RECORD = 64, MOST = 1 << 17, UNTOUCHED = 0xa5 };

static uint8_t input[MOST], output[MOST];
static uint32_t list[MOST / 4], counts[MOST / 8 + 1];

static uint32_t number(const uint8_t *bytes) {
    return bytes[0] | (uint32_t)bytes[1] << 8 | (uint32_t)bytes[2] << 16 | (uint32_t)bytes[3] << 24;
}

static int64_t seconds(const uint8_t *bytes) {
    uint64_t low = number(bytes), high = number(bytes + 4), both = low | high << 32;
    int64_t value;
    memcpy(&value, &both, sizeof value);
    return value;
}

/* A question as Question::to_bytes writes it. */
#define DATE (uint16_t)number(q + 4), q[6], q[7]
#define SECOND_DATE (uint16_t)number(q + 8), q[10], q[11]
#define INSTANT seconds(q + 16), number(q + 24)
#define SECOND_INSTANT seconds(q + 36), number(q + 44)
#define CLOCK q[28], q[29], q[30], number(q + 8)
#define CODE q[1]
#define SECOND_CODE q[48]
#define N number(q + 12)
#define SECOND_N number(q + 32)
#define REASON q + 50, q[49]
#define ANSWER answer, answer_len

static uint8_t ask(const uint8_t *q, uint8_t *answer, size_t answer_len) {
    switch (q[0]) {
    case 0: return mf_is_werktag(DATE, ANSWER);
    case 1: return mf_next_werktag(DATE, ANSWER);
    case 2: return mf_add_werktage(DATE, N, ANSWER);
    case 3: return mf_sub_werktage(DATE, N, ANSWER);
    case 4: return mf_werktage_between(DATE, SECOND_DATE, ANSWER);
    case 5: return mf_add_months(DATE, N, ANSWER);
    case 6: return mf_subtract_months(DATE, N, ANSWER);
    case 7: return mf_berlin_at(DATE, CLOCK, ANSWER);
    case 8: return mf_berlin_midnight(DATE, ANSWER);
    case 9: return mf_end_of_day_berlin(DATE, ANSWER);
    case 10: return mf_tagesbeginn_utc(DATE, CODE, ANSWER);
    case 11: return mf_berlin_date(INSTANT, ANSWER);
    case 12: return mf_tag_des_beginns(INSTANT, CODE, ANSWER);
    case 13: return mf_contrl_due_at(INSTANT, CODE, ANSWER);
    case 14: return mf_aperak_strom_due_at(INSTANT, ANSWER);
    case 15: return mf_aperak_strom_allgemein_due_at(INSTANT, ANSWER);
    case 16: return mf_aperak_gas_folgeprozess_due_at(INSTANT, ANSWER);
    case 17: return mf_aperak_gas_initialprozess_due_at(INSTANT, ANSWER);
    case 18: return mf_aperak_gas_due_at(N, INSTANT, ANSWER);
    case 19: return mf_add_hours(INSTANT, N, ANSWER);
    case 20: return mf_deadline_at_werktage(INSTANT, N, ANSWER);
    case 21: return mf_end_of_werktag_after(INSTANT, N, ANSWER);
    case 22: return mf_next_werktag_at(INSTANT, CLOCK, ANSWER);
    case 23: return mf_nth_werktag_at(INSTANT, N, CLOCK, ANSWER);
    case 24: return mf_frist_due_at(CODE, N, CLOCK, INSTANT, ANSWER);
    case 25: return mf_vorlauf_check(CODE, N, SECOND_N, DATE, SECOND_DATE, ANSWER);
    case 26: return mf_vorlauf_check_at(CODE, N, SECOND_N, INSTANT, SECOND_INSTANT, SECOND_CODE, ANSWER);
    case 27: return mf_vorlauf_span(CODE, N, SECOND_N, DATE, ANSWER);
    case 28: return mf_abmeldung_fuer(REASON, CODE, ANSWER);
    case 29: return mf_abmeldung_check(REASON, CODE, DATE, SECOND_DATE, ANSWER);
    case 30: return mf_eog_ankuendigung_fristgerecht(INSTANT, DATE, ANSWER);
    case 31: return mf_contrl_due_at_change(INSTANT, CODE, DATE, ANSWER);
    default: return UNTOUCHED;
    }
}

static void write_out(uint8_t refusal, const void *bytes, size_t len) {
    fwrite(&refusal, 1, 1, stdout);
    fwrite(bytes, 1, len, stdout);
}

/* Each question three times: with room for an answer, and with a byte too few and too many. */
static void answer_all(size_t len) {
    static const size_t lengths[] = {MF_ANSWER_LENGTH, MF_ANSWER_LENGTH - 1, MF_ANSWER_LENGTH + 1};
    uint8_t answer[MF_ANSWER_LENGTH + 1];
    size_t at, length;
    for (at = 0; at + RECORD <= len; at += RECORD) {
        for (length = 0; length < sizeof lengths / sizeof *lengths; length++) {
            uint8_t refusal;
            memset(answer, UNTOUCHED, sizeof answer);
            refusal = ask(input + at, answer, lengths[length]);
            write_out(refusal, answer, sizeof answer);
        }
    }
}

static void questions(size_t len, size_t answers_len) {
    memset(output, UNTOUCHED, sizeof output);
    write_out(mf_questions(input, len, output, answers_len), output, len);
}

/* The first half of the days to the second. */
static void portfolio(size_t len, size_t answer_len) {
    uint8_t answer[MF_ANSWER_LENGTH + 1];
    size_t at, pairs = len / 8;
    uint8_t refusal;
    for (at = 0; at < 2 * pairs; at++) list[at] = number(input + 4 * at);
    memset(answer, UNTOUCHED, sizeof answer);
    memset(counts, UNTOUCHED, sizeof counts);
    refusal = mf_portfolio(list, pairs, list + pairs, pairs, counts, pairs, answer, answer_len);
    write_out(refusal, answer, sizeof answer);
    for (at = 0; at < pairs; at++) printf("%08lx", (unsigned long)counts[at]);
}

int main(int argc, char **argv) {
    const char *what = argc > 1 ? argv[1] : "";
    size_t len = fread(input, 1, sizeof input, stdin);
    if (!strcmp(what, "calls")) answer_all(len);
    if (!strcmp(what, "questions")) questions(len, len), questions(len, len - 1);
    if (!strcmp(what, "portfolio")) portfolio(len, MF_ANSWER_LENGTH), portfolio(len, MF_ANSWER_LENGTH - 1);
    return fflush(stdout) || ferror(stdout);
}
