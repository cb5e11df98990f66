/* The host calls: Werktage and Fristen of the German energy market. The archive is libmako_fristen.a.
 *
 * Each call returns 0 or the number of its refusal, and fills the answer of MF_ANSWER_LENGTH bytes that it is lent, its
 * last parameter, little-endian: byte 0 the number that is returned, 1 a kind, 4 to 7 a count, 8 to 15 the seconds and
 * 16 to 19 the nanoseconds of an instant, 20 to 23 a date (year in two bytes, month, day), 24 to 27 a span's last date
 * or the days that a count tested, 28 to 31 a verdict's margin, signed. What is not filled is zero, and so is all but
 * the number if the call refuses. An answer of another length is left as it was.
 *
 * docs/host-calls.md says what each call answers and refuses, and what the caller owes. */
#ifndef MAKO_FRISTEN_H
#define MAKO_FRISTEN_H

#include <stddef.h>
#include <stdint.h>

#ifdef __cplusplus
extern "C" {
#endif

/* Lengths. */
enum {
    MF_ANSWER_LENGTH = 32,
    MF_QUESTION_LENGTH = 32,
    MF_QUESTIONS_MOST = 2048,
    MF_PAIRS_MOST = 4096
};

/* What a portfolio counts for a pair with a day outside of the calendar. */
#define MF_OUT_OF_RANGE UINT32_C(4294967295)

/* Refusals. */
enum {
    MF_ANSWERED = 0,
    MF_REFUSED_ANSWER_LENGTH = 1,
    MF_REFUSED_UNKNOWN_CODE = 2,
    MF_REFUSED_NO_DATE = 3,
    MF_REFUSED_INSTANT_OUTSIDE = 4,
    MF_REFUSED_NO_CLOCK = 5,
    MF_REFUSED_LOCAL_TIME_ABSENT = 6,
    MF_REFUSED_NO_BEGINNING = 7,
    MF_REFUSED_LEAVES_CALENDAR = 8,
    MF_REFUSED_FILE_LENGTH = 9,
    MF_REFUSED_LIST_LENGTH = 10
};

/* anlass */
enum {
    MF_ANLASS_REGELFALL = 0,
    MF_ANLASS_STROM_UTILMD_ODER_ORDERS = 1,
    MF_ANLASS_GAS_ALOCAT = 2
};

/* sparte */
enum {
    MF_SPARTE_STROM = 0,
    MF_SPARTE_GAS = 1
};

/* eeg */
enum {
    MF_EEG_NO = 0,
    MF_EEG_YES = 1,
    MF_EEG_UNKNOWN = 2
};

/* shape of mf_frist_due_at */
enum {
    MF_FRIST_WERKTAG_AT = 0,
    MF_FRIST_END_OF_WERKTAG = 1,
    MF_FRIST_SAME_DAY_AT = 2,
    MF_FRIST_SAME_DAY = 3
};

/* shape of a lead time: count, or what stands behind it */
enum {
    MF_VORLAUF_LATEST_WERKTAGE_BEFORE = 0,
    MF_VORLAUF_WINDOW_WERKTAGE_BEFORE = 1, /* earliest, latest */
    MF_VORLAUF_LATEST_WERKTAGE_AFTER = 2,
    MF_VORLAUF_EARLIEST_WERKTAGE_AFTER = 3,
    MF_VORLAUF_KORRIDOR = 4,
    MF_VORLAUF_TAG_VOR_DEM_LETZTEN_WERKTAG_VOR = 5, /* none */
    MF_VORLAUF_LATEST_MONATE_BEFORE = 6,
    MF_VORLAUF_LATEST_MONATE_UND_WERKTAGE_BEFORE = 7 /* monate, werktage */
};

/* Kinds of verdicts. */
enum {
    MF_VERDICT_OK = 0,
    MF_VERDICT_TOO_LATE = 1,
    MF_VERDICT_TOO_EARLY = 2,
    MF_VERDICT_NO_SHAPE = 3
};

/* Kinds of spans: no last day, both days, no day. */
enum {
    MF_SPAN_FROM = 0,
    MF_SPAN_BETWEEN = 1,
    MF_SPAN_EMPTY = 2
};

/* Kinds of due instants Gas. */
enum {
    MF_GAS_FOLGEPROZESS = 0,
    MF_GAS_INITIALPROZESS = 1
};

/* Kinds of deregistrations. */
enum {
    MF_ABMELDUNG_TAG_VOR_DEM_LETZTEN_WERKTAG = 0,
    MF_ABMELDUNG_EIN_MONAT = 1,
    MF_ABMELDUNG_UNBESTIMMT = 2,
    MF_ABMELDUNG_AN_PRUEFSCHRITT_120 = 3
};

/* Kinds of announcements. */
enum {
    MF_ANKUENDIGUNG_NO = 0,
    MF_ANKUENDIGUNG_YES = 1,
    MF_ANKUENDIGUNG_NEITHER = 2
};

/* Kinds of the day test. */
enum {
    MF_WERKTAG = 0,
    MF_SAMSTAG = 1,
    MF_SONNTAG = 2,
    MF_NEUJAHR = 3,
    MF_HEILIGE_DREI_KOENIGE = 4,
    MF_INTERNATIONALER_FRAUENTAG = 5,
    MF_TAG_DER_ARBEIT = 6,
    MF_MARIAE_HIMMELFAHRT = 7,
    MF_WELTKINDERTAG = 8,
    MF_TAG_DER_DEUTSCHEN_EINHEIT = 9,
    MF_REFORMATIONSTAG = 10,
    MF_ALLERHEILIGEN = 11,
    MF_HEILIGABEND = 12,
    MF_ERSTER_WEIHNACHTSFEIERTAG = 13,
    MF_ZWEITER_WEIHNACHTSFEIERTAG = 14,
    MF_SILVESTER = 15,
    MF_BUSS_UND_BETTAG = 16,
    MF_KARFREITAG = 17,
    MF_OSTERMONTAG = 18,
    MF_CHRISTI_HIMMELFAHRT = 19,
    MF_PFINGSTSONNTAG = 20,
    MF_PFINGSTMONTAG = 21,
    MF_FRONLEICHNAM = 22
};

/* Kind: MF_WERKTAG or why the day is none. */
uint8_t mf_is_werktag(uint16_t year, uint8_t month, uint8_t day, uint8_t *answer, size_t answer_len);

/* Date: the first Werktag on or after the day. */
uint8_t mf_next_werktag(uint16_t year, uint8_t month, uint8_t day, uint8_t *answer, size_t answer_len);

/* Date: the n-th Werktag after the day. */
uint8_t mf_add_werktage(uint16_t year, uint8_t month, uint8_t day, uint32_t n, uint8_t *answer,
                        size_t answer_len);

/* Date: the n-th Werktag before the day. */
uint8_t mf_sub_werktage(uint16_t year, uint8_t month, uint8_t day, uint32_t n, uint8_t *answer,
                        size_t answer_len);

/* Count: the Werktage after the first day up to and including the second. Bytes 24 to 27: how many days were tested. */
uint8_t mf_werktage_between(uint16_t year, uint8_t month, uint8_t day, uint16_t year2, uint8_t month2,
                            uint8_t day2, uint8_t *answer, size_t answer_len);

/* Date: n months later. */
uint8_t mf_add_months(uint16_t year, uint8_t month, uint8_t day, uint32_t n, uint8_t *answer,
                      size_t answer_len);

/* Date: n months earlier. */
uint8_t mf_subtract_months(uint16_t year, uint8_t month, uint8_t day, uint32_t n, uint8_t *answer,
                           size_t answer_len);

/* Instant: when Berlin's clock shows this time on this day. */
uint8_t mf_berlin_at(uint16_t year, uint8_t month, uint8_t day, uint8_t hour, uint8_t minute, uint8_t second,
                     uint32_t nanos_of_second, uint8_t *answer, size_t answer_len);

/* Instant: 00:00 in Berlin. */
uint8_t mf_berlin_midnight(uint16_t year, uint8_t month, uint8_t day, uint8_t *answer, size_t answer_len);

/* Instant: the last one of the day in Berlin. */
uint8_t mf_end_of_day_berlin(uint16_t year, uint8_t month, uint8_t day, uint8_t *answer, size_t answer_len);

/* Instant: when the day begins in the Sparte. */
uint8_t mf_tagesbeginn_utc(uint16_t year, uint8_t month, uint8_t day, uint8_t sparte, uint8_t *answer,
                           size_t answer_len);

/* Date: the day in Berlin at the instant. */
uint8_t mf_berlin_date(int64_t seconds, uint32_t nanos, uint8_t *answer, size_t answer_len);

/* Date: the day that begins at the instant in the Sparte. */
uint8_t mf_tag_des_beginns(int64_t seconds, uint32_t nanos, uint8_t sparte, uint8_t *answer,
                           size_t answer_len);

/* Instant: when the CONTRL is due. */
uint8_t mf_contrl_due_at(int64_t seconds, uint32_t nanos, uint8_t anlass, uint8_t *answer, size_t answer_len);

/* Instant: when the APERAK on a UTILMD or ORDERS Strom is due. */
uint8_t mf_aperak_strom_due_at(int64_t seconds, uint32_t nanos, uint8_t *answer, size_t answer_len);

/* Instant: when the APERAK on any other message Strom is due. */
uint8_t mf_aperak_strom_allgemein_due_at(int64_t seconds, uint32_t nanos, uint8_t *answer, size_t answer_len);

/* Instant, and kind MF_GAS_FOLGEPROZESS: when the APERAK Gas is due. */
uint8_t mf_aperak_gas_folgeprozess_due_at(int64_t seconds, uint32_t nanos, uint8_t *answer,
                                          size_t answer_len);

/* Instant, and kind MF_GAS_INITIALPROZESS: when the APERAK Gas is due. */
uint8_t mf_aperak_gas_initialprozess_due_at(int64_t seconds, uint32_t nanos, uint8_t *answer,
                                            size_t answer_len);

/* Instant, and kind: when the APERAK Gas on a message of this pid is due, and by which process. */
uint8_t mf_aperak_gas_due_at(uint32_t pid, int64_t seconds, uint32_t nanos, uint8_t *answer,
                             size_t answer_len);

/* Instant: so many hours later. */
uint8_t mf_add_hours(int64_t seconds, uint32_t nanos, uint32_t hours, uint8_t *answer, size_t answer_len);

/* Instant: the end of the Werktag so many after the day of receipt. */
uint8_t mf_deadline_at_werktage(int64_t seconds, uint32_t nanos, uint32_t werktage, uint8_t *answer,
                                size_t answer_len);

/* The same, by the other name of the original. */
uint8_t mf_end_of_werktag_after(int64_t seconds, uint32_t nanos, uint32_t werktage, uint8_t *answer,
                                size_t answer_len);

/* Instant: the time on the first Werktag after the day of receipt. */
uint8_t mf_next_werktag_at(int64_t seconds, uint32_t nanos, uint8_t hour, uint8_t minute, uint8_t second,
                           uint32_t nanos_of_second, uint8_t *answer, size_t answer_len);

/* Instant: the time on the n-th Werktag after the day of receipt. */
uint8_t mf_nth_werktag_at(int64_t seconds, uint32_t nanos, uint32_t n, uint8_t hour, uint8_t minute,
                          uint8_t second, uint32_t nanos_of_second, uint8_t *answer, size_t answer_len);

/* Instant: when an answer of this shape is due. A shape that has no count or no clock does not look at it. */
uint8_t mf_frist_due_at(uint8_t shape, uint32_t werktage, uint8_t hour, uint8_t minute, uint8_t second,
                        uint32_t nanos_of_second, int64_t seconds, uint32_t nanos, uint8_t *answer,
                        size_t answer_len);

/* A verdict: kind MF_VERDICT_..., count of Werktage and earliest date; in bytes 28 to 31 the margin in days, signed.
 * First comes the day of transmission, then the anchor. */
uint8_t mf_vorlauf_check(uint8_t shape, uint32_t count, uint32_t count2, uint16_t year, uint8_t month,
                         uint8_t day, uint16_t year2, uint8_t month2, uint8_t day2, uint8_t *answer,
                         size_t answer_len);

/* The same with instants: the transmission, then the beginning of the anchor in the Sparte. */
uint8_t mf_vorlauf_check_at(uint8_t shape, uint32_t count, uint32_t count2, int64_t seconds, uint32_t nanos,
                            int64_t seconds2, uint32_t nanos2, uint8_t sparte, uint8_t *answer,
                            size_t answer_len);

/* Kind MF_SPAN_..., date and, in bytes 24 to 27, last date: which anchors a message of the day may name. */
uint8_t mf_vorlauf_span(uint8_t shape, uint32_t count, uint32_t count2, uint16_t year, uint8_t month,
                        uint8_t day, uint8_t *answer, size_t answer_len);

/* Kind MF_ABMELDUNG_...: which lead time a deregistration has. The reason is any bytes. */
uint8_t mf_abmeldung_fuer(const uint8_t *reason, size_t reason_len, uint8_t eeg, uint8_t *answer,
                          size_t answer_len);

/* A verdict on a deregistration, as mf_vorlauf_check gives it. */
uint8_t mf_abmeldung_check(const uint8_t *reason, size_t reason_len, uint8_t eeg, uint16_t year,
                           uint8_t month, uint8_t day, uint16_t year2, uint8_t month2, uint8_t day2,
                           uint8_t *answer, size_t answer_len);

/* Kind MF_ANKUENDIGUNG_...: whether the announcement came in its window before the beginning. */
uint8_t mf_eog_ankuendigung_fristgerecht(int64_t seconds, uint32_t nanos, uint16_t year, uint8_t month,
                                         uint8_t day, uint8_t *answer, size_t answer_len);

/* A file of questions, MF_QUESTION_LENGTH bytes each and up to MF_QUESTIONS_MOST of them; answers are as many bytes as
 * questions. */
uint8_t mf_questions(const uint8_t *questions, size_t questions_len, uint8_t *answers, size_t answers_len);

/* counts gets the Werktage of each pair of days, MF_OUT_OF_RANGE where one lies outside of the calendar. A day is a
 * number of days from 1 January 1970 on, and the lengths of the lists are in entries. Count: how many entries of the
 * year index were read. */
uint8_t mf_portfolio(const uint32_t *from, size_t from_len, const uint32_t *to, size_t to_len,
                     uint32_t *counts, size_t counts_len, uint8_t *answer, size_t answer_len);

/* Instant: when the CONTRL is due with this change day instead of 1 April and 1 October. */
uint8_t mf_contrl_due_at_change(int64_t seconds, uint32_t nanos, uint8_t anlass, uint16_t year, uint8_t month,
                                uint8_t day, uint8_t *answer, size_t answer_len);

#ifdef __cplusplus
}
#endif

#endif
