//! Counts for a whole portfolio, cut into lists as the call takes them.

use crate::answer::UNTOUCHED;
use crate::{ffi, Answer, Call, Date, Error, Refusal, Unreadable};
use std::iter::zip;
use std::ops::RangeInclusive;

/// The most pairs of one call. [`portfolio`] takes any number: it cuts.
///
/// ```
/// use mako_fristen_host::{portfolio_counts, Refusal, MOST_PAIRS};
///
/// let days = [20_545; MOST_PAIRS + 1];
/// let mut counts = [7; MOST_PAIRS + 1];
/// let most = ..MOST_PAIRS;
/// assert_eq!(portfolio_counts(&days[most], &days[most], &mut counts[most]), Ok(1));
/// let more = portfolio_counts(&days, &days, &mut counts);
/// assert_eq!(more, Err(Refusal::ListLength.into()));
/// ```
pub const MOST_PAIRS: usize = 4096;

/// What the third list has at the place of a pair with a day that is not from
/// [`Date::FIRST_DAY`] to [`Date::LAST_DAY`]. It is no such day itself.
///
/// ```
/// use mako_fristen_host::{portfolio_counts, Date, OUT_OF_RANGE};
///
/// let mut counts = [0; 3];
/// let to = [Date::LAST_DAY, Date::LAST_DAY + 1, OUT_OF_RANGE];
/// portfolio_counts(&[Date::LAST_DAY; 3], &to, &mut counts)?;
/// assert_eq!(counts, [0, OUT_OF_RANGE, OUT_OF_RANGE]);
/// # Ok::<(), mako_fristen_host::Error>(())
/// ```
pub const OUT_OF_RANGE: u32 = u32::MAX;

/// What is lent as the third list: no count, should the call leave it as it is.
const UNWRITTEN: u32 = OUT_OF_RANGE - 1;

/// The Werktage after the first date up to and including the second, for each pair and in their
/// order; each is the one that [`werktage_between`](crate::werktage_between) gives, a refusal too
/// ([`Refusal::NoDate`]).
///
/// ```
/// use mako_fristen_host::{portfolio, Date, Refusal};
///
/// let begin = Date::new(2025, 6, 30);
/// let counts = portfolio(&[
///     (begin, Date::new(2035, 6, 30)),
///     (begin, Date::new(2025, 2, 29)),
///     (begin, begin),
/// ]);
/// assert_eq!(counts, [Ok(2_457), Err(Refusal::NoDate.into()), Ok(0)]);
/// ```
#[must_use]
pub fn portfolio(pairs: &[(Date, Date)]) -> Vec<Result<u32, Error>> {
    in_lists(pairs, ffi::mf_portfolio)
}

/// The lists themselves, of one call: for each pair of `from` and `to`, days since 1 January 1970
/// ([`Date::calendar_day`]), the count at its place in `counts`, or [`OUT_OF_RANGE`]. Gives the
/// number of runs, which is how often an entry of the year index was read for a first day:
/// neighbouring pairs in range that begin in the same year are one run.
///
/// ```
/// use mako_fristen_host::{portfolio_counts, Date, Refusal, OUT_OF_RANGE};
///
/// let day = |year, month, day| Date::new(year, month, day).calendar_day().unwrap_or(OUT_OF_RANGE);
/// let from = [day(2025, 6, 30), day(2025, 12, 23), day(2026, 4, 2), day(2026, 2, 29)];
/// let to = [day(2035, 6, 30), day(2026, 1, 7), day(2026, 4, 7), day(2026, 4, 7)];
/// let mut counts = [0; 4];
/// assert_eq!(portfolio_counts(&from, &to, &mut counts), Ok(2), "2025 and 2026");
/// assert_eq!(counts, [2_457, 5, 1, OUT_OF_RANGE]);
/// let refused = portfolio_counts(&from, &to[1..], &mut counts);
/// assert_eq!(refused, Err(Refusal::ListLength.into()));
/// ```
///
/// # Errors
///
/// [`Refusal::ListLength`], if the lists differ in length or have over [`MOST_PAIRS`] entries;
/// `counts` is then as it was.
pub fn portfolio_counts(from: &[u32], to: &[u32], counts: &mut [u32]) -> Result<u32, Error> {
    by_call(from, to, counts, ffi::mf_portfolio)
}

/// [`ffi::mf_portfolio`], or what a test has in its place.
type Put = fn(&[u32], &[u32], &mut [u32], &mut [u8]) -> u8;

/// The pairs as lists, call by call. The three lists are one piece of memory.
fn in_lists(pairs: &[(Date, Date)], put: Put) -> Vec<Result<u32, Error>> {
    let longest = pairs.len().min(MOST_PAIRS);
    let mut lists = vec![UNWRITTEN; 3 * longest];
    let (from, others) = lists.split_at_mut(longest);
    let (to, counts) = others.split_at_mut(longest);
    let mut given = Vec::with_capacity(pairs.len());
    for pairs in pairs.chunks(MOST_PAIRS) {
        let (from, to) = (&mut from[..pairs.len()], &mut to[..pairs.len()]);
        for ((from, to), (first, second)) in zip(zip(&mut *from, &mut *to), pairs) {
            *from = first.calendar_day().unwrap_or(OUT_OF_RANGE);
            *to = second.calendar_day().unwrap_or(OUT_OF_RANGE);
        }
        let counts = &mut counts[..pairs.len()];
        counts.fill(UNWRITTEN);
        let runs = called(from, to, counts, put);
        let read = |((from, to), count): ((&u32, &u32), &u32)| {
            runs.and_then(|_| count_of(*from, *to, *count))
        };
        given.extend(zip(zip(&*from, &*to), &*counts).map(read));
    }
    given
}

/// One call, all of whose counts are read.
fn by_call(from: &[u32], to: &[u32], counts: &mut [u32], put: Put) -> Result<u32, Error> {
    let runs = called(from, to, counts, put)?;
    for ((from, to), count) in zip(zip(from, to), counts) {
        if let Err(Error::Unreadable(unreadable)) = count_of(*from, *to, *count) {
            return Err(unreadable.into());
        }
    }
    Ok(runs)
}

/// One call, of which the answer is read: the runs. It is refused for the lengths alone.
fn called(from: &[u32], to: &[u32], counts: &mut [u32], put: Put) -> Result<u32, Error> {
    let mut answer = *UNTOUCHED.as_bytes();
    let number = put(from, to, counts, &mut answer);
    let answer = Answer::from_bytes(answer);
    let (runs, len) = (answer.count(), from.len().min(MOST_PAIRS));
    let refused = [from.len(), to.len(), counts.len()] != [len; 3];
    let (given, possible) = match refused {
        true => (Answer::refused(Refusal::ListLength), true),
        false => (Answer::default().with_count(runs), possible_runs(from, to).contains(&runs)),
    };
    if number != given.number() || answer != given || !possible {
        return Err(answer.unreadable(number, Call::WerktageBetween));
    }
    if refused {
        return Err(Refusal::ListLength.into());
    }
    Ok(runs)
}

/// From one, if a pair is in range, to one for each that is.
fn possible_runs(from: &[u32], to: &[u32]) -> RangeInclusive<u32> {
    let most = zip(from, to).map(|(from, to)| u32::from(in_range(*from, *to))).sum::<u32>();
    most.min(1)..=most
}

/// What the third list says of a pair: no more Werktage than there are days.
fn count_of(from: u32, to: u32, count: u32) -> Result<u32, Error> {
    match (in_range(from, to), count) {
        (true, count) if count <= to.saturating_sub(from) => Ok(count),
        (false, OUT_OF_RANGE) => Err(Refusal::NoDate.into()),
        _ => Err(unreadable_count(count).into()),
    }
}

fn in_range(from: u32, to: u32) -> bool {
    let days = Date::FIRST_DAY..=Date::LAST_DAY;
    days.contains(&from) && days.contains(&to)
}

#[cold]
pub(crate) fn unreadable_count(count: u32) -> Unreadable {
    let answer = Answer::default().with_count(count);
    Unreadable { call: Call::WerktageBetween, number: 0, answer }
}

#[cfg(test)]
mod tests {
    use super::*;

    /// 2 and 7 April 2026, and the days before and after the calendar.
    const THURSDAY: u32 = 20_545;
    const TUESDAY: u32 = 20_550;
    const BEFORE: u32 = Date::FIRST_DAY - 1;
    const AFTER: u32 = Date::LAST_DAY + 1;

    const EASTER: (Date, Date) = (Date::new(2026, 4, 2), Date::new(2026, 4, 7));
    const NO_DATE: (Date, Date) = (Date::new(2026, 2, 29), Date::new(2026, 4, 7));

    fn unreadable<T>(number: u8, answer: Answer) -> Result<T, Error> {
        Err(answer.unreadable(number, Call::WerktageBetween))
    }

    fn answered(runs: u32, answer: &mut [u8]) -> u8 {
        answer.copy_from_slice(Answer::default().with_count(runs).as_bytes());
        0
    }

    fn refused(answer: &mut [u8]) -> u8 {
        answer.copy_from_slice(Answer::refused(Refusal::ListLength).as_bytes());
        10
    }

    /// None of the pairs takes it for an answer or a refusal, whatever number it is.
    #[test]
    fn lists_that_the_archive_refuses_are_unreadable() {
        let refusing: [(u8, Put); 4] = [
            (1, |_, _, _, _| 1),
            (3, |_, _, _, _| 3),
            (10, |_, _, _, _| 10),
            (255, |_, _, _, _| 255),
        ];
        for (number, put) in refusing {
            let each = unreadable(number, UNTOUCHED);
            assert_eq!(in_lists(&[EASTER, NO_DATE], put), [each, each]);
            assert_eq!(by_call(&[THURSDAY], &[TUESDAY], &mut [7], put), each);
            assert_eq!(by_call(&[THURSDAY], &[], &mut [7], put), each, "no answer of a refusal");
        }
        let put: Put = |_, _, _, answer| refused(answer);
        let ten = Answer::refused(Refusal::ListLength);
        assert_eq!(in_lists(&[EASTER], put), [unreadable(10, ten)]);
        assert_eq!(by_call(&[THURSDAY], &[TUESDAY], &mut [7], put), unreadable(10, ten));
        assert_eq!(by_call(&[THURSDAY], &[], &mut [7], put), Err(Refusal::ListLength.into()));
    }

    #[test]
    fn lists_that_must_be_refused_have_no_answer() {
        let put: Put = |_, _, _, answer| answered(1, answer);
        let one = Answer::default().with_count(1);
        assert_eq!(by_call(&[THURSDAY], &[TUESDAY; 2], &mut [7], put), unreadable(0, one));
        let put: Put = |_, _, _, answer| refused(answer) - 10;
        let ten = Answer::refused(Refusal::ListLength);
        assert_eq!(by_call(&[], &[], &mut [7], put), unreadable(0, ten));
    }

    /// Each byte but those of the count, which is the number of runs.
    #[test]
    fn a_byte_that_is_not_filled_must_be_zero() {
        for place in (0..Answer::LEN).filter(|place| !(4..8).contains(place)) {
            let mut bytes = *Answer::default().with_count(1).as_bytes();
            bytes[place] = 1;
            let answer = Answer::from_bytes(bytes);
            // A test has no closure in this place: the byte comes with the list.
            let put: Put = |from, _, counts, answer| {
                counts.fill(0);
                answered(1, answer);
                answer[(from[0] - Date::FIRST_DAY) as usize] = 1;
                0
            };
            let day = Date::FIRST_DAY + place as u32;
            assert_eq!(by_call(&[day], &[day], &mut [7], put), unreadable(0, answer), "{place}");
        }
    }

    /// One for each pair in range at most, and one at least if there is such a pair.
    #[test]
    fn runs_that_the_pairs_cannot_have_are_unreadable() {
        let put = |runs| -> Put {
            match runs {
                0 => |_, _, counts, answer| (counts.fill(0), answered(0, answer)).1,
                1 => |_, _, counts, answer| (counts.fill(0), answered(1, answer)).1,
                2 => |_, _, counts, answer| (counts.fill(0), answered(2, answer)).1,
                _ => |_, _, counts, answer| (counts.fill(0), answered(u32::MAX, answer)).1,
            }
        };
        let by = |days: &[u32], runs| by_call(days, days, &mut [7; 2][..days.len()], put(runs));
        let of = |runs| unreadable(0, Answer::default().with_count(runs));
        assert_eq!([by(&[], 0), by(&[], 1)], [Ok(0), of(1)]);
        assert_eq!([0, 1, 2].map(|runs| by(&[THURSDAY], runs)), [of(0), Ok(1), of(2)]);
        assert_eq!([0, 1, 2].map(|runs| by(&[THURSDAY; 2], runs)), [of(0), Ok(1), Ok(2)]);
        assert_eq!(by(&[THURSDAY; 2], u32::MAX), of(u32::MAX));
        assert_eq!(by(&[BEFORE], 1), of(1));
    }

    /// The pair alone, of a portfolio; the whole call, of the lists.
    #[test]
    fn a_count_that_a_pair_cannot_have_is_unreadable() {
        let put: Put = |_, to, counts, answer| {
            counts.copy_from_slice(to);
            answered(1, answer)
        };
        let of = |count| Err(unreadable_count(count).into());
        let pairs = [EASTER, NO_DATE, (EASTER.0, NO_DATE.0)];
        let counts = [of(TUESDAY), of(TUESDAY), Err(Refusal::NoDate.into())];
        assert_eq!(in_lists(&pairs, put), counts);
        assert_eq!(by_call(&[THURSDAY], &[TUESDAY], &mut [7], put), of(TUESDAY));
        let read = |from, to, count| count_of(from, to, count);
        assert_eq!(read(THURSDAY, TUESDAY, 5), Ok(5));
        assert_eq!(read(THURSDAY, TUESDAY, 6), of(6));
        assert_eq!(read(TUESDAY, THURSDAY, 0), Ok(0));
        assert_eq!(read(TUESDAY, THURSDAY, 1), of(1));
        for (from, to) in [(BEFORE, TUESDAY), (THURSDAY, AFTER), (OUT_OF_RANGE, OUT_OF_RANGE)] {
            assert_eq!(read(from, to, OUT_OF_RANGE), Err(Refusal::NoDate.into()));
            assert_eq!(read(from, to, 0), of(0));
        }
        for (from, to) in [(Date::FIRST_DAY, Date::LAST_DAY), (THURSDAY, THURSDAY)] {
            assert_eq!(read(from, to, 0), Ok(0));
            assert_eq!(read(from, to, OUT_OF_RANGE), of(OUT_OF_RANGE));
        }
    }

    /// In the second call too, which is lent the memory of the first.
    #[test]
    fn counts_that_are_not_written_are_unreadable() {
        let put: Put = |from, to, counts, answer| match from.len() {
            1 => answered(1, answer),
            _ => ffi::mf_portfolio(from, to, counts, answer),
        };
        let given = in_lists(&[EASTER; MOST_PAIRS + 1], put);
        assert_eq!(given[..MOST_PAIRS], [Ok(1); MOST_PAIRS]);
        assert_eq!(given[MOST_PAIRS..], [Err(unreadable_count(UNWRITTEN).into())]);
    }
}
