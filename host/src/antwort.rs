use crate::{Instant, Judgement, Span};

/// What the answer to a [`Frage`](crate::Frage) says: which case, its operation decides.
///
/// ```
/// use mako_fristen_host::{fragen, Antwort, Date, Frage, VorlaufShape};
///
/// let sent = |day| Frage::Check {
///     shape: VorlaufShape::LatestWerktageBefore(1),
///     uebertragungstag: Date::new(2026, 1, day),
///     anchor: Date::new(2026, 1, 12),
/// };
/// let margins = fragen(&[sent(7), sent(9), sent(10)]).into_iter().map(|answer| match answer {
///     Ok(Antwort::Verdict(judgement)) => Some(judgement.margin),
///     _ => None,
/// });
/// assert!(margins.eq([Some(2), Some(0), Some(-1)]));
/// ```
#[derive(Clone, Copy, Debug, PartialEq, Eq, Hash)]
#[must_use]
pub enum Antwort {
    /// When a CONTRL or an answer is due.
    Due(Instant),
    /// Whether a message was sent in time, and its margin.
    Verdict(Judgement),
    /// Which anchors a transmission day allows.
    Span(Span),
}
