use crate::corner::Corner;
use crate::deutsch::{am, dem, den, der, faellig, stunden, with_clock};
use crate::inquiry::Inquiry;
use crate::umstellung::Umstellung;
use mako_fristen_host::{
    contrl_due_at, BerlinTime, Call, Clock, ContrlAnlass, Error, FristShape, GasDue, GasProzess,
    Instant, Refusal,
};

/// The most seconds of a Frist in hours or minutes; one by days is longer.
const IN_HOURS: i64 = 6 * 3600;

/// From a switch of the clock to the next in the same direction are no fewer hours: within them one
/// lies between a time in winter and one in summer, and not three.
const ONE_SWITCH: u32 = 364 * 24;

pub fn hours(inquiry: &Inquiry, to: Instant) -> Result<String, Error> {
    let (n, to) = (inquiry.question.n, BerlinTime::of(to)?);
    let from = BerlinTime::of(inquiry.question.instant)?;
    let shown = with_clock(from, dem);
    let switched = if n <= ONE_SWITCH { umgestellt(from, to) } else { "" };
    Ok(match n {
        0 => format!("Mit 0 Stunden bleibt es bei {shown}."),
        n => {
            format!("{} nach {shown}, ist es {}.{switched}", stunden(n), with_clock(to, der))
        }
    })
}

/// Where the clock seems to be wrong by an hour, that it is not.
fn umgestellt(from: BerlinTime, to: BerlinTime) -> &'static str {
    match (from.summer, to.summer) {
        (false, true) => " Dazwischen wird die Uhr um eine Stunde vorgestellt.",
        (true, false) => " Dazwischen wird die Uhr um eine Stunde zurückgestellt.",
        (true, true) | (false, false) => "",
    }
}

pub fn shaped(inquiry: &Inquiry, due: Instant) -> Result<String, Error> {
    let (received, shape) = (inquiry.question.instant, inquiry.frist()?);
    let corner = Corner::of(shape, received, due)?;
    let (from, to) = (am(BerlinTime::of(received)?), faellig(BerlinTime::of(due)?));
    let ends = match corner {
        // Its own words would name another day.
        Some(Corner::UhrzeitErreicht | Corner::KeinWerktag(_)) => {
            format!("Die Frist endet am nächsten Werktag, {to}.")
        }
        _ => format!("Die Frist {} endet {to}.", frist(shape)),
    };
    let why = corner.map_or(String::new(), |corner| format!(" {}", why(corner, shape)));
    Ok(format!("Eingang {from}: {ends}{why}"))
}

/// As in 'die Frist … endet'.
fn frist(shape: FristShape) -> String {
    match shape {
        FristShape::WerktagAt { werktage, at } => {
            format!("bis {} am {}. Werktag nach dem Eingangstag", at.uhr(), werktage.max(1))
        }
        FristShape::EndOfWerktag(n @ 1..) => {
            format!("bis zum Ablauf des {n}. Werktags nach dem Eingangstag")
        }
        FristShape::SameDayAt(at) => format!("bis {} am Eingangstag", at.uhr()),
        FristShape::EndOfWerktag(0) | FristShape::SameDay => {
            "bis zum Ablauf des Eingangstags".to_owned()
        }
    }
}

fn why(corner: Corner, shape: FristShape) -> String {
    match corner {
        Corner::NullWieEins => "0 Werktage zählen hier wie 1.".to_owned(),
        Corner::Eingangstag => {
            "Mit 0 Werktagen ist es der Eingangstag, ob Werktag oder nicht.".to_owned()
        }
        Corner::UhrzeitErreicht => {
            let clock = shape.clock().unwrap_or_default().uhr();
            format!("Am Eingangstag war {clock} schon erreicht.")
        }
        Corner::KeinWerktag(closed) => {
            format!("Der Eingangstag ist kein Werktag: {}.", closed.name())
        }
    }
}

/// Where a Formatumstellung has moved it, from where; and where its window ends just then, that it
/// has not.
pub fn contrl(inquiry: &Inquiry, due: Instant) -> Result<String, Error> {
    let sentence = contrl_due(inquiry, due)?;
    Ok(match Umstellung::that_moved(&inquiry.question, due)? {
        Some(umstellung) => format!(
            "{sentence}\nOhne Umstellung wäre sie fällig {}. Das liegt im Zeitraum der \
             Formatumstellung {}; darum gilt dessen Ende.",
            faellig(BerlinTime::of(umstellung.otherwise)?),
            zeitraum(umstellung)?
        ),
        None if is_end_of_window(BerlinTime::of(due)?) => format!(
            "{sentence}\nDann endet der Zeitraum der Formatumstellung; an dieser Fälligkeit ändert \
             er nichts."
        ),
        None => sentence,
    })
}

/// The midnight at which the tolerance of a Formatumstellung ends.
fn is_end_of_window(due: BerlinTime) -> bool {
    matches!((due.date.month, due.date.day), (4 | 10, 2)) && due.clock == Clock::default()
}

/// The change day is read back, with its window and what that does to the due instant.
pub fn contrl_change(inquiry: &Inquiry, due: Instant) -> Result<String, Error> {
    let umstellung = Umstellung::of(&inquiry.question)?;
    let otherwise = umstellung.otherwise;
    let effect = match otherwise == due {
        true => "An dieser Fälligkeit ändert er nichts.".to_owned(),
        false => format!(
            "Ohne Umstellung wäre die CONTRL fällig {}. Das liegt in diesem Zeitraum; darum gilt \
             sein Ende.",
            faellig(BerlinTime::of(otherwise)?)
        ),
    };
    let (sentence, stichtag) = (contrl_due(inquiry, due)?, der(inquiry.question.date));
    let (window, shut) = (zeitraum(umstellung)?, shut(inquiry, due)?);
    Ok(format!(
        "{sentence}\nStichtag der Formatumstellung ist {stichtag}; ihr Zeitraum geht \
         {window}.\n{effect}{shut}"
    ))
}

/// As in 'der Zeitraum …'.
fn zeitraum(Umstellung { from, to, .. }: Umstellung) -> Result<String, Error> {
    let (from, to) = (BerlinTime::of(from)?, BerlinTime::of(to)?);
    Ok(format!("von {}, bis {}", with_clock(from, dem), with_clock(to, den)))
}

/// Where version one has a window about 1 April or 1 October that this call does not have.
fn shut(inquiry: &Inquiry, due: Instant) -> Result<String, Error> {
    let version_one = contrl_due_at(inquiry.question.instant, anlass(inquiry)?)?;
    match Umstellung::that_moved(&inquiry.question, version_one)? {
        Some(umstellung) if version_one != due => {
            let window = zeitraum(umstellung)?;
            Ok(format!("\nDen Zeitraum {window}, gibt es mit diesem Stichtag nicht."))
        }
        _ => Ok(String::new()),
    }
}

fn anlass(inquiry: &Inquiry) -> Result<ContrlAnlass, Error> {
    Ok(ContrlAnlass::of_code(inquiry.question.code).ok_or(Refusal::UnknownCode)?)
}

fn contrl_due(inquiry: &Inquiry, due: Instant) -> Result<String, Error> {
    let message = match anlass(inquiry)? {
        ContrlAnlass::Regelfall => "Die CONTRL im Regelfall",
        ContrlAnlass::StromUtilmdOderOrders => "Die CONTRL auf UTILMD oder ORDERS Strom",
        ContrlAnlass::GasAlocat => "Die CONTRL auf ALOCAT Gas",
    };
    message_due(inquiry, message, due)
}

pub fn strom(inquiry: &Inquiry, due: Instant, on: &str) -> Result<String, Error> {
    message_due(inquiry, &format!("Die APERAK auf {on} Strom"), due)
}

pub fn gas(inquiry: &Inquiry, GasDue { kind, due }: GasDue) -> Result<String, Error> {
    let process = match kind {
        GasProzess::Initialprozess => "Initialprozess Gas",
        GasProzess::Folgeprozess => "Folgeprozess Gas",
    };
    let pid = inquiry.question.n;
    let message = if inquiry.call == Call::AperakGasDueAt {
        format!("Die APERAK auf eine Nachricht mit Prüfidentifikator {pid} ({process})")
    } else {
        format!("Die APERAK im {process}")
    };
    message_due(inquiry, &message, due)
}

fn message_due(inquiry: &Inquiry, message: &str, due: Instant) -> Result<String, Error> {
    let received = inquiry.question.instant;
    let (from, to) = (BerlinTime::of(received)?, BerlinTime::of(due)?);
    let in_hours = due.seconds - received.seconds <= IN_HOURS;
    let switched = if in_hours { umgestellt(from, to) } else { "" };
    Ok(format!("Eingang {}: {message} ist fällig {}.{switched}", am(from), faellig(to)))
}
