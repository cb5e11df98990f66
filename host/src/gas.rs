use crate::Instant;

/// Which process a Gas message belongs to.
#[derive(Clone, Copy, Debug, PartialEq, Eq, Hash)]
pub enum GasProzess {
    /// A follow-up.
    Folgeprozess,
    /// An initial process.
    Initialprozess,
}

impl GasProzess {
    /// The label that the original's `aperak_gas_due_at` returns beside the due instant.
    ///
    /// ```
    /// use mako_fristen_host::{aperak_gas_due_at, berlin_midnight, Date};
    ///
    /// let received = berlin_midnight(Date::new(2026, 4, 2))?;
    /// let label = aperak_gas_due_at(44_001, received)?.kind.label();
    /// assert_eq!(label, "aperak-gas-initialprozess-3-werktage");
    /// # Ok::<(), mako_fristen_host::Error>(())
    /// ```
    #[must_use]
    pub const fn label(self) -> &'static str {
        match self {
            GasProzess::Folgeprozess => "aperak-gas-folgeprozess-naechster-wt-1200",
            GasProzess::Initialprozess => "aperak-gas-initialprozess-3-werktage",
        }
    }
}

/// When the APERAK on a Gas message is due, and as what.
#[derive(Clone, Copy, Debug, PartialEq, Eq, Hash)]
pub struct GasDue {
    /// The process whose rule gave the instant.
    pub kind: GasProzess,
    /// The due instant.
    pub due: Instant,
}
