/// What a CONTRL answers. A call takes it as a code, which counts from 0 in this order.
#[derive(Clone, Copy, Debug, PartialEq, Eq, Hash)]
#[repr(u8)]
pub enum ContrlAnlass {
    /// 6 hours.
    Regelfall,
    /// 15 minutes; 6 hours if received on a Saturday.
    StromUtilmdOderOrders,
    /// 45 minutes.
    GasAlocat,
}

impl ContrlAnlass {
    /// In the order of their codes, from 0.
    pub const ALL: [ContrlAnlass; 3] =
        [ContrlAnlass::Regelfall, ContrlAnlass::StromUtilmdOderOrders, ContrlAnlass::GasAlocat];

    /// The number by which a call knows the case: `GasAlocat` is 2.
    #[must_use]
    pub const fn code(self) -> u8 {
        self as u8
    }

    /// The case of a code; none for one that the calls refuse.
    ///
    /// ```
    /// use mako_fristen_host::ContrlAnlass;
    ///
    /// assert_eq!(ContrlAnlass::of_code(2), Some(ContrlAnlass::GasAlocat));
    /// assert_eq!(ContrlAnlass::of_code(3), None);
    /// ```
    #[must_use]
    pub fn of_code(code: u8) -> Option<ContrlAnlass> {
        ContrlAnlass::ALL.into_iter().find(|anlass| anlass.code() == code)
    }
}
