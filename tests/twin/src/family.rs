//! The families of line sizes (Rules, line sizes): a ring is planned in one or in the
//! other, which its R line says.

#[derive(Clone, Copy, PartialEq, Eq, Debug)]
pub enum Family {
    /// One unit is one STS-1.
    Sonet,
    /// One unit is one STM-1.
    Sdh,
}

pub const FAMILIES: [Family; 2] = [Family::Sonet, Family::Sdh];

impl Family {
    /// Who tells a family tells a number: 0 is SONET, any other is SDH.
    pub fn told(number: u32) -> Family {
        match number {
            0 => Family::Sonet,
            _ => Family::Sdh,
        }
    }

    /// The number of a family, as callers name it.
    pub fn number(self) -> u32 {
        match self {
            Family::Sonet => 0,
            Family::Sdh => 1,
        }
    }

    /// What an R line says of it behind the fibres: of SONET nothing.
    pub fn letter(self) -> &'static str {
        match self {
            Family::Sonet => "",
            Family::Sdh => "M",
        }
    }

    /// The sizes in which lines are bought.
    pub fn sizes(self) -> [i64; 5] {
        match self {
            Family::Sonet => [3, 12, 48, 192, 768],
            Family::Sdh => [1, 4, 16, 64, 256],
        }
    }
}
