//! The rules before token kind 3 was retired (02, l), and those since.

/// "Members misread them, so token kind 3 is retired. Expand, plan and judge refuse
/// it with 6, run with 11."
#[derive(Clone, Copy, Debug, PartialEq, Eq)]
pub enum Edition {
    WithOffSwitches,
    WithoutOffSwitches,
}

impl Edition {
    /// The rules of all calls but the converters, which read by the old ones.
    pub const CURRENT: Edition = Edition::WithoutOffSwitches;
}

impl Default for Edition {
    fn default() -> Edition {
        Edition::CURRENT
    }
}
