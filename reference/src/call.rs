//! The eight calls, as a script or a generator names them.

/// One call with its numbers. A core or object number may name nothing that
/// exists; the machine then refuses the call.
#[derive(Clone, Copy, Debug, PartialEq, Eq)]
pub enum Call {
    Setup { cores: u32, objects: u32 },
    Release { core: u32, job: u16, deadline: u32 },
    Begin { core: u32 },
    Read { core: u32, object: u32 },
    Write { core: u32, object: u32, value: u32 },
    Commit { core: u32 },
    GiveUp { core: u32 },
    Finish { core: u32 },
}

impl Call {
    /// The core that makes the call; setup is made by none.
    pub fn core(self) -> Option<u32> {
        match self {
            Call::Setup { .. } => None,
            Call::Release { core, .. }
            | Call::Begin { core }
            | Call::Read { core, .. }
            | Call::Write { core, .. }
            | Call::Commit { core }
            | Call::GiveUp { core }
            | Call::Finish { core } => Some(core),
        }
    }
}
