//! Who may do what: roles, tasks, and which tasks each role may do.

use crate::answers::Refusal;

/// Who calls.
#[derive(Clone, Copy, Debug, PartialEq, Eq)]
pub enum Role {
    /// 0: may do everything.
    Draughtswoman,
    /// 1: may do everything but edit the table.
    Mender,
    /// 2: may convert and explain.
    Minder,
}

/// The roles, each at its number.
pub const ROLES: [Role; 3] = [Role::Draughtswoman, Role::Mender, Role::Minder];

/// What is done with a table of rules.
#[derive(Clone, Copy, Debug, PartialEq, Eq)]
pub enum Task {
    /// A text is converted to frames.
    Convert,
    /// Frames are restored to their text.
    Restore,
    /// A position of the text is explained.
    Explain,
    /// A text is priced.
    Price,
    /// A rule of the table is edited.
    Edit,
}

impl Role {
    /// The role with this number, or refusal 13.
    pub fn numbered(number: u32) -> Result<Role, Refusal> {
        let role = ROLES.get(number as usize).copied();
        role.ok_or(Refusal::NotPermitted)
    }

    /// The number of the role in a call.
    pub fn number(self) -> u32 {
        self as u32
    }

    /// Whether the role may do a task: the draughtswoman all, the mender all but edit, the minder
    /// only convert and explain.
    pub fn may(self, task: Task) -> bool {
        match self {
            Role::Draughtswoman => true,
            Role::Mender => task != Task::Edit,
            Role::Minder => task == Task::Convert || task == Task::Explain,
        }
    }
}

/// Refusal 13: a number that is no role, or a role that may not do the task.
pub fn check_role(number: u32, task: Task) -> Result<(), Refusal> {
    if Role::numbered(number)?.may(task) {
        Ok(())
    } else {
        Err(Refusal::NotPermitted)
    }
}
