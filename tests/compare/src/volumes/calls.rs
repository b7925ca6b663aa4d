//! Calls as data, so that the same call can be made on two libraries.

use std::fmt;
use std::ops::DerefMut;

use crate::volume::answer::{answer, Refusal};
use crate::volume::stamps::Stamp;
use crate::volume::{self, outcomes};

/// What a call works on: the volume, the open table, and a buffer that serves
/// as `out` too.
#[derive(Clone, Debug, PartialEq, Eq)]
pub struct Scene<Bytes = Vec<u8>> {
    pub image: Bytes,
    pub table: Bytes,
    pub buffer: Bytes,
}

/// A call with all its arguments but those of the scene.
#[derive(Clone, Debug, PartialEq, Eq)]
pub enum Call {
    Format {
        kind: u32,
    },
    Check,
    CheckSystem,
    FreeSpace,
    Entry {
        slot: u32,
    },
    Find {
        pattern: Vec<u8>,
        slot: u32,
        mask: u32,
    },
    Open {
        name: Vec<u8>,
        access: u32,
    },
    Create {
        name: Vec<u8>,
        attribute: u32,
        stamp: [u32; 6],
    },
    Read {
        handle: u32,
    },
    Write {
        handle: u32,
        data: Vec<u8>,
    },
    Seek {
        handle: u32,
        method: u32,
        offset: i32,
    },
    Close {
        handle: u32,
        stamp: [u32; 6],
    },
    Delete {
        name: Vec<u8>,
    },
    Rename {
        old: Vec<u8>,
        new: Vec<u8>,
    },
    Mode {
        name: Vec<u8>,
        function: u32,
        attribute: u32,
    },
    ViewNumber {
        name: Vec<u8>,
        offset: u32,
    },
    Rescue {
        name: Vec<u8>,
    },
}

/// The calls in the interface's order.
pub const NAMES: [&str; 17] = [
    "format",
    "check",
    "check_system",
    "free_space",
    "entry",
    "find",
    "open",
    "create",
    "read",
    "write",
    "seek",
    "close",
    "delete",
    "rename",
    "mode",
    "view_number",
    "rescue",
];

impl Call {
    pub fn name(&self) -> &'static str {
        let place = match self {
            Call::Format { .. } => 0,
            Call::Check => 1,
            Call::CheckSystem => 2,
            Call::FreeSpace => 3,
            Call::Entry { .. } => 4,
            Call::Find { .. } => 5,
            Call::Open { .. } => 6,
            Call::Create { .. } => 7,
            Call::Read { .. } => 8,
            Call::Write { .. } => 9,
            Call::Seek { .. } => 10,
            Call::Close { .. } => 11,
            Call::Delete { .. } => 12,
            Call::Rename { .. } => 13,
            Call::Mode { .. } => 14,
            Call::ViewNumber { .. } => 15,
            Call::Rescue { .. } => 16,
        };
        NAMES[place]
    }
}

/// For reports: names as text, data by its length.
impl fmt::Display for Call {
    #[rustfmt::skip]
    fn fmt(&self, f: &mut fmt::Formatter) -> fmt::Result {
        write!(f, "{}", self.name())?;
        let text = |name: &[u8]| format!("'{}'", name.escape_ascii());
        match self {
            Call::Check | Call::CheckSystem | Call::FreeSpace => Ok(()),
            Call::Format { kind } => write!(f, " kind {kind:#X}"),
            Call::Entry { slot } => write!(f, " slot {slot}"),
            Call::Find { pattern, slot, mask } => {
                write!(f, " {} from slot {slot} mask {mask:#X}", text(pattern))
            }
            Call::Open { name, access } => write!(f, " {} access {access}", text(name)),
            Call::Create { name, attribute, stamp } => {
                write!(f, " {} attribute {attribute:#X} stamp {stamp:?}", text(name))
            }
            Call::Read { handle } => write!(f, " handle {handle}"),
            Call::Write { handle, data } => write!(f, " handle {handle}, {} bytes", data.len()),
            Call::Seek { handle, method, offset } => {
                write!(f, " handle {handle} method {method} offset {offset}")
            }
            Call::Close { handle, stamp } => write!(f, " handle {handle} stamp {stamp:?}"),
            Call::Delete { name } => write!(f, " {}", text(name)),
            Call::Rename { old, new } => write!(f, " {} to {}", text(old), text(new)),
            Call::Mode { name, function, attribute } => {
                write!(f, " {} function {function} attribute {attribute:#X}", text(name))
            }
            Call::ViewNumber { name, offset } => write!(f, " {} offset {offset}", text(name)),
            Call::Rescue { name } => write!(f, " {}", text(name)),
        }
    }
}

/// Makes a call on the plain Rust of this package: its answer, and the line
/// that it refuses by.
#[rustfmt::skip]
pub fn perform_and_tell<Bytes>(call: &Call, scene: &mut Scene<Bytes>) -> (u64, Option<Refusal>)
where
    Bytes: DerefMut<Target = [u8]>,
{
    let Scene { image, table, buffer } = scene;
    let outcome = match call {
        Call::Check => return (volume::check(image, buffer), None),
        Call::CheckSystem => return (volume::check_system(image, buffer), None),
        Call::Format { kind } => outcomes::format(image, *kind),
        Call::FreeSpace => outcomes::free_space(image, buffer),
        Call::Entry { slot } => outcomes::entry(image, *slot, buffer),
        Call::Find { pattern, slot, mask } => outcomes::find(image, pattern, *slot, *mask),
        Call::Open { name, access } => outcomes::open(image, table, name, *access),
        Call::Create { name, attribute, stamp } => {
            outcomes::create(image, table, name, *attribute, Stamp::from(*stamp))
        }
        Call::Read { handle } => outcomes::read(image, table, *handle, buffer),
        Call::Write { handle, data } => outcomes::write(image, table, *handle, data),
        Call::Seek { handle, method, offset } => {
            outcomes::seek(image, table, *handle, *method, *offset)
        }
        Call::Close { handle, stamp } => {
            outcomes::close(image, table, *handle, Stamp::from(*stamp))
        }
        Call::Delete { name } => outcomes::delete(image, table, name),
        Call::Rename { old, new } => outcomes::rename(image, table, old, new),
        Call::Mode { name, function, attribute } => {
            outcomes::mode(image, table, name, *function, *attribute)
        }
        Call::ViewNumber { name, offset } => outcomes::view(image, name, *offset).map(|_| 0),
        Call::Rescue { name } => outcomes::rescue(image, name, buffer),
    };
    (answer(outcome), outcome.err())
}

/// Makes a call on the plain Rust of this package.
pub fn perform<Bytes>(call: &Call, scene: &mut Scene<Bytes>) -> u64
where
    Bytes: DerefMut<Target = [u8]>,
{
    perform_and_tell(call, scene).0
}

/// Makes a call on the archive.
#[cfg(feature = "archive")]
#[rustfmt::skip]
pub fn perform_on_archive<Bytes>(call: &Call, scene: &mut Scene<Bytes>) -> u64
where
    Bytes: DerefMut<Target = [u8]>,
{
    use crate::archive;
    let Scene { image, table, buffer } = scene;
    match call {
        Call::Format { kind } => archive::format(image, *kind),
        Call::Check => archive::check(image, buffer),
        Call::CheckSystem => archive::check_system(image, buffer),
        Call::FreeSpace => archive::free_space(image, buffer),
        Call::Entry { slot } => archive::entry(image, *slot, buffer),
        Call::Find { pattern, slot, mask } => archive::find(image, pattern, *slot, *mask),
        Call::Open { name, access } => archive::open(image, table, name, *access),
        Call::Create { name, attribute, stamp: [a, b, c, d, e, f] } => {
            archive::create(image, table, name, *attribute, *a, *b, *c, *d, *e, *f)
        }
        Call::Read { handle } => archive::read(image, table, *handle, buffer),
        Call::Write { handle, data } => archive::write(image, table, *handle, data),
        Call::Seek { handle, method, offset } => {
            archive::seek(image, table, *handle, *method, *offset)
        }
        Call::Close { handle, stamp: [a, b, c, d, e, f] } => {
            archive::close(image, table, *handle, *a, *b, *c, *d, *e, *f)
        }
        Call::Delete { name } => archive::delete(image, table, name),
        Call::Rename { old, new } => archive::rename(image, table, old, new),
        Call::Mode { name, function, attribute } => {
            archive::mode(image, table, name, *function, *attribute)
        }
        Call::ViewNumber { name, offset } => archive::view_number(image, name, *offset),
        Call::Rescue { name } => archive::rescue(image, name, buffer),
    }
}
