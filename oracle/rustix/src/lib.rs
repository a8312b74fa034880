//! Debian's rustix, with the two block ioctls in the place where the sources look for them.

pub mod fs {
    pub use debian::fs::*;
    pub use debian::io::{ioctl_blkpbszget, ioctl_blksszget};
}
