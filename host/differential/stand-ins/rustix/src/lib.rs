//! Stands for the crate `rustix`: one flag of `open`. Opening a file looks at no flag here, so its value does not matter.

pub mod fs {
    pub struct OFlags(u32);

    impl OFlags {
        pub const NONBLOCK: Self = Self(0o4000);

        pub const fn bits(&self) -> u32 {
            self.0
        }
    }
}
