//! Small stand-ins for what the original `subscriptions.rs` imports from its own
//! crate. They have the meaning that document 01 gives them (an instant is a
//! number of milliseconds) and nothing beyond what the original asks for.

pub type EndptId = u16;
pub type ClusterId = u32;
pub type AttrId = u32;
pub type EventId = u32;
pub type EventNumber = u64;
pub type NodeId = u64;

pub mod dm {
    /// A request is a number of 16 bits here: two bytes.
    pub type IMBuffer = super::utils::storage::Vec<u8, 2>;

    #[derive(Default)]
    pub struct DeviceLoad {
        pub current_subscriptions: u16,
        pub current_subscriptions_for_fabric: u16,
        pub total_subscriptions_established: u32,
        /// One of the figures that the original leaves at their defaults.
        pub messages: u32,
    }
}

pub mod fabric {
    pub const MAX_FABRICS: usize = 5;
}

pub mod utils {
    pub mod cell {
        use super::init::{from_fn, Init};

        pub struct RefCell<T>(std::cell::RefCell<T>);

        impl<T> RefCell<T> {
            pub const fn new(value: T) -> Self {
                RefCell(std::cell::RefCell::new(value))
            }

            pub fn init(value: impl Init<T>) -> impl Init<Self> {
                from_fn(|| Self::new(value.make()))
            }

            pub fn borrow(&self) -> std::cell::Ref<'_, T> {
                self.0.borrow()
            }

            pub fn borrow_mut(&self) -> std::cell::RefMut<'_, T> {
                self.0.borrow_mut()
            }
        }
    }

    /// The original can also be made in place; here that is making it and moving it.
    pub mod init {
        pub trait Init<T> {
            fn make(self) -> T;
        }

        pub struct FromFn<F>(F);

        impl<T, F: FnOnce() -> T> Init<T> for FromFn<F> {
            fn make(self) -> T {
                (self.0)()
            }
        }

        pub fn from_fn<T, F: FnOnce() -> T>(make: F) -> FromFn<F> {
            FromFn(make)
        }

        macro_rules! init {
            (@made $name:tt { $($made:tt)* }) => {
                $name { $($made)* }
            };
            (@made $name:tt { $($made:tt)* } $field:ident <- $value:expr, $($rest:tt)*) => {
                init!(@made $name { $($made)* $field: $crate::utils::init::Init::make($value), } $($rest)*)
            };
            (@made $name:tt { $($made:tt)* } $field:ident : $value:expr, $($rest:tt)*) => {
                init!(@made $name { $($made)* $field: $value, } $($rest)*)
            };
            ($name:tt { $($fields:tt)* }) => {
                $crate::utils::init::from_fn(|| init!(@made $name {} $($fields)*))
            };
        }
        pub(crate) use init;
    }

    pub mod storage {
        use super::init::{from_fn, Init};

        /// A list that holds at most `N`.
        pub struct Vec<T, const N: usize>(std::vec::Vec<T>);

        impl<T, const N: usize> Vec<T, N> {
            pub const fn new() -> Self {
                Vec(std::vec::Vec::new())
            }

            pub fn init() -> impl Init<Self> {
                from_fn(Self::new)
            }

            pub fn push(&mut self, item: T) -> Result<(), T> {
                if self.0.len() == N {
                    return Err(item);
                }
                self.0.push(item);
                Ok(())
            }

            pub fn swap_remove(&mut self, index: usize) -> T {
                self.0.swap_remove(index)
            }

            pub fn clear(&mut self) {
                self.0.clear();
            }
        }

        impl<T, const N: usize> std::ops::Deref for Vec<T, N> {
            type Target = [T];

            fn deref(&self) -> &[T] {
                &self.0
            }
        }

        impl<T, const N: usize> std::ops::DerefMut for Vec<T, N> {
            fn deref_mut(&mut self) -> &mut [T] {
                &mut self.0
            }
        }

        impl<T, const N: usize> AsRef<[T]> for Vec<T, N> {
            fn as_ref(&self) -> &[T] {
                &self.0
            }
        }

        pub mod pooled {
            pub trait Buffers<T> {
                type Buffer<'a>: std::ops::DerefMut<Target = T>
                where
                    Self: 'a;
            }
        }
    }

    pub mod sync {
        use super::init::{from_fn, Init};

        /// Counts how often it was notified; nobody waits.
        pub struct Notification(std::cell::Cell<u64>);

        impl Notification {
            pub const fn new() -> Self {
                Notification(std::cell::Cell::new(0))
            }

            pub fn init() -> impl Init<Self> {
                from_fn(Self::new)
            }

            pub fn notify(&self) {
                self.0.set(self.0.get() + 1);
            }

            pub fn count(&self) -> u64 {
                self.0.get()
            }

            pub async fn wait(&self) {}
        }

        pub mod blocking {
            use super::super::init::{from_fn, Init};

            /// One thread only, so there is nothing to lock.
            pub struct Mutex<T>(T);

            impl<T> Mutex<T> {
                pub const fn new(value: T) -> Self {
                    Mutex(value)
                }

                pub fn init(value: impl Init<T>) -> impl Init<Self> {
                    from_fn(|| Self::new(value.make()))
                }

                pub fn lock<R>(&self, f: impl FnOnce(&T) -> R) -> R {
                    f(&self.0)
                }
            }
        }
    }

    pub mod timers {
        #[derive(Clone, Copy, Debug, PartialEq, Eq, PartialOrd, Ord)]
        pub struct Instant {
            pub ms: u64,
        }

        #[derive(Clone, Copy, Debug)]
        pub struct Duration {
            ms: u64,
        }

        impl Instant {
            pub const MIN: Self = Instant { ms: 0 };
            pub const MAX: Self = Instant { ms: u64::MAX };

            pub fn checked_add(self, duration: Duration) -> Option<Self> {
                let ms = self.ms.checked_add(duration.ms)?;
                Some(Instant { ms })
            }
        }

        impl Duration {
            pub const fn from_secs(secs: u64) -> Self {
                Duration { ms: secs * 1_000 }
            }
        }
    }
}

/// The original logs with these; here the words are checked and thrown away.
macro_rules! discard {
    ($($words:tt)*) => {
        { let _ = format_args!($($words)*); }
    };
}

macro_rules! unwrap {
    ($value:expr) => {
        $value.unwrap()
    };
}
