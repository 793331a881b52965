//! What the driver names of embassy-sync and embassy-time. The lock and the wakers cost nothing, and nobody waits.

pub mod blocking_mutex {
    use core::marker::PhantomData;

    pub mod raw {
        pub struct CriticalSectionRawMutex;
    }

    pub struct Mutex<R, T> {
        value: T,
        raw: PhantomData<R>,
    }

    // The program has one thread.
    unsafe impl<R, T> Sync for Mutex<R, T> {}

    impl<R, T> Mutex<R, T> {
        pub const fn new(value: T) -> Self {
            Self { value, raw: PhantomData }
        }

        pub fn lock<U>(&self, f: impl FnOnce(&T) -> U) -> U {
            f(&self.value)
        }
    }
}

pub mod waitqueue {
    pub struct AtomicWaker;

    #[allow(clippy::new_without_default)]
    impl AtomicWaker {
        pub const fn new() -> Self {
            Self
        }

        pub fn register(&self, _: &core::task::Waker) {}

        pub fn wake(&self) {}
    }
}

pub struct Duration;

impl Duration {
    pub const fn from_micros(_: u64) -> Self {
        Self
    }
}

pub fn block_for(_: Duration) {}
