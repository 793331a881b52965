//! A lock for one thread, and wakers that count.

pub mod blocking_mutex {
    use std::cell::Cell;
    use std::marker::PhantomData;

    pub mod raw {
        pub struct CriticalSectionRawMutex;
    }

    pub struct Mutex<R, T> {
        held: Cell<bool>,
        value: T,
        raw: PhantomData<R>,
    }

    /// Given back also where an interrupt is cut off.
    struct Held<'a>(&'a Cell<bool>);

    impl Drop for Held<'_> {
        fn drop(&mut self) {
            self.0.set(false);
        }
    }

    // The programs have one thread.
    unsafe impl<R, T: Send> Sync for Mutex<R, T> {}

    impl<R, T> Mutex<R, T> {
        pub const fn new(value: T) -> Self {
            Self { held: Cell::new(false), value, raw: PhantomData }
        }

        pub fn lock<U>(&self, f: impl FnOnce(&T) -> U) -> U {
            assert!(!self.held.replace(true), "the lock is taken while it is held");
            let _held = Held(&self.held);
            f(&self.value)
        }
    }
}

pub mod waitqueue {
    use std::cell::{Cell, RefCell};
    use std::task::Waker;

    pub struct AtomicWaker {
        waker: RefCell<Option<Waker>>,
        wakes: Cell<u32>,
    }

    // The programs have one thread.
    unsafe impl Sync for AtomicWaker {}

    impl AtomicWaker {
        pub const fn new() -> Self {
            Self { waker: RefCell::new(None), wakes: Cell::new(0) }
        }

        pub fn register(&self, waker: &Waker) {
            *self.waker.borrow_mut() = Some(waker.clone());
        }

        pub fn wake(&self) {
            self.wakes.set(self.wakes.get() + 1);
            if let Some(waker) = self.waker.borrow_mut().take() {
                waker.wake();
            }
        }

        /// Not in the original: how often it was woken since the last call.
        pub fn take_wakes(&self) -> u32 {
            self.wakes.take()
        }
    }

    impl Default for AtomicWaker {
        fn default() -> Self {
            Self::new()
        }
    }
}
