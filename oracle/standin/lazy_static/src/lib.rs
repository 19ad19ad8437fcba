//! Stand-in for `lazy_static`: a static whose value is replaced for each case.

/// Declares `static ref NAME: T`; `NAME::with(value, body)` makes it `value` while `body`
/// runs, on this thread. Its declared initial value is only type-checked.
#[macro_export]
macro_rules! lazy_static {
    ($(#[$attribute:meta])* $visibility:vis static ref $name:ident : $type:ty = $initial:expr;) => {
        #[allow(non_camel_case_types)]
        $visibility struct $name;

        const _: () = {
            ::std::thread_local! {
                static CURRENT: ::std::cell::Cell<*const $type> = const { ::std::cell::Cell::new(::std::ptr::null()) };
            }

            #[allow(dead_code)]
            fn declared() -> $type {
                $initial
            }

            struct Restore(*const $type);

            impl Drop for Restore {
                fn drop(&mut self) {
                    CURRENT.set(self.0);
                }
            }

            impl $name {
                pub fn with<R>(value: &$type, body: impl FnOnce() -> R) -> R {
                    let _restore = Restore(CURRENT.replace(value));
                    body()
                }
            }

            impl ::std::ops::Deref for $name {
                type Target = $type;

                fn deref(&self) -> &$type {
                    let current = CURRENT.get();
                    assert!(!current.is_null(), "no value is installed");
                    // SAFETY: `with` lends the value for as long as the pointer is installed, and
                    // the original keeps what it borrows from it only within one call.
                    unsafe { &*current }
                }
            }
        };
    };
}
