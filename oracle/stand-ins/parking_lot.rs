//! Stand-in for the crate `parking_lot`: the standard library's lock behind
//! its call form (`lock` answers the guard itself). Built as a crate of that
//! name, so the line that imports it stays as it is.

pub struct Mutex<T>(std::sync::Mutex<T>);

impl<T> Mutex<T> {
    pub fn new(value: T) -> Self {
        Mutex(std::sync::Mutex::new(value))
    }

    pub fn lock(&self) -> std::sync::MutexGuard<'_, T> {
        self.0
            .lock()
            .expect("no thread ever leaves the lock broken")
    }
}
