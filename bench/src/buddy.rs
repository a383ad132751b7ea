//! The calls of BuDDy that are timed, on functions of 12 letters.

use std::os::raw::c_int;

mod raw {
    use std::os::raw::{c_double, c_int};

    #[link(name = "bdd")]
    extern "C" {
        pub fn bdd_init(nodes: c_int, cache: c_int) -> c_int;
        pub fn bdd_done();
        pub fn bdd_setvarnum(count: c_int) -> c_int;
        pub fn bdd_true() -> c_int;
        pub fn bdd_false() -> c_int;
        pub fn bdd_ithvar(variable: c_int) -> c_int;
        pub fn bdd_ite(selector: c_int, first: c_int, second: c_int) -> c_int;
        pub fn bdd_and(first: c_int, second: c_int) -> c_int;
        pub fn bdd_or(first: c_int, second: c_int) -> c_int;
        pub fn bdd_addref(function: c_int) -> c_int;
        pub fn bdd_gbc();
        pub fn bdd_gbc_hook(hook: Option<extern "C" fn(c_int, *const u8)>);
        pub fn bdd_satcount(function: c_int) -> c_double;
    }
}

/// A function that BuDDy holds.
#[derive(Clone, Copy, Debug)]
pub struct Function(c_int);

/// BuDDy, which a process has once.
#[derive(Debug)]
pub struct Buddy {
    letters: u32,
}

/// Twice the tool's longest table.
const NODES: c_int = 131_072;
const CACHE: c_int = 16_384;

impl Buddy {
    /// Starts BuDDy with so many variables.
    ///
    /// There must be no other `Buddy`.
    pub fn start(letters: u32) -> Buddy {
        // SAFETY: BuDDy was not started before, and the hook may be none.
        unsafe {
            assert_eq!(raw::bdd_init(NODES, CACHE), 0, "BuDDy starts");
            assert_eq!(raw::bdd_setvarnum(letters as c_int), 0, "BuDDy has letters");
            raw::bdd_gbc_hook(None);
        }
        Buddy { letters }
    }

    /// Keeps the function with these ones, given by its 2^K numbers.
    pub fn keep(&mut self, ones: &[u32]) -> Function {
        let root = self.part(ones, 0, 0);
        // SAFETY: the root is a function of BuDDy.
        Function(unsafe { raw::bdd_addref(root) })
    }

    /// The part of a function at which the letters below `letter` are the bits of
    /// `pattern`. No garbage is collected meanwhile: there is room for all nodes.
    fn part(&self, ones: &[u32], letter: u32, pattern: usize) -> c_int {
        // SAFETY: BuDDy is started, and has all letters and functions named here.
        unsafe {
            if letter == self.letters {
                return match ones[pattern] {
                    0 => raw::bdd_false(),
                    _ => raw::bdd_true(),
                };
            }
            let low = self.part(ones, letter + 1, pattern);
            let high = self.part(ones, letter + 1, pattern | 1 << letter);
            raw::bdd_ite(raw::bdd_ithvar(letter as c_int), high, low)
        }
    }

    /// One where both are.
    pub fn and(&mut self, first: Function, second: Function) -> Function {
        // SAFETY: both are functions of BuDDy.
        Function(unsafe { raw::bdd_and(first.0, second.0) })
    }

    /// One where either is.
    pub fn or(&mut self, first: Function, second: Function) -> Function {
        // SAFETY: both are functions of BuDDy.
        Function(unsafe { raw::bdd_or(first.0, second.0) })
    }

    /// At how many patterns the function is 1.
    pub fn count(&self, function: Function) -> u32 {
        // SAFETY: it is a function of BuDDy.
        unsafe { raw::bdd_satcount(function.0) as u32 }
    }

    /// Drops all functions but the kept ones, and all results of operations.
    pub fn forget(&mut self) {
        // SAFETY: BuDDy is started.
        unsafe { raw::bdd_gbc() }
    }
}

impl Drop for Buddy {
    fn drop(&mut self) {
        // SAFETY: BuDDy is started, and its functions are of no more use.
        unsafe { raw::bdd_done() }
    }
}
