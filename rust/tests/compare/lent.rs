//! Memory lent to the core: filled with a pattern, between two guards that are not lent at all. After
//! the call every place is compared, those of the guards too.

use std::fmt::Debug;
use std::ptr;

use grain::Sublot;

use crate::rng::Rng;

const GUARD: usize = 4;

/// The first difference between the core and the model.
#[derive(Debug)]
pub struct Difference(pub String);

/// `what` names the call; it is only written out where the two differ.
pub fn same<T: PartialEq + Debug>(
    what: impl Fn() -> String,
    core: T,
    model: T,
) -> Result<(), Difference> {
    if core == model {
        return Ok(());
    }
    let what = what();
    Err(Difference(format!(
        "{what}\n  core:  {core:?}\n  model: {model:?}"
    )))
}

pub trait Pattern: Copy + PartialEq + Debug {
    fn pattern(rng: &mut Rng) -> Self;
}

impl Pattern for i32 {
    fn pattern(rng: &mut Rng) -> i32 {
        rng.bits() as i32
    }
}

impl Pattern for u8 {
    fn pattern(rng: &mut Rng) -> u8 {
        rng.bits() as u8
    }
}

impl Pattern for Sublot {
    fn pattern(rng: &mut Rng) -> Sublot {
        let [figure, basis, tonnes] = [(); 3].map(|()| i32::pattern(rng));
        Sublot {
            figure,
            basis,
            tonnes,
        }
    }
}

pub struct Lent<T> {
    before: Vec<T>,
    now: Vec<T>,
    len: usize,
    null: bool,
}

impl<T: Pattern> Lent<T> {
    /// So many places. Where there is none the pointer is sometimes null.
    pub fn exactly(rng: &mut Rng, len: usize) -> Lent<T> {
        let before: Vec<T> = (0..GUARD + len + GUARD).map(|_| T::pattern(rng)).collect();
        Lent {
            now: before.clone(),
            before,
            len,
            null: len == 0 && rng.chance(50),
        }
    }

    /// Exactly these places.
    pub fn of(rng: &mut Rng, places: &[T]) -> Lent<T> {
        let mut lent = Lent::exactly(rng, places.len());
        lent.lent().copy_from_slice(places);
        lent.before.clone_from(&lent.now);
        lent
    }

    pub fn pointer(&mut self) -> *mut T {
        match self.null {
            true => ptr::null_mut(),
            false => self.lent().as_mut_ptr(),
        }
    }

    pub fn is_null(&self) -> bool {
        self.null
    }

    pub fn len(&self) -> usize {
        self.len
    }

    /// The lent part.
    pub fn lent(&mut self) -> &mut [T] {
        &mut self.now[GUARD..GUARD + self.len]
    }

    /// The lent part starts with these places; everything else is as it was.
    pub fn holds(&self, what: impl Fn() -> String, written: &[T]) -> Result<(), Difference> {
        let end = GUARD + written.len();
        same(&what, &self.now[GUARD..end], written)?;
        same(&what, &self.now[..GUARD], &self.before[..GUARD])?;
        same(&what, &self.now[end..], &self.before[end..])
    }

    pub fn untouched(&self, what: impl Fn() -> String) -> Result<(), Difference> {
        self.holds(what, &[])
    }
}
