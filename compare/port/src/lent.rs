// A slice lent between guard entries, so that a write beside it is seen.

pub trait Entry: Copy + PartialEq {
    // the entries before and after a lent slice
    const GUARD: [Self; 4];

    fn same(self, other: Self) -> bool {
        self == other
    }
}

fn all_same<T: Entry>(a: &[T], b: &[T]) -> bool {
    a.len() == b.len() && a.iter().zip(b).all(|(x, y)| x.same(*y))
}

impl Entry for u8 {
    const GUARD: [u8; 4] = [0xa5, 0, 255, 0x5a];
}

impl Entry for u32 {
    const GUARD: [u32; 4] = [0xa5a5_a5a5, 0, u32::MAX, 0x5a5a_5a5a];
}

impl Entry for u64 {
    const GUARD: [u64; 4] = [0xa5a5_a5a5_a5a5_a5a5, 0, u64::MAX, 0x5a5a_5a5a_5a5a_5a5a];
}

impl Entry for i32 {
    const GUARD: [i32; 4] = [i32::MIN, 0, i32::MAX, 0x5a5a_5a5a];
}

// by all bits
impl Entry for f64 {
    const GUARD: [f64; 4] = [f64::NAN, 0.0, -0.0, f64::INFINITY];

    fn same(self, other: f64) -> bool {
        self.to_bits() == other.to_bits()
    }
}

pub struct Lent<T: Entry> {
    all: Vec<T>,
    entry: Vec<T>,
}

impl<T: Entry> Lent<T> {
    pub fn new(slice: &[T]) -> Self {
        let all = [&T::GUARD[..], slice, &T::GUARD[..]].concat();
        Self { all, entry: slice.to_vec() }
    }

    pub fn now(&mut self) -> &mut [T] {
        let end = self.all.len() - T::GUARD.len();
        &mut self.all[T::GUARD.len()..end]
    }

    // the contents after the call, if nothing beside the slice was written
    pub fn after(&self) -> Option<&[T]> {
        let (head, rest) = self.all.split_at(T::GUARD.len());
        let (slice, tail) = rest.split_at(self.entry.len());
        (all_same(head, &T::GUARD) && all_same(tail, &T::GUARD)).then_some(slice)
    }

    // nothing was written, in the slice or beside it
    pub fn untouched(&self) -> bool {
        self.after().is_some_and(|slice| all_same(slice, &self.entry))
    }
}

#[cfg(test)]
mod tests {
    use super::*;

    #[test]
    fn a_sign_of_zero_is_seen() {
        let mut s = Lent::new(&[0.0f64, f64::NAN]);
        assert!(s.untouched());
        s.now()[0] = -0.0;
        assert!(!s.untouched() && s.after().is_some());
    }

    #[test]
    fn a_write_beside_the_slice_is_seen() {
        for at in [-1isize, 0, 1, 2] {
            let mut s = Lent::new(&[5u8, 6]);
            assert!(s.untouched());
            // SAFETY: the guards are entries of the same allocation
            unsafe { *s.now().as_mut_ptr().offset(at) = 9 };
            assert!(!s.untouched());
            assert_eq!(s.after().is_some(), (0..2).contains(&at));
        }
    }
}
