//! The panel's entries on copies with a fence on either side: a call stops the
//! test that writes beyond what is lent, or into what is lent to be read.

use crate::panel::Panel;
use crate::table::Row;
use std::hint::black_box;

/// So many elements before a slice, and as many after it.
const FENCE: usize = 64;

/// What stands in the fences, place by place.
trait Post: Copy + PartialEq {
    fn post(i: usize) -> Self;
}

macro_rules! number {
    ($($t:ty)*) => {$(
        impl Post for $t {
            fn post(i: usize) -> Self {
                (i as $t).wrapping_mul(0x9e37_79b9_7f4a_7c15_u64 as $t) ^ 0x5a
            }
        }
    )*};
}

number!(u8 u16 u64);

impl Post for Row {
    fn post(i: usize) -> Self {
        Row {
            kind: u8::post(i),
            x: u16::post(i),
            y: u16::post(i + 1),
        }
    }
}

struct Copied<T>(Vec<T>);

impl<T: Post> Copied<T> {
    fn of(slice: &[T]) -> Self {
        let fence = |from| (from..from + FENCE).map(T::post);
        Copied(
            fence(0)
                .chain(slice.iter().copied())
                .chain(fence(FENCE))
                .collect(),
        )
    }

    fn lent(&mut self) -> &mut [T] {
        let end = self.0.len() - FENCE;
        &mut self.0[FENCE..end]
    }

    /// The slice after the call; both fences must stand.
    fn left(&self, what: &str) -> &[T] {
        let all = black_box(&self.0);
        let end = all.len() - FENCE;
        let stands = (0..FENCE).all(|i| all[i] == T::post(i) && all[end + i] == T::post(FENCE + i));
        assert!(stands, "{what}: written beyond what is lent");
        &all[FENCE..end]
    }
}

/// An entry on copies: of what it reads, then of what it writes.
macro_rules! fenced {
    ($panel:expr, $entry:ident, [$($read:ident),*], [$($written:ident),*]) => {{
        $(let mut $read = (Copied::of($read), $read);)*
        $(let mut $written = (Copied::of($written), $written);)*
        let reply = $panel.$entry($($read.0.lent(),)* $($written.0.lent()),*);
        $({
            let what = concat!(stringify!($entry), ", ", stringify!($read));
            assert!($read.0.left(what) == $read.1, "{what}: written, though lent to be read");
        })*
        $({
            let what = concat!(stringify!($entry), ", ", stringify!($written));
            $written.1.copy_from_slice($written.0.left(what));
        })*
        reply
    }};
}

pub struct Fenced(pub Box<dyn Panel>);

impl Panel for Fenced {
    fn analyse(
        &self,
        kinds: &[u8],
        xs: &[u16],
        ys: &[u16],
        roots: &[u16],
        matrix: &mut [u64],
    ) -> u64 {
        fenced!(self.0, analyse, [kinds, xs, ys, roots], [matrix])
    }

    fn read_sheet(
        &self,
        bytes: &[u8],
        kinds: &mut [u8],
        xs: &mut [u16],
        ys: &mut [u16],
        roots: &mut [u16],
    ) -> u64 {
        fenced!(self.0, read_sheet, [bytes], [kinds, xs, ys, roots])
    }

    fn list_pairs(
        &self,
        kinds: &[u8],
        xs: &[u16],
        ys: &[u16],
        roots: &[u16],
        matrix: &mut [u64],
        bytes: &mut [u8],
    ) -> u64 {
        fenced!(self.0, list_pairs, [kinds, xs, ys, roots], [matrix, bytes])
    }

    fn analyse_rows(&self, rows: &[Row], roots: &[u16], matrix: &mut [u64]) -> u64 {
        fenced!(self.0, analyse_rows, [rows, roots], [matrix])
    }

    fn read_rows(&self, bytes: &[u8], rows: &mut [Row], roots: &mut [u16]) -> u64 {
        fenced!(self.0, read_rows, [bytes], [rows, roots])
    }

    fn list_rows(&self, rows: &[Row], roots: &[u16], matrix: &mut [u64], bytes: &mut [u8]) -> u64 {
        fenced!(self.0, list_rows, [rows, roots], [matrix, bytes])
    }

    fn write_sheet(
        &self,
        kinds: &[u8],
        xs: &[u16],
        ys: &[u16],
        roots: &[u16],
        bytes: &mut [u8],
    ) -> u64 {
        fenced!(self.0, write_sheet, [kinds, xs, ys, roots], [bytes])
    }

    fn write_rows(&self, rows: &[Row], roots: &[u16], bytes: &mut [u8]) -> u64 {
        fenced!(self.0, write_rows, [rows, roots], [bytes])
    }
}
