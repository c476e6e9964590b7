//! The eight entries of the static library, as a trait: the same comparisons
//! run on the library and on any other version of the same work.
//!
//! A reply is one number: the refusal's number × 2³² + a value, 0 for success.

use crate::table::{Refusal, Row};

pub trait Panel {
    fn analyse(
        &self,
        kinds: &[u8],
        xs: &[u16],
        ys: &[u16],
        roots: &[u16],
        matrix: &mut [u64],
    ) -> u64;

    fn read_sheet(
        &self,
        bytes: &[u8],
        kinds: &mut [u8],
        xs: &mut [u16],
        ys: &mut [u16],
        roots: &mut [u16],
    ) -> u64;

    fn list_pairs(
        &self,
        kinds: &[u8],
        xs: &[u16],
        ys: &[u16],
        roots: &[u16],
        matrix: &mut [u64],
        bytes: &mut [u8],
    ) -> u64;

    fn analyse_rows(&self, rows: &[Row], roots: &[u16], matrix: &mut [u64]) -> u64;

    fn read_rows(&self, bytes: &[u8], rows: &mut [Row], roots: &mut [u16]) -> u64;

    fn list_rows(&self, rows: &[Row], roots: &[u16], matrix: &mut [u64], bytes: &mut [u8]) -> u64;

    fn write_sheet(
        &self,
        kinds: &[u8],
        xs: &[u16],
        ys: &[u16],
        roots: &[u16],
        bytes: &mut [u8],
    ) -> u64;

    fn write_rows(&self, rows: &[Row], roots: &[u16], bytes: &mut [u8]) -> u64;
}

/// The reply for a refusal.
pub fn refused(refusal: Refusal) -> u64 {
    (u64::from(refusal.number) << 32) + u64::from(refusal.place)
}

/// The reply as a person reads it.
pub fn shown(reply: u64) -> String {
    format!("number {} value {}", reply >> 32, reply & 0xffff_ffff)
}

/// The static library: linked when BUSHKALOTE_PANEL named its folder at build
/// time, else behind the server that BUSHKALOTE_SERVER names.
pub fn library() -> Option<Box<dyn Panel>> {
    #[cfg(panel)]
    {
        Some(Box::new(Library))
    }
    #[cfg(not(panel))]
    {
        match std::env::var("BUSHKALOTE_SERVER") {
            Ok(path) if !path.is_empty() => Some(Box::new(crate::remote::Remote::start(&path))),
            _ => None,
        }
    }
}

/// The static library, linked.
#[cfg(panel)]
pub struct Library;

#[cfg(panel)]
mod linked {
    use crate::table::Row;

    extern "C" {
        pub fn bushkalote_analyse(
            kinds: *const u8,
            kinds_len: usize,
            xs: *const u16,
            xs_len: usize,
            ys: *const u16,
            ys_len: usize,
            roots: *const u16,
            roots_len: usize,
            matrix: *mut u64,
            matrix_len: usize,
        ) -> u64;
        pub fn bushkalote_read_sheet(
            bytes: *const u8,
            bytes_len: usize,
            kinds: *mut u8,
            kinds_len: usize,
            xs: *mut u16,
            xs_len: usize,
            ys: *mut u16,
            ys_len: usize,
            roots: *mut u16,
            roots_len: usize,
        ) -> u64;
        pub fn bushkalote_list_pairs(
            kinds: *const u8,
            kinds_len: usize,
            xs: *const u16,
            xs_len: usize,
            ys: *const u16,
            ys_len: usize,
            roots: *const u16,
            roots_len: usize,
            matrix: *mut u64,
            matrix_len: usize,
            bytes: *mut u8,
            bytes_len: usize,
        ) -> u64;
        pub fn bushkalote_analyse_rows(
            rows: *const Row,
            rows_len: usize,
            roots: *const u16,
            roots_len: usize,
            matrix: *mut u64,
            matrix_len: usize,
        ) -> u64;
        pub fn bushkalote_read_rows(
            bytes: *const u8,
            bytes_len: usize,
            rows: *mut Row,
            rows_len: usize,
            roots: *mut u16,
            roots_len: usize,
        ) -> u64;
        pub fn bushkalote_list_rows(
            rows: *const Row,
            rows_len: usize,
            roots: *const u16,
            roots_len: usize,
            matrix: *mut u64,
            matrix_len: usize,
            bytes: *mut u8,
            bytes_len: usize,
        ) -> u64;
        pub fn bushkalote_write_sheet(
            kinds: *const u8,
            kinds_len: usize,
            xs: *const u16,
            xs_len: usize,
            ys: *const u16,
            ys_len: usize,
            roots: *const u16,
            roots_len: usize,
            bytes: *mut u8,
            bytes_len: usize,
        ) -> u64;
        pub fn bushkalote_write_rows(
            rows: *const Row,
            rows_len: usize,
            roots: *const u16,
            roots_len: usize,
            bytes: *mut u8,
            bytes_len: usize,
        ) -> u64;
    }
}

// Each slice is handed over as its own pointer and length, and the slices do
// not overlap, since they are borrowed here side by side.
#[cfg(panel)]
impl Panel for Library {
    fn analyse(
        &self,
        kinds: &[u8],
        xs: &[u16],
        ys: &[u16],
        roots: &[u16],
        matrix: &mut [u64],
    ) -> u64 {
        unsafe {
            linked::bushkalote_analyse(
                kinds.as_ptr(),
                kinds.len(),
                xs.as_ptr(),
                xs.len(),
                ys.as_ptr(),
                ys.len(),
                roots.as_ptr(),
                roots.len(),
                matrix.as_mut_ptr(),
                matrix.len(),
            )
        }
    }

    fn read_sheet(
        &self,
        bytes: &[u8],
        kinds: &mut [u8],
        xs: &mut [u16],
        ys: &mut [u16],
        roots: &mut [u16],
    ) -> u64 {
        unsafe {
            linked::bushkalote_read_sheet(
                bytes.as_ptr(),
                bytes.len(),
                kinds.as_mut_ptr(),
                kinds.len(),
                xs.as_mut_ptr(),
                xs.len(),
                ys.as_mut_ptr(),
                ys.len(),
                roots.as_mut_ptr(),
                roots.len(),
            )
        }
    }

    fn list_pairs(
        &self,
        kinds: &[u8],
        xs: &[u16],
        ys: &[u16],
        roots: &[u16],
        matrix: &mut [u64],
        bytes: &mut [u8],
    ) -> u64 {
        unsafe {
            linked::bushkalote_list_pairs(
                kinds.as_ptr(),
                kinds.len(),
                xs.as_ptr(),
                xs.len(),
                ys.as_ptr(),
                ys.len(),
                roots.as_ptr(),
                roots.len(),
                matrix.as_mut_ptr(),
                matrix.len(),
                bytes.as_mut_ptr(),
                bytes.len(),
            )
        }
    }

    fn analyse_rows(&self, rows: &[Row], roots: &[u16], matrix: &mut [u64]) -> u64 {
        unsafe {
            linked::bushkalote_analyse_rows(
                rows.as_ptr(),
                rows.len(),
                roots.as_ptr(),
                roots.len(),
                matrix.as_mut_ptr(),
                matrix.len(),
            )
        }
    }

    fn read_rows(&self, bytes: &[u8], rows: &mut [Row], roots: &mut [u16]) -> u64 {
        unsafe {
            linked::bushkalote_read_rows(
                bytes.as_ptr(),
                bytes.len(),
                rows.as_mut_ptr(),
                rows.len(),
                roots.as_mut_ptr(),
                roots.len(),
            )
        }
    }

    fn list_rows(&self, rows: &[Row], roots: &[u16], matrix: &mut [u64], bytes: &mut [u8]) -> u64 {
        unsafe {
            linked::bushkalote_list_rows(
                rows.as_ptr(),
                rows.len(),
                roots.as_ptr(),
                roots.len(),
                matrix.as_mut_ptr(),
                matrix.len(),
                bytes.as_mut_ptr(),
                bytes.len(),
            )
        }
    }

    fn write_sheet(
        &self,
        kinds: &[u8],
        xs: &[u16],
        ys: &[u16],
        roots: &[u16],
        bytes: &mut [u8],
    ) -> u64 {
        unsafe {
            linked::bushkalote_write_sheet(
                kinds.as_ptr(),
                kinds.len(),
                xs.as_ptr(),
                xs.len(),
                ys.as_ptr(),
                ys.len(),
                roots.as_ptr(),
                roots.len(),
                bytes.as_mut_ptr(),
                bytes.len(),
            )
        }
    }

    fn write_rows(&self, rows: &[Row], roots: &[u16], bytes: &mut [u8]) -> u64 {
        unsafe {
            linked::bushkalote_write_rows(
                rows.as_ptr(),
                rows.len(),
                roots.as_ptr(),
                roots.len(),
                bytes.as_mut_ptr(),
                bytes.len(),
            )
        }
    }
}
