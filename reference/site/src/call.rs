//! Calls of the archive's two checks, as a C program makes them.

use reference::sheet::Sheet;

/// Declares the archive's two functions with numbers of a type.
macro_rules! declared {
    ($name:ident, $number:ty) => {
        mod $name {
            #[allow(clashing_extern_declarations)]
            extern "C" {
                #[link_name = "fcram_check"]
                pub fn check(
                    grade: $number,
                    cl: $number,
                    bl: $number,
                    organisation: $number,
                    period: $number,
                    rbd: $number,
                    rwd: $number,
                    wrd: $number,
                    rsc: $number,
                    refc: $number,
                    bytes: *const u8,
                    length: usize,
                ) -> u32;

                #[link_name = "fcram_check_wired"]
                pub fn check_wired(
                    grade: $number,
                    cl: $number,
                    bl: $number,
                    organisation: $number,
                    period: $number,
                    rbd: $number,
                    rwd: $number,
                    wrd: $number,
                    rsc: $number,
                    refc: $number,
                    wiring: $number,
                    bytes: *const u8,
                    length: usize,
                ) -> u32;
            }
        }
    };
}

declared!(archive, u32);
// The same functions; a 32-bit number takes a whole register or stack slot of 64 bits.
declared!(wide, u64);

/// The call that takes the wiring, and the one without, which means eight banks.
#[derive(Clone, Copy, Debug, PartialEq, Eq)]
pub enum Form {
    Wired,
    OfEight,
}

impl Form {
    /// The name of the function.
    pub fn name(self) -> &'static str {
        match self {
            Form::Wired => "fcram_check_wired",
            Form::OfEight => "fcram_check",
        }
    }

    /// The calls that can be made with a sheet.
    pub fn of(sheet: &Sheet) -> &'static [Form] {
        match sheet.wiring {
            8 => &[Form::Wired, Form::OfEight],
            _ => &[Form::Wired],
        }
    }

    /// The check with a pointer and a length.
    ///
    /// # Safety
    /// So many bytes can be read from the pointer on; with length 0 it may be any pointer.
    unsafe fn raw(self, sheet: &Sheet, bytes: *const u8, length: usize) -> u32 {
        let [a, b, c, d, e, f, g, h, i, j, wiring] = sheet.numbers();
        match self {
            Form::Wired => {
                archive::check_wired(a, b, c, d, e, f, g, h, i, j, wiring, bytes, length)
            }
            Form::OfEight => archive::check(a, b, c, d, e, f, g, h, i, j, bytes, length),
        }
    }

    /// The check of a lent trace.
    pub fn check(self, sheet: &Sheet, trace: &[u8]) -> u32 {
        // SAFETY: the slice can be read while it is lent.
        unsafe { self.raw(sheet, trace.as_ptr(), trace.len()) }
    }

    /// The check of no bytes at the null pointer, as a C program may hold an empty trace.
    pub fn check_null(self, sheet: &Sheet) -> u32 {
        // SAFETY: nothing can be read and the length says so.
        unsafe { self.raw(sheet, std::ptr::null(), 0) }
    }

    /// The check with the given bits in the upper halves of the numbers' places, which C leaves open.
    pub fn check_dirty(self, sheet: &Sheet, trace: &[u8], dirt: u32) -> u32 {
        let dirty = |number| u64::from(dirt) << 32 | u64::from(number);
        let [a, b, c, d, e, f, g, h, i, j, wiring] = sheet.numbers().map(dirty);
        let (bytes, length) = (trace.as_ptr(), trace.len());
        // SAFETY: the slice can be read while it is lent; the numbers lie where C puts them.
        unsafe {
            match self {
                Form::Wired => {
                    wide::check_wired(a, b, c, d, e, f, g, h, i, j, wiring, bytes, length)
                }
                Form::OfEight => wide::check(a, b, c, d, e, f, g, h, i, j, bytes, length),
            }
        }
    }
}
