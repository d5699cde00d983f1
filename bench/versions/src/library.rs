//! A shared library of the twelve calls, opened while the program runs, so that several builds of
//! it stand side by side in one process.  A build from before clause files has eleven: it imports
//! none.  One from before the index of mentions has ten: it cannot fill an index either, and is
//! lent none with a keying, a withdrawal, a step and a run.  One from before the "complete"
//! question was judged on book and lines is asked it with the sheet alone.

use crate::calls::{Call, Lent};
use crate::changes::Changes;
use crate::completes::Complete;
use std::ffi::{c_char, c_int, c_void, CStr, CString};
use std::mem::{size_of, transmute_copy};
use std::path::Path;

#[link(name = "dl")]
extern "C" {
    fn dlopen(file: *const c_char, flags: c_int) -> *mut c_void;
    fn dlsym(library: *mut c_void, name: *const c_char) -> *mut c_void;
    fn dlerror() -> *const c_char;
}

/// No library sees another's names, and every name is bound at once.
const RTLD_LOCAL: c_int = 0;
const RTLD_NOW: c_int = 2;

type Bytes = *const u8;
type Sheet = *const u16;
type Changed = *mut u16;

type Check = unsafe extern "C" fn(Bytes, usize) -> u64;
type Lookup = unsafe extern "C" fn(Bytes, usize, Bytes, usize) -> u64;
type Load = unsafe extern "C" fn(Bytes, usize, Changed, usize) -> u64;
type Write = unsafe extern "C" fn(Sheet, usize, Bytes, usize, *mut u8, usize) -> u64;
type Report = unsafe extern "C" fn(Sheet, usize, *mut u8, usize) -> u64;
type Import = unsafe extern "C" fn(Bytes, usize, *mut u8, usize) -> u64;

/// The calls of one library, which stays open.
pub struct Library {
    check: Check,
    lookup: Lookup,
    load: Load,
    write: Write,
    report: Report,
    complete: Complete,
    changes: Changes,
    /// None in a build from before clause files.
    import: Option<Import>,
}

impl Library {
    /// Opens a library that is not open yet: for one that is, the same would be given again.
    pub fn open(file: &Path) -> Library {
        let name = CString::new(file.as_os_str().as_encoded_bytes()).expect("a file's name");
        // SAFETY: the name ends with a zero byte. The library has nothing that runs when it is
        // opened, and the header that it is built with declares the calls as they are here: with
        // an index where it has the call that fills one, with book and lines where it judges them.
        unsafe {
            let library = dlopen(name.as_ptr(), RTLD_NOW | RTLD_LOCAL);
            assert!(!library.is_null(), "{}", fault());
            Library {
                check: symbol(library, c"nd_book_check"),
                lookup: symbol(library, c"nd_code_lookup"),
                load: symbol(library, c"nd_load"),
                write: symbol(library, c"nd_write"),
                report: symbol(library, c"nd_report"),
                complete: Complete::of(library),
                changes: Changes::of(library),
                import: has_symbol(library, c"nd_import").then(|| symbol(library, c"nd_import")),
            }
        }
    }

    /// Whether it knows the index of mentions.
    pub fn has_index(&self) -> bool {
        matches!(self.changes, Changes::With(_))
    }

    /// Whether it judges the "complete" question on the book and the lines.
    pub fn judges_order(&self) -> bool {
        self.complete.judges_order()
    }

    /// Whether it imports clause files.
    pub fn has_import(&self) -> bool {
        self.import.is_some()
    }

    /// Makes a call: its answer.
    pub fn call(&self, call: Call, lent: &mut Lent) -> u64 {
        let (book, book_len) = (lent.book.as_ptr(), lent.book.len());
        let (code, code_len) = (lent.code.as_ptr(), lent.code.len());
        let (sheet, sheet_len) = (lent.sheet.as_mut_ptr(), lent.sheet.len());
        let (text, text_len) = (lent.text.as_ptr(), lent.text.len());
        let (out, out_len) = (lent.out.as_mut_ptr(), lent.out.len());
        // SAFETY: every pointer is good for as many elements as its length says, no two overlap,
        // and the library touches nothing else.
        unsafe {
            match call {
                Call::Check => (self.check)(book, book_len),
                Call::Lookup => (self.lookup)(book, book_len, code, code_len),
                Call::Load => (self.load)(book, book_len, sheet, sheet_len),
                Call::Write => (self.write)(sheet, sheet_len, book, book_len, out, out_len),
                Call::Report => (self.report)(sheet, sheet_len, out, out_len),
                Call::Complete => self.complete.call(lent),
                Call::Import => {
                    let import = self.import.expect("a build that imports clause files");
                    import(text, text_len, out, out_len)
                }
                _ => self.changes.call(call, lent),
            }
        }
    }
}

/// The function of a name.
///
/// # Safety
///
/// The library is open, and `Function` is the type of a pointer to that function.
pub unsafe fn symbol<Function>(library: *mut c_void, name: &CStr) -> Function {
    assert_eq!(size_of::<Function>(), size_of::<*mut c_void>());
    let address = dlsym(library, name.as_ptr());
    assert!(!address.is_null(), "{}", fault());
    transmute_copy(&address)
}

/// Whether there is a function of a name.
///
/// # Safety
///
/// The library is open.
pub unsafe fn has_symbol(library: *mut c_void, name: &CStr) -> bool {
    !dlsym(library, name.as_ptr()).is_null()
}

/// What the last of these functions says went wrong.
///
/// # Safety
///
/// The last of them failed.
unsafe fn fault() -> String {
    CStr::from_ptr(dlerror()).to_string_lossy().into_owned()
}
