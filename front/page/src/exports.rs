//! The functions that the page calls. It lends bytes in slots, calls one function, and reads the answer.
//! (Names that are not mangled count as unsafe code; there is no other here.)

use crate::{asked, judged, kept, listed};
use std::cell::RefCell;
use std::ffi::OsString;
use told::Disagreement;

/// The slots: a file's name and its bytes, another's, and what else a call needs.
const NAME: usize = 0;
const MESSAGE: usize = 1;
const OTHER_NAME: usize = 2;
const OTHER_MESSAGE: usize = 3;
const BOOK: usize = 4;
const SLOTS: usize = 5;

/// What a call comes to: the answer is there; the message was refused, so there is none; the library and
/// what was read here do not agree, so nothing can be believed.
const ANSWERED: u32 = 0;
const REFUSED: u32 = 1;
const DISAGREED: u32 = 2;

thread_local! {
    static LENT: RefCell<[Vec<u8>; SLOTS]> = RefCell::default();
    static ANSWER: RefCell<Vec<u8>> = RefCell::default();
    static BOOK_BEHIND: RefCell<Vec<u8>> = RefCell::default();
}

/// Makes room for so many bytes in a slot, which the page then writes.
#[no_mangle]
pub extern "C" fn page_lend(slot: usize, length: usize) -> *mut u8 {
    LENT.with(|lent| {
        let slot = &mut lent.borrow_mut()[slot];
        *slot = vec![0; length];
        slot.as_mut_ptr()
    })
}

/// Where the answer lies.
#[no_mangle]
pub extern "C" fn page_answer() -> *const u8 {
    ANSWER.with(|answer| answer.borrow().as_ptr())
}

/// How many bytes it has.
#[no_mangle]
pub extern "C" fn page_answer_length() -> usize {
    ANSWER.with(|answer| answer.borrow().len())
}

/// Where the day book behind the last call on it lies.
#[no_mangle]
pub extern "C" fn page_book() -> *const u8 {
    BOOK_BEHIND.with(|book| book.borrow().as_ptr())
}

/// How many bytes it has.
#[no_mangle]
pub extern "C" fn page_book_length() -> usize {
    BOOK_BEHIND.with(|book| book.borrow().len())
}

/// Judges MESSAGE of NAME; OTHER_NAME is the earlier file with its MsgId, or empty.
#[no_mangle]
pub extern "C" fn page_judge() -> u32 {
    answered(|lent| {
        let earlier = Some(file(&lent[OTHER_NAME])).filter(|name| !name.is_empty());
        Ok(Some(judged::json(&file(&lent[NAME]), &lent[MESSAGE], earlier).into_bytes()))
    })
}

/// The items of MESSAGE as rows.
#[no_mangle]
pub extern "C" fn page_items() -> u32 {
    answered(|lent| Ok(listed::json(&lent[MESSAGE])?.map(String::into_bytes)))
}

/// The items of MESSAGE for a spreadsheet, in English (0) or German (1).
#[no_mangle]
pub extern "C" fn page_csv(language: usize) -> u32 {
    answered(|lent| Ok(listed::csv(&lent[MESSAGE], language)?.map(String::into_bytes)))
}

/// The posting records of MESSAGE.
#[no_mangle]
pub extern "C" fn page_records() -> u32 {
    answered(|lent| judged::records(&lent[MESSAGE]))
}

/// The plain form of MESSAGE.
#[no_mangle]
pub extern "C" fn page_plain() -> u32 {
    answered(|lent| judged::plain(&lent[MESSAGE]))
}

/// MESSAGE of NAME and OTHER_MESSAGE of OTHER_NAME compared.
#[no_mangle]
pub extern "C" fn page_same() -> u32 {
    answered(|lent| {
        let [one, other] = [NAME, OTHER_NAME].map(|slot| file(&lent[slot]));
        asked::same((&one, &lent[MESSAGE]), (&other, &lent[OTHER_MESSAGE])).map(Some)
    })
}

/// The value in MESSAGE held against the checker of the kind in NAME.
#[no_mangle]
pub extern "C" fn page_check() -> u32 {
    answered(|lent| {
        let kind = String::from_utf8_lossy(&lent[NAME]).into_owned();
        Ok(asked::check(&kind, &lent[MESSAGE]))
    })
}

/// What several files come to: MESSAGE has the plain verdict of each on a line.
#[no_mangle]
pub extern "C" fn page_closing() -> u32 {
    answered(|lent| Ok(Some(asked::closing(&lent[MESSAGE]).into_bytes())))
}

/// All pages of the refusals.
#[no_mangle]
pub extern "C" fn page_pages() -> u32 {
    answered(|_| Ok(Some(asked::pages().into_bytes())))
}

/// Enters MESSAGE of NAME into BOOK.
#[no_mangle]
pub extern "C" fn page_enter() -> u32 {
    booked(|lent| kept::enter(&lent[BOOK], &file(&lent[NAME]), &lent[MESSAGE]))
}

/// Withdraws the bulk that is open at a place of BOOK.
#[no_mangle]
pub extern "C" fn page_withdraw(place: usize) -> u32 {
    booked(|lent| kept::withdraw(&lent[BOOK], place))
}

/// A file name as the page lent it.
fn file(bytes: &[u8]) -> OsString {
    String::from_utf8_lossy(bytes).into_owned().into()
}

/// Makes a call on what is lent, and keeps its answer.
fn answered(call: impl FnOnce(&[Vec<u8>; SLOTS]) -> Result<Option<Vec<u8>>, Disagreement>) -> u32 {
    let (status, bytes) = match LENT.with(|lent| call(&lent.borrow())) {
        Ok(Some(bytes)) => (ANSWERED, bytes),
        Ok(None) => (REFUSED, Vec::new()),
        Err(Disagreement) => (DISAGREED, Vec::new()),
    };
    ANSWER.with(|answer| *answer.borrow_mut() = bytes);
    status
}

/// The same of a call on the day book, which leaves a book too.
fn booked(call: impl FnOnce(&[Vec<u8>; SLOTS]) -> Result<kept::Behind, Disagreement>) -> u32 {
    answered(|lent| {
        let behind = call(lent)?;
        BOOK_BEHIND.with(|book| *book.borrow_mut() = behind.book);
        Ok(Some(behind.told.into_bytes()))
    })
}
