//! The proved library behind safe functions. The build links the file that the variable
//! `YUKHTSAMI_LIBRARY` names, otherwise `target/staticlib/libyukhtsami.a` of the repository, which
//! `host/link` writes; where it is absent the build fails and says so.
//!
//! A caller lends a work area of [`words_needed`] words and an output, and asks [`answer`], or [`page`]
//! for the answer laid out in pages:
//!
//! ```
//! # if !yukhtsami::present() {
//! #     println!("{}; the example was not run", yukhtsami::notice());
//! #     return;
//! # }
//! let sheet = b"kind=equal\nleft=tamtplus(a,b)\nright=tamtplus(b,a)\n";
//! let mut work = vec![0; yukhtsami::words_needed(sheet) as usize];
//! let mut output = [0; 64];
//! let written = yukhtsami::answer(sheet, &mut work, &mut output).unwrap();
//! assert_eq!(&output[..written], b"equal=yes\n");
//!
//! let refused = yukhtsami::answer(b"kind=equal\n", &mut work, &mut output);
//! assert_eq!(refused, Err(yukhtsami::Refusal::LineOutOfPlace));
//!
//! let mut pages = [0; yukhtsami::PAGE_BYTES];
//! let written = yukhtsami::page(sheet, &mut work, &mut pages).unwrap();
//! assert_eq!(written, yukhtsami::PAGE_BYTES);
//! let lines: Vec<_> = pages.split(|byte| *byte == 10).map(<[u8]>::trim_ascii_end).collect();
//! assert_eq!(lines[..3], [&b"PAGE 0001"[..], b"equal    yes", b""]);
//! ```
use std::{error::Error, fmt};

/// The bytes of a page: 50 lines of 72 characters, each ended by byte 10.
pub const PAGE_BYTES: usize = 50 * (72 + 1);
/// The most pages that an answer is laid out in.
pub const MOST_PAGES: usize = 9_999;

/// The calls on a sheet.
#[derive(Clone, Copy, Debug, Default, PartialEq, Eq)]
pub enum Call {
    /// `yukhtsami_answer`, which gives the answer.
    #[default]
    Answer,
    /// `yukhtsami_page`, which gives the answer laid out in pages.
    Page,
}

impl Call {
    pub const ALL: [Call; 2] = [Call::Answer, Call::Page];
}

/// What an exported call gives: the refusal's number, 0 for none, and the count of bytes written.
#[repr(C)]
#[derive(Clone, Copy, Debug, PartialEq, Eq)]
pub struct Called {
    pub refusal: u32,
    pub written: usize,
}

#[cfg(linked)]
type Exported = unsafe extern "C" fn(
    sheet: *const u8,
    sheet_len: usize,
    work: *mut u32,
    work_len: usize,
    output: *mut u8,
    output_len: usize,
) -> Called;

#[cfg(linked)]
unsafe extern "C" {
    fn yukhtsami_answer(
        sheet: *const u8,
        sheet_len: usize,
        work: *mut u32,
        work_len: usize,
        output: *mut u8,
        output_len: usize,
    ) -> Called;
    fn yukhtsami_page(
        sheet: *const u8,
        sheet_len: usize,
        work: *mut u32,
        work_len: usize,
        output: *mut u8,
        output_len: usize,
    ) -> Called;
}

/// A call as it is exported.
#[cfg(linked)]
pub fn call(call: Call, sheet: &[u8], work: &mut [u32], output: &mut [u8]) -> Called {
    let exported: Exported = match call {
        Call::Answer => yukhtsami_answer,
        Call::Page => yukhtsami_page,
    };
    // SAFETY: each pointer and length is of one slice, the lent slices are borrowed for writing and
    // overlap nothing, and the library keeps none of the pointers.
    unsafe {
        exported(
            sheet.as_ptr(),
            sheet.len(),
            work.as_mut_ptr(),
            work.len(),
            output.as_mut_ptr(),
            output.len(),
        )
    }
}

// Only the feature `absent` has this.
#[cfg(not(linked))]
pub fn call(_: Call, _: &[u8], _: &mut [u32], _: &mut [u8]) -> Called {
    panic!("{}", notice())
}

/// The seven refusals, in the order in which the first that applies is given, and any number that this
/// crate has no name for.
#[derive(Clone, Copy, Debug, PartialEq, Eq)]
#[non_exhaustive]
pub enum Refusal {
    /// 1: the sheet has over 65,536 bytes.
    TooLong,
    /// 2: a byte of the sheet is none of 10, 32 to 126.
    ForeignByte,
    /// 3: the lines are not those of a sheet, `fuel` is no number from 0 to 65,536, the last line
    /// has no byte 10, or a member repeats a key.
    LineOutOfPlace,
    /// 11: the work area has fewer words than [`words_needed`].
    ShortWorkArea,
    /// 4: a `left`, `right` or `term` is no term.
    UnreadableTerm,
    /// 13, of [`page`] alone: the answer needs over [`MOST_PAGES`] pages.
    TooManyPages,
    /// 12: the answer, or what it is laid out in, is longer than the output.
    ShortOutput,
    /// A number that none of these has. The linked library is proved to give none; one with more
    /// refusals than this crate knows does.
    Unknown(u32),
}

impl Refusal {
    /// The seven that have a name.
    pub const ALL: [Refusal; 7] = [
        Refusal::TooLong,
        Refusal::ForeignByte,
        Refusal::LineOutOfPlace,
        Refusal::ShortWorkArea,
        Refusal::UnreadableTerm,
        Refusal::TooManyPages,
        Refusal::ShortOutput,
    ];

    /// The refusal's number.
    pub const fn number(self) -> u32 {
        match self {
            Refusal::TooLong => 1,
            Refusal::ForeignByte => 2,
            Refusal::LineOutOfPlace => 3,
            Refusal::UnreadableTerm => 4,
            Refusal::ShortWorkArea => 11,
            Refusal::ShortOutput => 12,
            Refusal::TooManyPages => 13,
            Refusal::Unknown(number) => number,
        }
    }

    /// The refusal of a number; 0 is none.
    pub fn of(number: u32) -> Option<Refusal> {
        let same = |refusal: &Refusal| refusal.number() == number;
        let named = Refusal::ALL.into_iter().find(same);
        named.or((number != 0).then_some(Refusal::Unknown(number)))
    }
}

impl fmt::Display for Refusal {
    fn fmt(&self, out: &mut fmt::Formatter) -> fmt::Result {
        out.pad(match self {
            Refusal::TooLong => "too long",
            Refusal::ForeignByte => "foreign byte",
            Refusal::LineOutOfPlace => "line out of place",
            Refusal::UnreadableTerm => "unreadable term",
            Refusal::ShortWorkArea => "short work area",
            Refusal::ShortOutput => "short output",
            Refusal::TooManyPages => "too many pages",
            Refusal::Unknown(number) => return write!(out, "unknown refusal {number}"),
        })
    }
}

impl Error for Refusal {}

/// What a call gives: the count of bytes written to the front of the output, or the refusal.
pub fn reply(
    call: Call,
    sheet: &[u8],
    work: &mut [u32],
    output: &mut [u8],
) -> Result<usize, Refusal> {
    let called = self::call(call, sheet, work, output);
    match Refusal::of(called.refusal) {
        Some(refusal) => Err(refusal),
        None => Ok(called.written),
    }
}

/// Answers a sheet: the count of bytes written to the front of the output, or the refusal.
///
/// The work area must have [`words_needed`] words; what they hold before does not matter. A stack
/// of 2 MiB serves every sheet. Nothing is kept between calls, so calls may be made on several
/// threads at once.
///
/// | result | output | work area |
/// |---|---|---|
/// | an answer | the answer, then as it was | the needed words zero, later words as they were |
/// | `UnreadableTerm`, `ShortOutput` | as it was | the needed words zero, later words as they were |
/// | any other refusal | as it was | as it was |
pub fn answer(sheet: &[u8], work: &mut [u32], output: &mut [u8]) -> Result<usize, Refusal> {
    reply(Call::Answer, sheet, work, output)
}

/// Answers a sheet like [`answer`], with the answer laid out in pages of [`PAGE_BYTES`] bytes, of which
/// the last is filled with blank lines. The answer is never held beside them.
///
/// It is refused where [`answer`] would be, but for the length of the output, which must have room for
/// the pages, and with `TooManyPages` where there would be over [`MOST_PAGES`], whatever the length of
/// the output. After `TooManyPages` output and work area are as after `ShortOutput`.
pub fn page(sheet: &[u8], work: &mut [u32], output: &mut [u8]) -> Result<usize, Refusal> {
    reply(Call::Page, sheet, work, output)
}

fn count(byte: u8, of: &[u8]) -> u64 {
    of.iter().filter(|other| **other == byte).count() as u64
}

/// The words of work area that a sheet needs: 65,536 × (C + 16) + 16 × B, where C is the count of
/// colons and B of bytes; for `kind=complete` C is raised by twice the count of `(` in the `term`
/// line. On bytes that are refused as no sheet the number says nothing.
pub fn words_needed(sheet: &[u8]) -> u64 {
    let raise = match sheet.strip_prefix(b"kind=complete\n") {
        Some(rest) => {
            let term = rest.split(|byte| *byte == 10).next().unwrap_or_default();
            2 * count(b'(', term)
        }
        None => 0,
    };
    65_536 * (count(b':', sheet) + raise + 16) + 16 * sheet.len() as u64
}

/// Whether the library was found when this crate was built: without the feature `absent` it was.
pub const fn present() -> bool {
    cfg!(linked)
}

/// The file of the library, as it was looked for when this crate was built.
pub const fn file() -> &'static str {
    env!("LIBRARY_FILE")
}

/// The logic by which the library was proved, as its file tells; empty where it does not.
pub const fn logic() -> &'static str {
    env!("LIBRARY_LOGIC")
}

/// What to tell the user where it was not found.
pub fn notice() -> String {
    format!(
        "library absent: no {} (write it by `host/link`, or set YUKHTSAMI_LIBRARY to its path)",
        file()
    )
}

#[cfg(test)]
mod tests {
    use super::*;

    #[test]
    fn refusals_have_their_numbers_and_names_in_their_order() {
        let told = Refusal::ALL.map(|refusal| format!("{} {refusal}", refusal.number()));
        let said = [
            "1 too long",
            "2 foreign byte",
            "3 line out of place",
            "11 short work area",
            "4 unreadable term",
            "13 too many pages",
            "12 short output",
        ];
        assert_eq!(told, said);
        assert_eq!(Refusal::of(0), None);
        for number in 1..20 {
            let found = Refusal::of(number).expect("a number that is not 0 refuses");
            assert_eq!(found.number(), number);
            let known = matches!(number, 1..=4 | 11..=13);
            assert_eq!(found == Refusal::Unknown(number), !known, "{number}");
        }
        assert_eq!(Refusal::Unknown(14).to_string(), "unknown refusal 14");
    }

    #[test]
    fn brackets_count_in_the_term_line_of_complete_alone() {
        let rest = "\nterm=h(g(a))\nmember=h((x0:Msg\n";
        for (kind, count) in [("complete", 1 + 4), ("sound", 1), ("complete ", 1)] {
            let sheet = format!("kind={kind}{rest}");
            let needed = 65_536 * (count + 16) + 16 * sheet.len() as u64;
            assert_eq!(words_needed(sheet.as_bytes()), needed, "{kind}");
        }
        assert_eq!(words_needed(b"kind=complete\n((:"), 65_536 * 21 + 16 * 17);
        assert_eq!(words_needed(b""), 65_536 * 16);
    }
}
