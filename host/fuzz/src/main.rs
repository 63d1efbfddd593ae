// The program that libFuzzer drives: the linked library against the reference on each input, with
// the blocks of the library's machine code and the edges of the reference as its guide.
use std::{
    env,
    ffi::{CString, c_char, c_int},
    os::unix::ffi::OsStringExt,
    process, ptr, slice,
    sync::Mutex,
};

use host::{
    deep,
    hostile::{Hostile, change},
    notice,
    rng::Rng,
};

type Target = extern "C" fn(*const u8, usize) -> c_int;

unsafe extern "C" {
    fn LLVMFuzzerRunDriver(
        count: *mut c_int,
        words: *mut *mut *mut c_char,
        target: Target,
    ) -> c_int;
    fn LLVMFuzzerMutate(data: *mut u8, size: usize, most: usize) -> usize;
    fn atexit(function: extern "C" fn()) -> c_int;
    fn blocks_planted(file: *const c_char) -> usize;
    fn blocks_reached() -> usize;
    fn blocks_missed(file: *const c_char);
}

static HOSTILE: Mutex<Option<Hostile>> = Mutex::new(None);
static BLOCKS: Mutex<usize> = Mutex::new(0);

extern "C" fn target(data: *const u8, size: usize) -> c_int {
    // SAFETY: libFuzzer hands in that many bytes; none may have no place.
    let input = match size {
        0 => &[],
        _ => unsafe { slice::from_raw_parts(data, size) },
    };
    let mut hostile = HOSTILE.lock().expect("no call before this one failed");
    let called = hostile.get_or_insert_default().call(input);
    drop(hostile);
    if let Err(difference) = called {
        eprintln!("{difference}");
        process::abort();
    }
    0
}

/// A change of a sheet, or now and then one of libFuzzer's own changes of bytes.
///
/// # Safety
///
/// `data` is to `most` bytes that may be read and written, of which the first `size` are the input.
#[unsafe(no_mangle)]
pub unsafe extern "C" fn LLVMFuzzerCustomMutator(
    data: *mut u8,
    size: usize,
    most: usize,
    seed: u32,
) -> usize {
    let mut rng = Rng::new(u64::from(seed));
    if rng.once_in(16) {
        // SAFETY: the arguments are those that libFuzzer gave.
        return unsafe { LLVMFuzzerMutate(data, size, most) };
    }
    // SAFETY: libFuzzer lends `most` bytes, of which `size` are the input.
    let lent = unsafe { slice::from_raw_parts_mut(data, most) };
    let changed = change::changed(&mut rng, &lent[..size], most);
    lent[..changed.len()].copy_from_slice(&changed);
    changed.len()
}

fn word(name: &str) -> Option<CString> {
    let value = env::var_os(name)?;
    CString::new(value.into_vec()).ok()
}

// What came of the run.
extern "C" fn tell() {
    if let Some(hostile) = HOSTILE.lock().ok().as_deref().and_then(Option::as_ref) {
        let (calls, unjudged) = (hostile.compared.calls, hostile.unjudged);
        eprint!("{}", hostile.compared.tally);
        eprintln!("{calls} calls; {unjudged} of them without the reference");
    }
    let known = BLOCKS.lock().map_or(0, |known| *known);
    // SAFETY: the C functions read what was planted.
    let reached = unsafe { blocks_reached() };
    eprintln!("{reached} of {known} blocks of the library reached");
    if let Some(file) = word("YUKHTSAMI_MISSED") {
        // SAFETY: as above; the file's name is a C string.
        unsafe { blocks_missed(file.as_ptr()) };
    }
}

fn plant() {
    let Some(file) = word("YUKHTSAMI_BLOCKS") else {
        return eprintln!("no YUKHTSAMI_BLOCKS: the library's blocks are not watched");
    };
    // SAFETY: no other thread runs the library's code yet.
    let known = unsafe { blocks_planted(file.as_ptr()) };
    if known == 0 {
        eprintln!("no breakpoints could be planted from {file:?}");
        process::exit(2);
    }
    *BLOCKS.lock().expect("only this thread") = known;
}

fn main() {
    if notice::library_absent("there is nothing to try") {
        process::exit(2);
    }
    notice::absent("the library is compared with the model alone");
    plant();
    let words = env::args_os().filter_map(|word| CString::new(word.into_vec()).ok());
    let mut words: Vec<*mut c_char> = words.map(CString::into_raw).collect();
    let mut count = words.len() as c_int;
    words.push(ptr::null_mut());
    let place = words.as_mut_ptr() as usize;
    // SAFETY: the words are C strings that live on, with a null after them.
    let status = deep::run(|| unsafe {
        atexit(tell);
        let mut words = place as *mut *mut c_char;
        LLVMFuzzerRunDriver(&mut count, &mut words, target)
    });
    process::exit(status);
}
