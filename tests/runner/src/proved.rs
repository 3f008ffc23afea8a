//! The proved library through its C face. A function whose feature is off has not landed and answers `None`.

use crate::engine::{Answer, Engine};

/// `gusemrak_answer` of the C face.
#[cfg(any(
    feature = "f-check-book",
    feature = "f-compile",
    feature = "f-check-image",
    feature = "f-questions",
    feature = "f-step",
    feature = "f-run",
    feature = "f-short-list",
    feature = "f-part"
))]
#[repr(C)]
struct GusemrakAnswer {
    number: u32,
    place: u32,
    a: u64,
    b: u64,
    c: u64,
    d: u64,
}

#[cfg(any(
    feature = "f-check-book",
    feature = "f-compile",
    feature = "f-check-image",
    feature = "f-questions",
    feature = "f-step",
    feature = "f-run",
    feature = "f-short-list",
    feature = "f-part"
))]
fn answer(from: GusemrakAnswer) -> Option<Answer> {
    Some(Answer { number: from.number, place: from.place, a: from.a, b: from.b, c: from.c, d: from.d })
}

extern "C" {
    #[cfg(feature = "f-check-book")]
    fn gusemrak_check_book(book: *const u8, n: usize) -> GusemrakAnswer;
    #[cfg(feature = "f-compile")]
    fn gusemrak_compile(book: *const u8, n: usize, out: *mut u8, room: usize) -> GusemrakAnswer;
    #[cfg(feature = "f-check-image")]
    fn gusemrak_check_image(image: *const u8, n: usize) -> GusemrakAnswer;
    #[cfg(feature = "f-questions")]
    fn gusemrak_fallback(image: *const u8, n: usize, place: u32) -> GusemrakAnswer;
    #[cfg(feature = "f-questions")]
    fn gusemrak_level(image: *const u8, n: usize, place: u32) -> GusemrakAnswer;
    #[cfg(feature = "f-questions")]
    fn gusemrak_mark(image: *const u8, n: usize, place: u32) -> GusemrakAnswer;
    #[cfg(feature = "f-questions")]
    fn gusemrak_edge(image: *const u8, n: usize, place: u32, event: u8) -> GusemrakAnswer;
    #[cfg(feature = "f-step")]
    fn gusemrak_step(image: *const u8, n: usize, place: u32, event: u8) -> GusemrakAnswer;
    #[cfg(feature = "f-run")]
    fn gusemrak_run(
        image: *const u8,
        n: usize,
        place: u32,
        base: u32,
        log: *const u8,
        nlog: usize,
        out: *mut u8,
        room: usize,
    ) -> GusemrakAnswer;
    #[cfg(feature = "f-short-list")]
    fn gusemrak_short_list(list: *const u8, n: usize, out: *mut u8, room: usize) -> GusemrakAnswer;
    #[cfg(feature = "f-part")]
    fn gusemrak_part(log: *const u8, nlog: usize, base: u32, end: u32, length: u32) -> GusemrakAnswer;
    #[cfg(feature = "f-group")]
    fn gusemrak_group(event: u8) -> u8;
}

/// A landed function's answer, or `None`; the arguments of one that has not landed are not looked at.
macro_rules! landed {
    ($feature:literal, $call:expr, $($argument:expr),+) => {{
        #[cfg(feature = $feature)]
        let answered = $call;
        #[cfg(not(feature = $feature))]
        let answered = {
            let _ = ($($argument,)+);
            None
        };
        answered
    }};
}

/// What C sees of an empty slice is a matter of its own: the C face lets its pointer be null.
pub struct Proved {
    pub null_when_empty: bool,
}

#[cfg(any(
    feature = "f-check-book",
    feature = "f-compile",
    feature = "f-check-image",
    feature = "f-questions",
    feature = "f-step",
    feature = "f-run",
    feature = "f-short-list",
    feature = "f-part"
))]
impl Proved {
    fn read(&self, bytes: &[u8]) -> *const u8 {
        if self.null_when_empty && bytes.is_empty() {
            std::ptr::null()
        } else {
            bytes.as_ptr()
        }
    }
    #[cfg(any(feature = "f-compile", feature = "f-run", feature = "f-short-list"))]
    fn lent(&self, bytes: &mut [u8]) -> *mut u8 {
        if self.null_when_empty && bytes.is_empty() {
            std::ptr::null_mut()
        } else {
            bytes.as_mut_ptr()
        }
    }
}

// SAFETY of every call below: pointer and length are those of one live slice (or null and 0), and the C face reads a
// `const` pointer and writes a lent one inside that length only. The guards around lent memory test the latter.
impl Engine for Proved {
    fn name(&self) -> &'static str {
        "proved"
    }
    fn check_book(&self, book: &[u8]) -> Option<Answer> {
        landed!("f-check-book", answer(unsafe { gusemrak_check_book(self.read(book), book.len()) }), book)
    }
    fn compile(&self, book: &[u8], out: &mut [u8]) -> Option<Answer> {
        landed!(
            "f-compile",
            answer(unsafe { gusemrak_compile(self.read(book), book.len(), self.lent(out), out.len()) }),
            book,
            out
        )
    }
    fn check_image(&self, image: &[u8]) -> Option<Answer> {
        landed!("f-check-image", answer(unsafe { gusemrak_check_image(self.read(image), image.len()) }), image)
    }
    fn fallback(&self, image: &[u8], place: u32) -> Option<Answer> {
        landed!("f-questions", answer(unsafe { gusemrak_fallback(self.read(image), image.len(), place) }), image, place)
    }
    fn level(&self, image: &[u8], place: u32) -> Option<Answer> {
        landed!("f-questions", answer(unsafe { gusemrak_level(self.read(image), image.len(), place) }), image, place)
    }
    fn mark(&self, image: &[u8], place: u32) -> Option<Answer> {
        landed!("f-questions", answer(unsafe { gusemrak_mark(self.read(image), image.len(), place) }), image, place)
    }
    fn edge(&self, image: &[u8], place: u32, event: u8) -> Option<Answer> {
        landed!(
            "f-questions",
            answer(unsafe { gusemrak_edge(self.read(image), image.len(), place, event) }),
            image,
            place,
            event
        )
    }
    fn step(&self, image: &[u8], place: u32, event: u8) -> Option<Answer> {
        landed!(
            "f-step",
            answer(unsafe { gusemrak_step(self.read(image), image.len(), place, event) }),
            image,
            place,
            event
        )
    }
    fn run(&self, image: &[u8], place: u32, base: u32, log: &[u8], out: &mut [u8]) -> Option<Answer> {
        landed!(
            "f-run",
            answer(unsafe {
                gusemrak_run(
                    self.read(image),
                    image.len(),
                    place,
                    base,
                    self.read(log),
                    log.len(),
                    self.lent(out),
                    out.len(),
                )
            }),
            image,
            place,
            base,
            log,
            out
        )
    }
    fn short_list(&self, list: &[u8], out: &mut [u8]) -> Option<Answer> {
        landed!(
            "f-short-list",
            answer(unsafe { gusemrak_short_list(self.read(list), list.len(), self.lent(out), out.len()) }),
            list,
            out
        )
    }
    fn part(&self, log: &[u8], base: u32, end: u32, length: u32) -> Option<Answer> {
        landed!(
            "f-part",
            answer(unsafe { gusemrak_part(self.read(log), log.len(), base, end, length) }),
            log,
            base,
            end,
            length
        )
    }
    fn group(&self, event: u8) -> Option<u8> {
        landed!("f-group", Some(unsafe { gusemrak_group(event) }), event)
    }
    fn listing(&self, book: &[u8], log: &[u8]) -> Option<String> {
        landed!("f-list", Some(printed(book, log)), book, log)
    }
}

/// What the program prints. An empty file and one that is not there must be the same to it: both are tried.
#[cfg(feature = "f-list")]
fn printed(book: &[u8], log: &[u8]) -> String {
    let there = printed_in(book, log, true);
    if !book.is_empty() && !log.is_empty() {
        return there;
    }
    let missing = printed_in(book, log, false);
    if there == missing {
        there
    } else {
        format!("with empty files:\n{there}with missing files:\n{missing}")
    }
}

#[cfg(feature = "f-list")]
fn printed_in(book: &[u8], log: &[u8], write_empty: bool) -> String {
    let program = std::env::var_os("GUSEMRAK_LIST").expect("GUSEMRAK_LIST names the program list");
    let dir = std::env::temp_dir().join(format!("gusemrak-list-{}", std::process::id()));
    std::fs::create_dir_all(&dir).expect("a folder for the two files");
    for (name, contents) in [("book.sb", book), ("log.ev", log)] {
        if write_empty || !contents.is_empty() {
            std::fs::write(dir.join(name), contents).expect("a file for the program");
        }
    }
    let printed = std::process::Command::new(program).current_dir(&dir).output();
    std::fs::remove_dir_all(&dir).expect("the folder goes again");
    match printed {
        Ok(printed) => String::from_utf8_lossy(&printed.stdout).into_owned(),
        Err(error) => format!("the program cannot be run: {error}"),
    }
}
