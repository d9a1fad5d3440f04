//! What a `Feed` and `Pieces` do when there is no memory for what comes: the tokens before it come, and then the fault, once.
//! Requests for memory of the library itself are refused by tests/ffi.py.
use bogzhami::{Data, Fault, Fed, Feed, PieceError, Pieces, Token};
use std::alloc::{GlobalAlloc, Layout, System};
use std::cell::Cell;

/// The length of a request that is refused here, and of all longer ones.
const REFUSED: usize = 1 << 20;

thread_local! {
    /// Whether such requests of the thread are refused.
    static REFUSES: Cell<bool> = const { Cell::new(false) };
}

struct Refuser;

impl Refuser {
    fn refuses(len: usize) -> bool {
        len >= REFUSED && REFUSES.with(Cell::get)
    }
}

// SAFETY: what is not refused is done by the system's allocator.
unsafe impl GlobalAlloc for Refuser {
    unsafe fn alloc(&self, layout: Layout) -> *mut u8 {
        if Refuser::refuses(layout.size()) {
            return std::ptr::null_mut();
        }
        System.alloc(layout)
    }

    unsafe fn dealloc(&self, at: *mut u8, layout: Layout) {
        System.dealloc(at, layout);
    }

    unsafe fn realloc(&self, at: *mut u8, layout: Layout, len: usize) -> *mut u8 {
        if Refuser::refuses(len) {
            return std::ptr::null_mut();
        }
        System.realloc(at, layout, len)
    }
}

#[global_allocator]
static ALLOCATOR: Refuser = Refuser;

/// Does something while long requests are refused.
fn refused<T>(act: impl FnOnce() -> T) -> T {
    REFUSES.with(|refuses| refuses.set(true));
    let done = act();
    REFUSES.with(|refuses| refuses.set(false));
    done
}

/// How many tokens a feed has, and the fault after them; it has no more after that.
fn end_of(feed: &mut Feed) -> (usize, Fault) {
    let mut count = 0;
    loop {
        match feed.next_token() {
            Ok(Fed::Token(_)) => count += 1,
            Ok(end) => panic!("{end:?} comes in place of the fault"),
            Err(fault) => {
                assert_eq!(feed.next_token(), Ok(Fed::Over));
                return (count, fault);
            }
        }
    }
}

#[test]
fn bytes_that_have_no_room_are_the_fault_behind_the_tokens_before_them() {
    for is_finished in [false, true] {
        let mut feed = Feed::new();
        feed.feed(b"- a\n- b\n- the third\n");
        let ended = refused(|| {
            feed.feed(&vec![b'\n'; REFUSED - 1]);
            feed.feed(b"- d\n- the last\n"); // it would be behind a gap
            if is_finished {
                feed.finish();
            }
            end_of(&mut feed)
        });
        assert_eq!(ended, (7, Fault::Memory), "the stream, the list, two items and the mark of the third");
        feed.feed(b"- f\n");
        assert_eq!(feed.next_token(), Ok(Fed::Over));
    }
}

#[test]
fn bytes_that_have_no_room_leave_no_token_before_them_waiting() {
    let mut feed = Feed::new();
    feed.feed(format!("- '{}", "x".repeat(4 * REFUSED)).as_bytes());
    assert!((0..3).all(|_| matches!(feed.next_token(), Ok(Fed::Token(_)))), "the stream, the list and the first mark");
    assert_eq!(feed.next_token(), Ok(Fed::More));
    feed.feed(b"'\n- the second\n");
    assert_eq!(feed.next_token(), Ok(Fed::More), "a long scalar waits for more");
    let more = "- more\n".repeat(2 * REFUSED);
    refused(|| feed.feed(more.as_bytes()));
    assert_eq!(end_of(&mut feed), (2, Fault::Memory), "the long scalar and the second mark");
}

#[test]
fn text_that_has_no_room_is_the_fault() {
    let mut feed = Feed::new();
    feed.feed(format!("- a\n- '{}'\n- b\n", "x".repeat(REFUSED)).as_bytes());
    feed.finish();
    let ended = refused(|| end_of(&mut feed));
    assert_eq!(ended, (5, Fault::Memory), "the stream, the list, its first item and the mark of the second");
}

#[test]
fn reader_whose_bytes_have_no_room_is_at_its_end() {
    let line = b"- abcde\n";
    let input = line.repeat(REFUSED);
    let mut pieces = Pieces::new(&input[..]);
    let (mut count, mut ends) = (0, 0);
    refused(|| {
        for item in pieces.by_ref() {
            match item {
                Ok(Token { data: Data::Scalar { .. }, .. }) => count += 1,
                Ok(_) => (),
                Err(PieceError::Fault(Fault::Memory)) => ends += 1,
                Err(other) => panic!("{other:?}"),
            }
        }
    });
    assert!(pieces.next().is_none());
    assert_eq!(ends, 1);
    // Each read asks for as much as came before, so half of what is refused has room. Its last line may go on.
    let lines = REFUSED / 2 / line.len();
    assert!(count < lines && count + 3 > lines, "{count} items of {lines} lines");
}
