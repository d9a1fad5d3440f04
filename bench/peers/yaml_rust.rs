// yaml-rust: its Scanner, its Parser, and YamlLoader. What a driver is given and prints is told in turns.h.
use std::io::BufRead;
use yaml_rust::parser::{Event, EventReceiver, Parser};
use yaml_rust::scanner::Scanner;
use yaml_rust::YamlLoader;

struct Counter(usize);

impl EventReceiver for Counter {
    fn on_event(&mut self, _: Event) {
        self.0 += 1;
    }
}

#[repr(C)]
struct Time {
    seconds: i64,
    nanoseconds: i64,
}

extern "C" {
    fn clock_gettime(clock: i32, time: *mut Time) -> i32;
}

/// The processor time of this process: clock number 2 of Linux.
fn now() -> i64 {
    let mut time = Time { seconds: 0, nanoseconds: 0 };
    unsafe { clock_gettime(2, &mut time) };
    time.seconds * 1_000_000_000 + time.nanoseconds
}

fn take_tokens(text: &str) -> usize {
    let mut scanner = Scanner::new(text.chars());
    let count = scanner.by_ref().count();
    if scanner.get_error().is_some() { 0 } else { count }
}

fn take_events(text: &str) -> usize {
    let mut counter = Counter(0);
    let loaded = Parser::new(text.chars()).load(&mut counter, true);
    if loaded.is_err() { 0 } else { counter.0 }
}

fn load(text: &str) -> usize {
    YamlLoader::load_from_str(text).map_or(0, |documents| documents[0].as_hash().map_or(0, |mapping| mapping.len()))
}

fn main() {
    let text = std::fs::read_to_string(std::env::args().nth(1).unwrap()).unwrap();
    for line in std::io::stdin().lock().lines() {
        let start = now();
        let count = match line.unwrap().as_str() {
            "tokens" => take_tokens(&text),
            "events" => take_events(&text),
            "loading" => load(&text),
            _ => 0,
        };
        println!("{} {}", count, now() - start);
    }
}
