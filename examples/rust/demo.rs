//! Translates a filter once, checks its image, runs it with a budget, and reads a refusal.
//!
//!     demo FILTERFILE LINES
//!
//! Build: rustc -O examples/rust/demo.rs -C link-arg=target/staticlib/libcapi.a

use std::io::Write;

mod flowawk {
    // The functions of include/flowawk.h that are used here.
    extern "C" {
        fn flowawk_translate(text: *const u8, text_length: usize, image: *mut u8, image_length: usize, place: *mut u64) -> u64;
        fn flowawk_check(image: *const u8, image_length: usize) -> u64;
        fn flowawk_run(
            image: *const u8, image_length: usize, lines: *const u8, lines_length: usize, output: *mut u8, output_length: usize,
            work: *mut u8, work_length: usize, budget: u64, steps: *mut u64, records: *mut u64, bytes: *mut u64,
        ) -> u64;
    }

    const IMAGE: usize = 65536;
    const WORK: usize = 49152;

    /// A translated filter.
    pub struct Image(pub Vec<u8>);

    /// Why a filter is refused, and where: line and column from 1.
    #[derive(Debug)]
    pub struct Refusal {
        pub outcome: u64,
        pub line: usize,
        pub column: usize,
    }

    /// How a run ended.
    pub struct Answer {
        pub outcome: u64,
        pub records: u64,
        pub steps: u64,
        pub output: Vec<u8>,
    }

    pub fn translate(text: &[u8]) -> Result<Image, Refusal> {
        let mut image = vec![0; IMAGE];
        let mut place = 0;
        // SAFETY: each pointer has its length, and the image and the place overlap nothing
        let outcome = unsafe { flowawk_translate(text.as_ptr(), text.len(), image.as_mut_ptr(), image.len(), &mut place) };
        let place = place as usize;
        if outcome == 0 {
            image.truncate(place);
            return Ok(Image(image));
        }
        let before = &text[..place];
        let line = 1 + before.iter().filter(|&&b| b == b'\n').count();
        let column = place + 1 - before.iter().rposition(|&b| b == b'\n').map_or(0, |i| i + 1);
        Err(Refusal { outcome, line, column })
    }

    impl Image {
        pub fn check(&self) -> u64 {
            // SAFETY: the pointer has its length
            unsafe { flowawk_check(self.0.as_ptr(), self.0.len()) }
        }

        pub fn run(&self, lines: &[u8], budget: u64, room: usize) -> Answer {
            let mut output = vec![0; room];
            let mut work = vec![0; WORK];
            let (mut steps, mut records, mut bytes) = (0, 0, 0);
            // SAFETY: each pointer has its length, and what is written overlaps nothing
            let outcome = unsafe {
                flowawk_run(
                    self.0.as_ptr(), self.0.len(), lines.as_ptr(), lines.len(), output.as_mut_ptr(), output.len(),
                    work.as_mut_ptr(), work.len(), budget, &mut steps, &mut records, &mut bytes,
                )
            };
            output.truncate(bytes as usize);
            Answer { outcome, records, steps, output }
        }
    }
}

fn say(what: &str, a: &flowawk::Answer) {
    println!("{}: outcome {}, {} records, {} steps, {} bytes", what, a.outcome, a.records, a.steps, a.output.len());
}

fn main() -> std::io::Result<()> {
    let words: Vec<String> = std::env::args().collect();
    if words.len() != 3 {
        eprintln!("usage: demo FILTERFILE LINES");
        std::process::exit(2);
    }
    let (filter, lines) = (std::fs::read(&words[1])?, std::fs::read(&words[2])?);
    let image = flowawk::translate(&filter).expect("the filter translates");
    println!("image: {} bytes, check {}", image.0.len(), image.check());
    let first = image.run(&lines, 1_000_000, 1 << 20);
    say("run", &first);
    std::io::stdout().write_all(&first.output)?;
    let second = image.run(&first.output, 1_000_000, 1 << 20);
    say("again", &second);
    println!("{}", if second.output == first.output { "the same lines" } else { "other lines" });
    say("budget 50", &image.run(&lines, 50, 1 << 20));
    if let Err(r) = flowawk::translate(b"$2 > 1000 {\n    print $1,\n}\n") {
        println!("refused: outcome {} at line {}, column {}", r.outcome, r.line, r.column);
    }
    Ok(())
}
