//! The peer over the lines of standard input: prints what `second` prints, tuned by hand too.

use second::bench::JUDGED;
use second::peer::{judge, Verdict};
use std::io::{stdin, stdout, ErrorKind, Read, Result, Write};

const BLOCK: usize = 1 << 16;

/// Decimal digits that are counted up in place.
struct Count {
    digits: [u8; 20],
    first: usize,
}

impl Count {
    fn up(&mut self) -> &[u8] {
        let mut at = 19;
        while self.digits[at] == b'9' {
            self.digits[at] = b'0';
            at -= 1;
        }
        self.digits[at] += 1;
        self.first = self.first.min(at);
        &self.digits[self.first..]
    }
}

/// Where the first LF is; eight bytes at once.
fn line_end(bytes: &[u8]) -> Option<usize> {
    let mut rest = bytes;
    while let Some((word, more)) = rest.split_first_chunk() {
        let other = u64::from_le_bytes(*word) ^ u64::from_le_bytes([b'\n'; 8]);
        // The lowest high bit is that of the first byte that is 0.
        let zero = other.wrapping_sub(0x0101_0101_0101_0101) & !other & 0x8080_8080_8080_8080;
        if zero != 0 {
            return Some(bytes.len() - rest.len() + zero.trailing_zeros() as usize / 8);
        }
        rest = more;
    }
    let end = rest.iter().position(|&byte| byte == b'\n');
    end.map(|at| bytes.len() - rest.len() + at)
}

fn answer(line: &[u8], count: &mut Count, output: &mut Vec<u8>) {
    let Verdict { number, place, count: structures } = judge(&line[..line.len().min(JUDGED)]);
    output.extend_from_slice(count.up());
    for figure in [usize::from(number), if number == 0 { structures } else { place }] {
        output.push(b' ');
        for unit in [100, 10].into_iter().filter(|&unit| figure >= unit) {
            output.push(b'0' + (figure / unit % 10) as u8);
        }
        output.push(b'0' + (figure % 10) as u8);
    }
    output.push(b'\n');
}

fn main() -> Result<()> {
    let (mut input, mut output) = (stdin().lock(), stdout().lock());
    let mut count = Count { digits: [b'0'; 20], first: 19 };
    let mut answers = Vec::with_capacity(2 * BLOCK);
    let (mut block, mut begun) = ([0; BLOCK + JUDGED], 0);
    loop {
        let read = match input.read(&mut block[begun..]) {
            Err(error) if error.kind() == ErrorKind::Interrupted => continue,
            read => read?,
        };
        let filled = &block[..begun + read];
        let mut rest = filled;
        while let Some(end) = line_end(rest) {
            answer(&rest[..end], &mut count, &mut answers);
            rest = &rest[end + 1..];
            if answers.len() > BLOCK {
                output.write_all(&answers)?;
                answers.clear();
            }
        }
        if read == 0 {
            if !rest.is_empty() {
                answer(rest, &mut count, &mut answers);
            }
            return output.write_all(&answers);
        }
        // Of a line that goes on in the next block, what is judged.
        let from = filled.len() - rest.len();
        begun = rest.len().min(JUDGED);
        block.copy_within(from..from + begun, 0);
    }
}
