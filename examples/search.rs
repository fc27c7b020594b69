//! Searches a placement of the tasks in the table file on standard input, and prints the answer.

use std::io::{Read, stdin};

unsafe extern "C" {
    fn placement_search(file: *const u8, length: usize, answer: *mut u8, answer_length: usize) -> u64;
}

/// The bytes written into the answer, or the refusal's number and place.
fn search<'a>(file: &[u8], answer: &'a mut [u8]) -> Result<&'a [u8], (u64, u32)> {
    // SAFETY: both slices are valid during the call; the file is only read, and only the answer is written.
    let count = unsafe { placement_search(file.as_ptr(), file.len(), answer.as_mut_ptr(), answer.len()) };
    match count >> 32 {
        0 => Ok(&answer[..count as usize]),
        number => Err((number, count as u32)),
    }
}

/// The head ends where the first mark stands: processors are below 8, and 255 is none.
fn print(answer: &[u8]) {
    let tasks = answer[2..].iter().position(|&byte| (8..255).contains(&byte)).expect("the end's mark");
    let (head, list) = answer.split_at(2 + tasks);
    let numbers = |numbers: &[u8]| numbers.iter().map(|number| format!(" {number}")).collect::<String>();
    match head.strip_prefix(b"AL") {
        Some(placement) => println!("placed on{}", numbers(placement)),
        None => println!("no placement"),
    }
    for record in list[..list.len() - 3].chunks(6) {
        let mask = u32::from_le_bytes([record[2], record[3], record[4], record[5]]);
        let tasks: Vec<u8> = (0..24).filter(|task| mask >> task & 1 == 1).collect();
        println!("these cannot share a processor:{}", numbers(&tasks));
    }
    println!("the list is {}", if answer.ends_with(&[1]) { "complete" } else { "cut" });
}

fn main() -> std::io::Result<()> {
    let (mut file, mut answer) = (Vec::new(), [0; 16_384]);
    // No file that is longer can be read.
    stdin().take(8_192).read_to_end(&mut file)?;
    match search(&file, &mut answer) {
        Ok(answer) => print(answer),
        Err((number, place)) => println!("refused: cause {number} at {place}"),
    }
    Ok(())
}
