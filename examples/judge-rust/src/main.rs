//! `judge-rust BEFORE AFTER [REGION ..]` says whether two images show one graph and, with regions, whether the second keeps
//! what a collection of these regions of the first keeps. It ends with the status of the judge.

/// `g1_answer` of include/g1judge.h.
#[repr(C)]
#[derive(Debug, Default)]
struct Answer {
    image: u32,
    fault: u32,
    place: u32,
    kind: u32,
    numbers: [u64; 10], // at, root, slots, before, after, first, second, third, objects, words
}

extern "C" {
    fn g1_version() -> u32;
    fn g1_same(a: *const u8, a_length: usize, b: *const u8, b_length: usize, path: *mut u64, room: usize, answer: *mut Answer) -> u32;
    fn g1_kept(a: *const u8, a_length: usize, b: *const u8, b_length: usize, set: *const u32, regions: usize, answer: *mut Answer) -> u32;
}

fn same(a: &[u8], b: &[u8]) -> (u32, Answer, Vec<u64>) {
    let (mut answer, mut path) = (Answer::default(), vec![0; 64]);
    // Each pointer comes from a slice or a value of its length, and what is written overlaps nothing else.
    let status = unsafe { g1_same(a.as_ptr(), a.len(), b.as_ptr(), b.len(), path.as_mut_ptr(), path.len(), &mut answer) };
    path.truncate(answer.numbers[2] as usize);
    (status, answer, path)
}

fn kept(a: &[u8], b: &[u8], set: &[u32]) -> (u32, Answer) {
    let mut answer = Answer::default();
    let status = unsafe { g1_kept(a.as_ptr(), a.len(), b.as_ptr(), b.len(), set.as_ptr(), set.len(), &mut answer) };
    (status, answer)
}

fn main() -> std::io::Result<()> {
    assert_eq!((unsafe { g1_version() }, std::mem::size_of::<Answer>()), (2, 96));
    let words: Vec<String> = std::env::args().skip(1).collect();
    let [a, b, set @ ..] = &words[..] else { panic!("judge-rust BEFORE AFTER [REGION ..]") };
    let set: Vec<u32> = set.iter().map(|word| word.parse().expect("a number of a region")).collect();
    let (a, b) = (std::fs::read(a)?, std::fs::read(b)?);
    let (mut status, answer, path) = same(&a, &b);
    let [at, root, slots, before, after, first, second, third, objects, words] = answer.numbers;
    match status {
        0 => println!("same objects {objects} words {words}"),
        1 => println!("differ kind {}: root {root}, {slots} slots {path:?}: {before} before, {after} after; {first} {second} {third}", answer.kind),
        _ => println!("image {} fault {} at {at}", answer.image, answer.fault),
    }
    if status == 0 && !set.is_empty() {
        let (lost, answer) = kept(&a, &b, &set);
        let [at, _, _, _, _, first, second, third, ..] = answer.numbers;
        match lost {
            0 => println!("kept"),
            1 => println!("lost {}: {first} {second} {third}", answer.kind),
            _ => println!("image {} fault {} at {at}", answer.image, answer.fault),
        }
        status = lost;
    }
    std::process::exit(status as i32)
}
