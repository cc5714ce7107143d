//! Calls from several threads at once: reads of one image, and edits of an image for each thread.

use std::thread;

/// The threads that call at once.
const THREADS: u8 = 4;

/// The calls that each thread makes.
const CALLS: usize = 2_000;

/// An image of one partition with room for some variables, and `a` with the value 1.
fn image() -> Vec<u8> {
    let mut image = b"\x70\xFE\x00\x03common\0\0\0\0\0\0a=1".to_vec();
    image.resize(48, 0);
    image
}

/// Sets a variable again and again, each time to another value, and answers the image.
fn edited(thread: u8) -> Vec<u8> {
    let mut image = image();
    for call in 0..CALLS {
        let value = [thread + 1, call as u8, (call >> 8) as u8];
        nvram::set(&mut image, b"b", &value).unwrap();
        let mut buffer = [0; 8];
        assert_eq!(nvram::read(&image, b"b", &mut buffer), Ok(&value[..]));
    }
    image
}

#[test]
fn reads_of_one_image() {
    let image = image();
    thread::scope(|scope| {
        for _ in 0..THREADS {
            scope.spawn(|| {
                for _ in 0..CALLS {
                    let mut buffer = [0; 8];
                    assert_eq!(nvram::read(&image, b"a", &mut buffer), Ok(&b"1"[..]));
                    assert_eq!(nvram::count(&image), Ok(1));
                }
            });
        }
    });
}

#[test]
fn edits_of_different_images() {
    let alone: Vec<Vec<u8>> = (0..THREADS).map(edited).collect();
    let at_once: Vec<Vec<u8>> = thread::scope(|scope| {
        let threads: Vec<_> = (0..THREADS)
            .map(|thread| scope.spawn(move || edited(thread)))
            .collect();
        threads
            .into_iter()
            .map(|thread| thread.join().unwrap())
            .collect()
    });
    assert_eq!(at_once, alone);
}
