//! What `relaying_program` does, in plain Rust: so many senders send edits over std's bounded channel to a receiver that counts them and
//! keeps a journal. With a third word each message carries a run of so many edits, which it copies.
use std::sync::mpsc::sync_channel;
use std::thread;
use std::time::Instant;

/// As wide as an edit of Grove.
#[derive(Clone, Copy)]
struct Edit {
    _parts: [u64; 17],
}

struct Entry<T> {
    _sender: usize,
    _place: usize,
    _edits: T,
}

/// Sends each list in pieces of so many edits, each as one message, and answers how many edits came.
fn flow<T: Send>(lists: &[Vec<Edit>], run: usize, message: impl Fn(&[Edit]) -> T + Sync, count: impl Fn(&T) -> usize) -> usize {
    let (sending, receiving) = sync_channel(64);
    let mut journal = Vec::with_capacity(lists.iter().map(|list| list.len().div_ceil(run)).sum());
    let mut counted = 0;
    thread::scope(|scope| {
        for (sender, list) in lists.iter().enumerate() {
            let (sending, message) = (sending.clone(), &message);
            scope.spawn(move || {
                for (place, edits) in list.chunks(run).enumerate() {
                    sending.send((sender, place + 1, message(edits))).unwrap();
                }
            });
        }
        drop(sending);
        for (sender, place, edits) in receiving {
            counted += count(&edits);
            journal.push(Entry { _sender: sender, _place: place, _edits: edits });
        }
    });
    counted
}

fn main() {
    let words: Vec<usize> = std::env::args().skip(1).map(|word| word.parse().unwrap()).collect();
    let (senders, edits) = (words[0], words[1]);
    let lists: Vec<Vec<Edit>> = (0..senders).map(|sender| vec![Edit { _parts: [sender as u64; 17] }; edits]).collect();
    let begun = Instant::now();
    let counted = match words.get(2) {
        None => flow(&lists, 1, |edits| edits[0], |_| 1),
        Some(run) => flow(&lists, *run, |edits| edits.to_vec(), |edits| edits.len()),
    };
    eprintln!("{} microseconds", begun.elapsed().as_micros());
    println!("{senders} senders sent {counted} edits");
}
