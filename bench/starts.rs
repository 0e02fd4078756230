//! What a run pays for its threads alone: starts ROUNDS THREADS. In each round half of the places go to a new thread, and so on in
//! each half, until each place has a thread of its own, which then does nothing. So do the rounds of a run.

use std::thread;

fn serve(places: usize) {
    if places < 2 {
        return;
    }
    thread::scope(|scope| {
        scope.spawn(|| serve(places / 2));
        serve(places - places / 2);
    });
}

fn main() {
    let words: Vec<usize> = std::env::args().skip(1).map(|word| word.parse().unwrap()).collect();
    let [rounds, threads] = words[..] else { panic!("starts ROUNDS THREADS") };
    for _ in 0..rounds {
        serve(threads);
    }
}
