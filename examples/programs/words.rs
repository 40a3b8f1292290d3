// Counts words, and prints where they are and a share of each: a HashMap, whose hashes begin at random, and floats.
use std::collections::HashMap;

fn main() {
    let text = "the quick brown fox jumps over the lazy dog and the dog sleeps";
    let mut places: HashMap<&str, Vec<usize>> = HashMap::new();
    for (place, word) in text.split(' ').enumerate() {
        places.entry(word).or_default().push(place);
    }
    let count = text.split(' ').count();
    let mut sorted: Vec<_> = places.into_iter().collect();
    sorted.sort();
    for (word, at) in sorted {
        println!("{word}: {at:?}, a share of {:.3}", at.len() as f64 / count as f64);
    }
}
