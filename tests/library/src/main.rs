//! library SEED COUNT: holds the port, through its static library, against the Rust in one process.
mod check;
mod clnp;
mod cotp;
mod network;
mod ours;
mod x25;

fn main() {
    let numbers: Vec<u64> = std::env::args()
        .skip(1)
        .map(|n| n.parse().expect("a number"))
        .collect();
    let [seed, count] = numbers[..] else {
        panic!("library SEED COUNT")
    };
    x25::run(seed, count as usize);
    cotp::run(seed, count as usize);
    clnp::run(seed, count as usize);
    network::run(seed, count as usize);
}
