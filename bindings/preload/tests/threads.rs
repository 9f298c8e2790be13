//! Threads, channels, locks and conditions of Rust's standard library, which makes its futexes by `syscall`.
use std::sync::{mpsc, Arc, Condvar, Mutex, RwLock};
use std::thread;

fn main() {
    let (sender, receiver) = mpsc::channel();
    let total = Arc::new(Mutex::new(0u64));
    let table = Arc::new(RwLock::new(Vec::new()));
    let gate = Arc::new((Mutex::new(false), Condvar::new()));
    let threads: Vec<_> = (0..4)
        .map(|i| {
            let (sender, total, table, gate) = (sender.clone(), total.clone(), table.clone(), gate.clone());
            thread::spawn(move || {
                let mut open = gate.0.lock().unwrap();
                while !*open {
                    open = gate.1.wait(open).unwrap();
                }
                drop(open);
                for k in 0..50u64 {
                    *total.lock().unwrap() += k;
                    table.write().unwrap().push((i, k));
                    sender.send(i * 100 + k).unwrap();
                    if k % 10 == 0 {
                        thread::yield_now();
                    }
                }
            })
        })
        .collect();
    drop(sender);
    *gate.0.lock().unwrap() = true;
    gate.1.notify_all();
    let order = receiver.iter().fold(0u64, |sum, it| sum.wrapping_mul(31).wrapping_add(it));
    for it in threads {
        it.join().unwrap();
    }
    println!("{} {} {order}", total.lock().unwrap(), table.read().unwrap().len());
}
