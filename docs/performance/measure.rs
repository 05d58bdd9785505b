// Measures a pair of calls of Rust's std, and a call of its maps under a lock: nanoseconds for each thread. Each line begins with
// the column that it is for.
// rustc -O measure.rs && ./measure ROUNDS
use std::collections::{BTreeMap, HashMap};
use std::hint::black_box;
use std::sync::atomic::{AtomicI64, Ordering};
use std::sync::{Arc, Barrier, Condvar, Mutex, Once, RwLock};
use std::thread;
use std::time::Instant;

#[derive(Default)]
struct Group {
    count: i64,
    waiting: u64,
}

/// An object that shares no cache line with another one.
#[repr(align(128))]
struct Apart<T>(T);

/// Has each of the callers make its pairs, on its object, in a thread of its own. The callers of one object count from 0.
fn run<T, F>(name: String, rounds: u32, objects: Vec<(u32, Arc<Apart<T>>)>, pairs: F)
where
    T: Send + Sync + 'static,
    F: Fn(&T, u32, u32) + Copy + Send + 'static,
{
    let ready = Arc::new(Barrier::new(objects.len() + 1));
    let threads: Vec<_> = objects
        .into_iter()
        .map(|(number, object)| {
            let ready = ready.clone();
            thread::spawn(move || {
                ready.wait();
                pairs(&object.0, number, rounds);
            })
        })
        .collect();
    let begin = Instant::now();
    ready.wait();
    for thread in threads {
        thread.join().unwrap();
    }
    println!("{name} {:.1}", begin.elapsed().as_nanos() as f64 / f64::from(rounds));
}

/// One caller, two and four on objects of their own, and two, four and eight on one. `pairs` makes the pairs of a caller.
fn each_by<T, F>(name: &str, rounds: u32, new: fn() -> T, pairs: F)
where
    T: Send + Sync + 'static,
    F: Fn(&T, u32, u32) + Copy + Send + 'static,
{
    let own = |n: u32| (0..n).map(|_| (0, Arc::new(Apart(new())))).collect();
    let shared = |n: u32| {
        let one = Arc::new(Apart(new()));
        (0..n).map(|number| (number, one.clone())).collect()
    };
    run(format!("{name} one"), rounds, own(1), pairs);
    run(format!("{name} two-own"), rounds, own(2), pairs);
    run(format!("{name} four-own"), rounds, own(4), pairs);
    run(format!("{name} two-shared"), rounds, shared(2), pairs);
    run(format!("{name} four-shared"), rounds, shared(4), pairs);
    run(format!("{name} eight-shared"), rounds, shared(8), pairs);
}

/// The same, of one pair that is made again and again.
fn each<T, F>(name: &str, rounds: u32, new: fn() -> T, pair: F)
where
    T: Send + Sync + 'static,
    F: Fn(&T) + Copy + Send + 'static,
{
    each_by(name, rounds, new, move |object, _, rounds| {
        for _ in 0..rounds {
            pair(object);
        }
    });
}

/// How many keys most maps have before the first call, from 0.
const KEYS_BEFORE: u32 = 512;

/// How many keys each caller stores and deletes.
const OWN_KEYS: u32 = 128;

/// How many keys are stored and deleted where they are many.
const WIDE_KEYS: u32 = 4096;

fn own_key(number: u32, round: u32) -> u32 {
    OWN_KEYS * (number % 4) + round % OWN_KEYS
}

/// A map under a lock.
trait Map: Send + Sync + Sized + 'static {
    fn empty() -> Self;
    fn load(&self, key: u32) -> Option<u64>;
    fn store(&self, key: u32);
    fn delete(&self, key: u32);

    fn filled() -> Self {
        let map = Self::empty();
        (0..KEYS_BEFORE).for_each(|key| map.store(key));
        map
    }
}

macro_rules! map {
    ($lock:ident, $map:ident, $read:ident, $write:ident) => {
        impl Map for $lock<$map<u32, u64>> {
            fn empty() -> Self {
                $lock::new($map::new())
            }
            fn load(&self, key: u32) -> Option<u64> {
                self.$read().unwrap().get(&key).copied()
            }
            fn store(&self, key: u32) {
                self.$write().unwrap().insert(key, 1);
            }
            fn delete(&self, key: u32) {
                self.$write().unwrap().remove(&key);
            }
        }
    };
}

map!(RwLock, HashMap, read, write);
map!(Mutex, HashMap, lock, lock);
map!(Mutex, BTreeMap, lock, lock);

fn load<M: Map>(map: &M, round: u32) {
    assert!(map.load(round % KEYS_BEFORE).is_some());
}

fn maps<M: Map>(column: &str, rounds: u32) {
    let name = |call: &str| format!("{column} {call}");
    each_by(&name("load"), rounds, M::filled, |map, _, rounds| {
        (0..rounds).for_each(|round| load(map, round));
    });
    each_by(&name("store"), rounds, M::filled, |map, number, rounds| {
        (0..rounds).for_each(|round| map.store(own_key(number, round)));
    });
    each_by(&name("churn"), rounds, M::filled, |map, number, rounds| {
        for round in 0..rounds {
            map.store(own_key(number, round));
            map.delete(own_key(number, round));
        }
    });
    each_by(&name("wide"), rounds, M::empty, |map, number, rounds| {
        for round in 0..rounds {
            let key = (512 * number + round) % WIDE_KEYS;
            if round / WIDE_KEYS % 2 == 0 {
                map.store(key);
            } else {
                map.delete(key);
            }
        }
    });
    each_by(&name("mix"), rounds, M::filled, |map, number, rounds| {
        for round in 0..rounds {
            if round % 10 < 9 {
                load(map, round);
            } else {
                map.store(own_key(number, round));
            }
        }
    });
}

fn main() {
    let rounds: u32 = std::env::args().nth(1).unwrap().parse().unwrap();
    each("rust mutex", rounds, || Mutex::new(0u64), |m| drop(black_box(m.lock())));
    each("rust read", rounds, || RwLock::new(0u64), |m| drop(black_box(m.read())));
    each("rust write", rounds, || RwLock::new(0u64), |m| drop(black_box(m.write())));
    // std has no wait group: two counters under a mutex, whose fall to 0 wakes those who wait, where anybody does.
    each("rust group", rounds, || (Mutex::new(Group::default()), Condvar::new()), |g| {
        g.0.lock().unwrap().count += 1;
        let mut group = g.0.lock().unwrap();
        group.count -= 1;
        if group.count == 0 && group.waiting > 0 {
            g.1.notify_all();
        }
    });
    each("rust once", rounds, Once::new, |o| black_box(o).call_once(|| {}));
    // std has no pool: a stack under a mutex.
    each("rust pool", rounds, || Mutex::new(Vec::<u64>::with_capacity(64)), |p| {
        p.lock().unwrap().push(7);
        black_box(p.lock().unwrap().pop());
    });
    maps::<RwLock<HashMap<u32, u64>>>("rwlock", rounds / 2);
    maps::<Mutex<HashMap<u32, u64>>>("mutex", rounds / 2);
    maps::<Mutex<BTreeMap<u32, u64>>>("btree", rounds / 2);
    each("rwlock add", rounds, || AtomicI64::new(0), |n| {
        n.fetch_add(1, Ordering::SeqCst);
    });
}
