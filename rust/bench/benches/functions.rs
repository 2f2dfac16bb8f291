//! Every operation on every set by every contender, by criterion.

#![allow(missing_docs)] // criterion's macro makes a public function without any

use std::time::Duration;

use bench::{cases, sets, Operation};
use criterion::{criterion_group, criterion_main, Criterion, Throughput};

fn functions(criterion: &mut Criterion) {
    let sets = sets();
    for operation in Operation::ALL {
        for set in &sets {
            let mut group = criterion.benchmark_group(format!("{}/{}", operation.name(), set.name));
            for mut case in cases(operation, set) {
                group.throughput(Throughput::Elements(case.steps as u64));
                group.bench_function(case.contender.name(), |bencher| bencher.iter(&mut case.run));
            }
            group.finish();
        }
    }
}

criterion_group! {
    name = all;
    config = Criterion::default()
        .sample_size(10)
        .warm_up_time(Duration::from_millis(100))
        .measurement_time(Duration::from_millis(400));
    targets = functions
}
criterion_main!(all);
