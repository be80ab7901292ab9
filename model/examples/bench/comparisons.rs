//! The average number of comparisons for random patterns, beside Table 1 of document 002, column RC.
//! The table's texts end with their last byte; here the pattern comes to lie on m - 1 positions more.

use ruffarmoire_model::gen::Random;

use crate::library::search;
use crate::table_buffers::TableBuffers;

/// The bytes of each text, and how many patterns are searched in it, as for the table.
const N: usize = 10_000;
const PATTERNS: usize = 100;

/// Texts for each row. The table has one.
const TEXTS: usize = 10;

/// The table's C_ave of RC: how many different bytes, m, the average. Its rows with m above 128 are
/// left out.
const TABLE: [(usize, usize, f64); 18] = [
    (2, 2, 9998.0),
    (2, 5, 8153.0),
    (2, 10, 5728.0),
    (2, 20, 4096.0),
    (2, 40, 3204.0),
    (2, 80, 2652.0),
    (5, 2, 6669.0),
    (5, 5, 3687.0),
    (5, 10, 2460.0),
    (5, 20, 1446.0),
    (5, 40, 897.0),
    (5, 80, 633.0),
    (26, 2, 5291.0),
    (26, 5, 2247.0),
    (26, 10, 1231.0),
    (26, 20, 715.0),
    (26, 40, 433.0),
    (26, 80, 252.0),
];

pub fn run() {
    println!(
        "Comparisons of a search in {N} random bytes, the average of {PATTERNS} random patterns in \
         each of {TEXTS} texts, beside document 002, Table 1 (RC)."
    );
    println!(
        "{:>6} {:>4} {:>10} {:>8} {:>10}",
        "bytes", "m", "here", "table", "here/table"
    );
    let mut random = Random::seeded(35);
    for (bytes, m, table) in TABLE {
        let mut over =
            |length: usize| -> Vec<u8> { (0..length).map(|_| random.below(bytes) as u8).collect() };
        let mut tables = TableBuffers::needed(m);
        let mut found = vec![0; N];
        let mut sum = 0;
        for _ in 0..TEXTS {
            let text = over(N);
            for _ in 0..PATTERNS {
                let pattern = over(m);
                let (order, delta2) = (&mut tables.order, &mut tables.delta2);
                let (delta1, delta3) = (&mut tables.delta1, &mut tables.delta3);
                let answer = search(&pattern, &text, order, delta2, delta1, delta3, &mut found);
                assert_eq!(answer.status, 0);
                sum += u64::from(answer.comparisons);
            }
        }
        let average = sum as f64 / (TEXTS * PATTERNS) as f64;
        println!(
            "{bytes:6} {m:4} {average:10.1} {table:8.0} {:10.3}",
            average / table
        );
    }
}
