//! Measures the proved finders beside a plain Rust version of the link finder and beside the aho-corasick crate.
mod cases;
mod checksum;
#[cfg_attr(not(feature = "compare"), path = "no_compare.rs")]
mod compare;
mod measure;
mod plain;
mod proved;

use cases::{Image, List, Random};
use measure::{medians, Variant};

/// One line for each variant: its time, and the ratios to the plain version and to the crate's NFA.
fn report(names: &[&str], times: &[f64], unit: &str) {
    let of = |wanted: &str| {
        names
            .iter()
            .position(|name| name.ends_with(wanted))
            .map(|k| times[k])
    };
    for (name, time) in names.iter().zip(times) {
        print!("    {name:<18}{time:>10.3} {unit}");
        for base in ["plain Rust", "NFA"] {
            if let Some(other) = of(base) {
                print!("{:>9.2} x {base}", time / other);
            }
        }
        println!();
    }
    println!();
}

/// Taking the bytes of an image, by variants that all answer the same checksum.
fn taking(image: &Image, list: &List) {
    let (words, bytes, size) = (list.words(), list.bytes(), image.bytes.len() as f64);
    let mut nodes = proved::link_room();
    assert!(proved::link_build(&bytes, &mut nodes) > 0);
    let mut numbers = [0; 256];
    let shift = proved::shift_build(&bytes, &mut numbers) > 0;
    let table = plain::Table::build(&words);
    let automata: Vec<_> = compare::FORMS
        .iter()
        .map(|form| (form.name, form.build(&words)))
        .collect();

    // What runs a proved finder mounts it first. Mounting alone is measured too, and taken off.
    let mut mounts = vec![Variant::new("link", || {
        u64::from(proved::link_mount(&bytes, &nodes))
    })];
    let mut runs = vec![Variant::new("link", || {
        proved::link_run(&bytes, &nodes, &image.bytes)
    })];
    if shift {
        mounts.push(Variant::new("shift", || {
            u64::from(proved::shift_mount(&bytes, &numbers))
        }));
        runs.push(Variant::new("shift", || {
            proved::shift_run(&bytes, &numbers, &image.bytes)
        }));
    }
    runs.push(Variant::new("plain Rust", || table.run(&image.bytes)));
    for (name, automaton) in &automata {
        runs.push(Variant::new(name, || automaton.run(&image.bytes)));
    }

    let expected = table.run(&image.bytes);
    assert_ne!(expected, 0, "no word ends in the image");
    for run in &mut runs {
        assert_eq!(run.answer(), expected, "{} answers otherwise", run.name);
    }
    println!(
        "{}; {}, {} run bytes; all answer {expected:016x}",
        image.name,
        list.name,
        list.run_bytes()
    );
    let mut times = medians(&mut runs);
    for (time, mount) in times.iter_mut().zip(medians(&mut mounts)) {
        *time -= mount;
    }
    let times: Vec<f64> = times.iter().map(|seconds| seconds * 1e9 / size).collect();
    report(
        &runs.iter().map(|run| run.name).collect::<Vec<_>>(),
        &times,
        "ns a byte",
    );
}

/// Building and mounting the tables of a list.
fn tables(list: &List) {
    let (words, bytes) = (list.words(), list.bytes());
    let (mut nodes, mut built) = (proved::link_room(), proved::link_room());
    let (mut numbers, mut built_numbers) = ([0; 256], [0; 256]);
    let used = proved::link_build(&bytes, &mut nodes);
    assert_eq!(&nodes[..used], plain::Table::build(&words).nodes());
    assert!(proved::link_mount(&bytes, &nodes));

    let mut variants = vec![
        Variant::new("link, build", || {
            proved::link_build(&bytes, &mut built) as u64
        }),
        Variant::new("link, mount", || {
            u64::from(proved::link_mount(&bytes, &nodes))
        }),
    ];
    if proved::shift_build(&bytes, &mut numbers) > 0 {
        assert!(proved::shift_mount(&bytes, &numbers));
        variants.push(Variant::new("shift, build", || {
            proved::shift_build(&bytes, &mut built_numbers) as u64
        }));
        variants.push(Variant::new("shift, mount", || {
            u64::from(proved::shift_mount(&bytes, &numbers))
        }));
    }
    variants.push(Variant::new("plain Rust", || {
        plain::Table::build(&words).nodes().len() as u64
    }));
    for form in compare::FORMS {
        variants.push(Variant::new(form.name, || {
            form.build(&words).heap_bytes() as u64
        }));
    }

    println!(
        "{}: {} words, {} run bytes, {used} nodes",
        list.name,
        words.len(),
        list.run_bytes()
    );
    let times: Vec<f64> = medians(&mut variants)
        .iter()
        .map(|seconds| seconds * 1e3)
        .collect();
    report(
        &variants
            .iter()
            .map(|variant| variant.name)
            .collect::<Vec<_>>(),
        &times,
        "ms",
    );
}

fn main() {
    let archive = std::env::args().nth(1).unwrap_or_default();
    let mut random = Random::new();
    let images = cases::images(&archive, &mut random);
    println!("\nTaking the bytes of an image: CPU time of a byte, and ratios\n");
    for image in &images {
        for list in &image.lists {
            taking(image, list);
        }
    }
    println!(
        "Building and mounting the tables of a list: CPU time, and ratios to building by others\n"
    );
    for list in images[0]
        .lists
        .iter()
        .chain(&cases::long_lists(&mut random))
    {
        tables(list);
    }
}
