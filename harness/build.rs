//! Links the library, the benchmark's library with the call of before, its baseline in plain C, and the header's readers. QSENSE_LIBRARY is
//! the folder of libqsense_c.a and libbench_c.a, PLAIN_LIBRARY that of libplain.a and libreaders.a; tools/build-harness sets them.

fn main() {
    // the baseline last: the stand-in of bench/shim.c calls it
    let libraries = [
        ("QSENSE_LIBRARY", "qsense_c"),
        ("QSENSE_LIBRARY", "bench_c"),
        ("PLAIN_LIBRARY", "plain"),
        ("PLAIN_LIBRARY", "readers"),
    ];
    for (variable, name) in libraries {
        let folder = std::env::var(variable).unwrap_or_else(|_| panic!("{variable} is not set"));
        println!("cargo:rustc-link-search=native={folder}");
        println!("cargo:rustc-link-lib=static={name}");
        println!("cargo:rerun-if-env-changed={variable}");
        println!("cargo:rerun-if-changed={folder}/lib{name}.a");
    }
}
