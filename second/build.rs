//! With the feature `beside`: links the proved library, an archive named by TAPERHIVE_LIBRARY, into compare and bench.

fn main() {
    println!("cargo::rerun-if-env-changed=TAPERHIVE_LIBRARY");
    if std::env::var_os("CARGO_FEATURE_BESIDE").is_none() {
        return;
    }
    let library = std::env::var("TAPERHIVE_LIBRARY").expect("TAPERHIVE_LIBRARY names the library");
    println!("cargo::rerun-if-changed={library}");
    for program in ["compare", "bench"] {
        println!("cargo::rustc-link-arg-bin={program}={library}");
    }
}
