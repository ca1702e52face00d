//! Links the C++ and the earlier build that BENCH_PEERS lists (oracle/peers/archive) into
//! the benchmark, and libforms.a, of what is exported for the runs alone. The archive of the Rattle
//! functions that the package has is linked by the crate bezinkwolu.

use std::env;

fn main() {
    println!("cargo:rerun-if-env-changed=BENCH_PEERS");
    println!("cargo:rustc-check-cfg=cfg(peers, cgal, before)");
    if env::var_os("CARGO_FEATURE_LINKED").is_none() {
        return;
    }
    println!("cargo:rerun-if-env-changed=BEZINKWOLU_LIB_DIR");
    if let Ok(folder) = env::var("BEZINKWOLU_LIB_DIR") {
        println!("cargo:rerun-if-changed={folder}/libforms.a");
        println!("cargo:rustc-link-search=native={folder}");
        println!("cargo:rustc-link-lib=static=forms");
    }
    let peers = env::var("BENCH_PEERS").unwrap_or_default();
    for peer in peers.split(':').filter(|peer| !peer.is_empty()) {
        if peer.ends_with("libbefore.a") {
            println!("cargo:rerun-if-changed={peer}");
            println!("cargo:rustc-cfg=before");
            println!("cargo:rustc-link-arg-bin=bench={peer}");
        } else if peer == "cgal" {
            println!("cargo:rustc-cfg=cgal");
            println!("cargo:rustc-link-arg-bin=bench=-lmpfr");
            println!("cargo:rustc-link-arg-bin=bench=-lgmp");
        } else {
            println!("cargo:rerun-if-changed={peer}");
            println!("cargo:rustc-cfg=peers");
            println!("cargo:rustc-link-arg-bin=bench={peer}");
            println!("cargo:rustc-link-arg-bin=bench=-lstdc++");
        }
    }
}
