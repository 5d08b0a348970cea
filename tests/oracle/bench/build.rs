//! Links the compiled driver, an archive or an object at the absolute path in DISCJUMAR_DRIVER. Without one the
//! command is built all the same, and says that there is nothing to measure: `tests/bench` builds it with one.

use std::env;

fn main() {
    println!("cargo::rustc-check-cfg=cfg(driver)");
    println!("cargo::rerun-if-env-changed=DISCJUMAR_DRIVER");
    if let Ok(path) = env::var("DISCJUMAR_DRIVER") {
        println!("cargo::rerun-if-changed={path}");
        println!("cargo::rustc-cfg=driver");
        println!("cargo::rustc-link-arg={path}");
    }
}
