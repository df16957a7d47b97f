fn main() {
    let d = std::env::var("PROGRAM_LIB_DIR").expect("PROGRAM_LIB_DIR: compare/program.sh sets it");
    println!("cargo:rustc-link-search=native={d}");
    println!("cargo:rustc-link-lib=static=program_calls");
    println!("cargo:rerun-if-changed={d}/libprogram_calls.a");
}
