// Copies interp.rs as it is and the filter parts of filters.rs and sample_voice.rs by their lines, and links the archive.
use std::{env, fs, path::PathBuf};
fn cut<'a>(s: &'a str, from: &str, to: &str) -> &'a str {
    let a = s.find(from).expect(from);
    let b = a + s[a..].find(to).expect(to);
    &s[a..b]
}
fn main() {
    let out = PathBuf::from(env::var("OUT_DIR").unwrap());
    let src = env::var("RUST_SRC").expect("RUST_SRC: compare/kernel.sh sets it");
    let lib = env::var("KERNEL_LIB_DIR").expect("KERNEL_LIB_DIR: compare/kernel.sh sets it");
    let mut i = fs::read_to_string(format!("{src}/sampler/interp.rs")).unwrap();
    i.push_str("\nimpl SincTable { pub fn from_vec(table: Vec<f32>) -> Self { SincTable { table } } pub fn values(&self) -> &[f32] { &self.table } }\nimpl SincSpan { pub fn parts(&self) -> (f32, usize) { (self.fc, self.half) } }\n");
    fs::write(out.join("interp.rs"), i).unwrap();
    let f = fs::read_to_string(format!("{src}/ugens/filters.rs")).unwrap();
    let v = fs::read_to_string(format!("{src}/ugens/sample_voice.rs")).unwrap();
    let mut t = String::new();
    t.push_str(cut(&f, "#[derive(Clone, Copy)]\npub(crate) struct BiquadState", "/// The shared front half"));
    t.push_str(cut(&v, "#[derive(Debug, Clone, Copy)]\nenum FilterShape", "fn cents_factor"));
    let t = t.replace("enum FilterShape", "pub enum FilterShape").replace("\nstruct FilterSlot", "\npub struct FilterSlot")
        .replace("const OFF", "pub const OFF").replace("    fn tick(&mut self, ch", "    pub fn tick(&mut self, ch")
        .replace("\n    shape: FilterShape,", "\n    pub shape: FilterShape,").replace("\n    state: [[", "\n    pub state: [[").replace("\n    one_pole: [(f32", "\n    pub one_pole: [(f32")
        .replace("\n    z1: f32,", "\n    pub z1: f32,").replace("\n    z2: f32,", "\n    pub z2: f32,");
    fs::write(out.join("filters.rs"), t).unwrap();
    let o = out.display();
    fs::write(out.join("mods.rs"), format!("pub mod sampler {{ #[path = \"{o}/interp.rs\"] pub mod interp; pub mod pcm {{ pub const PCM_PAD: usize = super::interp::SINC_MAX_HALF_TAPS + 2; }} }}\n#[path = \"{o}/filters.rs\"] pub mod filters;\n")).unwrap();
    println!("cargo:rustc-link-search=native={lib}");
    println!("cargo:rustc-link-lib=static=kernel_calls");
    println!("cargo:rerun-if-changed={lib}/libkernel_calls.a");
    println!("cargo:rerun-if-changed=build.rs");
}
