//! Points the compiler at the unchanged Rust. Its files are linked to, never copied or altered.

use std::{
    env, fs, io,
    os::unix::fs::symlink,
    path::{Path, PathBuf},
};

fn link(target: &Path, name: &Path) {
    assert!(target.exists(), "{} is missing", target.display());

    match fs::remove_file(name) {
        Err(error) if error.kind() != io::ErrorKind::NotFound => {
            panic!("{}: {error}", name.display())
        }
        _ => symlink(target, name).unwrap(),
    }
}

fn main() {
    println!("cargo::rerun-if-env-changed=SUMOPINE_RUST");
    println!("cargo::rerun-if-changed=build.rs");

    let here = PathBuf::from(env::var_os("CARGO_MANIFEST_DIR").unwrap());
    let out = PathBuf::from(env::var_os("OUT_DIR").unwrap());
    let folder = match env::var_os("SUMOPINE_RUST") {
        Some(folder) => PathBuf::from(folder),
        None => here.join("../../../shared/docs/src"),
    };
    let rust = match folder.join("src").canonicalize() {
        Ok(rust) => rust,
        Err(error) => panic!(
            "no Rust at {}/src ({error}): set SUMOPINE_RUST to the folder that holds its src/",
            folder.display()
        ),
    };
    println!("cargo::rerun-if-changed={}", rust.display());

    let ours = here.join("src");
    link(&rust, &out.join("rust"));

    // util/mod.rs names modules that the papers do not have. Seen through a link, its modules are
    // looked for beside the link, where stand-ins can be.
    let util = out.join("util");
    fs::create_dir_all(&util).unwrap();
    link(&rust.join("util/mod.rs"), &util.join("mod.rs"));
    link(&rust.join("util/limited_queue.rs"), &util.join("limited_queue.rs"));
    link(&ours.join("stand_ins/random.rs"), &util.join("random.rs"));
    link(&ours.join("stand_ins/float_ext.rs"), &util.join("float_ext.rs"));
    for empty in
        ["difficulty", "hint", "map_or_attrs", "ruleset_ext", "sort", "sync", "traits", "macros"]
    {
        fs::write(util.join(empty).with_extension("rs"), "").unwrap();
    }

    // convert/mod.rs is included instead of declared, so that single.rs and announced.rs can stand
    // beside its generators and reach what is private to it.
    let text = r#"
#[allow(dead_code, unused_imports, reason = "the Rust holds more than conversion")]
#[path = "{util}/mod.rs"]
mod util;

#[allow(dead_code, unused_imports, reason = "the Rust holds more than conversion")]
mod mania {
    // The only `assert!` of the conversion stands in each column search, after its first column is found
    // not valid and before it draws. What it binds lives until the search returns.
    macro_rules! assert {
        ($has_valid_column:expr) => {
            let _search = crate::util::random::osu::Search::begin($has_valid_column);
        };
    }

    pub mod convert {
        include!("{rust}/mania/convert/mod.rs");

        #[path = "{ours}/single.rs"]
        pub mod single;

        #[path = "{ours}/announced.rs"]
        pub mod announced;
    }

    #[path = "{rust}/mania/object.rs"]
    pub mod object;
}

#[allow(dead_code, unused_imports, reason = "the Rust holds more than conversion")]
mod model {
    #[path = "{ours}/stand_ins/beatmap.rs"]
    pub mod beatmap;

    #[path = "{rust}/model/hit_object.rs"]
    pub mod hit_object;

    #[path = "{ours}/stand_ins/mode.rs"]
    pub mod mode;

    #[path = "{ours}/stand_ins/mods.rs"]
    pub mod mods;

    pub mod control_point {
        #[path = "{rust}/model/control_point/difficulty.rs"]
        mod difficulty;

        #[path = "{rust}/model/control_point/effect.rs"]
        mod effect;

        #[path = "{rust}/model/control_point/timing.rs"]
        mod timing;

        pub use self::{
            difficulty::{DifficultyPoint, difficulty_point_at},
            effect::{EffectPoint, effect_point_at},
            timing::{TimingPoint, timing_point_at},
        };
    }
}
"#;
    let text = text
        .replace("{util}", util.to_str().unwrap())
        .replace("{rust}", out.join("rust").to_str().unwrap())
        .replace("{ours}", ours.to_str().unwrap());
    fs::write(out.join("tree.rs"), text).unwrap();
}
