//! The C interface: the header, the example and the refusals, compiled with every warning an error, and run.

use std::env;
use std::fs;
use std::path::{Path, PathBuf};
use std::process::{Command, Output};

use crate::common::*;

fn root() -> PathBuf {
    Path::new(env!("CARGO_MANIFEST_DIR")).join("..")
}

/// The proved library, where the wrapper's build finds it.
fn archive() -> PathBuf {
    let folder = env::var_os("ASHLARKIN_LIB_DIR").unwrap_or_else(|| "host/target/proved".into());
    root().join(folder).join("libashlarkin.a")
}

/// Compiles and links a program with the library.
fn compile(compiler: &str, standard: &str, source: &Path, program: &Path) {
    let mut command = Command::new(compiler);
    command.arg(standard).args(["-Wall", "-Wextra", "-Wpedantic", "-Werror", "-O2", "-I"]).arg(root().join("include"));
    let run = command.arg(source).arg(archive()).arg("-o").arg(program).output().unwrap();
    assert!(run.status.success(), "{compiler}: {}", stderr(&run));
}

fn run(program: &Path, arguments: &[&str]) -> Output {
    Command::new(program).args(arguments).output().unwrap()
}

/// The pixels of a PPM of three bytes a pixel.
fn ppm_pixels(bytes: &[u8]) -> Vec<[u8; 3]> {
    let pixels = bytes.strip_prefix(b"P6\n240 160\n255\n").expect("a PPM of 240x160");
    let (pixels, rest) = pixels.as_chunks::<3>();
    assert!(rest.is_empty());
    pixels.to_vec()
}

#[test]
fn the_example_draws_the_commands_frames() {
    let folder = scratch("c/example");
    let program = folder.join("example");
    compile("gcc", "-std=c11", &root().join("include/example.c"), &program);
    let affine = |folder: &Path| affine_capture(folder, 2, [-54_321, 0x40_1234, 0x120, -0x35, 0x17, 0xe5]);
    let captures: [&dyn Fn(&Path) -> PathBuf; 2] = [&scene_folder, &affine];
    let mut pictures = vec![];
    for make in captures {
        let capture = make(&folder);
        for reading in ["R", "H"] {
            let example = run(&program, &[capture.to_str().unwrap(), reading]);
            assert_eq!((example.status.code(), stderr(&example)), (Some(0), ""));
            let pixels = ppm_pixels(&example.stdout);
            assert!(pixels == drawn(&capture, &folder, &["--reading", reading]).pixels, "{reading}");
            pictures.push(pixels);
        }
    }
    assert!(pictures[2] != pictures[3], "the readings step at other lines");
}

#[test]
fn the_example_reports_what_it_cant_draw() {
    let folder = scratch("c/reports");
    let program = folder.join("example");
    compile("gcc", "-std=c11", &root().join("include/example.c"), &program);
    let refused = |capture: &Path, words: &str| {
        let example = run(&program, &[capture.to_str().unwrap(), "R"]);
        assert!(example.status.code() == Some(1) && example.stdout.is_empty());
        assert!(stderr(&example).contains(words), "{}", stderr(&example));
    };
    refused(&write_folder(&folder, &[(0, 7)]), "line 0: refusal 4");
    let capture = scene_folder(&folder);
    fs::write(capture.join("oam.bin"), [0; 1025]).unwrap();
    refused(&capture, "oam.bin: expected a file of 1024 bytes");
    assert_eq!(run(&program, &[capture.to_str().unwrap(), "X"]).status.code(), Some(2));
}

#[test]
fn refusals_reach_c() {
    let folder = scratch("c/refusals");
    let source = Path::new(env!("CARGO_MANIFEST_DIR")).join("tests/c/refusals.c");
    let program = folder.join("refusals");
    compile("gcc", "-std=c11", &source, &program);
    let checks = run(&program, &[]);
    assert!(checks.status.success(), "{}", stderr(&checks));
    assert!(stdout(&checks).starts_with("refusals from C: "), "{}", stdout(&checks));
}

#[test]
fn the_header_is_cpp_too() {
    let folder = scratch("c/cpp");
    let (source, program) = (folder.join("cpp.cpp"), folder.join("cpp"));
    let text = "#include \"ashlarkin.h\"\n\
        static BgAffine bg2, bg3;\n\
        static ObjBufferEntry row[1] = {{false, false, 0x8000, 4}};\n\
        int main() {\n\
            uint32_t drawn = ashlarkin_draw_records(0, 0, 0, 0, 0, 0, nullptr, 0, nullptr, 0, nullptr, 0, nullptr, 0,\n\
                row, 1, nullptr, 0);\n\
            ashlarkin_reason reason = ashlarkin_explain(0, 0, 0, 0, 0, 0, nullptr, 0, nullptr, 0, nullptr, 0,\n\
                nullptr, 0, nullptr, 0, 0);\n\
            ashlarkin_byte byte = ashlarkin_read8(0, nullptr, 0, nullptr, 0, nullptr, 0);\n\
            uint32_t stored8 = ashlarkin_store8(0, 0, nullptr, 0, nullptr, 0, nullptr, 0, nullptr, 0);\n\
            uint32_t stored16 = ashlarkin_store16(0, 0, nullptr, 0, nullptr, 0, nullptr, 0);\n\
            if (byte.number != 2 || stored8 != 2 || stored16 != 2)\n\
                return 1;\n\
            uint32_t stepped = ashlarkin_step_records(&bg2, &bg3);\n\
            return int(reason.number * 100 + ashlarkin_reset(nullptr, 0) * 10 + drawn + stepped);\n\
        }\n";
    fs::write(&source, text).unwrap();
    compile("g++", "-std=c++11", &source, &program);
    assert_eq!(run(&program, &[]).status.code(), Some(222));
}
