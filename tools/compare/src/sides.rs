//! Builds and opens what is compared: the kit's build, the Cargo package and the original. One that
//! is not there is left out, with one line that says why.

use crate::compare::{Ours, Sides};
use crate::kit;
use crate::original::IS_PORTABLE;
use std::path::PathBuf;
use torkettle_common::Form;
use torkettle_common::answer::{Answer, RawAnswer};
use torkettle_common::cache::repository;
use torkettle_common::cargo::{Generated, dependency};
use torkettle_common::command::print_left_out;
use torkettle_common::object::Object;
use torkettle_common::original;
use torkettle_common::question::Question;

/// What the kit compiles.
pub const KIT: &str = "the kit's build";

// The order of the arguments is: whether it is a call of `lanes`, the numbers of the call and of
// the type, both flags, the address and the length of the text, and the answer.
type Export = unsafe extern "C" fn(bool, u32, u32, bool, bool, *const u8, usize, *mut RawAnswer);

/// The export that makes any call of a library: `torkettle_answer` of `exports`.
#[derive(Clone, Copy)]
pub struct Answers(Export);

impl Answers {
    fn new(object: &Object) -> Result<Answers, String> {
        // SAFETY: `exports` declares the function with this type.
        let export = unsafe { object.function("torkettle_answer") };
        export.map(Answers).ok_or(String::from("exports has no torkettle_answer"))
    }

    /// What a library answers to a question about a text.
    pub fn of(self, form: Form, question: &Question, text: &[u8]) -> Answer {
        let Question { call, integer, skip_zeroes, skip_plus } = *question;
        let (start, length) = (text.as_ptr(), text.len());
        let (is_lanes, call, integer) = (form == Form::Lanes, call as u32, integer as u32);
        let mut answer = RawAnswer::unlike();
        // SAFETY: the address and the length are of one slice, which the call only reads, and
        // `RawAnswer` has the fields of the struct that the call writes.
        unsafe {
            self.0(is_lanes, call, integer, skip_zeroes, skip_plus, start, length, &mut answer);
        }
        answer.into()
    }
}

/// Opens everything. Our library is built for a processor, and the package in debug if `is_debug`.
pub fn open(cpu: &str, is_debug: bool, original: Option<PathBuf>) -> Result<Sides, String> {
    let mut ours = Vec::new();
    match kit::version() {
        Ok(_) => {
            let answers = Answers::new(&kit::object(cpu)?)?;
            ours.extend(Form::BOTH.map(|form| Ours { build: KIT, form, answers }));
        }
        Err(fault) => print_left_out(KIT, &fault),
    }
    let build = if is_debug { "the package, debug" } else { "the package, release" };
    let heads = ["use torkettle as calls;\n", "use torkettle::lanes as calls;\n"];
    for ((form, head), features) in Form::BOTH.into_iter().zip(heads).zip([&[][..], &["lanes"]]) {
        let package = dependency("torkettle", "torkettle", repository(), features);
        let answers = answers("package", package, head, format!("-C target-cpu={cpu}"), is_debug)?;
        ours.push(Ours { build, form, answers });
    }
    let flags = if IS_PORTABLE { "-C target-cpu=x86-64" } else { "" };
    let of_original =
        |line| answers("original", line, "use atoi_simd as calls;\n", flags.to_string(), false);
    Ok(Sides { ours, original: original::find(original)?.map(of_original).transpose()? })
}

// Builds and opens a crate that exports the function that makes any call of another crate.
fn answers(
    name: &str,
    library: String,
    head: &str,
    flags: String,
    is_debug: bool,
) -> Result<Answers, String> {
    let common = repository().join("tools/common");
    let common = dependency("torkettle_common", "torkettle_common", &common, &[]);
    let files = vec![
        ("lib.rs", format!("#![allow(dead_code, unused_imports)]\n{head}mod ask;\n")),
        ("ask.rs", include_str!("../exports/ask.rs").to_string()),
    ];
    let dependencies = vec![library, common];
    Answers::new(&Generated { dependencies, files, flags, is_debug }.open(name)?)
}
