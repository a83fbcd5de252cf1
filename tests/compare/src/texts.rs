//! What a script prints, beside the second program's text.

use gelwynnar::script as library;
use second::program::run_script;

use crate::program::same;

/// What the program lends.
pub const STORE_LENGTH: usize = 65_536;
/// A byte that stays where nothing is printed.
const UNTOUCHED: u8 = 0xA5;

/// The text that both have of a script, in just as much output as is asked for it, and how many of its slots swapped.
/// What follows the text is untouched.
pub fn compare(script: &[u8]) -> Result<(Vec<u8>, usize), String> {
    let mut expected = Vec::new();
    let swaps = run_script(script, &mut expected).expect("a vector takes all that is written");
    let mut output = vec![UNTOUCHED; library::output_asked(script.len())];
    let printed =
        library::run(script, &mut vec![0; STORE_LENGTH], &mut output).ok_or("the output is too short")?;
    same("the text", &output[..printed], &expected)?;
    if output[printed..].iter().any(|&byte| byte != UNTOUCHED) {
        return Err("the output behind the text is touched".to_string());
    }
    Ok((expected, swaps))
}

/// One byte of output less than is asked is too short, whatever the script prints, and nothing is touched.
pub fn too_short(script: &[u8]) -> Result<(), String> {
    let mut store = vec![UNTOUCHED; STORE_LENGTH];
    let mut output = vec![UNTOUCHED; library::output_asked(script.len()) - 1];
    if library::run(script, &mut store, &mut output).is_some() {
        return Err("run with less output than is asked".to_string());
    }
    if store.iter().chain(&output).any(|&byte| byte != UNTOUCHED) {
        return Err("too short an output, and something is touched".to_string());
    }
    Ok(())
}
