//! What a program under test says of the files, compared with the model, and held to the text alone.

use model::check::{Difference, Provenance, Unfounded, shown};
use model::sample::{Options, Program, Sample};

/// The summary of a run without a difference, or the first finding.
pub fn with_program(options: &Options) -> Result<String, String> {
    let explainer = Program::new(options);
    let mut provenance = Provenance::default();
    let (mut files, mut cut_short) = (0, 0);
    for seed in options.seeds.clone() {
        for &kind in &options.kinds {
            let sample = Sample::of(kind, seed, options.lines);
            let output = compare(&explainer, &sample)?;
            located(&sample, judge(&sample, &output, &mut provenance))?;
            files += 1;
            for beginning in sample.cut_short() {
                compare(&explainer, &beginning)?;
                cut_short += 1;
            }
        }
    }
    Ok(format!("{provenance}\nfiles compared {files}, and {cut_short} times one of them cut short\nno difference"))
}

/// Holds an output to the text: each line begins with the reply of the model's player, and each read is founded.
pub fn judge(sample: &Sample, output: &[u8], provenance: &mut Provenance) -> Result<(), String> {
    let unfounded = |Unfounded { line, said, expected }| format!("line {line}\n  said: {said}\n  due:  {expected}");
    begins_with_replies(&sample.played(), output)?;
    provenance.check(&sample.input, output, sample.image.as_deref()).map_err(unfounded)
}

/// The player's output has a reply for each line, and then its summary.
fn begins_with_replies(played: &[u8], output: &[u8]) -> Result<(), String> {
    let lines = |text| <[u8]>::split(text, |&byte| byte == b'\n');
    let replies = lines(played).take_while(|line| !line.starts_with(b"files "));
    let mut explained = lines(output);
    for (reply, number) in replies.zip(1..) {
        let line = explained.next().unwrap_or_default();
        let sentence = line.strip_prefix(reply).and_then(|rest| rest.strip_prefix(b"    "));
        if sentence.is_none_or(|sentence| sentence.is_empty() || sentence.starts_with(b" ")) {
            return Err(format!("line {number}\n  reply: {}\n  said:  {}", shown(reply), shown(line)));
        }
    }
    Ok(())
}

/// What the explainer says of a file, which must be what the model says.
fn compare(explainer: &Program, sample: &Sample) -> Result<Vec<u8>, String> {
    let actual = located(sample, explainer.said(sample))?;
    let Some(difference) = Difference::between(&sample.explained(), &actual) else { return Ok(actual) };
    let step = sample.input.split(|&byte| byte == b'\n').nth(difference.line - 1).map_or("none".into(), shown);
    let side = |side: Option<String>| side.unwrap_or("none".into());
    let (model, explainer) = (side(difference.expected), side(difference.actual));
    let line = difference.line;
    let told = format!("line {line}\n  input:     {step}\n  model:     {model}\n  explainer: {explainer}");
    located(sample, Err(told))
}

fn located<T>(sample: &Sample, result: Result<T, String>) -> Result<T, String> {
    result.map_err(|finding| format!("difference: {}, {finding}", sample.name))
}
