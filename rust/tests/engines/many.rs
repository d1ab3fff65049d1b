//! An engine on many inputs, as `tests/engines.py` gives them and takes the answers.

/// What an engine answers to each input. Before an input stands a line with its length; before an answer, a line with
/// its status, and how long is what it printed on each of the two streams.
pub fn many(engine: &str, mut inputs: &[u8]) -> Vec<u8> {
    let mut answers = Vec::new();
    while let Some(end) = inputs.iter().position(|byte| *byte == b'\n') {
        let length = std::str::from_utf8(&inputs[..end]).unwrap().parse().unwrap();
        let (mut input, rest) = inputs[end + 1..].split_at(length);
        inputs = rest;
        let (mut out, mut err) = (Vec::new(), Vec::new());
        let done = match engine {
            "show" => fibs::show::show(&mut input, &mut out),
            "plays" => fibs::show::plays(input, &mut out, &mut err),
            _ => fibs::model::replay(&mut input, &mut out),
        };
        let status = done.unwrap_or_else(|fault| fault.status());
        answers.extend_from_slice(format!("{status} {} {}\n", out.len(), err.len()).as_bytes());
        answers.append(&mut out);
        answers.append(&mut err);
    }
    answers
}
