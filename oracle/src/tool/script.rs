//! A script beside its answers: which answer belongs to which line.

/// The words of a line, without its comment.
pub fn words(line: &[u8]) -> impl Iterator<Item = &[u8]> {
    let code = line.split(|&b| b == b'#').next().unwrap_or(&[]);
    code.split(|b| matches!(b, b' ' | b'\t' | b'\r')).filter(|word| !word.is_empty())
}

pub fn lines(text: &[u8]) -> impl Iterator<Item = &[u8]> {
    text.split_inclusive(|&b| b == b'\n').map(|line| line.strip_suffix(b"\n").unwrap_or(line))
}

/// The script without the lines of one call.
pub fn without(text: &str, call: &str) -> String {
    let kept =
        text.split_inclusive('\n').filter(|line| words(line.trim_end().as_bytes()).next() != Some(call.as_bytes()));
    kept.collect()
}

/// How many lines are answered.
pub fn calls(script: &[u8]) -> u64 {
    lines(script).filter(|line| words(line).next().is_some()).count() as u64
}

/// Each line that is answered, with its place among the script's lines and its answer (None: it is missing).
pub fn answered<'a>(script: &'a [u8], answers: &'a [u8]) -> impl Iterator<Item = (usize, &'a [u8], Option<&'a [u8]>)> {
    let mut rest = answers;
    let asking = lines(script).enumerate().filter(|(_, line)| words(line).next().is_some());
    asking.map(move |(place, line)| {
        let length = answer_length(line, rest);
        let (answer, behind) = rest.split_at(length);
        rest = behind;
        (place, line, (length > 0).then_some(answer))
    })
}

/// The bytes of the first answer in `answers`. That of `state` goes on to its line `end`.
fn answer_length(line: &[u8], answers: &[u8]) -> usize {
    let mut length = 0;
    let several = words(line).next() == Some(b"state");
    for answer in answers.split_inclusive(|&b| b == b'\n') {
        length += answer.len();
        if !several || matches!(answer, b"end\n" | b"bad\n") {
            break;
        }
    }
    length
}

/// The first call that two sides answer differently.
pub struct Difference {
    pub line: usize,
    pub call: Vec<u8>,
    pub one: Option<Vec<u8>>,
    pub other: Option<Vec<u8>>,
}

pub fn first_difference(script: &[u8], one: &[u8], other: &[u8]) -> Option<Difference> {
    let pairs = answered(script, one).zip(answered(script, other));
    let mut unequal = pairs.filter(|((.., a), (.., b))| a != b);
    let ((line, call, a), (.., b)) = unequal.next()?;
    Some(Difference { line, call: call.to_vec(), one: a.map(<[u8]>::to_vec), other: b.map(<[u8]>::to_vec) })
}

#[cfg(test)]
mod tests {
    use super::*;

    const SCRIPT: &[u8] = b"# no answer\nsend 1\n\nstate r # two lines\nstate x\nsend 2";

    #[test]
    fn answers_stand_beside_their_calls() {
        let answers = b"none\nrto=1\nend\nbad\nR 1\n";
        let found: Vec<_> = answered(SCRIPT, answers).map(|(line, _, answer)| (line, answer.unwrap())).collect();
        let expected: [(usize, &[u8]); 4] = [(1, b"none\n"), (3, b"rto=1\nend\n"), (4, b"bad\n"), (5, b"R 1\n")];
        assert_eq!(found, expected);
        assert_eq!(calls(SCRIPT), 4);
    }

    #[test]
    fn the_first_difference_is_found() {
        let difference = first_difference(SCRIPT, b"none\nrto=1\nend\nbad\nR 1\n", b"none\nrto=2\nend\nbad\n").unwrap();
        assert_eq!((difference.line, difference.call), (3, b"state r # two lines".to_vec()));
        let difference = first_difference(SCRIPT, b"none\nend\nbad\nR 1\n", b"none\nend\nbad\n").unwrap();
        assert_eq!((difference.line, difference.other), (5, None));
        assert!(first_difference(SCRIPT, b"none\n", b"none\n").is_none());
    }
}
