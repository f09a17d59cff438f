//! Cases about selectors and paths, answered by `Selector`, and the list cases
//! about one step and one subject (kind 7), answered by `SelectorStep`.
//!
//! A stream is cases one after another, in little-endian u32 words: step
//! count, number of step rows, the rows; combinator count, number of
//! combinator words, the words; path length, number of subject rows, the
//! rows. A count is what is given, a number is what is lent.
//!
//! A row is type flag, type, part flag, part, class count, pseudo count, then
//! room for the classes and room for the pseudos. The room is 8 and 8 in a
//! step's row, 16 and 16 in a subject's. The refusals are document 01's; 3
//! and 1 are asked of the published code.

use understory_style::selector::{
    ClassId, PartTag, PseudoClassId, Selector, SelectorCombinator, SelectorInputs,
    SelectorInputsOwned, SelectorMismatch, SelectorStep, TypeTag,
};

use crate::asking::asked;
use crate::lists::yes_or_no;

/// Most steps in a selector.
pub const STEPS: u32 = 8;
/// Most places in a path.
pub const PLACES: u32 = 32;
/// Most required classes of a step, and most required pseudos, as given.
pub const STEP_IDS: usize = 8;
/// Most classes of a subject, and most pseudos, as given.
pub const SUBJECT_IDS: usize = 16;
/// Words before the ids in a row.
pub const ROW_HEAD: usize = 6;
/// Words in a step's row.
pub const STEP_ROW: usize = ROW_HEAD + 2 * STEP_IDS;
/// Words in a subject's row.
pub const SUBJECT_ROW: usize = ROW_HEAD + 2 * SUBJECT_IDS;

/// Most rows, and most combinator words, that a case may lend.
pub const MOST_LENT: u32 = 300;

/// The number of a refusal in document 01's table.
type Refusal = u32;

/// One row, with room for `room` classes and as many pseudos.
#[derive(Copy, Clone)]
struct Row<'a> {
    words: &'a [u32],
    room: usize,
}

impl<'a> Row<'a> {
    /// Neither count is over the room. Every other method needs this.
    fn counts_fit(self) -> bool {
        let counts = &self.words[4..ROW_HEAD];
        counts.iter().all(|&count| count as usize <= self.room)
    }

    fn type_tag(self) -> Option<TypeTag> {
        (self.words[0] != 0).then_some(TypeTag(self.words[1]))
    }

    fn part_tag(self) -> Option<PartTag> {
        (self.words[2] != 0).then_some(PartTag(self.words[3]))
    }

    fn classes(self) -> Vec<ClassId> {
        let count = self.words[4] as usize;
        let ids = &self.words[ROW_HEAD..][..count];
        ids.iter().copied().map(ClassId).collect()
    }

    fn pseudos(self) -> Vec<PseudoClassId> {
        let count = self.words[5] as usize;
        let ids = &self.words[ROW_HEAD + self.room..][..count];
        ids.iter().copied().map(PseudoClassId).collect()
    }

    fn step(self) -> SelectorStep {
        let mut step = SelectorStep::default()
            .with_classes(self.classes())
            .with_pseudos(self.pseudos());
        step.type_tag = self.type_tag();
        step.part_tag = self.part_tag();
        step
    }
}

/// One case: the three counts given, and what is lent.
#[derive(Clone, Debug, Default, PartialEq, Eq)]
pub struct PathCase {
    pub steps: u32,
    pub step_rows: Vec<[u32; STEP_ROW]>,
    pub combinators: u32,
    pub codes: Vec<u32>,
    pub places: u32,
    pub subject_rows: Vec<[u32; SUBJECT_ROW]>,
}

/// Where a stream ends, if not between two cases.
#[derive(Copy, Clone)]
enum End {
    CutShort,
    TooLong,
}

/// The words of a stream, from left to right.
struct Words<'a>(&'a [u8]);

impl Words<'_> {
    fn word(&mut self) -> Result<u32, End> {
        let (word, rest) = self.0.split_first_chunk().ok_or(End::CutShort)?;
        self.0 = rest;
        Ok(u32::from_le_bytes(*word))
    }

    /// A number of rows or words that follow.
    fn number(&mut self) -> Result<u32, End> {
        let number = self.word()?;
        if number > MOST_LENT {
            return Err(End::TooLong);
        }
        Ok(number)
    }

    fn list(&mut self) -> Result<Vec<u32>, End> {
        let number = self.number()?;
        (0..number).map(|_| self.word()).collect()
    }

    fn rows<const LENGTH: usize>(&mut self) -> Result<Vec<[u32; LENGTH]>, End> {
        let number = self.number()?;
        let mut rows = Vec::new();
        for _ in 0..number {
            let mut row = [0; LENGTH];
            for word in &mut row {
                *word = self.word()?;
            }
            rows.push(row);
        }
        Ok(rows)
    }

    fn case(&mut self) -> Result<PathCase, End> {
        // In the order of the words: the fields are read as they stand here.
        Ok(PathCase {
            steps: self.word()?,
            step_rows: self.rows()?,
            combinators: self.word()?,
            codes: self.list()?,
            places: self.word()?,
            subject_rows: self.rows()?,
        })
    }
}

/// What is to be printed for a stream: the lines of each case and, if it does
/// not end between two cases, a last line of its own.
pub fn answer_stream(stream: &[u8]) -> Vec<String> {
    let mut answers = Vec::new();
    let mut words = Words(stream);
    while !words.0.is_empty() {
        match words.case() {
            Ok(case) => answers.push(case.answer()),
            Err(end) => {
                let line = match end {
                    End::CutShort => "cut short\n",
                    End::TooLong => "too long\n",
                };
                answers.push(line.to_string());
                break;
            }
        }
    }
    answers
}

/// The first `count` rows, or refusal 2: a count over its size, or past the
/// rows lent, or a row's own counts over theirs.
fn rows<const LENGTH: usize>(
    rows: &[[u32; LENGTH]],
    count: u32,
    size: u32,
    room: usize,
) -> Result<Vec<Row<'_>>, Refusal> {
    if count > size {
        return Err(2);
    }
    let rows = rows.get(..count as usize).ok_or(2u32)?;
    let rows: Vec<_> = rows.iter().map(|words| Row { words, room }).collect();
    if rows.iter().all(|row| row.counts_fit()) {
        Ok(rows)
    } else {
        Err(2)
    }
}

impl PathCase {
    /// The case in words, as it stands in a stream.
    pub fn words(&self) -> Vec<u32> {
        let mut words = vec![self.steps, self.step_rows.len() as u32];
        words.extend(self.step_rows.as_flattened());
        words.extend([self.combinators, self.codes.len() as u32]);
        words.extend(&self.codes);
        words.extend([self.places, self.subject_rows.len() as u32]);
        words.extend(self.subject_rows.as_flattened());
        words
    }

    /// The three or four lines of the case.
    pub fn answer(&self) -> String {
        let path = self.with_path(|selector, path| {
            let fits = selector.matches_path(path);
            (fits, selector.diagnose_path(path))
        });
        let path = path.map(|(fits, diagnosis)| {
            let fits = yes_or_no(fits);
            let diagnosis = match diagnosis {
                Ok(()) => "fits".to_string(),
                Err(mismatch) => mismatch_words(mismatch),
            };
            format!("match {fits}\ndiagnosis {diagnosis}\n")
        });
        // The two questions about the path are refused alike.
        let path = path.unwrap_or_else(|refusal| refused(refusal).repeat(2));
        path + &self.weight().unwrap_or_else(refused)
    }

    fn selector_rows(&self) -> Result<(Vec<Row<'_>>, &[u32]), Refusal> {
        let steps = rows(&self.step_rows, self.steps, STEPS, STEP_IDS)?;
        // Combinators have no size of their own.
        let count = usize::try_from(self.combinators).map_err(|_| 2u32)?;
        let codes = self.codes.get(..count).ok_or(2u32)?;
        Ok((steps, codes))
    }

    /// Runs a question about the selector and the path, after the refusals in
    /// the order 2 (selector, then path), 3, 6, 1.
    fn with_path<T>(
        &self,
        question: impl FnOnce(&Selector, &[SelectorInputs<'_>]) -> T,
    ) -> Result<T, Refusal> {
        let (step_rows, codes) = self.selector_rows()?;
        let subject_rows = rows(&self.subject_rows, self.places, PLACES, SUBJECT_IDS)?;
        let selector = selector(&step_rows, codes)?;
        let ids: Vec<_> = subject_rows
            .iter()
            .map(|row| (row.classes(), row.pseudos()))
            .collect();
        let subjects = subject_rows
            .iter()
            .zip(&ids)
            .map(|(row, (classes, pseudos))| {
                SelectorInputs::with_part(row.type_tag(), row.part_tag(), classes, pseudos)
            });
        let path: Vec<SelectorInputs<'_>> = asked(|| subjects.collect()).ok_or(1u32)?;
        Ok(question(&selector, &path))
    }

    /// The selector's weight under both rankings. The path is not looked at.
    fn weight(&self) -> Result<String, Refusal> {
        let (step_rows, codes) = self.selector_rows()?;
        let selector = selector(&step_rows, codes)?;
        let published = selector.specificity();
        let (b, c) = level3_weight(&selector);
        Ok(format!(
            "weight0 {} {} {} {}\nweight1 {b} {c}\n",
            published.0, published.1, published.2, published.3
        ))
    }
}

fn refused(refusal: Refusal) -> String {
    format!("refused {refusal}\n")
}

/// The published selector, or refusal 3 where it panics, or refusal 6.
fn selector(rows: &[Row<'_>], codes: &[u32]) -> Result<Selector, Refusal> {
    // A code over 1 stands for no combinator. 3 comes before 6, so the
    // number of combinators is asked first, with any of them in its place.
    let combinators: Vec<_> = codes
        .iter()
        .map(|&code| match code {
            0 => SelectorCombinator::Child,
            _ => SelectorCombinator::Descendant,
        })
        .collect();
    let steps: Vec<_> = rows.iter().map(|row| row.step()).collect();
    let selector =
        asked(|| Selector::from_steps_with_combinators(steps, combinators)).ok_or(3u32)?;
    if codes.iter().any(|&code| code > 1) {
        return Err(6);
    }
    Ok(selector)
}

fn mismatch_words(mismatch: SelectorMismatch) -> String {
    match mismatch {
        SelectorMismatch::EmptySelectorWithNonEmptyPath => {
            "EmptySelectorWithNonEmptyPath".to_string()
        }
        SelectorMismatch::MissingSubject {
            step_index,
            path_index,
        } => format!("MissingSubject {step_index} {path_index}"),
        SelectorMismatch::StepMismatch {
            step_index,
            path_index,
        } => format!("StepMismatch {step_index} {path_index}"),
        SelectorMismatch::TrailingSubjects {
            step_count,
            path_index,
        } => format!("TrailingSubjects {step_count} {path_index}"),
        SelectorMismatch::MissingDescendant {
            step_index,
            after_path_index,
        } => format!("MissingDescendant {step_index} {after_path_index}"),
    }
}

/// A list case of kind 7: the line of a step and a subject, or nothing if the
/// body is too short for their rows. What comes after them is not looked at.
pub fn step_line(body: &[u32]) -> Option<String> {
    let (step, rest) = body.split_at_checked(STEP_ROW)?;
    let subject = Row {
        words: rest.get(..SUBJECT_ROW)?,
        room: SUBJECT_IDS,
    };
    let step = Row {
        words: step,
        room: STEP_IDS,
    };
    let step = step.counts_fit().then(|| step.step());
    let said = |answer: Result<String, Refusal>| {
        answer.unwrap_or_else(|refusal| format!("refused {refusal}"))
    };
    let matching = step_match(step.as_ref(), subject);
    let weight = step.as_ref().ok_or(2).map(step_weight);
    let owned = owned_match(step.as_ref(), subject);
    Some(format!(
        "step {} w {} owned {}",
        said(matching),
        said(weight),
        said(owned)
    ))
}

/// Whether the subject matches, after the refusals 2 (no step: its counts do
/// not fit) and 1, which is a panic.
fn step_match(step: Option<&SelectorStep>, subject: Row<'_>) -> Result<String, Refusal> {
    let step = step.filter(|_| subject.counts_fit()).ok_or(2u32)?;
    let (classes, pseudos) = (subject.classes(), subject.pseudos());
    let inputs = asked(|| {
        SelectorInputs::with_part(subject.type_tag(), subject.part_tag(), &classes, &pseudos)
    });
    Ok(yes_or_no(step.matches(&inputs.ok_or(1u32)?)).to_string())
}

/// The same of the owned subject, which sorts its ids.
fn owned_match(step: Option<&SelectorStep>, subject: Row<'_>) -> Result<String, Refusal> {
    let step = step.filter(|_| subject.counts_fit()).ok_or(2u32)?;
    let owned = SelectorInputsOwned::with_part(
        subject.type_tag(),
        subject.part_tag(),
        subject.classes(),
        subject.pseudos(),
    );
    Ok(yes_or_no(step.matches(&owned.as_inputs())).to_string())
}

/// A step's weight under both rankings.
fn step_weight(step: &SelectorStep) -> String {
    let published = step.specificity();
    let (b, c) = level3_weight(&Selector::single(step.clone()));
    format!(
        "{} {} {} {} {b} {c}",
        published.0, published.1, published.2, published.3
    )
}

/// Selectors Level 3's specificity, which the published code lacks: classes
/// plus pseudos, then types plus parts, counted from the steps' sets.
pub fn level3_weight(selector: &Selector) -> (usize, usize) {
    let mut b = 0;
    let mut c = 0;
    for step in selector.steps() {
        b += step.required_classes.len() + step.required_pseudos.len();
        c += usize::from(step.type_tag.is_some()) + usize::from(step.part_tag.is_some());
    }
    (b, c)
}
