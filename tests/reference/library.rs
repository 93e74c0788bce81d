//! The proved code, as `rt staticlib exports` builds it: the declarations of its functions and safe wrappers over slices.
//! The layouts are those of the `#[repr(C)]` structs of the crates `exports` and `transitions`.

#[repr(C)]
#[derive(Clone, Copy, PartialEq, Eq, Debug)]
pub struct JoinLine {
    pub a: u8,
    pub b: u8,
    pub joint: u8,
}

#[repr(C)]
#[derive(Clone, Copy, PartialEq, Eq, Debug)]
pub struct Step {
    pub action: u8,
    pub target: u16,
}

#[repr(C)]
#[derive(Clone, Copy, PartialEq, Eq, Debug)]
pub struct TermEntry {
    pub sign: u8,
    pub first: u16,
    pub second: u64,
}

#[repr(C)]
#[derive(Clone, Copy, PartialEq, Eq, Debug)]
pub struct EquationEntry {
    pub letter: u8,
    pub variable: u8,
    pub action: u8,
    pub next: u8,
}

#[repr(C)]
#[derive(Clone, Copy, PartialEq, Eq, Debug)]
pub struct Reading {
    pub number: u8,
    pub line: usize,
    pub variables: usize,
    pub lines: usize,
    pub equations: usize,
    pub terms: usize,
    pub start: usize,
}

#[repr(C)]
#[derive(Clone, Copy, PartialEq, Eq, Debug)]
pub struct Unfolding {
    pub number: u8,
    pub terms: usize,
    pub steps: usize,
    pub start: usize,
}

#[repr(C)]
#[derive(Clone, Copy, PartialEq, Eq, Debug)]
pub struct Writing {
    pub number: u8,
    pub length: usize,
}

#[repr(C)]
#[derive(Clone, Copy, PartialEq, Eq, Debug, Default)]
pub struct Span {
    pub from: usize,
    pub to: usize,
}

#[repr(C)]
#[derive(Clone, Copy, PartialEq, Eq, Debug, Default)]
pub struct Sets {
    pub blocked: u64,
    pub hidden: u64,
}

#[repr(C)]
#[derive(Clone, Copy, PartialEq, Eq, Debug, Default)]
pub struct Leaf {
    pub is_table: bool,
    pub take: u8,
    pub give: u8,
    pub cap: usize,
    pub ends: Span,
    pub steps: Span,
    pub terms: usize,
    pub count: usize,
    pub start: usize,
    pub sets: Sets,
}

#[repr(C)]
#[derive(Clone, Copy, PartialEq, Eq, Debug, Default)]
pub struct Joint {
    pub by_lines: bool,
    pub lines: Span,
    pub sets: Sets,
}

#[repr(C)]
#[derive(Clone, Copy, PartialEq, Eq, Debug, Default)]
pub struct Description {
    pub shape: u8,
    pub first: Leaf,
    pub second: Leaf,
    pub third: Leaf,
    pub inner: Joint,
    pub outer: Joint,
}

#[repr(C)]
#[derive(Clone, Copy, PartialEq, Eq, Debug)]
pub struct Question {
    pub state: usize,
    pub place: usize,
}

#[repr(C)]
#[derive(Clone, Copy, PartialEq, Eq, Debug)]
pub struct Told {
    pub states: usize,
    pub start: usize,
    pub width: usize,
    pub ends: bool,
    pub steps: bool,
    pub action: u8,
    pub target: u16,
}

#[repr(C)]
#[derive(Clone, Copy, PartialEq, Eq, Debug)]
pub struct Call {
    pub kind: u8,
    pub other_left: bool,
    pub other_right: bool,
    pub side: usize,
    pub s: usize,
    pub t: usize,
    pub place: usize,
    pub marks: usize,
    pub queue: usize,
}

#[repr(C)]
#[derive(Clone, Copy, PartialEq, Eq, Debug, Default)]
pub struct Answer {
    pub kind: u8,
    pub number: u8,
    pub left: usize,
    pub right: usize,
    pub side: u8,
    pub place: usize,
}

/// What stands beside descriptions: row ends and steps of tables, and lines of communications.
#[derive(Clone, Debug, Default)]
pub struct Rows {
    pub ends: Vec<u16>,
    pub steps: Vec<Step>,
    pub lines: Vec<JoinLine>,
}

/// The models that a list of calls may name.
#[derive(Clone, Copy, Debug)]
pub struct Models<'a> {
    pub left: &'a Description,
    pub right: &'a Description,
    pub other_left: &'a Description,
    pub other_right: &'a Description,
}

unsafe extern "C" {
    fn dimityrock_read(
        bytes: *const u8,
        bytes_len: usize,
        lines: *mut JoinLine,
        lines_len: usize,
        equations: *mut EquationEntry,
        equations_len: usize,
        terms: *mut TermEntry,
        terms_len: usize,
    ) -> Reading;
    fn dimityrock_unfold(
        lines: *const JoinLine,
        lines_len: usize,
        equations: *const EquationEntry,
        equations_len: usize,
        file: *const TermEntry,
        file_len: usize,
        start: usize,
        terms: *mut TermEntry,
        terms_len: usize,
        steps: *mut Step,
        steps_len: usize,
        ends: *mut u16,
        ends_len: usize,
    ) -> Unfolding;
    fn dimityrock_write(
        ends: *const u16,
        ends_len: usize,
        steps: *const Step,
        steps_len: usize,
        terms: usize,
        count: usize,
        start: usize,
        text: *mut u8,
        text_len: usize,
    ) -> Writing;
    fn dimityrock_ask(
        model: *const Description,
        ends: *const u16,
        ends_len: usize,
        steps: *const Step,
        steps_len: usize,
        lines: *const JoinLine,
        lines_len: usize,
        questions: *const Question,
        questions_len: usize,
        told: *mut Told,
        told_len: usize,
    ) -> usize;
    fn dimityrock_calls(
        left: *const Description,
        right: *const Description,
        other_left: *const Description,
        other_right: *const Description,
        ends: *const u16,
        ends_len: usize,
        steps: *const Step,
        steps_len: usize,
        lines: *const JoinLine,
        lines_len: usize,
        bytes: *mut u8,
        bytes_len: usize,
        marks: *mut u8,
        marks_len: usize,
        queue: *mut u16,
        queue_len: usize,
        calls: *const Call,
        calls_len: usize,
        answers: *mut Answer,
        answers_len: usize,
    ) -> usize;
    fn dimityrock_judge_counter(
        cap: usize,
        sets: *const Sets,
        bytes: *mut u8,
        bytes_len: usize,
        marks: *mut u8,
        marks_len: usize,
        queue: *mut u16,
        queue_len: usize,
    ) -> Answer;
    fn dimityrock_judge_merge(
        cap: usize,
        other: usize,
        sets: *const Sets,
        bytes: *mut u8,
        bytes_len: usize,
        marks: *mut u8,
        marks_len: usize,
        queue: *mut u16,
        queue_len: usize,
    ) -> Answer;
    fn dimityrock_judge_pile(
        cap: usize,
        inner: *const Sets,
        outer: *const Sets,
        bytes: *mut u8,
        bytes_len: usize,
        marks: *mut u8,
        marks_len: usize,
        queue: *mut u16,
        queue_len: usize,
    ) -> Answer;
    fn dimityrock_judge_table(
        ends: *const u16,
        ends_len: usize,
        steps: *const Step,
        steps_len: usize,
        terms: usize,
        count: usize,
        start: usize,
        bytes: *mut u8,
        bytes_len: usize,
        marks: *mut u8,
        marks_len: usize,
        queue: *mut u16,
        queue_len: usize,
    ) -> Answer;
}

pub fn read(
    bytes: &[u8],
    lines: &mut [JoinLine],
    equations: &mut [EquationEntry],
    terms: &mut [TermEntry],
) -> Reading {
    unsafe {
        dimityrock_read(
            bytes.as_ptr(),
            bytes.len(),
            lines.as_mut_ptr(),
            lines.len(),
            equations.as_mut_ptr(),
            equations.len(),
            terms.as_mut_ptr(),
            terms.len(),
        )
    }
}

pub fn unfold(
    lines: &[JoinLine],
    equations: &[EquationEntry],
    file: &[TermEntry],
    start: usize,
    terms: &mut [TermEntry],
    steps: &mut [Step],
    ends: &mut [u16],
) -> Unfolding {
    unsafe {
        dimityrock_unfold(
            lines.as_ptr(),
            lines.len(),
            equations.as_ptr(),
            equations.len(),
            file.as_ptr(),
            file.len(),
            start,
            terms.as_mut_ptr(),
            terms.len(),
            steps.as_mut_ptr(),
            steps.len(),
            ends.as_mut_ptr(),
            ends.len(),
        )
    }
}

pub fn write(ends: &[u16], steps: &[Step], terms: usize, count: usize, start: usize, text: &mut [u8]) -> Writing {
    unsafe {
        dimityrock_write(
            ends.as_ptr(),
            ends.len(),
            steps.as_ptr(),
            steps.len(),
            terms,
            count,
            start,
            text.as_mut_ptr(),
            text.len(),
        )
    }
}

pub fn ask(model: &Description, rows: &Rows, questions: &[Question]) -> Vec<Told> {
    let blank = Told { states: 0, start: 0, width: 0, ends: false, steps: false, action: 0, target: 0 };
    let mut told = vec![blank; questions.len()];
    let asked = unsafe {
        dimityrock_ask(
            model,
            rows.ends.as_ptr(),
            rows.ends.len(),
            rows.steps.as_ptr(),
            rows.steps.len(),
            rows.lines.as_ptr(),
            rows.lines.len(),
            questions.as_ptr(),
            questions.len(),
            told.as_mut_ptr(),
            told.len(),
        )
    };
    assert_eq!(asked, questions.len());
    told
}

pub fn calls(
    models: Models,
    rows: &Rows,
    bytes: &mut [u8],
    marks: &mut [u8],
    queue: &mut [u16],
    calls: &[Call],
) -> Vec<Answer> {
    let mut answers = vec![Answer::default(); calls.len()];
    let made = unsafe {
        dimityrock_calls(
            models.left,
            models.right,
            models.other_left,
            models.other_right,
            rows.ends.as_ptr(),
            rows.ends.len(),
            rows.steps.as_ptr(),
            rows.steps.len(),
            rows.lines.as_ptr(),
            rows.lines.len(),
            bytes.as_mut_ptr(),
            bytes.len(),
            marks.as_mut_ptr(),
            marks.len(),
            queue.as_mut_ptr(),
            queue.len(),
            calls.as_ptr(),
            calls.len(),
            answers.as_mut_ptr(),
            answers.len(),
        )
    };
    assert_eq!(made, calls.len());
    answers
}

/// Lent memory for a judgement.
pub struct Memory {
    pub bytes: Vec<u8>,
    pub marks: Vec<u8>,
    pub queue: Vec<u16>,
}

impl Memory {
    /// Enough for the largest models.
    pub fn largest() -> Memory {
        Memory { bytes: vec![0; 4_096 * 4_096 / 8], marks: vec![0; 4_096], queue: vec![0; 4_096] }
    }
}

pub fn judge_counter(cap: usize, sets: Sets, memory: &mut Memory) -> Answer {
    let Memory { bytes, marks, queue } = memory;
    unsafe {
        dimityrock_judge_counter(
            cap,
            &sets,
            bytes.as_mut_ptr(),
            bytes.len(),
            marks.as_mut_ptr(),
            marks.len(),
            queue.as_mut_ptr(),
            queue.len(),
        )
    }
}

pub fn judge_merge(cap: usize, other: usize, sets: Sets, memory: &mut Memory) -> Answer {
    let Memory { bytes, marks, queue } = memory;
    unsafe {
        dimityrock_judge_merge(
            cap,
            other,
            &sets,
            bytes.as_mut_ptr(),
            bytes.len(),
            marks.as_mut_ptr(),
            marks.len(),
            queue.as_mut_ptr(),
            queue.len(),
        )
    }
}

pub fn judge_pile(cap: usize, inner: Sets, outer: Sets, memory: &mut Memory) -> Answer {
    let Memory { bytes, marks, queue } = memory;
    unsafe {
        dimityrock_judge_pile(
            cap,
            &inner,
            &outer,
            bytes.as_mut_ptr(),
            bytes.len(),
            marks.as_mut_ptr(),
            marks.len(),
            queue.as_mut_ptr(),
            queue.len(),
        )
    }
}

pub fn judge_table(
    ends: &[u16],
    steps: &[Step],
    terms: usize,
    count: usize,
    start: usize,
    memory: &mut Memory,
) -> Answer {
    let Memory { bytes, marks, queue } = memory;
    unsafe {
        dimityrock_judge_table(
            ends.as_ptr(),
            ends.len(),
            steps.as_ptr(),
            steps.len(),
            terms,
            count,
            start,
            bytes.as_mut_ptr(),
            bytes.len(),
            marks.as_mut_ptr(),
            marks.len(),
            queue.as_mut_ptr(),
            queue.len(),
        )
    }
}
