//! The plain side of the benchmark of affine forms: straightforward code over `i128` with checked operations, which
//! computes the same values, multiples and normal forms. The inputs, the checksums and the lines that are printed are
//! those of the Rattle side.

use std::cmp::Ordering;
use std::time::Instant;

/// The rounds of which the least time counts.
const ROUNDS: u64 = 60;

/// The forms, points, numbers or conjunctions of a list.
const COUNT: u64 = 64;

/// A number left the range of `i128`.
struct Wide;

/// A constant and up to 8 coefficients.
#[derive(Clone, Copy)]
struct Form {
    konst: i128,
    columns: usize,
    coefs: [i128; 8],
}

enum Row {
    Eq(Form),
    Div(i128, Form),
    Ge(Form),
}

struct Conj {
    columns: usize,
    rows: Vec<Row>,
}

enum NormalRow {
    Kept(Row),
    Dropped,
    Absurd,
}

impl Form {
    fn from_parts(konst: i128, coefs: &[i128]) -> Form {
        let mut own = [0; 8];
        own[..coefs.len()].copy_from_slice(coefs);
        Form {
            konst,
            columns: coefs.len(),
            coefs: own,
        }
    }

    fn coefs(&self) -> &[i128] {
        &self.coefs[..self.columns]
    }

    fn eval(&self, point: &[i128]) -> Result<i128, Wide> {
        let mut sum: i128 = 0;
        for (coef, number) in self.coefs().iter().zip(point) {
            let product = coef.checked_mul(*number).ok_or(Wide)?;
            sum = sum.checked_add(product).ok_or(Wide)?;
        }
        sum.checked_add(self.konst).ok_or(Wide)
    }

    fn scale(&self, k: i128) -> Result<Form, Wide> {
        let mut made = *self;
        for coef in &mut made.coefs[..self.columns] {
            *coef = coef.checked_mul(k).ok_or(Wide)?;
        }
        made.konst = made.konst.checked_mul(k).ok_or(Wide)?;
        Ok(made)
    }

    /// Each number taken modulo a positive number.
    fn remainder(&self, modulus: i128) -> Form {
        let mut made = *self;
        for coef in &mut made.coefs[..self.columns] {
            *coef = coef.rem_euclid(modulus);
        }
        made.konst = made.konst.rem_euclid(modulus);
        made
    }

    /// Divided by a positive number and rounded down, without zeros at the end.
    fn quotient(&self, divisor: i128) -> Form {
        let mut made = *self;
        for coef in &mut made.coefs[..self.columns] {
            *coef = coef.div_euclid(divisor);
        }
        made.konst = made.konst.div_euclid(divisor);
        while made.columns > 0 && made.coefs[made.columns - 1] == 0 {
            made.columns -= 1;
        }
        made
    }

    /// The greatest common divisor of the coefficients, 0 where all are 0.
    fn common(&self) -> Result<i128, Wide> {
        let mut divisor = 0;
        for coef in self.coefs() {
            let size = coef.checked_abs().ok_or(Wide)?;
            divisor = greatest_common_divisor(divisor, size.unsigned_abs());
        }
        Ok(divisor as i128)
    }

    /// By coefficients, a missing one being 0, then by the constant.
    fn compare(&self, other: &Form) -> Ordering {
        for column in 0..self.columns.max(other.columns) {
            let left = self.coefs().get(column).unwrap_or(&0);
            let right = other.coefs().get(column).unwrap_or(&0);
            let order = left.cmp(right);
            if order != Ordering::Equal {
                return order;
            }
        }
        self.konst.cmp(&other.konst)
    }
}

fn greatest_common_divisor(a: u128, b: u128) -> u128 {
    let (mut x, mut y) = (a, b);
    while y != 0 {
        (x, y) = (y, x % y);
    }
    x
}

impl Row {
    fn form(&self) -> &Form {
        match self {
            Row::Eq(form) | Row::Div(_, form) | Row::Ge(form) => form,
        }
    }

    fn kind(&self) -> u8 {
        match self {
            Row::Eq(_) => 0,
            Row::Div(_, _) => 1,
            Row::Ge(_) => 2,
        }
    }

    fn modulus(&self) -> i128 {
        match self {
            Row::Div(modulus, _) => *modulus,
            _ => 0,
        }
    }

    fn normalise(&self) -> Result<NormalRow, Wide> {
        match self {
            Row::Eq(form) => {
                let divisor = form.common()?;
                if divisor == 0 {
                    return Ok(if form.konst == 0 {
                        NormalRow::Dropped
                    } else {
                        NormalRow::Absurd
                    });
                }
                if form.konst % divisor != 0 {
                    return Ok(NormalRow::Absurd);
                }
                let made = form.quotient(divisor);
                let lead = made.coefs().iter().find(|coef| **coef != 0);
                let is_negative = lead.is_some_and(|coef| *coef < 0);
                Ok(NormalRow::Kept(Row::Eq(if is_negative {
                    made.scale(-1)?
                } else {
                    made
                })))
            }
            Row::Div(modulus, form) => {
                let rest = form.remainder(*modulus);
                let mut divisor = modulus.unsigned_abs();
                for coef in rest.coefs() {
                    divisor = greatest_common_divisor(divisor, coef.unsigned_abs());
                }
                let divisor = divisor as i128;
                if rest.konst % divisor != 0 {
                    return Ok(NormalRow::Absurd);
                }
                if modulus / divisor == 1 {
                    return Ok(NormalRow::Dropped);
                }
                Ok(NormalRow::Kept(Row::Div(
                    modulus / divisor,
                    rest.quotient(divisor),
                )))
            }
            Row::Ge(form) => {
                let divisor = form.common()?;
                if divisor == 0 {
                    return Ok(if form.konst >= 0 {
                        NormalRow::Dropped
                    } else {
                        NormalRow::Absurd
                    });
                }
                Ok(NormalRow::Kept(Row::Ge(form.quotient(divisor))))
            }
        }
    }

    fn compare(&self, other: &Row) -> Ordering {
        let kinds = self.kind().cmp(&other.kind());
        let moduli = || self.modulus().cmp(&other.modulus());
        kinds
            .then_with(moduli)
            .then_with(|| self.form().compare(other.form()))
    }
}

impl Conj {
    fn is_well_made(&self) -> bool {
        self.rows.iter().all(|row| {
            row.form().columns <= self.columns && (row.kind() != 1 || row.modulus() >= 1)
        })
    }

    fn normalise(&self) -> Result<Conj, Wide> {
        let mut rows = Vec::new();
        let mut is_absurd = false;
        for row in &self.rows {
            match row.normalise()? {
                NormalRow::Kept(normal) => rows.push(normal),
                NormalRow::Dropped => {}
                NormalRow::Absurd => is_absurd = true,
            }
        }
        if !is_absurd {
            rows.sort_by(Row::compare);
            is_absurd = rows.windows(2).any(|pair| are_clashing(&pair[0], &pair[1]));
        }
        if is_absurd {
            rows = vec![Row::Ge(Form::from_parts(-1, &[]))];
        }
        rows.dedup_by(|next, kept| are_alike(next, kept));
        Ok(Conj {
            columns: self.columns,
            rows,
        })
    }
}

/// Whether two rows are equalities with equal coefficients and different constants.
fn are_clashing(left: &Row, right: &Row) -> bool {
    match (left, right) {
        (Row::Eq(f), Row::Eq(g)) => f.coefs() == g.coefs() && f.konst != g.konst,
        _ => false,
    }
}

/// Whether the later of two rows in order is joined with the earlier.
fn are_alike(left: &Row, right: &Row) -> bool {
    match (left, right) {
        (Row::Eq(f), Row::Eq(g)) | (Row::Ge(f), Row::Ge(g)) => f.coefs() == g.coefs(),
        (Row::Div(m, f), Row::Div(n, g)) => m == n && f.coefs() == g.coefs() && f.konst == g.konst,
        _ => false,
    }
}

/// A linear congruential generator (D. Knuth's constants of MMIX).
struct Draws {
    state: u64,
}

impl Draws {
    fn next(&mut self) -> u64 {
        self.state = self
            .state
            .wrapping_mul(6_364_136_223_846_793_005)
            .wrapping_add(1_442_695_040_888_963_407);
        self.state >> 33
    }

    /// A number from `-size` to `size`.
    fn number(&mut self, size: u16) -> i128 {
        let span = 2 * size as u64 + 1;
        (self.next() % span) as i128 - size as i128
    }
}

/// The checksum after a further number.
fn fold(sum: i128, number: i128) -> i128 {
    sum.wrapping_mul(31).wrapping_add(number)
}

fn fold_form(sum: i128, form: &Form) -> i128 {
    form.coefs()
        .iter()
        .fold(fold(sum, form.konst), |sum, coef| fold(sum, *coef))
}

fn fold_rows(first: i128, rows: &[Row]) -> i128 {
    let mut sum = first;
    for row in rows {
        sum = fold(sum, row.kind() as i128);
        sum = fold(sum, row.modulus());
        sum = fold_form(sum, row.form());
    }
    sum
}

/// That many numbers, each from `-size` to `size`.
fn numbers(draws: &mut Draws, count: u64, size: u16) -> Vec<i128> {
    (0..count).map(|_| draws.number(size)).collect()
}

fn forms_of(draws: &mut Draws, columns: u64) -> Vec<Form> {
    let mut made = Vec::new();
    for _ in 0..COUNT {
        let coefs = numbers(draws, columns, 9);
        made.push(Form::from_parts(draws.number(99), &coefs));
    }
    made
}

/// Points, the last of which is far out.
fn points_of(draws: &mut Draws, columns: u64) -> Vec<Vec<i128>> {
    let mut made = Vec::new();
    for _ in 1..COUNT {
        made.push(numbers(draws, columns, 999));
    }
    made.push(vec![i128::MAX / 8; columns as usize]);
    made
}

/// Numbers to multiply by, the last of which is large.
fn factors_of(draws: &mut Draws) -> Vec<i128> {
    let mut made = numbers(draws, COUNT - 1, 99);
    made.push(i128::MAX / 8);
    made
}

/// Rows of which one in eight is `Eq`, one in eight `Div`, and one in four a `Ge` row with the coefficients of the row
/// before.
fn rows_of(draws: &mut Draws, columns: u64, count: u64) -> Vec<Row> {
    let mut rows = Vec::new();
    let mut coefs = numbers(draws, columns, 4);
    for _ in 0..count {
        let kind = draws.next() % 8;
        let times = (draws.next() % 3) as i128 + 1;
        let constant = draws.number(99);
        if kind < 6 {
            coefs = numbers(draws, columns, 4);
        }
        rows.push(row_of(kind, times, constant, &coefs));
    }
    rows
}

/// A row with all its numbers multiplied by `times`. `Eq` and `Div` rows begin with 1 or -1, so that they are not absurd.
fn row_of(kind: u64, times: i128, constant: i128, coefs: &[i128]) -> Row {
    let mut own = coefs.to_vec();
    if kind < 2 {
        own[0] = if constant < 0 { -1 } else { 1 };
    }
    for coef in &mut own {
        *coef *= times;
    }
    let form = Form::from_parts(constant * times, &own);
    match kind {
        0 => Row::Eq(form),
        1 => Row::Div(times * 6, form),
        _ => Row::Ge(form),
    }
}

fn conjs_of(draws: &mut Draws, columns: u64, rows: u64) -> Vec<Conj> {
    let mut made = Vec::new();
    for _ in 0..COUNT {
        made.push(Conj {
            columns: columns as usize,
            rows: rows_of(draws, columns, rows),
        });
    }
    made
}

/// Each form at each point.
#[inline(never)]
fn evaluate_all(first: i128, forms: &[Form], points: &[Vec<i128>]) -> i128 {
    let mut sum = first;
    for form in forms {
        for point in points {
            if form.columns <= point.len() {
                sum = fold(sum, form.eval(point).unwrap_or(1));
            }
        }
    }
    sum
}

/// Each form times each number.
#[inline(never)]
fn scale_all(first: i128, forms: &[Form], factors: &[i128]) -> i128 {
    let mut sum = first;
    for form in forms {
        for factor in factors {
            sum = match form.scale(*factor) {
                Ok(made) => fold_form(sum, &made),
                Err(Wide) => fold(sum, 1),
            };
        }
    }
    sum
}

/// The normal form of each conjunction.
#[inline(never)]
fn normalise_all(first: i128, conjs: &[Conj]) -> i128 {
    let mut sum = first;
    for conj in conjs {
        if conj.is_well_made() {
            sum = match conj.normalise() {
                Ok(normal) => fold_rows(sum, &normal.rows),
                Err(Wide) => fold(sum, 1),
            };
        }
    }
    sum
}

/// The least time of a round in nanoseconds, and the checksum of all rounds.
fn time(mut round: impl FnMut(i128) -> i128) -> (u128, i128) {
    let mut sum = 0;
    let mut least = u128::MAX;
    for _ in 0..ROUNDS {
        let start = Instant::now();
        sum = round(sum);
        least = least.min(start.elapsed().as_nanos());
    }
    (least, sum)
}

fn time_evaluations(columns: u64) {
    let mut draws = Draws { state: columns };
    let forms = forms_of(&mut draws, columns);
    let points = points_of(&mut draws, columns);
    let (least, sum) = time(|sum| evaluate_all(sum, &forms, &points));
    println!("eval {columns} - {} {least} {sum}", COUNT * COUNT);
}

fn time_multiples(columns: u64) {
    let mut draws = Draws { state: columns };
    let forms = forms_of(&mut draws, columns);
    let factors = factors_of(&mut draws);
    let (least, sum) = time(|sum| scale_all(sum, &forms, &factors));
    println!("scale {columns} - {} {least} {sum}", COUNT * COUNT);
}

fn time_normal_forms(columns: u64, rows: u64) {
    let mut draws = Draws { state: rows };
    let conjs = conjs_of(&mut draws, columns, rows);
    let (least, sum) = time(|sum| normalise_all(sum, &conjs));
    println!("normalise {columns} {rows} {COUNT} {least} {sum}");
}

fn main() {
    for columns in [4, 8] {
        time_evaluations(columns);
        time_multiples(columns);
        time_normal_forms(columns, 16);
        time_normal_forms(columns, 64);
    }
}
