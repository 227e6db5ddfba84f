//! Plans, settings, dimensions and directions as they stand in lines, and as
//! the Rust has them.

use std::collections::HashMap;

use crate::distribution::{
    CategoricalDistribution, Distribution, FloatDistribution, IntDistribution,
};
use crate::multi_objective::MultiObjectiveTrial;
use crate::param::ParamValue;
use crate::parameter::ParamId;
use crate::sampler::genetic::DimensionInfo;
use crate::types::{Direction, TrialState};
use crate::words::{Reader, of_int, of_real, push_counted_reals, to_int, to_real};

/// A plan: number, row, constraints, settings (parameter number, kind, value).
#[derive(Clone, Debug)]
pub struct Plan {
    pub number: u64,
    pub values: Vec<f64>,
    pub constraints: Vec<f64>,
    pub settings: Vec<(u64, u64, u64)>,
}

impl Plan {
    pub fn read(reader: &mut Reader) -> Result<Self, String> {
        Ok(Plan {
            number: reader.number()?,
            values: reader.counted(Reader::real)?,
            constraints: reader.counted(Reader::real)?,
            settings: reader.counted(|r| Ok((r.number()?, r.number()?, r.number()?)))?,
        })
    }

    pub fn write(&self, line: &mut Vec<u64>) {
        line.push(self.number);
        push_counted_reals(line, &self.values);
        push_counted_reals(line, &self.constraints);
        line.push(self.settings.len() as u64);
        for &(parameter, kind, value) in &self.settings {
            line.extend([parameter, kind, value]);
        }
    }

    /// The record of a plan without constraints: parameters 1, 2, ... for the
    /// dimensions.
    pub fn record(number: u64, values: &[f64], settings: &[ParamValue]) -> Self {
        let words = settings.iter().map(setting_words);
        Plan {
            number,
            values: values.to_vec(),
            constraints: Vec::new(),
            settings: (1..).zip(words).map(|(p, [k, w])| (p, k, w)).collect(),
        }
    }

    /// The Rust's record; what document 01 leaves out is empty.
    pub fn trial(&self) -> MultiObjectiveTrial {
        MultiObjectiveTrial {
            id: self.number,
            params: self
                .settings
                .iter()
                .map(|&(parameter, kind, value)| (ParamId(parameter), setting(kind, value)))
                .collect(),
            distributions: HashMap::new(),
            param_labels: HashMap::new(),
            values: self.values.clone(),
            state: TrialState::Complete,
            user_attrs: HashMap::new(),
            constraints: self.constraints.clone(),
        }
    }
}

pub fn write_plans(line: &mut Vec<u64>, plans: &[Plan]) {
    line.push(plans.len() as u64);
    for plan in plans {
        plan.write(line);
    }
}

pub fn setting(kind: u64, value: u64) -> ParamValue {
    match kind {
        0 => ParamValue::Float(to_real(value)),
        1 => ParamValue::Int(to_int(value)),
        _ => ParamValue::Categorical(value as usize),
    }
}

pub fn read_setting(reader: &mut Reader) -> Result<ParamValue, String> {
    let kind = reader.number()?;
    if kind > 2 {
        return Err(format!("{kind} is no kind of setting"));
    }
    Ok(setting(kind, reader.number()?))
}

/// Kind and value.
pub fn setting_words(value: &ParamValue) -> [u64; 2] {
    match *value {
        ParamValue::Float(x) => [0, of_real(x)],
        ParamValue::Int(n) => [1, of_int(n)],
        ParamValue::Categorical(c) => [2, c as u64],
    }
}

pub fn write_setting(line: &mut Vec<u64>, value: &ParamValue) {
    line.extend(setting_words(value));
}

/// Kind 0 Float: low, high. 1 Int: low, high, step (0 for none). 2
/// Categorical: choices. 3 and 4 are Float and Int with all their fields
/// (log mark, step mark, step), for a Float with a step and for what refusals 6
/// and 12 turn down.
pub fn read_dimension(reader: &mut Reader) -> Result<Distribution, String> {
    Ok(match reader.number()? {
        0 => float(reader.real()?, reader.real()?),
        1 => {
            let (low, high, step) = (reader.int()?, reader.int()?, reader.int()?);
            int(low, high, (step != 0).then_some(step))
        }
        2 => choices(reader.count()?),
        3 => Distribution::Float(FloatDistribution {
            low: reader.real()?,
            high: reader.real()?,
            log_scale: reader.flag()?,
            step: reader.optional()?.map(to_real),
        }),
        4 => Distribution::Int(IntDistribution {
            low: reader.int()?,
            high: reader.int()?,
            log_scale: reader.flag()?,
            step: reader.optional()?.map(to_int),
        }),
        kind => return Err(format!("{kind} is no kind of dimension")),
    })
}

/// A dimension with all its fields, as the static library has it: kind, low,
/// high, log mark, step mark, step. A Categorical one is kind and choices.
pub fn dimension_words(dimension: &Distribution) -> [u64; 6] {
    let marked = |kind, low, high, log_scale, step: Option<u64>| {
        let marks = [log_scale, step.is_some()].map(u64::from);
        [kind, low, high, marks[0], marks[1], step.unwrap_or(0)]
    };
    match dimension {
        Distribution::Float(d) => {
            let (low, high) = (of_real(d.low), of_real(d.high));
            marked(0, low, high, d.log_scale, d.step.map(of_real))
        }
        Distribution::Int(d) => {
            let (low, high) = (of_int(d.low), of_int(d.high));
            marked(1, low, high, d.log_scale, d.step.map(of_int))
        }
        Distribution::Categorical(d) => [2, d.n_choices as u64, 0, 0, 0, 0],
    }
}

/// The shortest form that has these words.
pub fn write_words(line: &mut Vec<u64>, words: [u64; 6]) {
    match words {
        [0, low, high, 0, 0, _] => line.extend([0, low, high]),
        // The short form has no step of 0.
        [1, low, high, 0, stepped, step] if stepped == 0 || step != 0 => {
            line.extend([1, low, high, step]);
        }
        [2, choices, ..] => line.extend([2, choices]),
        [kind, rest @ ..] => {
            line.push(kind + 3);
            line.extend(rest);
        }
    }
}

pub fn write_dimension(line: &mut Vec<u64>, dimension: &Distribution) {
    write_words(line, dimension_words(dimension));
}

/// A plain Float dimension.
pub fn float(low: f64, high: f64) -> Distribution {
    Distribution::Float(FloatDistribution {
        low,
        high,
        log_scale: false,
        step: None,
    })
}

/// A Float dimension with a step (M-103).
pub fn stepped(low: f64, high: f64, step: f64) -> Distribution {
    Distribution::Float(FloatDistribution {
        low,
        high,
        log_scale: false,
        step: Some(step),
    })
}

pub fn int(low: i64, high: i64, step: Option<i64>) -> Distribution {
    Distribution::Int(IntDistribution {
        low,
        high,
        log_scale: false,
        step,
    })
}

pub fn choices(n_choices: usize) -> Distribution {
    Distribution::Categorical(CategoricalDistribution { n_choices })
}

pub fn read_dimensions(reader: &mut Reader) -> Result<Vec<Distribution>, String> {
    reader.counted(read_dimension)
}

pub fn write_dimensions(line: &mut Vec<u64>, dimensions: &[Distribution]) {
    line.push(dimensions.len() as u64);
    for dimension in dimensions {
        write_dimension(line, dimension);
    }
}

pub fn infos(dimensions: &[Distribution]) -> Vec<DimensionInfo> {
    dimensions
        .iter()
        .map(|d| DimensionInfo {
            distribution: d.clone(),
        })
        .collect()
}

/// m and its direction marks, as they stand.
pub fn read_marks(reader: &mut Reader) -> Result<Vec<u64>, String> {
    reader.counted(Reader::number)
}

pub fn write_marks(line: &mut Vec<u64>, marks: &[u64]) {
    line.push(marks.len() as u64);
    line.extend(marks);
}

/// For commands that look at no refusal: the marks have to be 0 or 1.
pub fn read_directions(reader: &mut Reader) -> Result<Vec<Direction>, String> {
    let marks = read_marks(reader)?;
    if marks.is_empty() || marks.iter().any(|&mark| mark > 1) {
        return Err("objectives or direction marks are not fit".to_string());
    }
    Ok(directions(&marks))
}

pub fn directions(marks: &[u64]) -> Vec<Direction> {
    marks
        .iter()
        .map(|&mark| {
            if mark == 0 {
                Direction::Minimize
            } else {
                Direction::Maximize
            }
        })
        .collect()
}
