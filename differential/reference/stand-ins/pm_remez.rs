//! Stands in for the filter design: the design of so many taps is the lent filter of that length.

pub struct BandSetting;

pub struct Constant;

pub fn constant(_value: f64) -> Constant {
    Constant
}

impl BandSetting {
    pub fn with_weight(
        _begin: f64,
        _end: f64,
        _response: Constant,
        _weight: Constant,
    ) -> Result<BandSetting, ()> {
        Ok(BandSetting)
    }
}

pub struct Parameters {
    num_taps: usize,
}

pub fn pm_parameters(num_taps: usize, _bands: &[BandSetting]) -> Result<Parameters, ()> {
    Ok(Parameters { num_taps })
}

pub struct Design {
    pub impulse_response: Vec<f64>,
    pub flatness: f64,
}

pub fn pm_remez(parameters: &Parameters) -> Result<Design, ()> {
    Ok(Design {
        impulse_response: lent::taps(parameters.num_taps)
            .into_iter()
            .map(f64::from)
            .collect(),
        flatness: 0.0,
    })
}
