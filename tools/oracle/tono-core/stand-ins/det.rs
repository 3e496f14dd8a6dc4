//! Stands in for the fixed math kernels that dsp.rs names. No question reaches them.

pub fn sinf(x: f32) -> f32 {
    x.sin()
}
pub fn cosf(x: f32) -> f32 {
    x.cos()
}
pub fn expf(x: f32) -> f32 {
    x.exp()
}
pub fn lnf(x: f32) -> f32 {
    x.ln()
}
pub fn powff(x: f32, y: f32) -> f32 {
    x.powf(y)
}
pub fn tanhf(x: f32) -> f32 {
    x.tanh()
}
pub fn log10f(x: f32) -> f32 {
    x.log10()
}
pub fn sin(x: f64) -> f64 {
    x.sin()
}
pub fn cos(x: f64) -> f64 {
    x.cos()
}
pub fn powf(x: f64, y: f64) -> f64 {
    x.powf(y)
}
pub fn log10(x: f64) -> f64 {
    x.log10()
}
