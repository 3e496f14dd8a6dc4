//! Seeded numbers (splitmix64), most of them at or beside an edge of their width.

pub struct Rng(u64);

fn mix(mut z: u64) -> u64 {
    z = (z ^ (z >> 30)).wrapping_mul(0xBF58_476D_1CE4_E5B9);
    z = (z ^ (z >> 27)).wrapping_mul(0x94D0_49BB_1331_11EB);
    z ^ (z >> 31)
}

impl Rng {
    /// The stream of one question: of a seed, an op, and the question's place in the op's run.
    pub fn new(seed: u64, op: u32, place: u64) -> Rng {
        Rng(mix(mix(mix(seed) ^ u64::from(op)) ^ place))
    }

    pub fn next(&mut self) -> u64 {
        self.0 = self.0.wrapping_add(0x9E37_79B9_7F4A_7C15);
        mix(self.0)
    }

    /// From 0 up to, but not, n.
    pub fn below(&mut self, n: u64) -> u64 {
        ((u128::from(self.next()) * u128::from(n)) >> 64) as u64
    }

    /// From a to b, both included.
    pub fn between(&mut self, a: i64, b: i64) -> i64 {
        a.wrapping_add(self.below((b.wrapping_sub(a) as u64) + 1) as i64)
    }

    /// Once in n.
    pub fn once_in(&mut self, n: u64) -> bool {
        self.below(n) == 0
    }

    pub fn pick<T: Copy>(&mut self, list: &[T]) -> T {
        list[self.below(list.len() as u64) as usize]
    }

    /// A number of at most this many bits, small ones as likely as large ones.
    pub fn bits(&mut self, most: u32) -> u64 {
        let width = self.below(u64::from(most) + 1) as u32;
        if width == 0 { 0 } else { self.next() >> (64 - width) }
    }

    pub fn u32(&mut self) -> u32 {
        match self.below(8) {
            0 => self.below(4) as u32,
            1 => self.below(20) as u32,
            2 => ((1u64 << self.below(33)) as u32).wrapping_add(self.below(5) as u32).wrapping_sub(2),
            3 => u32::MAX - self.below(4) as u32,
            4 => self.below(1000) as u32,
            5 => self.next() as u32,
            _ => self.bits(32) as u32,
        }
    }

    pub fn u64(&mut self) -> u64 {
        match self.below(8) {
            0 => self.below(4),
            1 => self.below(1000),
            2 => (1u128 << self.below(65)).wrapping_add(u128::from(self.below(5))).wrapping_sub(2) as u64,
            3 => u64::MAX - self.below(4),
            4 => self.next(),
            5 => u64::from(self.u32()),
            _ => self.bits(64),
        }
    }

    pub fn i64(&mut self) -> i64 {
        match self.below(8) {
            0 => self.between(-3, 3),
            1 => self.between(-1000, 1000),
            2 => i64::MIN + self.below(4) as i64,
            3 => i64::MAX - self.below(4) as i64,
            _ => self.u64() as i64,
        }
    }

    /// The float before, the float itself, or the one behind; of any of them a NaN may come.
    pub fn beside(&mut self, x: f64) -> f64 {
        match self.below(4) {
            0 => x.next_down(),
            1 => x.next_up(),
            _ => x,
        }
    }

    /// The bits of a float of 64 bits: NaNs of each kind and sign, zeros, infinities, subnormals, ties and their
    /// neighbours, the ends of the widths, and plain numbers.
    pub fn f64_bits(&mut self) -> u64 {
        let sign = self.below(2) << 63;
        match self.below(12) {
            0 => {
                sign | self.pick(&[
                    0x7ff8_0000_0000_0000,
                    0x7ff0_0000_0000_0001,
                    0x7ff7_ffff_ffff_ffff,
                    0x7fff_ffff_ffff_ffff,
                ])
            }
            1 => {
                sign | self.pick(&[
                    0,
                    0x7ff0_0000_0000_0000,
                    1,
                    0x000f_ffff_ffff_ffff,
                    0x0010_0000_0000_0000,
                    0x7fef_ffff_ffff_ffff,
                ])
            }
            2 => sign | self.beside(self.pick_half()).to_bits(),
            3 => {
                let power = self.pick(&[31.0, 32.0, 51.0, 52.0, 53.0, 62.0, 63.0, 64.0f64]);
                sign | self.beside(power.exp2()).to_bits()
            }
            4 => self.next(),
            5 => sign | (self.below(1000) as f64).to_bits(),
            6 => sign | (self.below(100_000) as f64 / 64.0).to_bits(),
            7 => sign | (self.bits(53) as f64).to_bits(),
            _ => (self.below(1 << 40) as f64 / self.pick(&[1e3, 1e6, 1e9, 7.0, 3.0])).to_bits(),
        }
    }

    /// A half, of a small whole number or of one that floats hold only just.
    fn pick_half(&self) -> f64 {
        let small = (self.0 % 9) as f64 + 0.5;
        if self.0 % 3 == 0 { 4_503_599_627_370_495.5 - 2.0 * small.floor() } else { small }
    }

    /// The bits of a float of 32 bits, by the same kinds.
    pub fn f32_bits(&mut self) -> u32 {
        let sign = (self.below(2) as u32) << 31;
        match self.below(8) {
            0 => sign | self.pick(&[0x7fc0_0000, 0x7f80_0001, 0x7fbf_ffff, 0x7fff_ffff]),
            1 => sign | self.pick(&[0, 0x7f80_0000, 1, 0x007f_ffff, 0x0080_0000, 0x7f7f_ffff]),
            2 => self.next() as u32,
            3 => sign | (self.below(64) as f32 / 8.0).to_bits(),
            4 => (self.pick(&[0.5f32, 1.0, 2.0, 16_777_216.0, 4_294_967_296.0]).to_bits() - 1) + self.below(3) as u32,
            _ => (self.below(4096) as f32 / self.pick(&[1.0, 4.0, 16.0, 10.0, 3.0])).to_bits(),
        }
    }

    /// The bits of a tempo: mostly one that is played, else any float.
    pub fn bpm(&mut self) -> u32 {
        match self.below(10) {
            0..=3 => self.pick(&[60.0f32, 120.0, 30.0, 15.0, 240.0, 90.0, 100.0, 61.7, 133.33]).to_bits(),
            4 => (1.0f32.to_bits() - 2) + self.below(5) as u32,
            5 => (self.below(30_000) as f32 / 100.0).to_bits(),
            6 => self
                .pick(&[0.0f32, -0.0, 0.5, -1.0, -120.0, 1e-40, f32::MAX, f32::INFINITY, f32::NEG_INFINITY])
                .to_bits(),
            _ => self.f32_bits(),
        }
    }

    pub fn rate(&mut self) -> u32 {
        match self.below(8) {
            0..=3 => self.pick(&[44_100, 48_000, 96_000, 22_050, 8_000, 192_000]),
            4 => self.pick(&[0, 1, 2, 3, u32::MAX, u32::MAX - 1, 1 << 31, 1 << 16]),
            5 => self.below(200_000) as u32,
            _ => self.u32(),
        }
    }
}
