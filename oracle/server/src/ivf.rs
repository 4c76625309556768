//! Stand-in for the missing src/ivf.rs. No operation under comparison uses it: it only lets
//! container.rs and assemble.rs compile.

pub struct IvfFile {
    pub width: u16,
    pub height: u16,
    pub timebase_den: u32,
    pub timebase_num: u32,
    pub frames: Vec<(u64, Vec<u8>)>,
}

impl IvfFile {
    pub fn rate(&self) -> (u32, u32) {
        (self.timebase_den.max(1), self.timebase_num.max(1))
    }
}

pub fn read(_data: &[u8]) -> anyhow::Result<IvfFile> {
    anyhow::bail!("stand-in: no IVF reader")
}

pub fn gcd(a: u64, b: u64) -> u64 {
    if b == 0 {
        a.max(1)
    } else {
        gcd(b, a % b)
    }
}
