//! An executable that does next to nothing; built with `--cfg proved` it also calls the proved planner,
//! with `--cfg plain` the one in plain Rust. bench/run builds all three and says by how many bytes the
//! other two are larger.

#[cfg(plain)]
#[allow(dead_code)]
mod plain;

#[cfg(proved)]
extern "C" {
    fn gishronek_plan(bytes: *const u8, length: usize, plan: *mut u8, room: usize) -> u64;
}

fn main() {
    let bytes: Vec<u8> = std::env::args().flat_map(|word| word.into_bytes()).collect();
    let mut plan = vec![0u8; bytes.len()];
    #[cfg(proved)]
    let answer = unsafe { gishronek_plan(bytes.as_ptr(), bytes.len(), plan.as_mut_ptr(), plan.len()) };
    #[cfg(plain)]
    let answer = plain::rust_plan(&bytes, &mut plan);
    #[cfg(not(any(plain, proved)))]
    let answer = plan.iter_mut().map(|byte| *byte as u64).sum::<u64>();
    std::process::exit((answer == 1) as i32);
}
