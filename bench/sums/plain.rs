//! The same passes as the proved program, over the same bytes, by a plain slicing by 16 in its usual order, by the
//! processor's instruction (ISA-L's `crc32_iscsi_00`, which has CRC32C by `crc32`, and `crc32_gzip_refl_by8_02`, which has
//! CRC32 by `PCLMULQDQ`: what ISA-L takes where the processor has no wider ones), and by what ISA-L takes on this
//! processor. The lines have the name of the way in front of those of the proved program.

use std::time::Instant;

#[link(name = "isal")]
unsafe extern "C" {
    fn crc32_iscsi_00(buffer: *const u8, len: i32, init: u32) -> u32;
    fn crc32_gzip_refl_by8_02(init: u32, buffer: *const u8, len: u64) -> u32;
    fn crc32_iscsi(buffer: *const u8, len: i32, init: u32) -> u32;
    fn crc32_gzip_refl(init: u32, buffer: *const u8, len: u64) -> u32;
}

type Table = [[u32; 256]; 16];

const fn table(polynomial: u32) -> Table {
    let mut rows = [[0; 256]; 16];
    let mut byte = 0;
    while byte < 256 {
        let mut state = byte as u32;
        let mut bit = 0;
        while bit < 8 {
            state = if state & 1 == 1 { (state >> 1) ^ polynomial } else { state >> 1 };
            bit += 1;
        }
        rows[0][byte] = state;
        byte += 1;
    }
    let mut row = 1;
    while row < 16 {
        let mut byte = 0;
        while byte < 256 {
            let before = rows[row - 1][byte];
            rows[row][byte] = rows[0][(before & 0xff) as usize] ^ (before >> 8);
            byte += 1;
        }
        row += 1;
    }
    rows
}

static CRC32C: Table = table(0x82F6_3B78);
static CRC32: Table = table(0xEDB8_8320);

/// Slicing by 16, first byte first.
#[inline(always)]
fn slicing(table: &'static Table, sum: u32, body: &[u8]) -> u32 {
    let mut state = !sum;
    let mut chunks = body.chunks_exact(16);
    for c in &mut chunks {
        let first = (state ^ u32::from_le_bytes([c[0], c[1], c[2], c[3]])).to_le_bytes();
        state = table[15][first[0] as usize]
            ^ table[14][first[1] as usize]
            ^ table[13][first[2] as usize]
            ^ table[12][first[3] as usize]
            ^ table[11][c[4] as usize]
            ^ table[10][c[5] as usize]
            ^ table[9][c[6] as usize]
            ^ table[8][c[7] as usize]
            ^ table[7][c[8] as usize]
            ^ table[6][c[9] as usize]
            ^ table[5][c[10] as usize]
            ^ table[4][c[11] as usize]
            ^ table[3][c[12] as usize]
            ^ table[2][c[13] as usize]
            ^ table[1][c[14] as usize]
            ^ table[0][c[15] as usize];
    }
    for byte in chunks.remainder() {
        state = table[0][((state ^ u32::from(*byte)) & 0xff) as usize] ^ (state >> 8);
    }
    !state
}

#[inline(never)]
fn plain_crc32c(sum: u32, body: &[u8]) -> u32 {
    slicing(&CRC32C, sum, body)
}

#[inline(never)]
fn plain_crc32(sum: u32, body: &[u8]) -> u32 {
    slicing(&CRC32, sum, body)
}

#[inline(never)]
fn instruction_crc32c(sum: u32, body: &[u8]) -> u32 {
    !unsafe { crc32_iscsi_00(body.as_ptr(), body.len() as i32, !sum) }
}

#[inline(never)]
fn instruction_crc32(sum: u32, body: &[u8]) -> u32 {
    unsafe { crc32_gzip_refl_by8_02(sum, body.as_ptr(), body.len() as u64) }
}

#[inline(never)]
fn isal_crc32c(sum: u32, body: &[u8]) -> u32 {
    !unsafe { crc32_iscsi(body.as_ptr(), body.len() as i32, !sum) }
}

#[inline(never)]
fn isal_crc32(sum: u32, body: &[u8]) -> u32 {
    unsafe { crc32_gzip_refl(sum, body.as_ptr(), body.len() as u64) }
}

fn noise(len: usize) -> Vec<u8> {
    let mut state = 1u32;
    (0..len)
        .map(|_| {
            state = state.wrapping_mul(1_664_525).wrapping_add(1_013_904_223);
            (state >> 24) as u8
        })
        .collect()
}

fn write_sums<F: Fn(u32, &[u8]) -> u32>(extend: F, body: &[u8], chunk: usize, into: &mut [u8]) {
    for (piece, word) in body.chunks(chunk).zip(into.chunks_exact_mut(4)) {
        word.copy_from_slice(&extend(0, piece).to_be_bytes());
    }
}

fn first_bad<F: Fn(u32, &[u8]) -> u32>(extend: F, body: &[u8], chunk: usize, sums: &[u8]) -> Option<usize> {
    body.chunks(chunk)
        .zip(sums.chunks_exact(4))
        .position(|(piece, word)| extend(0, piece) != u32::from_be_bytes([word[0], word[1], word[2], word[3]]))
}

fn best(rounds: u32, passes: u32, mut pass: impl FnMut()) -> u128 {
    (0..rounds)
        .map(|_| {
            let start = Instant::now();
            for _ in 0..passes {
                pass();
            }
            start.elapsed().as_nanos()
        })
        .min()
        .unwrap()
}

fn all<F: Fn(u32, &[u8]) -> u32 + Copy>(way: &str, kind: &str, extend: F) {
    let mut body = noise(65_536);
    for chunk in [512, 1024, 2048, 4096] {
        let mut sums = vec![0; 4 * (65_536 / chunk)];
        let nanos = best(400, 16, || {
            body[0] = body[0].wrapping_add(1);
            write_sums(extend, &body, chunk, &mut sums);
        });
        println!("{way} {kind}-writing-{chunk} 65536 16 {nanos} {}", extend(0, &sums));
        write_sums(extend, &body, chunk, &mut sums);
        body[65_535] ^= 1;
        let mut other = sums.clone();
        write_sums(extend, &body, chunk, &mut other);
        body[65_535] ^= 1;
        for (case, is_right) in [("testing", true), ("refusing", false)] {
            let (mut found, mut pass) = (0u64, 0);
            let nanos = best(400, 16, || {
                body[65_535] ^= 1;
                let noted = if (pass % 2 == 0) == is_right { &other } else { &sums };
                pass += 1;
                found = found.wrapping_add(first_bad(extend, &body, chunk, noted).unwrap_or(1) as u64);
            });
            println!("{way} {kind}-{case}-{chunk} 65536 16 {nanos} {found}");
        }
    }
    for (len, rounds, passes) in [(65_536, 400, 16), (1_048_576, 200, 4), (67_108_864, 12, 1)] {
        let body = noise(len);
        let mut sum = 0;
        let nanos = best(rounds, passes, || sum = extend(sum, &body));
        println!("{way} {kind}-body {len} {passes} {nanos} {sum}");
    }
}

fn main() {
    all("plain", "crc32c", plain_crc32c);
    all("instruction", "crc32c", instruction_crc32c);
    all("isal", "crc32c", isal_crc32c);
    all("plain", "crc32", plain_crc32);
    all("instruction", "crc32", instruction_crc32);
    all("isal", "crc32", isal_crc32);
}
