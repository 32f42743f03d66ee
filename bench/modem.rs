//! The modem as a plain loop: writes a frame of 143 octets as samples and reads it back, so many times as the first word says;
//! with two words more, how far noise moves a sample at most and its number, the samples are moved in between.
use std::env;

const SIGNS: [i32; 8] = [1, 1, -1, 1, -1, -1, 1, -1];

fn write(octets: &[u8], samples: &mut Vec<i16>) {
    samples.clear();
    for octet in octets {
        for place in (0..8).rev() {
            let loud = if octet >> place & 1 == 1 { 1000 } else { -1000 };
            samples.extend(SIGNS.iter().map(|sign| (loud * sign) as i16));
        }
    }
}

fn add_noise(samples: &mut [i16], most: u32, x: &mut u32) {
    for sample in samples {
        *x = x.wrapping_mul(1_664_525).wrapping_add(1_013_904_223);
        *sample += ((*x >> 16) % (2 * most + 1)) as i16 - most as i16;
    }
}

/// The octets that the samples say, none where a bit is unsure.
fn read(samples: &[i16], octets: &mut Vec<u8>) -> bool {
    octets.clear();
    for block in samples.chunks_exact(64) {
        let mut octet = 0;
        for bit in block.chunks_exact(8) {
            let sum: i32 = bit.iter().zip(SIGNS).map(|(sample, sign)| i32::from(*sample) * sign).sum();
            if sum.abs() < 4000 {
                return false;
            }
            octet = 2 * octet + u8::from(sum > 0);
        }
        octets.push(octet);
    }
    true
}

fn main() {
    let words: Vec<u32> = env::args().skip(1).filter_map(|word| word.parse().ok()).collect();
    let mut frame: Vec<u8> = (0..143).map(|place| (place * 37 % 256) as u8).collect();
    frame[..3].copy_from_slice(&[3, 1, 0]);
    let (mut samples, mut octets) = (Vec::with_capacity(9152), Vec::with_capacity(143));
    let mut x = words.get(2).copied().unwrap_or(0);
    let mut good = 0;
    for _ in 0..words.first().copied().unwrap_or(0) {
        write(&frame, &mut samples);
        if let [_, most, _] = words[..] {
            add_noise(&mut samples, most, &mut x);
        }
        good += u32::from(read(&samples, &mut octets) && octets == frame);
    }
    println!("{good}");
}
