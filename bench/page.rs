// Reading and writing a page of 256 lines: the proved version through the static library, and a plain unproved one, in one run.
// The buffers are not cleared between runs. Prints the median of each in nanoseconds, and their ratio.
use std::hint::black_box;
use std::time::Instant;

extern "C" {
    fn walumiren_read_page(page: *const u8, length: usize) -> u32;
    fn walumiren_copy_page(page: *const u8, length: usize, out: *mut u8, room: usize) -> u32;
}


fn marks(letter: u8) -> Option<[u8; 6]> {
    Some(match letter {
        b'M' => *b"ENE---",
        b'I' => *b"ENEN--",
        b'L' => *b"EN-N-N",
        b'N' | b'X' => *b"ENENEN",
        _ => return None,
    })
}

struct Line {
    letter: u8,
    fields: [u8; 6],
}

fn number(b: &[u8]) -> Option<u16> {
    let digit = |x: u8| if x.is_ascii_digit() { Some((x - b'0') as u16) } else { None };
    match (b[0], b[1]) {
        (b' ', b' ') => digit(b[2]),
        (b' ', y) if y != b'0' => Some(digit(y)? * 10 + digit(b[2])?),
        (x, y) if x != b' ' && x != b'0' => Some(digit(x)? * 100 + digit(y)? * 10 + digit(b[2])?),
        _ => None,
    }
}

fn read(page: &[u8], lines: &mut Vec<Line>) -> Result<(), (u8, usize, usize)> {
    lines.clear();
    if page.len() > 5120 {
        return Err((1, 0, 0));
    }
    for (i, text) in page.chunks(20).enumerate() {
        if text.len() != 20 || text[19] != b'\n' {
            return Err((2, i + 1, 20));
        }
        let row = marks(text[0]).ok_or((3, i + 1, 1))?;
        let mut fields = [0; 6];
        for k in 0..6 {
            let bytes = &text[3 * k + 1..3 * k + 4];
            let most = match row[k] {
                b'E' => 32,
                b'N' => 16,
                _ => 0,
            };
            if most == 0 {
                if bytes != b"   " {
                    return Err((4, i + 1, 3 * k + 2));
                }
            } else {
                let n = number(bytes).ok_or((4, i + 1, 3 * k + 2))?;
                if n < 1 || n > most {
                    return Err((5, i + 1, 3 * k + 2));
                }
                fields[k] = n as u8;
            }
        }
        lines.push(Line { letter: text[0], fields });
    }
    Ok(())
}

fn write(lines: &[Line], out: &mut [u8]) -> usize {
    for (i, line) in lines.iter().enumerate() {
        let text = &mut out[20 * i..20 * i + 20];
        text[0] = line.letter;
        for k in 0..6 {
            let n = line.fields[k];
            let part = &mut text[3 * k + 1..3 * k + 4];
            part[0] = b' ';
            part[1] = if n >= 10 { b'0' + n / 10 } else { b' ' };
            part[2] = if n > 0 { b'0' + n % 10 } else { b' ' };
        }
        text[19] = b'\n';
    }
    20 * lines.len()
}

fn median(mut run: impl FnMut()) -> u128 {
    let mut times: Vec<u128> = (0..501)
        .map(|_| {
            let start = Instant::now();
            run();
            start.elapsed().as_nanos()
        })
        .collect();
    times.sort();
    times[250]
}

fn main() {
    let lines: [&[u8]; 5] = [
        b"M  1  1 32         \n",
        b"I 12 16  3  4      \n",
        b"L  1  3     1    12\n",
        b"N  1  4 11  1  2  1\n",
        b"X 31  5  1 10  2  1\n",
    ];
    let page: Vec<u8> = (0..256).flat_map(|i| lines[i % 5].to_vec()).collect();
    let mut out = vec![0u8; 5120];
    let mut copy = vec![0u8; 5120];
    let mut parsed = Vec::with_capacity(256);
    let proved_read = median(|| assert_eq!(unsafe { walumiren_read_page(page.as_ptr(), page.len()) }, 256));
    let plain_read = median(|| assert!(read(black_box(&page), &mut parsed).is_ok()));
    let proved = median(|| assert_eq!(unsafe { walumiren_copy_page(page.as_ptr(), page.len(), out.as_mut_ptr(), out.len()) }, 5120));
    let plain = median(|| {
        assert!(read(black_box(&page), &mut parsed).is_ok());
        assert_eq!(write(&parsed, black_box(&mut copy)), 5120);
    });
    assert!(out == page && copy == page);
    println!("reading 256 lines: proved {proved_read} ns, plain {plain_read} ns, ratio {:.2}", proved_read as f64 / plain_read as f64);
    println!("reading and writing: proved {proved} ns, plain {plain} ns, ratio {:.2}", proved as f64 / plain as f64);
}
