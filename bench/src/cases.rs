//! The images and the lists that are measured.

/// The size of an image in bytes.
const SIZE: usize = 1 << 20;

/// Landmarks, each a row of words.
pub struct List {
    pub name: &'static str,
    pub landmarks: Vec<Vec<Vec<u8>>>,
}

impl List {
    fn new(name: &'static str, words: Vec<Vec<u8>>, words_a_landmark: usize) -> List {
        let landmarks = words
            .chunks(words_a_landmark)
            .map(<[Vec<u8>]>::to_vec)
            .collect();
        List { name, landmarks }
    }

    pub fn words(&self) -> Vec<Vec<u8>> {
        self.landmarks.concat()
    }

    pub fn run_bytes(&self) -> usize {
        self.words().iter().map(Vec::len).sum()
    }

    /// The records of the list: entry landmarks, with a gap of 0 to 8 bytes between words.
    pub fn bytes(&self) -> Vec<u8> {
        let mut bytes = Vec::new();
        for words in &self.landmarks {
            record(&mut bytes, 1, &[1, 0]);
            for (place, word) in words.iter().enumerate() {
                if place > 0 {
                    record(&mut bytes, 3, &[0, 0, 8, 0]);
                }
                record(&mut bytes, 2, word);
            }
        }
        bytes
    }
}

fn record(bytes: &mut Vec<u8>, kind: u16, body: &[u8]) {
    bytes.extend_from_slice(&(2 + body.len() as u16).to_le_bytes());
    bytes.extend_from_slice(&kind.to_le_bytes());
    bytes.extend_from_slice(body);
}

/// An image with the lists that are looked for in it.
pub struct Image {
    pub name: &'static str,
    pub bytes: Vec<u8>,
    pub lists: Vec<List>,
}

/// Numbers that look random and are the same in each run (xorshift).
pub struct Random(u64);

impl Random {
    pub fn new() -> Random {
        Random(0x9e3779b97f4a7c15)
    }

    fn next(&mut self) -> u64 {
        self.0 ^= self.0 << 13;
        self.0 ^= self.0 >> 7;
        self.0 ^= self.0 << 17;
        self.0
    }

    fn below(&mut self, n: usize) -> usize {
        (self.next() % n as u64) as usize
    }
}

fn number16(bytes: &[u8], at: usize) -> usize {
    usize::from(u16::from_le_bytes(bytes[at..at + 2].try_into().unwrap()))
}

fn number32(bytes: &[u8], at: usize) -> usize {
    u32::from_le_bytes(bytes[at..at + 4].try_into().unwrap()) as usize
}

/// The sections of an object file (ELF, 32 bits) that a program has in memory with their bytes: code and constants.
fn loaded_sections(object: &[u8]) -> Vec<u8> {
    let mut code = Vec::new();
    if object.len() < 52 || &object[..5] != b"\x7fELF\x01" {
        return code;
    }
    let (headers, size, count) = (
        number32(object, 32),
        number16(object, 46),
        number16(object, 48),
    );
    for header in object[headers..].chunks_exact(size).take(count) {
        let (kind, flags) = (number32(header, 4), number32(header, 8));
        if kind == 1 && flags & 2 == 2 {
            let start = number32(header, 16);
            code.extend_from_slice(&object[start..start + number32(header, 20)]);
        }
    }
    code
}

/// The code and constants of all members of an archive.
fn code_in(archive: &[u8]) -> Vec<u8> {
    let mut code = Vec::new();
    let mut at = 8;
    while at + 60 <= archive.len() {
        let size: usize = std::str::from_utf8(&archive[at + 48..at + 58])
            .unwrap()
            .trim()
            .parse()
            .unwrap();
        code.extend(loaded_sections(&archive[at + 60..at + 60 + size]));
        at += 60 + size + size % 2;
    }
    code
}

/// Bytes with some of the look of code: halfwords of few kinds, with small numbers in them.
fn generated_code(random: &mut Random) -> Vec<u8> {
    let kinds: Vec<u8> = (0..48).map(|_| random.next() as u8).collect();
    (0..SIZE / 2)
        .flat_map(|_| {
            [
                (random.next() & random.next()) as u8,
                kinds[random.below(48).min(random.below(48))],
            ]
        })
        .collect()
}

/// Pieces of code with runs of 00 and FF between them.
fn firmware(archive: &str, random: &mut Random) -> Vec<u8> {
    let mut code = code_in(&std::fs::read(archive).unwrap_or_default());
    if code.is_empty() {
        println!(
            "firmware: generated code, since Debian's libnewlib-arm-none-eabi is not installed"
        );
        code = generated_code(random);
    } else {
        println!(
            "firmware: ARM code of Debian's libnewlib-arm-none-eabi, {} bytes of it",
            code.len()
        );
    }
    let mut image = Vec::new();
    while image.len() < SIZE {
        let length = 512 + random.below(4096);
        let from = random.below(code.len() - length);
        image.extend_from_slice(&code[from..from + length]);
        let padding = [0x00, 0xff][random.below(2)];
        image.resize(image.len() + random.below(3000), padding);
    }
    image.truncate(SIZE);
    image
}

/// Words cut from an image, so that each is found; none has one byte value alone, as padding has.
fn words_from(
    image: &[u8],
    random: &mut Random,
    count: usize,
    shortest: usize,
    longest: usize,
) -> Vec<Vec<u8>> {
    let mut words = Vec::new();
    while words.len() < count {
        let length = shortest + random.below(longest - shortest + 1);
        let from = random.below(image.len() - length);
        let word = &image[from..from + length];
        if word.iter().any(|byte| *byte != word[0]) {
            words.push(word.to_vec());
        }
    }
    words
}

/// Words of n bytes of one value, for each length that is given.
fn of_one_value(lengths: impl Iterator<Item = usize>) -> Vec<Vec<u8>> {
    lengths.map(|length| vec![b'a'; length]).collect()
}

/// The images in which words are looked for, with their lists.
pub fn images(archive: &str, random: &mut Random) -> Vec<Image> {
    let bytes = firmware(archive, random);
    let lists = vec![
        List::new("12 landmarks", words_from(&bytes, random, 36, 6, 11), 3),
        List::new("64 short words", words_from(&bytes, random, 64, 2, 4), 2),
        List::new(
            "16 words of 4 bytes",
            words_from(&bytes, random, 16, 4, 4),
            2,
        ),
    ];
    let firmware = Image {
        name: "firmware",
        bytes,
        lists,
    };
    let alike = Image {
        name: "one byte value",
        bytes: vec![b'a'; SIZE],
        lists: vec![
            List::new("words of 1 to 64 bytes", of_one_value(1..=64), 2),
            List::new(
                "64 words of 64 bytes",
                of_one_value([64; 64].into_iter()),
                2,
            ),
            List::new("one word of 64 bytes", of_one_value([64].into_iter()), 1),
        ],
    };
    let broken = Image {
        name: "one byte value, broken after each 63",
        // the last 64 bytes are whole, so that the word is found once
        bytes: (0..SIZE)
            .map(|at| {
                if at % 64 == 63 && at < SIZE - 1 {
                    b'b'
                } else {
                    b'a'
                }
            })
            .collect(),
        lists: vec![List::new(
            "one word of 64 bytes",
            of_one_value([64].into_iter()),
            1,
        )],
    };
    vec![firmware, alike, broken]
}

/// 64 words of 64 bytes of one value, but for what is done to each.
fn alike_but(name: &'static str, mut change: impl FnMut(usize, &mut [u8])) -> List {
    let mut words = of_one_value([64; 64].into_iter());
    for (k, word) in words.iter_mut().enumerate() {
        change(k, word);
    }
    List::new(name, words, 2)
}

/// Lists of 64 words of 64 bytes, for building and mounting alone.
pub fn long_lists(random: &mut Random) -> Vec<List> {
    vec![
        alike_but("all alike", |_, _| ()),
        alike_but("other last bytes", |k, word| word[63] = k as u8),
        alike_but("other first bytes", |k, word| word[0] = k as u8),
        alike_but("one other byte, word k at byte k", |k, word| word[k] = b'b'),
        alike_but("42 bytes shared, then others", |_, word| {
            word[42..].fill_with(|| random.next() as u8)
        }),
    ]
}
