//! Keccak-256 vectors that others have published, as plain data.

/// The Keccak team's ShortMsgKAT_256, lengths 0 to 72 bits: message and digest.
pub const KECCAK_TEAM: [(&str, &str); 10] = [
    ("", "c5d2460186f7233c927e7db2dcc703c0e500b653ca82273b7bfad8045d85a470"),
    ("cc", "eead6dbfc7340a56caedc044696a168870549a6a7f6f56961e84a54bd9970b8a"),
    ("41fb", "a8eaceda4d47b3281a795ad9e1ea2122b407baf9aabcb9e18b5717b7873537d2"),
    ("1f877c", "627d7bc1491b2ab127282827b8de2d276b13d7d70fb4c5957fdf20655bc7ac30"),
    ("c1ecfdfc", "b149e766d7612eaf7d55f74e1a4fdd63709a8115b14f61fcd22aa4abc8b8e122"),
    ("21f134ac57", "67f05544dbe97d5d6417c1b1ea9bc0e3a99a541381d1cd9b08a9765687eb5bb4"),
    ("c6f50bb74e29", "923062c4e6f057597220d182dbb10e81cd25f60b54005b2a75dd33d6dac518d0"),
    ("119713cc83eeef", "feb8405dcd315d48c6cbf7a3504996de8e25cc22566efec67433712eda99894f"),
    ("4a4f202484512526", "e620d8f2982b24fedaaa3baa9b46c3f9ce204ee356666553ecb35e15c3ff9bf9"),
    ("1f66ab4185ed9b6375", "9e03f7c9a3d055eca1d786ed6fb624d93f1cf0ac27f9c2b6c05e509fac9e7fca"),
];

/// The Keccak-256 part of Crypto++'s TestVectors/keccak.txt: a piece, how often it stands in the message, and the digest.
pub const CRYPTO_PP: [(&str, usize, &str); 7] = [
    ("", 1, "c5d2460186f7233c927e7db2dcc703c0e500b653ca82273b7bfad8045d85a470"),
    (
        "The quick brown fox jumps over the lazy dog",
        1,
        "4d741b6f1eb29cb2a9b9911c82f56fa8d73b04959d3d9d222895df6c0b28aa15",
    ),
    (
        "The quick brown fox jumps over the lazy dog.",
        1,
        "578951e24efd62a3d63a86f7cd19aaa53c898fe287d2552133220370240b572d",
    ),
    ("abc", 1, "4e03657aea45a94fc7d47ba826c8d667c0d1e6e33a64a036ec44f58fa12d6c45"),
    (
        "abcdbcdecdefdefgefghfghighijhijkijkljklmklmnlmnomnopnopq",
        1,
        "45d3b367a6904e6e8d502ee04999a7c27647f91fa845d456525fd352ae3d7371",
    ),
    (
        "abcdefghbcdefghicdefghijdefghijkefghijklfghijklmghijklmnhijklmnoijklmnopjklmnopqklmnopqrlmnopqrsmnopqrstnopqrstu",
        1,
        "f519747ed599024f3882238e5ab43960132572b7345fbeb9a90769dafd21ad67",
    ),
    (
        "aaaaaaaaaaaaaaaaaaaaaaaaaaaaaaaaaaaaaaaaaaaaaaaaaaaaaaaaaaaaaaaa",
        15_625,
        "fadae6b49f129bbb812be8407b7b2894f34aecf6dbd1f9b0f0c7e9853098fc96",
    ),
];
