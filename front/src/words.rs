//! Numbers for reading.

/// The shortest decimal that reads back to the same float.
pub fn shortest(x: f32) -> String {
    if x.is_nan() {
        "NaN".to_string()
    } else if x.is_finite() && x != 0.0 && !(1e-5..1e16).contains(&x.abs()) {
        format!("{x:e}")
    } else {
        format!("{x}")
    }
}

/// Rounded to so many places, never `-0`.
pub fn rounded(x: f64, places: usize) -> String {
    let text = format!("{x:.places$}");
    if text.starts_with('-') && text.bytes().all(|b| b"-0.".contains(&b)) {
        text[1..].to_string()
    } else {
        text
    }
}

/// A length of 0 or more, rounded to so many places; 0 is 0 alone, and one that would read as 0 and is not is said to be below the last place.
pub fn length(x: f64, places: usize) -> String {
    let text = rounded(x, places);
    if x == 0.0 {
        "0".to_string()
    } else if x > 0.0 && text.bytes().all(|b| b"0.".contains(&b)) {
        format!("below {}", rounded(0.1f64.powi(places as i32), places))
    } else {
        text
    }
}

/// A length that may be below 0, as what radii leave of a gap.
pub fn signed(x: f64, places: usize) -> String {
    if x < 0.0 {
        match length(-x, places).strip_prefix("below ") {
            Some(last) => format!("above -{last}"),
            None => format!("-{}", length(-x, places)),
        }
    } else {
        length(x, places)
    }
}

/// A fraction rounded down to four places. A float times 10,000 is exact in 64 bits.
pub fn fraction_down(x: f32) -> String {
    rounded((f64::from(x) * 1e4).floor() / 1e4, 4)
}

/// A fraction rounded up to four places.
pub fn fraction_up(x: f32) -> String {
    rounded((f64::from(x) * 1e4).ceil() / 1e4, 4)
}

/// What two radii leave of a distance, never told too large: rounded down to three digits; none where nothing is left.
pub fn downward(distance: f32, radii: [f32; 2]) -> Option<String> {
    // each step is rounded at most to the float beside: one further down is not above
    let below = |x: f64, exact: bool| if exact || x <= 0.0 { x } else { f64::from_bits(x.to_bits() - 1) };
    let [distance, a, b] = [distance, radii[0], radii[1]].map(f64::from);
    let first = below(distance - a, (distance - a) + a == distance && distance - (distance - a) == a);
    let left = below(first - b, (first - b) + b == first && first - (first - b) == b);
    if !(left > 0.0 && left.is_finite()) {
        return None;
    }
    // so many places behind the point, or so many zeros before it
    let places = (2.0 - left.log10().floor()).clamp(-6.0, 12.0) as i32;
    let (up, down) = (10f64.powi(places.max(0)), 10f64.powi(-places.min(0)));
    let mut digits = (left * up / down).floor();
    // the sign of a fused product is that of the exact one
    if left.mul_add(up, -digits * down) < 0.0 {
        digits -= 1.0;
    }
    (digits > 0.0).then(|| rounded(digits * down / up, places.max(0) as usize))
}

/// Text for a page: what XML takes for its own is spelt out.
pub fn escaped(text: &str) -> String {
    let mut out = String::with_capacity(text.len());
    for c in text.chars() {
        match c {
            '&' => out.push_str("&amp;"),
            '<' => out.push_str("&lt;"),
            '>' => out.push_str("&gt;"),
            '"' => out.push_str("&quot;"),
            // no control sign is a sign of XML
            c if c < ' ' || c == '\u{7f}' || c == '\u{fffe}' || c == '\u{ffff}' => out.push('\u{fffd}'),
            c => out.push(c),
        }
    }
    out
}

#[cfg(test)]
mod tests {
    use super::*;

    #[test]
    fn the_shortest_reads_back() {
        for bits in [0u32, 1, 0x8000_0000, 0x3f19_9999, 0x7f7f_ffff, 0x3f80_0001, 0x3727_c5ac, 0x5a0e_1bca, 0x7f80_0000, 0xff80_0000] {
            let text = shortest(f32::from_bits(bits));
            assert_eq!(text.parse::<f32>().unwrap().to_bits(), bits, "{text}");
            assert!(text.len() < 20, "{text}");
        }
        assert_eq!([0.1, 5e-4, 1e-30, f32::NAN].map(shortest), ["0.1", "0.0005", "1e-30", "NaN"]);
    }

    #[test]
    fn rounded_for_reading() {
        assert_eq!(rounded(-0.001, 2), "0.00");
        assert_eq!(rounded(-0.006, 2), "-0.01");
        assert_eq!(rounded(0.59994, 4), "0.5999");
        assert_eq!(length(0.00001, 4), "below 0.0001");
        assert_eq!([length(0.0, 4), length(0.5, 4)], ["0", "0.5000"]);
        assert_eq!([signed(-0.5, 2), signed(-1e-9, 2), signed(0.0, 2), signed(0.25, 2)], ["-0.50", "above -0.01", "0", "0.25"]);
        // a fraction that is the very number, 0.5, and one that is not
        assert_eq!([fraction_down(0.5), fraction_up(0.5), fraction_down(0.187_29), fraction_up(0.187_21)], ["0.5000", "0.5000", "0.1872", "0.1873"]);
        assert_eq!(escaped("a<b>&\"\u{1}"), "a&lt;b&gt;&amp;&quot;\u{fffd}");
    }
    /// A distance that is proved is told by three digits, and never too large.
    #[test]
    fn what_is_kept_is_rounded_down() {
        let none = [0.0, 0.0];
        let told = |distance, radii| downward(distance, radii).unwrap_or_default();
        assert_eq!([0.187_99, 6.995, 1.0, 12.5, 1234.75].map(|distance| told(distance, none)), ["0.187", "6.99", "1.00", "12.5", "1230"]);
        assert_eq!([told(0.005, none), told(1e-6, none), told(1e-20, none)], ["0.00499", "0.000000999", ""]);
        assert_eq!([told(1.5, [0.5, 0.25]), told(1.5, [1.0, 0.5]), told(1.0, [1.0, 0.5]), told(f32::NAN, none)], ["0.750", "", "", ""]);
        // less than any float of 64 bits beside the distance: one step down, and not none
        assert_eq!([told(1.0, [1e-30, 0.0]), told(1.0, [0.0, 1e-30])], ["0.999", "0.999"]);
        for step in 0..5000u32 {
            let distance = f32::from_bits(0x3c00_0000 + step * 40_009);
            let left = told(distance, none).parse::<f64>().unwrap();
            assert!(left <= f64::from(distance) && f64::from(distance) - left <= 0.01 * f64::from(distance), "{distance} {left}");
        }
    }
}
