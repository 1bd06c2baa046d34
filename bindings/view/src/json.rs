//! The view as JSON, for other programs. A number that JSON does not have, a NaN or an infinity, is null.

use crate::moving::Tried;
use crate::verdict::{Judged, Verdict};
use crate::warnings::Warning;
use crate::{Row, View, kind};
use jorghipa::Refusal;

/// One object, in one line.
pub fn json(view: &View) -> String {
    let refused = view.verdict.as_ref().err();
    let refusal = refused.map_or("null".into(), |(refused, look)| {
        let record = look.record.map_or("null".into(), |record| record.to_string());
        let fields = [("told_record", refused.record.to_string()), ("record", record), ("look", text(&look.text))];
        object(&[&refusal_fields(refused.refusal)[..], &fields].concat())
    });
    let vertices = view.store.vertices().into_iter().map(|(record, vertex)| {
        object(&[("record", record.to_string()), ("z", number(vertex.z)), ("radius", number(vertex.radius))])
    });
    object(&[
        ("store", text(&view.name)),
        ("version", text(jorghipa::VERSION)),
        ("clearance", number(view.clearance)),
        ("accepted", refused.is_none().to_string()),
        ("refusal", refusal),
        ("records", view.store.records.len().to_string()),
        ("unreached", list(view.store.unreached().iter().map(u32::to_string))),
        ("vertices", list(vertices)),
        ("bodies", list(view.rows.iter().map(body))),
        ("move", view.tried.as_ref().map_or("null".into(), tried)),
        ("warnings", list(view.warnings.iter().map(warning))),
    ])
}

fn body(Row { record, body, answer }: &Row) -> String {
    let (_, numbers) = body.given();
    let given = [
        ("record", record.to_string()),
        ("kind", text(kind(*body))),
        ("numbers", list(numbers[..4].iter().map(|x| number(*x)))),
        ("accepted", answer.is_ok().to_string()),
    ];
    let told = match answer {
        Ok(told) => {
            let hit = told.hit;
            let witness = object(&[("z", number(hit.witness_z)), ("radius", number(hit.witness_radius))]);
            [&judged(told)[..], &[("witness", witness), ("edge", hit.edge.to_string())]].concat()
        }
        Err(refusal) => vec![("refusal", object(&refusal_fields(*refusal)))],
    };
    object(&[&given[..], &told].concat())
}

/// The verdict, and what was measured: an overlap has no distance, and only a sphere's centre a depth.
fn judged(told: &Judged) -> [(&'static str, String); 5] {
    let verdict = match told.verdict {
        Verdict::Clear => "clear",
        Verdict::Near => "too-near",
        Verdict::Overlap => "overlap",
        Verdict::Nothing => "nothing-to-hit",
    };
    let collision = matches!(told.verdict, Verdict::Near | Verdict::Overlap);
    let maybe = |x: Option<f64>| x.map_or("null".into(), number);
    [
        ("verdict", text(verdict)),
        ("collision", collision.to_string()),
        ("distance", maybe(told.gap())),
        ("centre_depth", maybe(told.depth.map(|depth| depth.centre))),
        ("depth_at_most", maybe(told.depth.map(|depth| depth.most))),
    ]
}

fn refusal_fields(refusal: Refusal) -> [(&'static str, String); 3] {
    [("number", refusal.number().to_string()), ("meaning", text(refusal.meaning())), ("remedy", text(refusal.remedy()))]
}

fn tried(tried: &Tried) -> String {
    let travel = tried.asked.travel;
    let point = |p: jorghipa::Point| list([p.x, p.y, p.z].map(number).into_iter());
    let given = [
        ("record", tried.asked.record.to_string()),
        ("start", point(travel.start)),
        ("end", point(travel.end)),
        ("steps", travel.steps.to_string()),
        ("clearance", number(tried.clearance)),
        ("accepted", tried.report.is_ok().to_string()),
    ];
    let told = match (&tried.report, &tried.nearest) {
        (Ok(report), Ok(nearest)) => {
            let colliding = report.colliding_step.map_or("null".into(), |step| step.to_string());
            let steps = [("step", report.step.to_string()), ("colliding_step", colliding)];
            [&judged(nearest)[..], &steps].concat()
        }
        (Err(refusal), _) | (_, Err(refusal)) => vec![("refusal", object(&refusal_fields(*refusal)))],
    };
    object(&[&given[..], &told].concat())
}

fn warning(Warning { kind, records, text: said }: &Warning) -> String {
    object(&[("kind", text(kind)), ("records", list(records.iter().map(u32::to_string))), ("text", text(said))])
}

fn object(fields: &[(&str, String)]) -> String {
    let fields: Vec<String> = fields.iter().map(|(name, value)| format!("{}:{value}", text(name))).collect();
    format!("{{{}}}", fields.join(","))
}

fn list(values: impl Iterator<Item = String>) -> String {
    format!("[{}]", values.collect::<Vec<_>>().join(","))
}

/// The shortest decimal that reads back as the same f64.
fn number(x: f64) -> String {
    if x.is_finite() { format!("{x:?}") } else { "null".into() }
}

/// A string with quotes, backslashes and control characters escaped.
fn text(said: &str) -> String {
    let escaped = said.chars().map(|c| match c {
        '"' => "\\\"".into(),
        '\\' => "\\\\".into(),
        '\n' => "\\n".into(),
        c if (c as u32) < 0x20 || c == '\u{7f}' => format!("\\u{:04x}", c as u32),
        c => c.to_string(),
    });
    format!("\"{}\"", escaped.collect::<String>())
}

#[cfg(test)]
mod tests {
    use super::*;
    use crate::samples;

    #[test]
    fn escapes() {
        assert_eq!(
            text("a \"b\" \\ c\n\t\u{0}\u{7f}é\u{1f600}"),
            "\"a \\\"b\\\" \\\\ c\\n\\u0009\\u0000\\u007fé\u{1f600}\""
        );
        assert_eq!(object(&[("a\"", number(1.0))]), "{\"a\\\"\":1.0}");
    }

    #[test]
    fn numbers() {
        let told: Vec<String> = [0.1, -0.0, 5e-324, 1e300, f64::NAN, f64::INFINITY].map(number).into();
        assert_eq!(told, ["0.1", "-0.0", "5e-324", "1e300", "null", "null"]);
    }

    #[test]
    fn the_example_and_a_refused_one() {
        let told = json(&View::new("a\"b", &samples::bodies(), 1.0, None).unwrap());
        assert!(told.starts_with("{\"store\":\"a\\\"b\",\"version\":\""));
        assert!(told.contains("\"clearance\":1.0,\"accepted\":true,\"refusal\":null,\"records\":13,\"unreached\":[],"));
        let six = "{\"record\":6,\"kind\":\"box\",\"numbers\":[25.0,30.0,0.0,5.0],\"accepted\":true,\"verdict\":\"clear\",\
                   \"collision\":false,\"distance\":5.0,\"centre_depth\":null,\"depth_at_most\":null,\
                   \"witness\":{\"z\":20.0,\"radius\":0.0},\"edge\":1}";
        assert!(told.contains(six), "{told}");
        let told = json(&View::new("x", &samples::bodies()[..41], 1.0, None).unwrap());
        assert!(told.contains("\"accepted\":false,\"refusal\":{\"number\":12,"));
        assert!(told.contains("\"told_record\":0,\"record\":null,\"look\":\"the file has 41 bytes"));
        assert!(told.ends_with("\"vertices\":[],\"bodies\":[],\"move\":null,\"warnings\":[]}"));
    }

    /// The same box at three clearances, and overlaps: a box's has no number, a sphere's a depth of its centre.
    #[test]
    fn clearances_and_overlaps() {
        let s = [[0.0, 10.0], [20.0, 10.0], [20.0, 0.0], [0.0, 0.0]];
        let told = |body, clearance| json(&View::new("x", &samples::store(&s, &[body]), clearance, None).unwrap());
        let holder = (3, [25.0, 30.0, 0.0, 5.0]);
        for (clearance, verdict) in [(4.9, "clear"), (5.0, "clear"), (5.1, "too-near")] {
            let text = told(holder, clearance);
            assert!(
                text.contains(&format!("\"verdict\":\"{verdict}\"")) && text.contains("\"distance\":5.0"),
                "{text}"
            );
        }
        for inside in [[-5.0, 25.0, 5.0, 15.0], [5.0, 15.0, 2.0, 8.0]] {
            let text = told((3, inside), 1.0);
            assert!(text.contains("\"overlap\",\"collision\":true,\"distance\":null,\"centre_depth\":null,"), "{text}");
        }
        let text = told((2, [0.0, 0.0, 10.0, 4.0]), 1.0);
        assert!(text.contains("\"distance\":null,\"centre_depth\":10.0,\"depth_at_most\":14.0"), "{text}");
    }
}
