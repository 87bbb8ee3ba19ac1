//! Answers cases by the Rust with exp, ln, matrix product, solve, inverse, Cholesky and the tie rule replaced.
//! With `--states`, each fit's answer is followed by its accepted states, the start first, indented: the curve
//! values, the effects and the penalised sum.

use text::Line;

fn main() {
    let states = std::env::args().any(|word| word == "--states");
    if states {
        replaced::hooks::keep_states();
    }
    text::serve(replaced::operations::answer, |_, out| {
        for state in replaced::hooks::states() {
            let mut line = Line(" ".to_string());
            line.word("state")
                .floats(&state.params)
                .floats(&state.b)
                .float(state.sum);
            out.push_str(&line.0);
            out.push('\n');
        }
    });
}
