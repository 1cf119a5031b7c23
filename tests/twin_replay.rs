//! What a journal stores, the twin's program.

fn main() -> std::io::Result<()> {
    twin::replay::run(std::io::stdin().lock(), std::io::stdout().lock())
}
